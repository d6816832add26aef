//! Start, next-copy calls to the end and one more: the reply, the state and
//! every room after each call.
use crate::filling::{next_copy, start, State, Stop};
use crate::job::Job;
use crate::nesting::copy_order;
use crate::print::{hex, hexes};
use crate::rooms::{numbers, Rooms, Sizes};
use crate::watch::Watch;

pub struct Calls {
    pub sizes: Sizes,
    pub order: Option<Vec<usize>>,
    /// Slots of the interval room for each call, the last one repeated.
    pub intervals: Vec<usize>,
    /// How many calls; else to the end and one more, or two refused in a row.
    pub calls: Option<usize>,
}

fn state_text(state: &State) -> String {
    let order: Vec<String> = state.order.iter().map(usize::to_string).collect();
    let mut out = format!("taken {}\nresolution {}\n", state.taken, hex(state.resolution));
    out += &format!("sheet {}\nright {}\n", hexes(&state.sheet), hex(state.right));
    out += &format!("area {}\n", hex(state.unplaced_area));
    out += &format!("strips {} {}\n", state.sheet_strips, state.placed_strips);
    let entries = (state.sheet_index.count(), state.placed_index.count());
    out += &format!("entries {} {}\norder {}\n", entries.0, entries.1, order.join(" "));
    for (i, (place, gap)) in state.placed.iter().zip(&state.gaps).enumerate() {
        out += &match place {
            Some((o, x, y)) => format!("place {i} {o} {}\n", hexes(&[*x, *y, *gap])),
            None => format!("place {i} none\n"),
        };
    }
    for s in &state.slots {
        let column = s.column.map_or("none".into(), |c| c.to_string());
        out += &format!("slot {} {} {} ", s.kind, s.orientation, hexes(&s.bounds));
        out += &format!("{} {} {column} {}\n", s.apart.len(), s.inset.len(), s.looks);
    }
    out
}

/// A room's length, how many slots stand before its rest of zeros, and those.
fn room_text(name: &str, bits: Vec<u64>, double: bool) -> String {
    let used = bits.iter().rposition(|&b| b != 0).map_or(0, |i| i + 1);
    let mut out = format!("room {name} {} {used}", bits.len());
    for b in &bits[..used] {
        out += &if double { format!(" {b:016x}") } else { format!(" {b}") };
    }
    out + "\n"
}

pub fn rooms_text(rooms: &Rooms) -> String {
    let bits = |room: &[f64]| room.iter().map(|x| x.to_bits()).collect();
    room_text("shapes", bits(&rooms.shapes), true)
        + &room_text("sheet", bits(&rooms.sheet), true)
        + &room_text("placed", bits(&rooms.placed), true)
        + &room_text("sheet_entries", numbers(&rooms.sheet_entries), false)
        + &room_text("placed_entries", numbers(&rooms.placed_entries), false)
        + &room_text("sheet_firsts", numbers(&rooms.sheet_firsts), false)
        + &room_text("placed_firsts", numbers(&rooms.placed_firsts), false)
        + &room_text("intervals", bits(&rooms.intervals), true)
        + &room_text("positions", bits(&rooms.positions), true)
}

fn reply(result: Result<(), Stop>) -> Result<String, String> {
    match result {
        Ok(()) => Ok("reply ok\n".into()),
        Err(Stop::Refused(n)) => Ok(format!("reply no {n}\n")),
        Err(Stop::Differ(message)) => Err(message),
    }
}

/// A refused start: only the number, a state and rooms of zeros.
pub fn refused(number: u32, sizes: &Sizes) -> String {
    let rooms = rooms_text(&Rooms::new(sizes));
    format!("call start\nreply no {number}\nstate zero\n{rooms}")
}

/// The text of the whole list of calls; the lifted looks are compared by `watch`.
pub fn trace(job: &Job, calls: &Calls, watch: &mut Watch) -> Result<String, String> {
    let mut rooms = Rooms::new(&calls.sizes);
    let order = calls.order.clone().unwrap_or_else(|| copy_order(job));
    let mut state = match start(job, &order, &mut rooms) {
        Ok(state) => state,
        Err(Stop::Refused(n)) => return Ok(refused(n, &calls.sizes)),
        Err(Stop::Differ(message)) => return Err(message),
    };
    let mut out = format!("call start\nreply ok\n{}{}", state_text(&state), rooms_text(&rooms));
    watch.filling();
    let (mut refused, mut n) = (0, 0);
    let count = calls.calls.unwrap_or(order.len() + 1);
    while n < count && (refused < 2 || calls.calls.is_some()) {
        let size = calls.intervals.get(n).or(calls.intervals.last());
        let size = size.copied().unwrap_or(calls.sizes.intervals);
        rooms.intervals = vec![0.0; size];
        let before = state.clone();
        watch.looks = Some(vec![]);
        let result = next_copy(job, &mut state, &mut rooms, watch);
        let most = watch.looks.iter().flatten().map(|l| l.intervals).max().unwrap_or(0);
        if result.is_err() {
            state = before;
            refused += 1;
        } else {
            refused = 0;
        }
        rooms.clear_intervals();
        watch.firsts(&state, &rooms)?;
        n += 1;
        out += &format!("call {n}\n{}most {most}\n", reply(result)?);
        out += &format!("{}{}", state_text(&state), rooms_text(&rooms));
    }
    Ok(out)
}
