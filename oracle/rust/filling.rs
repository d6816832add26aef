//! The planner with rooms, by hand from document 01, "Filling" and "Refused
//! because of the state": start, next copy and a filling. Sets are framed
//! before their strips are made; nothing here leaves the frame.
use crate::frame::Frame;
use crate::index::{gap, height, Index};
use crate::job::Job;
use crate::rooms::{capacity, load, standing, store, Rooms, ENTRY, POSITION, STRIP};
use crate::strips::{bounds, moved, trapezoids, Strip};
use crate::watch::{Look, Watch};
use std::ops::Range;

/// Why a call ends: a refusal, or a difference from the lifted code.
pub enum Stop {
    Refused(u32),
    Differ(String),
}

/// Orientation, x, y; none where a copy has no place.
pub type Place = Option<(usize, f64, f64)>;

/// One orientation of one kind.
#[derive(Clone)]
pub struct Slot {
    pub kind: usize,
    pub orientation: usize,
    pub bounds: [f64; 4],
    /// Strip numbers in the shapes room.
    pub apart: Range<usize>,
    pub inset: Range<usize>,
    /// The remembered column; nothing for "none".
    pub column: Option<usize>,
    pub looks: u64,
}

/// What start returns and next copy changes.
#[derive(Clone)]
pub struct State {
    pub order: Vec<usize>,
    pub taken: usize,
    pub resolution: f64,
    pub sheet: [f64; 4],
    pub right: f64,
    pub unplaced_area: f64,
    pub placed: Vec<Place>,
    /// By place in the order: the clear height above the copy, 0 where it has no place.
    pub gaps: Vec<f64>,
    pub slots: Vec<Slot>,
    pub sheet_strips: usize,
    pub placed_strips: usize,
    pub sheet_index: Index,
    pub placed_index: Index,
}

/// Where a slot may stand.
pub struct Ranges {
    pub xs: (f64, f64),
    pub ys: (f64, f64),
    /// Columns by the resolution, and the last column.
    pub columns: usize,
    pub last: usize,
}

/// Nothing where a range is reversed.
pub fn ranges(s: &[f64; 4], b: &[f64; 4], resolution: f64) -> Option<Ranges> {
    let xs = (s[0] - b[0], s[2] - b[2]);
    let ys = (s[1] - b[1], s[3] - b[3]);
    if xs.1 < xs.0 || ys.1 < ys.0 {
        return None;
    }
    let columns = ((xs.1 - xs.0) / resolution).floor() as usize;
    let extra = xs.0 + columns as f64 * resolution < xs.1;
    Some(Ranges { xs, ys, columns, last: if extra { columns + 1 } else { columns } })
}

impl Ranges {
    /// Where a column stands; a minus zero, which only an edited state can give, is plus zero.
    pub fn x(&self, column: usize, resolution: f64) -> f64 {
        let x = if column > self.columns {
            self.xs.1
        } else {
            self.xs.0 + column as f64 * resolution
        };
        x + 0.0
    }
}

/// 10: the order is no rearrangement of the job's copies.
pub fn rearrangement(job: &Job, order: &[usize]) -> bool {
    let mut counts = vec![0; job.parts.len()];
    for &kind in order {
        if kind >= counts.len() {
            return false;
        }
        counts[kind] += 1;
    }
    job.parts.iter().zip(&counts).all(|(p, &n)| p.quantity == n)
}

/// Stores strips from strip number `at` on, or 20 where there would be more than `most`.
fn keep(
    room: &mut [f64],
    most: usize,
    at: &mut usize,
    strips: &[Strip],
) -> Result<Range<usize>, Stop> {
    if *at + strips.len() > most {
        return Err(Stop::Refused(20));
    }
    let first = *at;
    for s in strips {
        store(room, *at, s);
        *at += 1;
    }
    Ok(first..*at)
}

/// The shapes' strips: all apart strips by kind and orientation, then all
/// inset strips.
fn shapes(job: &Job, room: &mut [f64]) -> Result<Vec<Slot>, Stop> {
    let (frame, mut slots) = (Frame::of(job), vec![]);
    let (most, mut at) = (capacity(room.len(), STRIP), 0);
    for (kind, part) in job.parts.iter().enumerate() {
        for (orientation, o) in part.orientations.iter().enumerate() {
            let apart = keep(room, most, &mut at, &trapezoids(&frame.loops(&o.apart), false))?;
            let (bounds, inset) = (bounds(&frame.loops(&o.inset)), 0..0);
            slots.push(Slot { kind, orientation, bounds, apart, inset, column: Some(0), looks: 0 });
        }
    }
    for slot in &mut slots {
        let o = &job.parts[slot.kind].orientations[slot.orientation];
        slot.inset = keep(room, most, &mut at, &trapezoids(&frame.loops(&o.inset), false))?;
    }
    Ok(slots)
}

/// Start in a given order, in rooms of zeros: 30, 10, then what cannot be prepared.
pub fn start(job: &Job, order: &[usize], rooms: &mut Rooms) -> Result<State, Stop> {
    if capacity(rooms.positions.len(), POSITION) < job.copies() {
        return Err(Stop::Refused(30));
    }
    if !rearrangement(job, order) {
        return Err(Stop::Refused(10));
    }
    prepare(job, order, rooms)
}

/// What a job has before its first copy: the sheet's 20 and 21, the shapes' 20.
pub fn prepare(job: &Job, order: &[usize], rooms: &mut Rooms) -> Result<State, Stop> {
    let loops = Frame::of(job).loops(&job.sheet);
    let (sheet, strips) = (bounds(&loops), trapezoids(&loops, true));
    let mut sheet_strips = 0;
    let most = standing(rooms.sheet.len(), rooms.sheet_firsts.len());
    keep(&mut rooms.sheet, most, &mut sheet_strips, &strips)?;
    let placed_index = Index::new(sheet[0], sheet[2]);
    let mut sheet_index = placed_index.clone();
    if sheet_index.needed(&strips) > capacity(rooms.sheet_entries.len(), ENTRY) {
        return Err(Stop::Refused(21));
    }
    sheet_index.enter(&mut rooms.sheet_entries, &mut rooms.sheet_firsts, &strips, 0);
    Ok(State {
        order: order.to_vec(),
        taken: 0,
        resolution: job.resolution,
        sheet,
        right: sheet[0],
        unplaced_area: 0.0,
        placed: vec![None; order.len()],
        gaps: vec![0.0; order.len()],
        slots: shapes(job, &mut rooms.shapes)?,
        sheet_strips,
        placed_strips: 0,
        sheet_index,
        placed_index,
    })
}

/// One look at a column: counted intervals, then the height and the gap above it.
fn look(
    state: &State,
    slot: &Slot,
    r: &Ranges,
    column: usize,
    rooms: &mut Rooms,
) -> Result<Look, Stop> {
    let x = r.x(column, state.resolution);
    let (shapes, out) = (&rooms.shapes, &mut rooms.intervals);
    let (mut n, inset, apart) = (0, slot.inset.clone(), slot.apart.clone());
    let (entries, firsts) = (&rooms.sheet_entries, &rooms.sheet_firsts);
    state
        .sheet_index
        .intervals(entries, firsts, &rooms.sheet, shapes, inset, x, r.ys, out, &mut n)
        .map_err(Stop::Refused)?;
    let (entries, firsts) = (&rooms.placed_entries, &rooms.placed_firsts);
    state
        .placed_index
        .intervals(entries, firsts, &rooms.placed, shapes, apart, x, r.ys, out, &mut n)
        .map_err(Stop::Refused)?;
    let y = height(out, n, r.ys.0);
    let free = y <= r.ys.1;
    let gap = if free { gap(out, n, y, r.ys.1) } else { 0.0 };
    let (kind, orientation) = (slot.kind, slot.orientation);
    Ok(Look { kind, orientation, column, x, y, gap, free, intervals: n })
}

/// From the remembered column, the first with a free height: x, y and gap.
fn search(
    state: &State,
    slot: &mut Slot,
    rooms: &mut Rooms,
    watch: &mut Watch,
) -> Result<Option<(f64, f64, f64)>, Stop> {
    watch.search(slot);
    let Some(r) = ranges(&state.sheet, &slot.bounds, state.resolution) else {
        slot.column = None;
        return Ok(None);
    };
    let Some(first) = slot.column else {
        return Ok(None);
    };
    for column in first..=r.last {
        let look = look(state, slot, &r, column, rooms)?;
        slot.looks += 1;
        watch.look(&look, &r).map_err(Stop::Differ)?;
        if look.free {
            slot.column = Some(column);
            return Ok(Some((look.x, look.y, look.gap)));
        }
    }
    slot.column = None;
    Ok(None)
}

/// Stores the winner's strips, moved: 20, then 21, before the first write.
pub fn place(
    state: &mut State,
    slot: usize,
    x: f64,
    y: f64,
    rooms: &mut Rooms,
) -> Result<(), Stop> {
    let apart = state.slots[slot].apart.clone();
    let strips: Vec<Strip> = apart.map(|i| moved(&load(&rooms.shapes, i), x, y)).collect();
    let most = standing(rooms.placed.len(), rooms.placed_firsts.len());
    if state.placed_strips + strips.len() > most {
        return Err(Stop::Refused(20));
    }
    let entries = state.placed_index.count() + state.placed_index.needed(&strips);
    if entries > capacity(rooms.placed_entries.len(), ENTRY) {
        return Err(Stop::Refused(21));
    }
    let (entries, firsts) = (&mut rooms.placed_entries, &mut rooms.placed_firsts);
    state.placed_index.enter(entries, firsts, &strips, state.placed_strips);
    keep(&mut rooms.placed, most, &mut state.placed_strips, &strips)?;
    Ok(())
}

/// Next copy: 23, then the searches (22), then the winner (20, 21). A refused
/// call leaves state, strips, entries and bucket numbers as they were.
pub fn next_copy(
    job: &Job,
    state: &mut State,
    rooms: &mut Rooms,
    watch: &mut Watch,
) -> Result<(), Stop> {
    let Some(&kind) = state.order.get(state.taken) else {
        return Err(Stop::Refused(23));
    };
    let first = state.slots.iter().position(|s| s.kind == kind).expect("a slot");
    let mut slots = state.slots[first..first + job.parts[kind].orientations.len()].to_vec();
    let mut best: Option<(f64, f64, usize, f64, f64, f64)> = None;
    for (o, slot) in slots.iter_mut().enumerate() {
        if let Some((x, y, gap)) = search(state, slot, rooms, watch)? {
            let (right, top) = (x + slot.bounds[2], y + slot.bounds[3]);
            let wins = match best {
                None => true,
                Some((r, t, ..)) => right < r || (right == r && top < t),
            };
            if wins {
                best = Some((right, top, o, x, y, gap));
            }
        }
    }
    match best {
        Some((right, _, o, x, y, gap)) => {
            place(state, first + o, x, y, rooms)?;
            watch.place(kind, o, x, y);
            state.right = if right > state.right { right } else { state.right };
            state.placed[state.taken] = Some((o, x, y));
            state.gaps[state.taken] = gap;
        }
        None => state.unplaced_area += job.parts[kind].area,
    }
    for (i, slot) in slots.into_iter().enumerate() {
        state.slots[first + i] = slot;
    }
    state.taken += 1;
    Ok(())
}

/// A filling from an accepted start: next copy until the order is used up.
pub fn fill(
    job: &Job,
    state: &mut State,
    rooms: &mut Rooms,
    watch: &mut Watch,
) -> Result<(), Stop> {
    watch.filling();
    while state.taken < state.order.len() {
        next_copy(job, state, rooms, watch)?;
    }
    watch.filled(state, rooms).map_err(Stop::Differ)
}

/// Back to the state after start, in another order.
pub fn again(state: &mut State, order: &[usize]) {
    state.order = order.to_vec();
    state.taken = 0;
    state.right = state.sheet[0];
    state.unplaced_area = 0.0;
    state.placed.fill(None);
    state.gaps.fill(0.0);
    state.placed_strips = 0;
    state.placed_index.clear();
    for slot in &mut state.slots {
        slot.column = Some(0);
        slot.looks = 0;
    }
}
