//! Layouts from elsewhere (document 02, W6), by hand: a job and a list of lines are judged in seven lent
//! rooms. The Rust has no such call; `lifted` judges the same list by its lines and its index.
use crate::filling::{place, prepare, ranges, State, Stop};
use crate::frame::Frame;
use crate::job::{self, Job};
use crate::nesting::nest;
use crate::print::hexes;
use crate::probed::{lifted::reach::Lifted, Signal};
use crate::rooms::{capacity, load, standing, Rooms, Sizes, ENTRY, STRIP};
use crate::strips::forbidden;
use crate::watch::Watch;
use std::ops::Range;

/// Rooms that are lent: all but intervals and positions.
const LENT: usize = 7;

/// Numbers to a line.
const LINE: usize = 4;

/// A line of a layout: kind, orientation, x and y as `put` gives them.
pub struct Line {
    pub kind: u64,
    pub orientation: u64,
    pub x: f64,
    pub y: f64,
}

/// A number of the list by its bits; a minus zero is plus zero.
fn number(bits: u64) -> f64 {
    f64::from_bits(bits) + 0.0
}

/// The whole lines; a remainder is none.
pub fn lines(given: &[u64]) -> Vec<Line> {
    let line = |n: &[u64]| Line { kind: n[0], orientation: n[1], x: number(n[2]), y: number(n[3]) };
    given.chunks_exact(LINE).map(line).collect()
}

/// The answer: the number of a refusal or 0, and how many lines were accepted before it.
#[derive(Clone, Copy, PartialEq, Debug)]
pub struct Judged {
    pub number: u32,
    pub line: usize,
}

impl Judged {
    /// Before the first line.
    fn none(number: u32) -> Self {
        Self { number, line: 0 }
    }
}

/// What is known between two lines.
struct Judge<'a> {
    job: &'a Job,
    state: State,
    /// Accepted lines of each kind.
    used: Vec<u32>,
}

impl Judge<'_> {
    /// The place of a line's orientation among the slots.
    fn slot(&self, l: &Line) -> Option<usize> {
        let same = |k: usize, o: usize| k as u64 == l.kind && o as u64 == l.orientation;
        self.state.slots.iter().position(|s| same(s.kind, s.orientation))
    }

    fn too_many(&self, kind: usize) -> bool {
        self.used[kind] >= self.job.parts[kind].quantity
    }

    /// x in its range or at a column, y in its range; neither where a range is reversed.
    fn in_range(&self, slot: usize, x: f64, y: f64) -> bool {
        let (s, resolution) = (&self.state, self.state.resolution);
        let Some(r) = ranges(&s.sheet, &s.slots[slot].bounds, resolution) else {
            return false;
        };
        let within = |(low, high): (f64, f64), v: f64| low <= v && v <= high;
        let column = || (0..=r.last).any(|c| r.x(c, resolution) == x);
        (within(r.xs, x) || column()) && within(r.ys, y)
    }

    /// In no forbidden interval: inset strips against the sheet's, apart strips against those that stand.
    fn clear(&self, slot: usize, x: f64, y: f64, rooms: &Rooms) -> bool {
        let (s, shapes) = (&self.state, &rooms.shapes);
        let (inset, apart) = (s.slots[slot].inset.clone(), s.slots[slot].apart.clone());
        outside(&rooms.sheet, 0..s.sheet_strips, shapes, inset, x, y)
            && outside(&rooms.placed, 0..s.placed_strips, shapes, apart, x, y)
    }

    /// 4, 9, 25, 26, 27, then 20 and 21; an accepted line's copy stands.
    fn line(&mut self, l: &Line, rooms: &mut Rooms) -> Result<(), Stop> {
        if !(l.x.is_finite() && l.y.is_finite()) {
            return Err(Stop::Refused(4));
        }
        let Some(slot) = self.slot(l) else {
            return Err(Stop::Refused(9));
        };
        let kind = self.state.slots[slot].kind;
        if self.too_many(kind) {
            return Err(Stop::Refused(25));
        }
        let [x, y] = Frame::of(self.job).to([l.x, l.y]);
        if !self.in_range(slot, x, y) {
            return Err(Stop::Refused(26));
        }
        if !self.clear(slot, x, y, rooms) {
            return Err(Stop::Refused(27));
        }
        place(&mut self.state, slot, x, y, rooms)?;
        self.used[kind] += 1;
        Ok(())
    }
}

/// Whether y lies in no forbidden interval of moving strips at x against standing strips.
fn outside(
    room: &[f64],
    stand: Range<usize>,
    shapes: &[f64],
    moving: Range<usize>,
    x: f64,
    y: f64,
) -> bool {
    let pieces: Vec<_> = moving.map(|i| load(shapes, i)).collect();
    stand.map(|i| load(room, i)).all(|p| {
        let mut met = pieces.iter().filter_map(|q| forbidden(&p, q, x));
        !met.any(|(low, high)| low < y && y < high)
    })
}

fn clear_rooms(rooms: &mut Rooms) {
    for room in [&mut rooms.shapes, &mut rooms.sheet, &mut rooms.placed] {
        room.fill(0.0);
    }
    for room in [&mut rooms.sheet_entries, &mut rooms.placed_entries] {
        room.fill(0);
    }
    for room in [&mut rooms.sheet_firsts, &mut rooms.placed_firsts] {
        room.fill(0);
    }
}

fn is_clear(rooms: &Rooms) -> bool {
    let doubles = [&rooms.shapes, &rooms.sheet, &rooms.placed];
    let entries = [&rooms.sheet_entries, &rooms.placed_entries];
    let firsts = [&rooms.sheet_firsts, &rooms.placed_firsts];
    doubles.iter().all(|room| room.iter().all(|x| x.to_bits() == 0))
        && entries.iter().chain(&firsts).all(|room| room.iter().all(|&n| n == 0))
}

/// The lines in rooms of zeros: at the first bad line its number.
fn judge_lines(job: &Job, lines: &[Line], rooms: &mut Rooms) -> Result<(Judged, State), Stop> {
    let state = prepare(job, &[], rooms)?;
    let mut judge = Judge { job, state, used: vec![0; job.parts.len()] };
    for (i, l) in lines.iter().enumerate() {
        match judge.line(l, rooms) {
            Ok(()) => {}
            Err(Stop::Refused(number)) => return Ok((Judged { number, line: i }, judge.state)),
            Err(stop) => return Err(stop),
        }
    }
    Ok((Judged { number: 0, line: lines.len() }, judge.state))
}

/// A refusal before the first line.
fn not_judged(stop: Stop) -> Result<Judged, String> {
    match stop {
        Stop::Refused(n) => Ok(Judged::none(n)),
        Stop::Differ(message) => Err(message),
    }
}

/// The whole call by hand: refuses a job as the plan does; leaves zeros in every room.
fn judge(bytes: &[u8], given: &[u64], rooms: &mut Rooms) -> Result<Judged, String> {
    clear_rooms(rooms);
    let judged = match job::read(bytes) {
        Err(n) => Judged::none(n),
        Ok(job) => match judge_lines(&job, &lines(given), rooms) {
            Ok((judged, _)) => judged,
            Err(stop) => not_judged(stop)?,
        },
    };
    clear_rooms(rooms);
    Ok(judged)
}

/// The same of an accepted job by the lifted code: bounds, columns and the index, which lists every
/// forbidden interval that is not empty.
fn lifted(job: &Job, lines: &[Line], sizes: &Sizes) -> Judged {
    let signal = Signal::default();
    let mut lifted = Lifted::new(job, &signal);
    let [sheet, placed] = [(sizes.sheet, sizes.sheet_firsts), (sizes.placed, sizes.placed_firsts)]
        .map(|(slots, firsts)| standing(slots, firsts));
    let (strips, entries) = lifted.sheet_counts();
    if strips > sheet {
        return Judged::none(20);
    }
    if entries > capacity(sizes.sheet_entries, ENTRY) {
        return Judged::none(21);
    }
    if lifted.shape_strips(job) > capacity(sizes.shapes, STRIP) {
        return Judged::none(20);
    }
    let mut left: Vec<u32> = job.parts.iter().map(|p| p.quantity).collect();
    for (line, l) in lines.iter().enumerate() {
        let number = lifted_line(job, &mut lifted, &mut left, l, placed, sizes.placed_entries);
        if number != 0 {
            return Judged { number, line };
        }
    }
    Judged { number: 0, line: lines.len() }
}

/// One line: its number, or 0 and its copy stands.
fn lifted_line(
    job: &Job,
    lifted: &mut Lifted,
    left: &mut [u32],
    l: &Line,
    strip_room: usize,
    entry_room: usize,
) -> u32 {
    if [l.x, l.y].iter().any(|v| v.is_nan() || v.is_infinite()) {
        return 4;
    }
    let kinds = job.parts.len() as u64;
    if l.kind >= kinds || l.orientation >= job.parts[l.kind as usize].orientations.len() as u64 {
        return 9;
    }
    let (kind, o) = (l.kind as usize, l.orientation as usize);
    if left[kind] == 0 {
        return 25;
    }
    let [x, y] = lifted.to([l.x, l.y]);
    if !lifted.in_range((kind, o), x, y) {
        return 26;
    }
    if !lifted.clear_at((kind, o), x, y) {
        return 27;
    }
    lifted.place((kind, o), x, y);
    left[kind] -= 1;
    let (strips, entries) = lifted.placed_counts();
    if strips > strip_room {
        return 20;
    }
    if entries > entry_room { 21 } else { 0 }
}

/// What a record of a container asks for: seven lengths and the job's in four bytes each, the job, then
/// the numbers of the list in eight bytes each.
struct Given<'a> {
    sizes: Sizes,
    job: &'a [u8],
    numbers: Vec<u64>,
}

fn value(bytes: &[u8]) -> u64 {
    bytes.iter().fold(0, |n, &b| n << 8 | b as u64)
}

impl<'a> Given<'a> {
    fn read(data: &'a [u8]) -> Option<Self> {
        let (head, rest) = data.split_at_checked(4 * (LENT + 1))?;
        let mut n = head.chunks(4).map(|b| value(b) as usize);
        let mut next = || n.next().expect("eight lengths");
        let [a, b, c, d, e, f, g] = [(); LENT].map(|_| next());
        let (job, list) = rest.split_at_checked(next())?;
        let numbers = list.chunks(8).map(value).collect();
        let whole = list.len() % 8 == 0;
        whole.then(|| Self { sizes: Sizes::of([a, b, c, d, e, f, g, 0, 0]), job, numbers })
    }

    /// The rooms as they are lent, no slot zero.
    fn rooms(&self) -> Rooms {
        let s = &self.sizes;
        Rooms {
            shapes: vec![f64::NAN; s.shapes],
            sheet: vec![1.0; s.sheet],
            placed: vec![f64::NEG_INFINITY; s.placed],
            sheet_entries: vec![1; s.sheet_entries],
            placed_entries: vec![2; s.placed_entries],
            sheet_firsts: vec![3; s.sheet_firsts],
            placed_firsts: vec![4; s.placed_firsts],
            intervals: vec![],
            positions: vec![],
        }
    }
}

/// `--judge`: the answer to a record, compared unless by hand alone.
pub fn judge_text(data: &[u8], by_hand: bool) -> Result<String, String> {
    let given = Given::read(data).ok_or("a record that is no list")?;
    let mut rooms = given.rooms();
    let ours = judge(given.job, &given.numbers, &mut rooms)?;
    if !by_hand {
        if let Ok(job) = job::read(given.job) {
            let theirs = lifted(&job, &lines(&given.numbers), &given.sizes);
            if ours != theirs {
                return Err(format!("by hand {ours:?}, lifted {theirs:?}"));
            }
        }
    }
    let left = if is_clear(&rooms) { "" } else { " left" };
    Ok(format!("judged {} {}{left}\n", ours.number, ours.line))
}

/// `--list`: the plan's copies in filling order as the lines of a list, after the least lengths of the
/// seven rooms in which it is accepted.
pub fn list_text(job: &Job, sizes: &Sizes) -> Result<String, String> {
    let plan = match nest(job, &mut Rooms::new(sizes), &mut Watch::default()) {
        Ok(plan) => plan,
        Err(Stop::Refused(n)) => return Ok(crate::print::refusal(n)),
        Err(Stop::Differ(message)) => return Err(message),
    };
    let (frame, mut text, mut list) = (Frame::of(job), String::new(), vec![]);
    for (&kind, place) in plan.order.iter().zip(&plan.layout.placed) {
        if let Some((o, x, y)) = *place {
            let [x, y] = frame.from([x, y]);
            text += &format!("line {kind} {o} {}\n", hexes(&[x, y]));
            list.push(Line { kind: kind as u64, orientation: o as u64, x, y });
        }
    }
    match judge_lines(job, &list, &mut Rooms::new(sizes)) {
        Ok((Judged { number: 0, .. }, s)) => Ok(format!("rooms {}\n{text}", needs(&s))),
        Ok((judged, _)) => Err(format!("the plan's own list: {judged:?}")),
        Err(stop) => not_judged(stop).and_then(|j| Err(format!("the plan's own list: {j:?}"))),
    }
}

/// The least lengths of the rooms that a list was accepted in.
fn needs(s: &State) -> String {
    let shapes = s.slots.last().map_or(0, |slot| slot.inset.end);
    let strips = [shapes, s.sheet_strips, s.placed_strips].map(|n| n * STRIP);
    let rest = [s.sheet_index.count(), s.placed_index.count(), s.sheet_strips, s.placed_strips];
    let all: Vec<String> = strips.iter().chain(&rest).map(usize::to_string).collect();
    all.join(" ")
}
