//! The lent rooms: their records, sizes and contents.
use crate::strips::Strip;

/// An entry: the number of a standing strip.
pub type Entry = u16;

/// The number of a bucket, from 0 to 511.
pub type Bucket = u16;

/// How many rooms are lent.
pub const ROOMS: usize = 9;

/// Strip numbers run from 0 to 65,535.
const STRIP_NUMBERS: usize = 65_536;

// Slots of one record in each kind of room.
pub const STRIP: usize = 6; // doubles
pub const ENTRY: usize = 1; // strip number
pub const FIRST: usize = 1; // bucket of a standing strip's x0
pub const INTERVAL: usize = 2; // doubles: low, high
pub const POSITION: usize = 6; // doubles: kind, copy, orientation, x, y, gap

/// Lengths of the rooms in slots.
#[derive(Clone)]
pub struct Sizes {
    pub shapes: usize,
    pub sheet: usize,
    pub placed: usize,
    pub sheet_entries: usize,
    pub placed_entries: usize,
    pub sheet_firsts: usize,
    pub placed_firsts: usize,
    pub intervals: usize,
    pub positions: usize,
}

impl Sizes {
    /// What `plan` lends.
    pub fn plan() -> Self {
        Self::records(1365, 16384, 4096, 4096)
    }

    /// More than a generated job needs.
    pub fn ample() -> Self {
        Self::records(400_000, 4_000_000, 1_000_000, 4096)
    }

    fn records(strips: usize, entries: usize, intervals: usize, positions: usize) -> Self {
        Self {
            shapes: strips * STRIP,
            sheet: strips * STRIP,
            placed: strips * STRIP,
            sheet_entries: entries * ENTRY,
            placed_entries: entries * ENTRY,
            sheet_firsts: strips * FIRST,
            placed_firsts: strips * FIRST,
            intervals: intervals * INTERVAL,
            positions: positions * POSITION,
        }
    }

    /// Nine numbers with commas, in the order of the fields.
    pub fn parse(text: &str) -> Option<Self> {
        let n: Vec<usize> = text.split(',').map(|t| t.parse().ok()).collect::<Option<_>>()?;
        n.try_into().ok().map(Self::of)
    }

    /// The lengths in the order of the fields.
    pub fn of(lengths: [usize; ROOMS]) -> Self {
        let [shapes, sheet, placed, sheet_entries, placed_entries, ..] = lengths;
        let [.., sheet_firsts, placed_firsts, intervals, positions] = lengths;
        Self {
            shapes,
            sheet,
            placed,
            sheet_entries,
            placed_entries,
            sheet_firsts,
            placed_firsts,
            intervals,
            positions,
        }
    }
}

pub struct Rooms {
    pub shapes: Vec<f64>,
    pub sheet: Vec<f64>,
    pub placed: Vec<f64>,
    pub sheet_entries: Vec<Entry>,
    pub placed_entries: Vec<Entry>,
    pub sheet_firsts: Vec<Bucket>,
    pub placed_firsts: Vec<Bucket>,
    pub intervals: Vec<f64>,
    pub positions: Vec<f64>,
}

impl Rooms {
    pub fn new(sizes: &Sizes) -> Self {
        Self {
            shapes: vec![0.0; sizes.shapes],
            sheet: vec![0.0; sizes.sheet],
            placed: vec![0.0; sizes.placed],
            sheet_entries: vec![0; sizes.sheet_entries],
            placed_entries: vec![0; sizes.placed_entries],
            sheet_firsts: vec![0; sizes.sheet_firsts],
            placed_firsts: vec![0; sizes.placed_firsts],
            intervals: vec![0.0; sizes.intervals],
            positions: vec![0.0; sizes.positions],
        }
    }

    pub fn clear_intervals(&mut self) {
        self.intervals.fill(0.0);
    }
}

/// The whole records that fit a room.
pub fn capacity(slots: usize, record: usize) -> usize {
    slots / record
}

/// The strips that a room for standing strips (sheet, placed) and the room of their bucket numbers
/// are used for.
pub fn standing(slots: usize, firsts: usize) -> usize {
    capacity(slots, STRIP).min(capacity(firsts, FIRST)).min(STRIP_NUMBERS)
}

/// Entries or bucket numbers as plain numbers.
pub fn numbers(entries: &[Entry]) -> Vec<u64> {
    entries.iter().map(|&e| e as u64).collect()
}

pub fn load(room: &[f64], i: usize) -> Strip {
    let s = &room[i * STRIP..(i + 1) * STRIP];
    [s[0], s[1], s[2], s[3], s[4], s[5]]
}

pub fn store(room: &mut [f64], i: usize, strip: &Strip) {
    room[i * STRIP..(i + 1) * STRIP].copy_from_slice(strip);
}
