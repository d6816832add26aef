//! The state as it goes from call to call: flat tables, a slot being 16 × kind + orientation, as
//! docs/DECISIONS.md C5 to C9 lay it out; and refusal 31, by hand from document 01 and C5's table.
use crate::filling::{ranges, rearrangement, Slot, State};
use crate::index::Index;
use crate::job::Job;
use crate::rooms::{capacity, load, standing, Bucket, Entry, Rooms, ENTRY, STRIP};
use crate::strips::{moved, Strip};
use std::ops::Range;

pub const SLOTS: usize = 1024;
pub const COPIES: usize = 4096;

#[derive(Clone)]
pub struct Flat {
    pub resolution: f64,
    pub sheet_bounds: [f64; 4],
    pub sheet_strips: usize,
    /// The apart strips in the shapes room; the inset strips lie after them.
    pub apart_strips: usize,
    /// Four to a slot.
    pub inset_bounds: Vec<f64>,
    /// Four to a slot: first apart strip, apart strips, first inset strip, inset strips.
    pub parts: Vec<usize>,
    pub order: Vec<usize>,
    pub taken: usize,
    /// 0 for none, else 1 + the remembered column.
    pub next_column: Vec<usize>,
    pub look_counts: Vec<usize>,
    pub placed_strips: usize,
    /// By place in the order: 0 for none, else 1 + orientation.
    pub orientation: Vec<usize>,
    pub x: Vec<f64>,
    pub y: Vec<f64>,
    pub gap: Vec<f64>,
    pub unplaced_area: f64,
    pub right: f64,
}

/// Finite and within ±1,000,000.
fn bounded(x: f64) -> bool {
    x.is_finite() && (-1e6..=1e6).contains(&x)
}

fn strip_fits(s: &Strip) -> bool {
    !(s[0] > s[1]) && s.iter().all(|&x| bounded(x))
}

/// The job's slots: kind, orientation and number.
fn slots(job: &Job) -> Vec<(usize, usize, usize)> {
    let mut list = vec![];
    for (kind, part) in job.parts.iter().enumerate() {
        for o in 0..part.orientations.len() {
            list.push((kind, o, 16 * kind + o));
        }
    }
    list
}

impl Flat {
    /// What a refused start returns.
    pub fn zero() -> Self {
        Self {
            resolution: 0.0,
            sheet_bounds: [0.0; 4],
            sheet_strips: 0,
            apart_strips: 0,
            inset_bounds: vec![0.0; 4 * SLOTS],
            parts: vec![0; 4 * SLOTS],
            order: vec![0; COPIES],
            taken: 0,
            next_column: vec![0; SLOTS],
            look_counts: vec![0; SLOTS],
            placed_strips: 0,
            orientation: vec![0; COPIES],
            x: vec![0.0; COPIES],
            y: vec![0.0; COPIES],
            gap: vec![0.0; COPIES],
            unplaced_area: 0.0,
            right: 0.0,
        }
    }

    /// What an accepted start returns. A slot that the job lacks has no strips, where the next
    /// slot's would begin, and remembers column 0 as every slot does.
    pub fn started(state: &State) -> Self {
        let mut f = Self::zero();
        f.resolution = state.resolution;
        f.sheet_bounds = state.sheet;
        f.sheet_strips = state.sheet_strips;
        f.apart_strips = state.slots.iter().map(|s| s.apart.len()).sum();
        f.order[..state.order.len()].copy_from_slice(&state.order);
        f.next_column.fill(1);
        f.right = state.right;
        let mut list = state.slots.iter().peekable();
        let (mut apart, mut inset) = (0, 0);
        for i in 0..SLOTS {
            let here = list.next_if(|s| 16 * s.kind + s.orientation == i);
            let counts = here.map_or((0, 0), |s| (s.apart.len(), s.inset.len()));
            f.parts[4 * i..4 * i + 4].copy_from_slice(&[apart, counts.0, inset, counts.1]);
            apart += counts.0;
            inset += counts.1;
            if let Some(s) = here {
                f.inset_bounds[4 * i..4 * i + 4].copy_from_slice(&s.bounds);
            }
        }
        f
    }

    /// The numbers of a slot's apart and inset strips in the shapes room.
    pub fn ranges(&self, i: usize) -> (Range<usize>, Range<usize>) {
        let p = &self.parts[4 * i..4 * i + 4];
        let inset = self.apart_strips + p[2];
        (p[0]..p[0] + p[1], inset..inset + p[3])
    }

    pub fn bounds(&self, i: usize) -> [f64; 4] {
        [0, 1, 2, 3].map(|n| self.inset_bounds[4 * i + n])
    }

    /// The places of the standing copies, in order.
    pub fn standing(&self) -> impl Iterator<Item = usize> + '_ {
        (0..self.taken).filter(|&i| self.orientation[i] > 0)
    }

    /// The slot of the standing copy at place i.
    pub fn slot(&self, i: usize) -> usize {
        16 * self.order[i] + self.orientation[i] - 1
    }

    /// The last column of a slot; 0 where a range is reversed.
    fn last(&self, i: usize) -> usize {
        ranges(&self.sheet_bounds, &self.bounds(i), self.resolution).map_or(0, |r| r.last)
    }

    /// Counts within their ranges.
    fn counts_fit(&self, job: &Job, rooms: &Rooms) -> bool {
        let holds = capacity(rooms.shapes.len(), STRIP);
        let within = |first: usize, n: usize, room: usize| {
            first.checked_add(n).is_some_and(|end| end <= room)
        };
        if self.taken > job.copies()
            || self.sheet_strips > standing(rooms.sheet.len(), rooms.sheet_firsts.len())
            || self.apart_strips > holds
            || self.placed_strips > standing(rooms.placed.len(), rooms.placed_firsts.len())
        {
            return false;
        }
        let inset = holds - self.apart_strips;
        slots(job).iter().all(|(_, _, i)| {
            let p = &self.parts[4 * i..4 * i + 4];
            within(p[0], p[1], self.apart_strips) && within(p[2], p[3], inset)
        })
    }

    /// Resolution, bounds, right and area within theirs.
    fn numbers_fit(&self, job: &Job) -> bool {
        (0.001..=10_000.0).contains(&self.resolution)
            && self.sheet_bounds.iter().all(|&x| bounded(x))
            && slots(job).iter().all(|(_, _, i)| self.bounds(*i).iter().all(|&x| bounded(x)))
            && bounded(self.right)
            && (0.0..=1e16).contains(&self.unplaced_area)
    }

    /// The gap of every standing copy (document 02, W7); one to come or without a place has none.
    fn gaps_fit(&self) -> bool {
        let taken = self.orientation.iter().zip(&self.gap).take(self.taken);
        taken.filter(|(&o, _)| o > 0).all(|(_, gap)| (0.0..=1e6).contains(gap))
    }

    /// Orientation, x and y of every standing copy (document 02, W4).
    fn places_fit(&self, job: &Job) -> bool {
        let kind = |i: usize| &job.parts[self.order[i]];
        self.standing().all(|i| self.orientation[i] <= kind(i).orientations.len())
            && self.standing().all(|i| bounded(self.x[i]))
            && self.standing().all(|i| bounded(self.y[i]))
    }

    /// The placed strips are those of the standing copies in order, moved to their places; none is
    /// missing and none is left over. They are compared as numbers: minus zero is zero.
    fn copies_fit(&self, rooms: &Rooms) -> bool {
        let mut at = 0;
        for i in self.standing() {
            for n in self.ranges(self.slot(i)).0 {
                let strip = moved(&load(&rooms.shapes, n), self.x[i], self.y[i]);
                if at == self.placed_strips || load(&rooms.placed, at) != strip {
                    return false;
                }
                at += 1;
            }
        }
        at == self.placed_strips
    }

    /// The strips of the sheet, of the job's slots and of the placed copies.
    fn strips_fit(&self, job: &Job, rooms: &Rooms) -> bool {
        let all = |room: &[f64], mut which: Range<usize>| which.all(|i| strip_fits(&load(room, i)));
        all(&rooms.sheet, 0..self.sheet_strips)
            && all(&rooms.placed, 0..self.placed_strips)
            && slots(job).iter().all(|(_, _, i)| {
                let (apart, inset) = self.ranges(*i);
                all(&rooms.shapes, apart) && all(&rooms.shapes, inset)
            })
    }

    /// Remembered columns and look counts within theirs.
    fn tracks_fit(&self, job: &Job) -> bool {
        slots(job).iter().all(|(_, _, i)| {
            let last = self.last(*i);
            self.next_column[*i] <= last + 1 && self.look_counts[*i] <= last + 1 + self.taken
        })
    }

    /// The index of the first n strips of a room, if the entry room begins with their entries and the
    /// room of their bucket numbers, which is long enough, with those.
    fn index(
        &self,
        strips: &[f64],
        n: usize,
        entries: &[Entry],
        firsts: &[Bucket],
    ) -> Option<Index> {
        let list: Vec<Strip> = (0..n).map(|i| load(strips, i)).collect();
        let mut index = Index::new(self.sheet_bounds[0], self.sheet_bounds[2]);
        let kept = list.iter().zip(firsts).all(|(s, &b)| b as usize == index.bucket(s[0]));
        let mut right = vec![0; index.needed(&list) * ENTRY];
        index.enter(&mut right, &mut vec![0; n], &list, 0);
        let entered = entries.len() >= right.len() && entries[..right.len()] == right;
        (kept && entered).then_some(index)
    }

    /// The planner's state, or nothing where 31 holds.
    pub fn state(&self, job: &Job, rooms: &Rooms) -> Option<State> {
        let copies = job.copies();
        let fits = self.counts_fit(job, rooms)
            && rearrangement(job, &self.order[..copies])
            && self.numbers_fit(job)
            && self.gaps_fit()
            && self.strips_fit(job, rooms)
            && self.places_fit(job)
            && self.copies_fit(rooms)
            && self.tracks_fit(job);
        if !fits {
            return None;
        }
        let (sheet, placed) = (&rooms.sheet_firsts, &rooms.placed_firsts);
        let sheet_index =
            self.index(&rooms.sheet, self.sheet_strips, &rooms.sheet_entries, sheet)?;
        let placed_index =
            self.index(&rooms.placed, self.placed_strips, &rooms.placed_entries, placed)?;
        let slots = slots(job).into_iter().map(|(kind, orientation, i)| {
            let (apart, inset) = self.ranges(i);
            let column = self.next_column[i].checked_sub(1);
            let (bounds, looks) = (self.bounds(i), self.look_counts[i] as u64);
            Slot { kind, orientation, bounds, apart, inset, column, looks }
        });
        Some(State {
            order: self.order[..copies].to_vec(),
            taken: self.taken,
            resolution: self.resolution,
            sheet: self.sheet_bounds,
            right: self.right,
            unplaced_area: self.unplaced_area,
            placed: vec![None; copies],
            gaps: vec![0.0; copies],
            slots: slots.collect(),
            sheet_strips: self.sheet_strips,
            placed_strips: self.placed_strips,
            sheet_index,
            placed_index,
        })
    }

    /// After an accepted step: its copy is written down, all else stays.
    pub fn stepped(&mut self, state: &State) {
        let (orientation, x, y) = match state.placed[self.taken] {
            Some((o, x, y)) => (o + 1, x, y),
            None => (0, 0.0, 0.0),
        };
        self.orientation[self.taken] = orientation;
        self.x[self.taken] = x;
        self.y[self.taken] = y;
        self.gap[self.taken] = state.gaps[self.taken];
        self.taken = state.taken;
        self.placed_strips = state.placed_strips;
        self.right = state.right;
        self.unplaced_area = state.unplaced_area;
        for s in &state.slots {
            let i = 16 * s.kind + s.orientation;
            self.next_column[i] = s.column.map_or(0, |c| c + 1);
            self.look_counts[i] = s.looks as usize;
        }
    }
}
