//! The plain planner by hand from document 01, with the withdrawals of document 02, W4: every search
//! begins at column zero and holds the copy against every standing strip. No index, no rooms.
use crate::filling::{ranges, Place, Ranges};
use crate::frame::Frame;
use crate::job::{Job, Orientation};
use crate::strips::{bounds, forbidden, moved, trapezoids, Strip};
use std::collections::VecDeque;

/// Pairs of strips that it may take, unless another limit is asked for.
pub const WORK: u64 = 20_000_000;

/// One orientation, with its searches so far.
struct Slot {
    bounds: [f64; 4],
    apart: Vec<Strip>,
    inset: Vec<Strip>,
    /// Nothing where a range is reversed.
    ranges: Option<Ranges>,
    /// The last column found, finds, and whether a search found none.
    found: Option<usize>,
    finds: u64,
    none: bool,
}

impl Slot {
    /// Demand 3's look count.
    fn looks(&self) -> u64 {
        match (&self.ranges, self.none, self.found) {
            (Some(r), true, _) => r.last as u64 + 1 + self.finds,
            (Some(_), false, Some(column)) => column as u64 + self.finds,
            _ => 0,
        }
    }

    /// The column that a search begins with next, where there is a look at all.
    fn column(&self) -> Option<Option<usize>> {
        self.ranges.as_ref().map(|_| if self.none { None } else { self.found.or(Some(0)) })
    }
}

/// A call that it is fed: next copy, or taking back the copy at a place.
#[derive(Clone, Copy)]
pub enum Request {
    Next,
    Back(usize),
}

/// What it holds after some calls: lists by place of the copies taken, searches by slot.
pub struct Plain {
    pub order: Vec<usize>,
    pub placed: Vec<Place>,
    pub gaps: Vec<f64>,
    pub unplaced_area: f64,
    pub right: f64,
    pub looks: Vec<u64>,
    /// The column to begin with next, or nothing for none; no answer where a range is reversed.
    pub columns: Vec<Option<Option<usize>>>,
}

/// A copy, by its place in the order as it is now.
#[derive(Clone, Copy)]
struct Panel {
    place: usize,
    kind: usize,
}

/// A standing copy, and its x, y and gap.
struct Standing {
    copy: Panel,
    orientation: usize,
    at: [f64; 3],
}

/// What a search holds copies against, and the work that is left.
struct Sheet {
    resolution: f64,
    strips: Vec<Strip>,
    standing: Vec<Strip>,
    work: u64,
}

/// The smallest height from y_low on in no forbidden interval: raised to the
/// top of an interval that holds it until none does.
fn height(intervals: &[(f64, f64)], y_low: f64) -> f64 {
    let mut y = y_low;
    loop {
        let before = y;
        for &(low, high) in intervals {
            if low < y && y < high {
                y = high;
            }
        }
        if y == before {
            return y;
        }
    }
}

/// The clear height above y: from the lowest of y_high and the bottoms at y or above. One of these that
/// does not count is at y_high or above.
fn gap(intervals: &[(f64, f64)], y: f64, y_high: f64) -> f64 {
    let above = intervals.iter().map(|i| i.0).filter(|&low| low >= y);
    (above.fold(y_high, f64::min) + 0.0) - y
}

impl Sheet {
    /// All forbidden intervals of the copy at x, counted or not.
    fn intervals(&self, slot: &Slot, x: f64, out: &mut Vec<(f64, f64)>) {
        out.clear();
        for q in &slot.inset {
            out.extend(self.strips.iter().filter_map(|p| forbidden(p, q, x)));
        }
        for q in &slot.apart {
            out.extend(self.standing.iter().filter_map(|p| forbidden(p, q, x)));
        }
    }

    /// The first column from 0 on with a free height, its x, y and gap; an error where the work
    /// is used up.
    fn search(&mut self, slot: &Slot, r: &Ranges) -> Result<Option<(usize, [f64; 3])>, ()> {
        let pairs = slot.inset.len() * self.strips.len() + slot.apart.len() * self.standing.len();
        let mut intervals = vec![];
        for column in 0..=r.last {
            self.work = self.work.checked_sub(pairs as u64 + 1).ok_or(())?;
            let x = r.x(column, self.resolution);
            self.intervals(slot, x, &mut intervals);
            let y = height(&intervals, r.ys.0);
            if y <= r.ys.1 {
                return Ok(Some((column, [x, y, gap(&intervals, y, r.ys.1)])));
            }
        }
        Ok(None)
    }

    /// Seeks in each orientation; the smallest x + b2, then y + b3, then the
    /// first listed wins.
    fn seek(&mut self, slots: &mut [Slot]) -> Result<Option<(usize, [f64; 3])>, ()> {
        let mut best: Option<(f64, f64, usize, [f64; 3])> = None;
        for (o, slot) in slots.iter_mut().enumerate() {
            let Some(r) = slot.ranges.take() else { continue };
            let found = self.search(slot, &r);
            slot.ranges = Some(r);
            let Some((column, found)) = found? else {
                slot.none = true;
                continue;
            };
            slot.found = Some(column);
            slot.finds += 1;
            let (right, top) = (found[0] + slot.bounds[2], found[1] + slot.bounds[3]);
            if best.is_none_or(|b| right < b.0 || (right == b.0 && top < b.1)) {
                best = Some((right, top, o, found));
            }
        }
        Ok(best.map(|(_, _, o, found)| (o, found)))
    }
}

fn slots(job: &Job, s: &[f64; 4]) -> Vec<Vec<Slot>> {
    let frame = Frame::of(job);
    let slot = |o: &Orientation| {
        let inset = frame.loops(&o.inset);
        Slot {
            bounds: bounds(&inset),
            apart: trapezoids(&frame.loops(&o.apart), false),
            inset: trapezoids(&inset, false),
            ranges: ranges(s, &bounds(&inset), job.resolution),
            found: None,
            finds: 0,
            none: false,
        }
    };
    job.parts.iter().map(|p| p.orientations.iter().map(slot).collect()).collect()
}

/// The place of a copy once the one at n has gone to the last place.
fn place_after(copy: Panel, n: usize, last: usize) -> Panel {
    let place = match copy.place {
        place if place == n => last,
        place if place > n => place - 1,
        place => place,
    };
    Panel { place, ..copy }
}

pub struct Planner {
    sheet: Sheet,
    left: f64,
    areas: Vec<f64>,
    slots: Vec<Vec<Slot>>,
    to_come: VecDeque<Panel>,
    standing: Vec<Standing>,
    without: Vec<Panel>,
}

impl Planner {
    /// All copies to come; `work` is how many pairs of strips it may take.
    pub fn new(job: &Job, order: &[usize], work: u64) -> Self {
        let loops = Frame::of(job).loops(&job.sheet);
        let (s, strips) = (bounds(&loops), trapezoids(&loops, true));
        let copies = order.iter().enumerate().map(|(place, &kind)| Panel { place, kind });
        Self {
            sheet: Sheet { resolution: job.resolution, strips, standing: vec![], work },
            left: s[0],
            areas: job.parts.iter().map(|p| p.area).collect(),
            slots: slots(job, &s),
            to_come: copies.collect(),
            standing: vec![],
            without: vec![],
        }
    }

    /// One call, and whether it was refused; an error where the work is used up.
    pub fn call(&mut self, request: Request, refused: bool) -> Result<(), ()> {
        match request {
            _ if refused => Ok(()),
            Request::Next => self.take(),
            Request::Back(n) => {
                self.back(n);
                Ok(())
            }
        }
    }

    /// The next copy stands, or has no place.
    fn take(&mut self) -> Result<(), ()> {
        let copy = self.to_come.pop_front().expect("23 was not given");
        match self.sheet.seek(&mut self.slots[copy.kind])? {
            None => self.without.push(copy),
            Some((orientation, at)) => self.standing.push(Standing { copy, orientation, at }),
        }
        self.stand();
        Ok(())
    }

    /// The standing copy at place n joins the end of those to come; all searches are forgotten.
    fn back(&mut self, n: usize) {
        let last = self.to_come.len() + self.standing.len() + self.without.len() - 1;
        let named = self.standing.iter().position(|s| s.copy.place == n).expect("24 was not given");
        self.to_come.push_back(self.standing.remove(named).copy);
        let to_come = self.to_come.iter_mut().chain(&mut self.without);
        for copy in to_come.chain(self.standing.iter_mut().map(|s| &mut s.copy)) {
            *copy = place_after(*copy, n, last);
        }
        for slot in self.slots.iter_mut().flatten() {
            (slot.found, slot.finds, slot.none) = (None, 0, false);
        }
        self.stand();
    }

    /// The strips of the copies that stand.
    fn stand(&mut self) {
        let strips = self.standing.iter().flat_map(|s| {
            let apart = &self.slots[s.copy.kind][s.orientation].apart;
            apart.iter().map(|p| moved(p, s.at[0], s.at[1]))
        });
        self.sheet.standing = strips.collect();
    }

    /// The larger of the sheet's left edge and the standing copies' right ones.
    fn right(&self) -> f64 {
        let end = |s: &Standing| s.at[0] + self.slots[s.copy.kind][s.orientation].bounds[2];
        self.standing.iter().map(end).fold(self.left, |a, b| if b > a { b } else { a })
    }

    pub fn told(&self) -> Plain {
        let taken = self.standing.len() + self.without.len();
        let mut order = vec![0; taken + self.to_come.len()];
        let copies = self.to_come.iter().chain(&self.without);
        for copy in copies.chain(self.standing.iter().map(|s| &s.copy)) {
            order[copy.place] = copy.kind;
        }
        let (mut placed, mut gaps) = (vec![None; taken], vec![0.0; taken]);
        for s in &self.standing {
            let [x, y, gap] = s.at;
            placed[s.copy.place] = Some((s.orientation, x, y));
            gaps[s.copy.place] = gap;
        }
        let all = || self.slots.iter().flatten();
        Plain {
            order,
            placed,
            gaps,
            unplaced_area: self.without.iter().fold(0.0, |sum, copy| sum + self.areas[copy.kind]),
            right: self.right(),
            looks: all().map(Slot::looks).collect(),
            columns: all().map(Slot::column).collect(),
        }
    }
}

/// After a list of calls, each with whether it was refused; nothing where they take more than
/// `work` pairs.
pub fn plain(job: &Job, order: &[usize], calls: &[(Request, bool)], work: u64) -> Option<Plain> {
    let mut planner = Planner::new(job, order, work);
    for &(request, refused) in calls {
        planner.call(request, refused).ok()?;
    }
    Some(planner.told())
}

/// The filling in an order.
pub fn filling(job: &Job, order: &[usize], work: u64) -> Option<Plain> {
    plain(job, order, &vec![(Request::Next, false); order.len()], work)
}
