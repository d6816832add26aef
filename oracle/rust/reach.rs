//! The door to the lifted items, which are private: a module inside theirs.
use super::*;
use crate::job::Loops;

pub type Strip = [f64; 6];

/// A place: orientation, x, y; none where a copy did not fit.
pub type Place = Option<(usize, f64, f64)>;

fn strip(p: &Trapezoid) -> Strip {
    [p.x0, p.x1, p.low[0], p.low[1], p.high[0], p.high[1]]
}

/// The lifted `trapezoids`, of a part or of the rest of a sheet's box.
pub fn strips(loops: &Loops, sheet: bool) -> Vec<Strip> {
    let frame = sheet.then(|| bounds(loops));
    trapezoids(loops, frame).iter().map(strip).collect()
}

/// The lifted `bounds`.
pub fn set_bounds(loops: &Loops) -> [f64; 4] {
    bounds(loops)
}

/// The lifted `Frame`, every minus zero made plus zero.
#[derive(Clone, Copy)]
pub struct Framing(Frame);

fn plus_zero([x, y]: P2) -> P2 {
    [x + 0.0, y + 0.0]
}

impl Framing {
    /// Of a corner and an axis, by their places in the lifted lists.
    pub fn new(corner: u8, axis: u8) -> Self {
        use StartCorner::*;
        let mut corners = [UpperRight, UpperLeft, LowerRight, LowerLeft].into_iter();
        let mut axes = [FillAxis::Y, FillAxis::X].into_iter();
        let corner = corners.find(|&c| c as u8 == corner).expect("a corner");
        let axis = axes.find(|&a| a as u8 == axis).expect("an axis");
        Self(Frame::new(corner, axis))
    }
    pub fn of(job: &Job) -> Self {
        Self::new(job.start_corner, job.fill_axis)
    }
    pub fn loops(&self, set: &Loops) -> Loops {
        let loops = self.0.loops(set.clone());
        loops.into_iter().map(|points| points.into_iter().map(plus_zero).collect()).collect()
    }
    pub fn to(&self, p: P2) -> P2 {
        plus_zero(self.0.to(p))
    }
    pub fn from(&self, p: P2) -> P2 {
        plus_zero(self.0.from(p))
    }
    /// Whether it reverses, and whether it is none.
    pub fn marks(&self) -> (bool, bool) {
        (self.0.reversing(), self.0.identity())
    }
}

/// The lifted `next_random`.
pub fn next(state: &mut u64) -> u64 {
    next_random(state)
}

/// What a filling gives.
pub struct Filled {
    pub placed: Vec<Place>,
    pub unplaced_area: f64,
    pub right: f64,
}

/// What the lines of `nest` give.
pub struct Nested {
    pub order: Vec<usize>,
    pub filled: Filled,
    pub improvements: u32,
    pub state: u64,
    pub copies: Vec<u32>,
    pub placements: Vec<Placement>,
    pub unplaced: Vec<Unplaced>,
}

fn filled(layout: Layout) -> Filled {
    Filled {
        placed: layout.placed,
        unplaced_area: layout.unplaced_area,
        right: layout.right,
    }
}

/// The pieces of an index, and its entries.
fn counts(index: &Index) -> (usize, usize) {
    (index.pieces.len(), index.buckets.iter().map(Vec::len).sum())
}

/// The lifted planner of a job, and an index of its own for single looks.
pub struct Lifted<'a> {
    frame: Framing,
    planner: Planner<'a, Signal>,
    placed_parts: Index,
    intervals: Vec<(f64, f64)>,
}

impl<'a> Lifted<'a> {
    /// Shapes, sheet and bounds as `nest` prepares them, from ready loops.
    pub fn new(job: &Job, cancel: &'a Signal) -> Self {
        let frame = Framing::of(job);
        let sheet_loops = frame.loops(&job.sheet);
        let sheet_bounds = bounds(&sheet_loops);
        let mut sheet = Index::new(sheet_bounds[0], sheet_bounds[2]);
        for piece in trapezoids(&sheet_loops, Some(sheet_bounds)) {
            sheet.add(piece);
        }
        let mut shapes = vec![];
        for (kind, part) in job.parts.iter().enumerate() {
            let mut list = vec![];
            for (o, orientation) in part.orientations.iter().enumerate() {
                let inset = frame.loops(&orientation.inset);
                list.push(Shape {
                    rotation_deg: o as f64,
                    mirrored: false,
                    apart: trapezoids(&frame.loops(&orientation.apart), None),
                    inset_bounds: bounds(&inset),
                    inset: trapezoids(&inset, None),
                });
            }
            shapes.push(orientations(kind, list, cancel));
        }
        let planner = Planner {
            shapes,
            areas: job.parts.iter().map(|p| p.area).collect(),
            sheet,
            sheet_bounds,
            resolution: job.resolution,
            cancel,
        };
        let placed_parts = Index::new(sheet_bounds[0], sheet_bounds[2]);
        Self { frame, planner, placed_parts, intervals: vec![] }
    }

    /// The lifted lines of `nest`.
    pub fn nest(&self, job: &Job) -> Nested {
        let mut p = planned(job, &self.planner, &self.frame.0).expect("never cancelled");
        for placement in &mut p.placements {
            placement.translation_mm = plus_zero(placement.translation_mm);
        }
        Nested {
            order: p.order,
            filled: filled(p.best),
            improvements: p.improvements,
            state: p.state,
            copies: p.copies,
            placements: p.placements,
            unplaced: p.unplaced,
        }
    }

    /// The bounds of the framed sheet.
    pub fn sheet_bounds(&self) -> [f64; 4] {
        self.planner.sheet_bounds
    }

    /// The lifted `fill`: its places are in the frame.
    pub fn fill(&self, order: &[usize]) -> Filled {
        filled(self.planner.fill(order).expect("never cancelled"))
    }

    /// Begins a filling by single looks.
    pub fn clear(&mut self) {
        let b = self.planner.sheet_bounds;
        self.placed_parts = Index::new(b[0], b[2]);
    }

    /// The lifted lines of one look: x, the lowest y in no interval, and how
    /// many intervals were listed.
    pub fn look(
        &mut self,
        (kind, o): (usize, usize),
        columns: (usize, usize),
        xs: (f64, f64),
        ys: (f64, f64),
    ) -> (f64, f64, usize) {
        let shape = &self.planner.shapes[kind][o];
        let out = &mut self.intervals;
        let (x, y) = self.planner.look(shape, &self.placed_parts, columns, xs, ys, out);
        (x, y, self.intervals.len())
    }

    /// The clear height above the free height y of the last look (document 02, W7): from its own
    /// intervals, which it has sorted by their bottoms.
    pub fn gap(&self, y: f64, y_high: f64) -> f64 {
        let next = self.intervals.iter().map(|i| i.0).find(|&low| low >= y);
        (next.unwrap_or(y_high) + 0.0) - y
    }

    /// Enters a placed copy's strips.
    pub fn place(&mut self, (kind, o): (usize, usize), x: f64, y: f64) {
        for piece in &self.planner.shapes[kind][o].apart {
            self.placed_parts.add(piece.moved(x, y));
        }
    }

    /// A point of the sheet in the job's frame.
    pub fn to(&self, p: P2) -> P2 {
        self.frame.to(p)
    }

    /// Document 02, W6: whether x lies between the lifted ends or at a lifted column, and y between its
    /// ends; not where the lifted lines pass the orientation over.
    pub fn in_range(&self, (kind, o): (usize, usize), x: f64, y: f64) -> bool {
        let Some(c) = self.planner.columns(&self.planner.shapes[kind][o]) else {
            return false;
        };
        let ends = x >= c.xs.0 && x <= c.xs.1;
        let stands = ends || (0..=c.last).any(|n| self.planner.column(n, c.columns, c.xs) == x);
        stands && y >= c.ys.0 && y <= c.ys.1
    }

    /// Whether y lies in none of the intervals that the lifted index lists for all heights.
    pub fn clear_at(&mut self, (kind, o): (usize, usize), x: f64, y: f64) -> bool {
        let (shape, all) = (&self.planner.shapes[kind][o], (f64::NEG_INFINITY, f64::INFINITY));
        self.intervals.clear();
        self.planner.sheet.forbidden(&shape.inset, x, all, &mut self.intervals);
        self.placed_parts.forbidden(&shape.apart, x, all, &mut self.intervals);
        !self.intervals.iter().any(|&(low, high)| y > low && y < high)
    }

    /// How many strips and entries the sheet has, and the copies entered so far.
    pub fn sheet_counts(&self) -> (usize, usize) {
        counts(&self.planner.sheet)
    }
    pub fn placed_counts(&self) -> (usize, usize) {
        counts(&self.placed_parts)
    }

    /// The strips of all shapes of a job.
    pub fn shape_strips(&self, job: &Job) -> usize {
        let kinds = job.parts.iter().enumerate();
        let slots = kinds.flat_map(|(k, p)| (0..p.orientations.len()).map(move |o| (k, o)));
        let shapes = slots.map(|(k, o)| &self.planner.shapes[k][o]);
        shapes.map(|s| s.apart.len() + s.inset.len()).sum()
    }

    /// The standing strips entered so far, and the index's lists in a row.
    pub fn standing(&self) -> (Vec<Strip>, Vec<u64>) {
        let index = &self.placed_parts;
        let entries = index.buckets.iter().flatten().map(|&id| id as u64);
        (index.pieces.iter().map(strip).collect(), entries.collect())
    }
    pub fn sheet_entries(&self) -> Vec<u64> {
        self.planner.sheet.buckets.iter().flatten().map(|&id| id as u64).collect()
    }

    /// The bucket of x0 of each standing strip: the sheet's, and those entered so far.
    pub fn firsts(&self) -> [Vec<u64>; 2] {
        [&self.planner.sheet, &self.placed_parts]
            .map(|index| index.pieces.iter().map(|p| index.bucket(p.x0) as u64).collect())
    }
}
