//! The planning frame by hand from document 02, W1: two signs, an exchange of x and y, and the
//! reversal of loops. Never a minus zero.
use crate::job::{Job, Loops};

type Point = [f64; 2];

/// The corner that the nest begins at, and whether it stacks along x.
#[derive(Clone, Copy)]
pub struct Frame {
    right: bool,
    upper: bool,
    along_x: bool,
}

/// The other sign where `other` says so.
fn turned(other: bool, x: f64) -> f64 {
    if other { 0.0 - x } else { x + 0.0 }
}

impl Frame {
    /// Corners: lower left, lower right, upper left, upper right; axes: x, y.
    pub fn new(corner: u8, axis: u8) -> Self {
        Self { right: corner % 2 == 1, upper: corner >= 2, along_x: axis == 0 }
    }

    pub fn of(job: &Job) -> Self {
        Self::new(job.start_corner, job.fill_axis)
    }

    pub fn identity(self) -> bool {
        !(self.right || self.upper || self.along_x)
    }

    /// Each sign and the exchange turns a loop round, two of them do not.
    pub fn reversing(self) -> bool {
        self.right ^ self.upper ^ self.along_x
    }

    /// A point of the sheet in the frame.
    pub fn to(self, [x, y]: Point) -> Point {
        let (x, y) = (turned(self.right, x), turned(self.upper, y));
        if self.along_x { [y, x] } else { [x, y] }
    }

    /// A point of the frame on the sheet.
    pub fn from(self, [x, y]: Point) -> Point {
        let (x, y) = if self.along_x { (y, x) } else { (x, y) };
        [turned(self.right, x), turned(self.upper, y)]
    }

    /// A set in the frame: its loops in their order, each from its last point to its first where the
    /// frame reverses.
    pub fn loops(self, set: &Loops) -> Loops {
        let mut out = set.clone();
        if self.identity() {
            return out;
        }
        for (points, given) in out.iter_mut().zip(set) {
            let n = given.len();
            for (i, p) in points.iter_mut().enumerate() {
                *p = self.to(given[if self.reversing() { n - 1 - i } else { i }]);
            }
        }
        out
    }
}
