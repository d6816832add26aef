//! Strips by hand from document 01, "Strips". A strip is x0, x1, the low
//! side's height at both, the high side's height at both.
use crate::job::Loops;
use std::cmp::Ordering;

pub type Strip = [f64; 6];

pub fn smaller(a: f64, b: f64) -> f64 {
    if b < a { b } else { a }
}

pub fn larger(a: f64, b: f64) -> f64 {
    if b > a { b } else { a }
}

/// The usual order of finite doubles.
fn order(a: f64, b: f64) -> Ordering {
    if a < b {
        Ordering::Less
    } else if a > b {
        Ordering::Greater
    } else {
        Ordering::Equal
    }
}

/// The smallest x and y, the largest x and y.
pub fn bounds(set: &Loops) -> [f64; 4] {
    let p = set[0][0];
    let mut b = [p[0], p[1], p[0], p[1]];
    for p in set.iter().flatten() {
        b[0] = smaller(b[0], p[0]);
        b[1] = smaller(b[1], p[1]);
        b[2] = larger(b[2], p[0]);
        b[3] = larger(b[3], p[1]);
    }
    b
}

/// An edge's height at x, its end's own where x is that end.
fn height(p: [f64; 2], q: [f64; 2], x: f64) -> f64 {
    if x == p[0] {
        return p[1];
    }
    if x == q[0] {
        return q[1];
    }
    p[1] + (x - p[0]) / (q[0] - p[0]) * (q[1] - p[1])
}

/// The edges that span the slab, sorted: heights at xa and xb, direction.
fn crossings(set: &Loops, xa: f64, xb: f64) -> Vec<(f64, f64, i32)> {
    let mut result = vec![];
    for points in set {
        for (i, &p) in points.iter().enumerate() {
            let q = points[if i + 1 == points.len() { 0 } else { i + 1 }];
            let spans = smaller(p[0], q[0]) <= xa && larger(p[0], q[0]) >= xb;
            if p[0] != q[0] && spans {
                let d = if q[0] > p[0] { 1 } else { -1 };
                result.push((height(p, q, xa), height(p, q, xb), d));
            }
        }
    }
    result.sort_by(|a, b| {
        order(a.0 + a.1, b.0 + b.1).then(b.2.cmp(&a.2)).then(order(a.0, b.0))
    });
    result
}

/// Keeps the strip between two sides if high exceeds low at either end.
fn keep(out: &mut Vec<Strip>, xa: f64, xb: f64, one: (f64, f64), other: (f64, f64)) {
    let low = (smaller(one.0, other.0), smaller(one.1, other.1));
    let high = (larger(one.0, other.0), larger(one.1, other.1));
    if high.0 > low.0 || high.1 > low.1 {
        out.push([xa, xb, low.0, low.1, high.0, high.1]);
    }
}

/// The strips of a part, or for the sheet those of the rest of its box.
pub fn trapezoids(set: &Loops, sheet: bool) -> Vec<Strip> {
    let box_ = bounds(set);
    let mut xs: Vec<f64> = set.iter().flatten().map(|p| p[0]).collect();
    if sheet {
        xs.push(box_[0]);
        xs.push(box_[2]);
    }
    xs.sort_by(|a, b| order(*a, *b));
    xs.dedup();
    let mut out = vec![];
    for pair in xs.windows(2) {
        let (xa, xb) = (pair[0], pair[1]);
        let mut winding = 0;
        let mut from = (box_[1], box_[1]);
        for (ya, yb, d) in crossings(set, xa, xb) {
            let inside = winding > 0;
            winding += d;
            if inside == (winding > 0) {
                continue;
            }
            // A part's strip ends where material ends, the rest's where it begins.
            if inside != sheet {
                keep(&mut out, xa, xb, from, (ya, yb));
            }
            from = (ya, yb);
        }
        if sheet && winding <= 0 {
            keep(&mut out, xa, xb, from, (box_[3], box_[3]));
        }
    }
    out
}

/// Low and high at x.
pub fn at(s: &Strip, x: f64) -> (f64, f64) {
    if x <= s[0] {
        return (s[2], s[4]);
    }
    if x >= s[1] {
        return (s[3], s[5]);
    }
    let t = (x - s[0]) / (s[1] - s[0]);
    (s[2] + t * (s[3] - s[2]), s[4] + t * (s[5] - s[4]))
}

pub fn moved(s: &Strip, x: f64, y: f64) -> Strip {
    [s[0] + x, s[1] + x, s[2] + y, s[3] + y, s[4] + y, s[5] + y]
}

/// The forbidden heights of q moved by x against p: an open interval, or none
/// where they do not meet or it is empty.
pub fn forbidden(p: &Strip, q: &Strip, x: f64) -> Option<(f64, f64)> {
    let a = larger(p[0], q[0] + x);
    let b = smaller(p[1], q[1] + x);
    if !(a < b) {
        return None;
    }
    let (pa, pb) = (at(p, a), at(p, b));
    let (qa, qb) = (at(q, a - x), at(q, b - x));
    let low = smaller(pa.0 - qa.1, pb.0 - qb.1);
    let high = larger(pa.1 - qa.0, pb.1 - qb.0);
    if low < high { Some((low, high)) } else { None }
}
