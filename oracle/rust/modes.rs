//! The smaller questions: strips of a set, the frames, the not-a-number hatch, timing.
use crate::compare::same_strips;
use crate::filling::Stop;
use crate::frame::Frame;
use crate::job::{read_set, Job, Loops, Orientation, Part};
use crate::nesting::{nest, next_random, Layout, Plan};
use crate::print::{self, hexes, refusal};
use crate::probed::lifted::reach::{set_bounds, strips, Framing};
use crate::rooms::{Rooms, Sizes};
use crate::surroundings::Placement;
use crate::timed;
use crate::watch::Watch;
use std::time::Instant;

/// `--strips`: the lifted strips of a set in a frame, and its bounds there.
pub fn strips_text(bytes: &[u8], sheet: bool, (corner, axis): (u8, u8)) -> Result<String, String> {
    let set = match read_set(bytes) {
        Err(n) => return Ok(refusal(n)),
        Ok(set) => set,
    };
    let lifted = Framing::new(corner, axis);
    same_strips((Frame::new(corner, axis), lifted), &set, sheet)?;
    Ok(set_text(&lifted.loops(&set), sheet))
}

/// A finite double: a zero, a limit, a whole number, a denormal, or any.
fn drawn(state: &mut u64) -> f64 {
    let draw = next_random(state);
    let sign = if draw & 8 == 0 { 1.0 } else { -1.0 };
    let any = f64::from_bits(next_random(state));
    sign * match draw % 8 {
        0 => 0.0,
        1 => 100_000.0,
        2 => (draw >> 44) as f64,
        3 => f64::from_bits(draw >> 12),
        4 => f64::MAX,
        _ if any.is_finite() => any,
        _ => f64::MIN_POSITIVE,
    }
}

/// `--frames N SEED`: of each frame whether it reverses and whether it is none, and N points through its
/// `to` and `from`, lifted and by hand; how many differ, and whether none does.
pub fn frames_text(n: u64, seed: u64) -> (String, bool) {
    let (mut out, mut differ, mut state) = (String::new(), 0, seed);
    let bits = |p: [f64; 2]| p.map(f64::to_bits);
    for (corner, axis) in (0..4).flat_map(|corner| [(corner, 0), (corner, 1)]) {
        let (hand, lifted) = (Frame::new(corner, axis), Framing::new(corner, axis));
        let marks = (hand.reversing(), hand.identity());
        let mut wrong = (marks != lifted.marks()) as u64;
        for _ in 0..n {
            let p = [drawn(&mut state), drawn(&mut state)];
            let same = bits(hand.to(p)) == bits(lifted.to(p));
            wrong += !(same && bits(hand.from(p)) == bits(lifted.from(p))) as u64;
        }
        out += &format!("{corner} {axis} reversing {} identity {}\n", marks.0, marks.1);
        differ += wrong;
    }
    (out + &format!("{} points, {differ} mismatches\n", 8 * n), differ == 0)
}

fn set_text(set: &Loops, sheet: bool) -> String {
    let mut out = String::new();
    for s in strips(set, sheet) {
        out += &format!("strip {}\n", hexes(&s));
    }
    out + &format!("bounds {}\n", hexes(&set_bounds(set)))
}

/// `--time N`: the least nanoseconds of N runs of the lifted code: preparing
/// shapes and sheet, one filling, the lines of `nest`.
pub fn time(job: &Job, runs: u32) -> String {
    let signal = timed::Signal;
    let order = crate::nesting::copy_order(job);
    let mut least = [u128::MAX; 3];
    for _ in 0..runs.max(1) {
        let mut mark = Instant::now();
        let mut lap = |i: usize| {
            least[i] = least[i].min(mark.elapsed().as_nanos());
            mark = Instant::now();
        };
        let planner = timed::lifted::reach::Lifted::new(job, &signal);
        lap(0);
        let filled = planner.fill(&order);
        lap(1);
        let nested = planner.nest(job);
        lap(2);
        std::hint::black_box((filled, nested));
    }
    format!("prepare {}\nfill {}\nnest {}\n", least[0], least[1], least[2])
}

/// `--lifted-only`: the plan by the lifted code alone, without look lines,
/// rooms or comparison. A put line has five fields, since the Rust has no gap.
pub fn lifted_text(job: &Job) -> String {
    let nested = timed::lifted::reach::Lifted::new(job, &timed::Signal).nest(job);
    let put = |p: &Placement| {
        let [x, y] = p.translation_mm;
        (p.part, p.copy, p.rotation_deg as usize, x, y, 0.0)
    };
    let positions = (nested.placements.iter().map(put).collect(), nested.copies);
    let filled = nested.filled;
    let looks = vec![];
    let (placed, right, unplaced_area) = (filled.placed, filled.right, filled.unplaced_area);
    let gaps = vec![0.0; placed.len()];
    let layout = Layout { placed, gaps, unplaced_area, right, looks };
    let (order, improvements, state) = (nested.order, nested.improvements, nested.state);
    let plan = Plan { order, layout, improvements, state, kept: 0 };
    let text = print::plan_with(job, &plan, positions);
    text.lines().map(|line| without_gap(line).to_string() + "\n").collect()
}

/// A line as it is, a put line without its last field.
fn without_gap(line: &str) -> &str {
    match line.rsplit_once(' ') {
        Some((five, _)) if line.starts_with("put ") => five,
        _ => line,
    }
}

/// `--by-hand`: the plan by the planner with rooms alone, nothing compared.
pub fn by_hand_text(job: &Job, sizes: &Sizes) -> Result<String, String> {
    match nest(job, &mut Rooms::new(sizes), &mut Watch::default()) {
        Ok(plan) => Ok(print::plan(job, &plan)),
        Err(Stop::Refused(n)) => Ok(refusal(n)),
        Err(Stop::Differ(message)) => Err(message),
    }
}

fn rectangle(width: f64, height: f64) -> Loops {
    vec![vec![[0.0, 0.0], [width, 0.0], [width, height], [0.0, height]]]
}

fn kind(set: Loops, area: f64, priority: i32) -> Part {
    let orientations = vec![Orientation { apart: set.clone(), inset: set }];
    Part { quantity: 1, fill: false, priority, area, orientations }
}

/// Strips of a set as decimal numbers: x0..x1, low, high at both ends.
fn plain_text(set: &Loops) -> String {
    let mut out = String::new();
    for s in strips(set, false) {
        let [x0, x1, l0, l1, h0, h1] = s;
        out += &format!("  strip {x0}..{x1} low {l0} {l1} high {h0} {h1}\n");
    }
    out + &format!("  bounds {:?}\n", set_bounds(set))
}

/// `--nan-hatch`: what the lifted code makes of a 4 × 3 hatch with
/// not-a-number in a corner, and where a 2 × 2 plate is then put. No job can
/// say this: the reader refuses it with 4.
pub fn nan_hatch() -> String {
    let clean = rectangle(4.0, 3.0);
    let mut out = format!("clean\n{}", plain_text(&clean));
    out += &plate(clean.clone());
    for corner in 0..4 {
        for axis in 0..2 {
            let mut hatch = clean.clone();
            hatch[0][corner][axis] = f64::NAN;
            let [x, y] = clean[0][corner];
            out += &format!("NaN for {} of ({x},{y})\n", ["x", "y"][axis]);
            out += &plain_text(&hatch);
            out += &plate(hatch);
        }
    }
    out
}

/// Hatch and plate on a 10 × 6 sheet, by the lifted planner.
fn plate(hatch: Loops) -> String {
    let parts = vec![kind(hatch, 12.0, 1), kind(rectangle(2.0, 2.0), 4.0, 0)];
    let sheet = rectangle(10.0, 6.0);
    let (start_corner, fill_axis) = (0, 1);
    let (search_iterations, seed, resolution) = (0, 0, 1.0);
    let job = Job { start_corner, fill_axis, search_iterations, seed, resolution, sheet, parts };
    let nested = timed::lifted::reach::Lifted::new(&job, &timed::Signal).nest(&job);
    let mut out = String::new();
    for p in nested.placements {
        let name = ["hatch", "plate"][p.part];
        let [x, y] = p.translation_mm;
        let over = p.part == 1 && x < 4.0 && y < 3.0;
        let note = if over { ": over the hatch as drawn" } else { "" };
        out += &format!("  {name} at ({x}, {y}){note}\n");
    }
    out
}
