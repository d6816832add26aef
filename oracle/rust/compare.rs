//! The lifted planner, the planner with rooms and the plain planner on one
//! job: an answer, or a message where two of them differ.
use crate::filling::Stop;
use crate::frame::Frame;
use crate::job::{Job, Loops};
use crate::nesting::{fill_order, nest, Plan};
use crate::plain::filling;
use crate::print::{offcut, positions};
use crate::probed::lifted::reach::{set_bounds, strips, Filled, Framing, Lifted, Nested};
use crate::probed::{Search, Signal};
use crate::rooms::{Rooms, Sizes};
use crate::strips::{bounds, trapezoids};
use crate::watch::{Look, Watch};

/// What is asked of a job.
pub struct Ask {
    pub sizes: Sizes,
    /// A given order, instead of the whole plan.
    pub order: Option<Vec<usize>>,
    /// Pairs that the plain planner may take; 0 leaves it out.
    pub plain_work: u64,
    /// Whether the looks of the first filling are wanted.
    pub looks: bool,
}

pub struct Answer {
    pub plan: Result<Plan, u32>,
    /// Whether the plain planner was compared.
    pub plain: bool,
    pub looks: Vec<Look>,
    /// All looks compared with the lifted lines.
    pub compared: u64,
}

fn same_bits(a: &[f64], b: &[f64]) -> bool {
    a.len() == b.len() && a.iter().zip(b).all(|(a, b)| a.to_bits() == b.to_bits())
}

/// `loops` of a frame, `trapezoids` and `bounds`, lifted and by hand, of one set.
pub fn same_strips(frames: (Frame, Framing), set: &Loops, sheet: bool) -> Result<(), String> {
    let (hand, lifted) = (frames.0.loops(set), frames.1.loops(set));
    let points = |set: &Loops| set.concat().concat();
    let ends = |set: &Loops| set.iter().map(Vec::len).collect::<Vec<_>>();
    if !same_bits(&points(&hand), &points(&lifted)) || ends(&hand) != ends(&lifted) {
        return Err("framed loops differ".into());
    }
    if !same_bits(&trapezoids(&hand, sheet).concat(), &strips(&lifted, sheet).concat()) {
        return Err("strips differ".into());
    }
    if !same_bits(&bounds(&hand), &set_bounds(&lifted)) {
        return Err("bounds differ".into());
    }
    Ok(())
}

fn all_strips(job: &Job) -> Result<(), String> {
    let frames = (Frame::of(job), Framing::of(job));
    same_strips(frames, &job.sheet, true)?;
    for (kind, part) in job.parts.iter().enumerate() {
        for (o, orientation) in part.orientations.iter().enumerate() {
            for set in [&orientation.apart, &orientation.inset] {
                same_strips(frames, set, false).map_err(|e| format!("kind {kind} {o}: {e}"))?;
            }
        }
    }
    Ok(())
}

/// An accepted job's framed sheet is at most a million columns wide, by the lifted bounds.
fn same_width(job: &Job, lifted: &Lifted) -> Result<(), String> {
    let b = lifted.sheet_bounds();
    if (b[2] - b[0]) / job.resolution > 1e6 {
        return Err("accepted, and wider than 8 allows".into());
    }
    Ok(())
}

/// Places, right and unplaced area of a filling.
fn same_filling(plan: &Plan, filled: &Filled) -> Result<(), String> {
    let layout = &plan.layout;
    if layout.placed.len() != filled.placed.len() {
        return Err("number of places differs".into());
    }
    for (i, (a, b)) in layout.placed.iter().zip(&filled.placed).enumerate() {
        let bits = |p: &Option<(usize, f64, f64)>| p.map(|(o, x, y)| (o, x.to_bits(), y.to_bits()));
        if bits(a) != bits(b) {
            return Err(format!("place {i}: rooms {a:?}, lifted {b:?}"));
        }
    }
    let ours = [layout.right, layout.unplaced_area];
    if !same_bits(&ours, &[filled.right, filled.unplaced_area]) {
        return Err(format!("right and area: rooms {ours:?}"));
    }
    Ok(())
}

/// Order, improvements, draw state, positions and copy counts of a plan.
fn same_plan(job: &Job, plan: &Plan, nested: &Nested) -> Result<(), String> {
    if plan.order != nested.order {
        return Err("final orders differ".into());
    }
    if plan.improvements != nested.improvements || plan.state != nested.state {
        return Err("improvements or draw states differ".into());
    }
    let (list, copies) = positions(job, plan);
    let same = list.len() == nested.placements.len()
        && list.iter().zip(&nested.placements).all(|(a, b)| {
            let [x, y] = b.translation_mm;
            (a.0, a.1, a.2 as f64) == (b.part, b.copy, b.rotation_deg)
                && same_bits(&[a.3, a.4], &[x, y])
        });
    if !same || copies != nested.copies {
        return Err("positions or copy counts differ".into());
    }
    let parts = job.parts.iter().zip(&copies).enumerate();
    let missing: Vec<(usize, u32)> = parts
        .filter(|(_, (p, &n))| !p.fill && n < p.quantity)
        .map(|(kind, (p, n))| (kind, p.quantity - n))
        .collect();
    let unplaced: Vec<_> = nested.unplaced.iter().map(|u| (u.part, u.quantity)).collect();
    if missing != unplaced {
        return Err("unplaced lists differ".into());
    }
    Ok(())
}

/// The searches of every filling, and the kept one's look counts.
fn same_looks(
    job: &Job,
    plan: &Plan,
    ours: &[Vec<Search>],
    lifted: &[Vec<Search>],
) -> Result<(), String> {
    if ours != lifted {
        return Err("searches or their looks differ".into());
    }
    let mut first = vec![];
    let mut slots = 0;
    for p in &job.parts {
        first.push(slots);
        slots += p.orientations.len();
    }
    let mut counts = vec![0u64; slots];
    for (kind, o, looks) in &lifted[plan.kept] {
        counts[first[*kind as usize] + *o as usize] += *looks as u64;
    }
    if counts != plan.layout.looks {
        return Err("look counts differ".into());
    }
    Ok(())
}

/// The offcut (document 02, W2) once more, from the lifted strips that stood after the kept filling.
fn same_offcut(job: &Job, plan: &Plan, ends: &[Option<f64>]) -> Result<(), String> {
    let right = plan.layout.right;
    let reach = ends[plan.kept].map_or(right, |end| end.max(right));
    let left = (set_bounds(&Framing::of(job).loops(&job.sheet))[2] - reach).max(0.0);
    let printed = offcut(job, plan);
    if !same_bits(&[left], &[printed]) {
        return Err(format!("offcut: from the places {printed:?}, from the strips {left:?}"));
    }
    Ok(())
}

/// The plain planner in the final order; false where it takes too long.
fn same_plain(job: &Job, plan: &Plan, work: u64) -> Result<bool, String> {
    let Some(p) = filling(job, &plan.order, work) else {
        return Ok(false);
    };
    let filled = Filled { placed: p.placed, unplaced_area: p.unplaced_area, right: p.right };
    same_filling(plan, &filled).map_err(|e| format!("plain planner: {e}"))?;
    if !same_bits(&p.gaps, &plan.layout.gaps) {
        return Err(format!("plain planner: gaps {:?}", p.gaps));
    }
    if p.looks != plan.layout.looks {
        return Err(format!("plain planner: look counts {:?}", p.looks));
    }
    Ok(true)
}

/// Runs all of them on an accepted job.
pub fn run(job: &Job, ask: &Ask) -> Result<Answer, String> {
    all_strips(job)?;
    let signal = Signal::default();
    let mut lifted = Lifted::new(job, &signal);
    same_width(job, &lifted)?;
    let mut rooms = Rooms::new(&ask.sizes);
    let looks = ask.looks.then(Vec::new);
    let mut watch = Watch { lifted: Some(&mut lifted), looks, ..Default::default() };
    let result = match &ask.order {
        None => nest(job, &mut rooms, &mut watch),
        Some(order) => fill_order(job, order, &mut rooms, &mut watch),
    };
    let (looks, ours, ends) = (watch.looks.take().unwrap_or_default(), watch.fillings, watch.ends);
    let compared = ours.iter().flatten().map(|s| s.2 as u64).sum();
    let plan = match result {
        Err(Stop::Differ(message)) => return Err(message),
        Err(Stop::Refused(n)) => return Ok(Answer { plan: Err(n), plain: false, looks, compared }),
        Ok(plan) => plan,
    };
    if let Some(order) = &ask.order {
        same_filling(&plan, &lifted.fill(order))?;
    } else {
        let nested = lifted.nest(job);
        same_filling(&plan, &nested.filled)?;
        same_plan(job, &plan, &nested)?;
    }
    same_looks(job, &plan, &ours, &signal.take())?;
    same_offcut(job, &plan, &ends)?;
    let plain = ask.plain_work > 0 && same_plain(job, &plan, ask.plain_work)?;
    Ok(Answer { plan: Ok(plan), plain, looks, compared })
}
