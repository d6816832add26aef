//! The printed plan (document 01), its offcut, gaps and positions those of document 02, W2, W7 and W1.
use crate::frame::Frame;
use crate::job::Job;
use crate::nesting::Plan;
use crate::rooms::POSITION;
use crate::strips::{bounds, larger, trapezoids};

pub fn hex(x: f64) -> String {
    format!("{:016x}", x.to_bits())
}

pub fn hexes(xs: &[f64]) -> String {
    xs.iter().map(|&x| hex(x)).collect::<Vec<_>>().join(" ")
}

pub fn refusal(number: u32) -> String {
    format!("no {number}\n")
}

/// A placed copy: kind, copy, orientation, x and y on the sheet, gap.
pub type Position = (usize, u32, usize, f64, f64, f64);

/// Placed copies numbered in the order, by kind, then copy; how many of each
/// kind are placed.
pub type Positions = (Vec<Position>, Vec<u32>);

/// Out of the places, which are in the frame.
pub fn positions(job: &Job, plan: &Plan) -> Positions {
    let frame = Frame::of(job);
    let mut copies = vec![0; job.parts.len()];
    let mut list = vec![];
    let places = plan.layout.placed.iter().zip(&plan.layout.gaps);
    for (&kind, (place, &gap)) in plan.order.iter().zip(places) {
        if let Some((o, x, y)) = *place {
            let [x, y] = frame.from([x, y]);
            list.push((kind, copies[kind], o, x, y, gap));
            copies[kind] += 1;
        }
    }
    list.sort_by_key(|p| (p.0, p.1));
    (list, copies)
}

/// Document 02, W2: the sheet's right edge minus the larger of right and the largest x1 of a placed
/// apart strip, zero if that is below zero. `same_offcut` in compare.rs works it out another way.
pub fn offcut(job: &Job, plan: &Plan) -> f64 {
    let (frame, mut reach) = (Frame::of(job), plan.layout.right);
    for (&kind, place) in plan.order.iter().zip(&plan.layout.placed) {
        if let Some((o, x, _)) = *place {
            for s in trapezoids(&frame.loops(&job.parts[kind].orientations[o].apart), false) {
                reach = larger(reach, s[1] + x);
            }
        }
    }
    let left = bounds(&frame.loops(&job.sheet))[2] - reach;
    if left < 0.0 { 0.0 } else { left }
}

pub fn plan(job: &Job, plan: &Plan) -> String {
    plan_with(job, plan, positions(job, plan))
}

/// The same with these positions.
pub fn plan_with(job: &Job, plan: &Plan, (list, copies): Positions) -> String {
    let without = plan.order.len() - list.len();
    let mut out = format!("plan {} {} {}\n", list.len(), without, plan.improvements);
    for (kind, copy, o, x, y, gap) in list {
        out += &format!("put {kind} {copy} {o} {}\n", hexes(&[x, y, gap]));
    }
    for (kind, p) in job.parts.iter().enumerate() {
        if !p.fill && copies[kind] < p.quantity {
            out += &format!("left {kind} {}\n", p.quantity - copies[kind]);
        }
    }
    for (kind, p) in job.parts.iter().enumerate() {
        if p.fill {
            out += &format!("fill {kind} {}\n", copies[kind]);
        }
    }
    let mut looks = plan.layout.looks.iter();
    for (kind, p) in job.parts.iter().enumerate() {
        for (o, count) in (0..p.orientations.len()).zip(&mut looks) {
            out += &format!("look {kind} {o} {count}\n");
        }
    }
    let right = plan.layout.right;
    let offcut = offcut(job, plan);
    let area = plan.layout.unplaced_area;
    out + &format!("right {}\narea {}\noffcut {}\n", hex(right), hex(area), hex(offcut))
}

/// The final order, the improvements and the draw state.
pub fn draws(plan: &Plan) -> String {
    let order: Vec<String> = plan.order.iter().map(usize::to_string).collect();
    let order = order.join(" ");
    format!("order {order}\nimprovements {}\nstate {:016x}\n", plan.improvements, plan.state)
}

/// What an accepted plan leaves in the position room.
pub fn position_room(job: &Job, plan: &Plan, slots: usize) -> Vec<f64> {
    let mut room = vec![0.0; slots];
    for (i, (kind, copy, o, x, y, gap)) in positions(job, plan).0.into_iter().enumerate() {
        let record = [kind as f64, copy as f64, o as f64, x, y, gap];
        room[i * POSITION..(i + 1) * POSITION].copy_from_slice(&record);
    }
    room
}
