//! The whole plan by hand from document 01, "Order and swaps".
use crate::filling::{again, fill, start, Place, State, Stop};
use crate::job::Job;
use crate::rooms::Rooms;
use crate::watch::Watch;

/// What a filling leaves.
pub struct Layout {
    pub placed: Vec<Place>,
    pub gaps: Vec<f64>,
    pub unplaced_area: f64,
    pub right: f64,
    /// Look counts by slot, kinds and orientations in order.
    pub looks: Vec<u64>,
}

impl Layout {
    fn of(state: &State) -> Self {
        Self {
            placed: state.placed.clone(),
            gaps: state.gaps.clone(),
            unplaced_area: state.unplaced_area,
            right: state.right,
            looks: state.slots.iter().map(|s| s.looks).collect(),
        }
    }

    fn better_than(&self, other: &Self) -> bool {
        self.unplaced_area < other.unplaced_area
            || (self.unplaced_area == other.unplaced_area && self.right < other.right)
    }
}

pub struct Plan {
    pub order: Vec<usize>,
    pub layout: Layout,
    pub improvements: u32,
    /// The draw state after the last round.
    pub state: u64,
    /// Which filling was kept, from 0.
    pub kept: usize,
}

/// SplitMix64, as published: the step of the state and the mixed copy.
pub fn next_random(state: &mut u64) -> u64 {
    const GAMMA: u64 = 0x9E3779B97F4A7C15;
    *state = state.wrapping_add(GAMMA);
    let a = *state;
    let b = (a ^ (a >> 30)).wrapping_mul(0xBF58476D1CE4E5B9);
    let c = (b ^ (b >> 27)).wrapping_mul(0x94D049BB133111EB);
    c ^ (c >> 31)
}

/// Ordinary before fill kinds, higher priority, larger area, smaller number.
pub fn copy_order(job: &Job) -> Vec<usize> {
    let mut kinds: Vec<usize> = (0..job.parts.len()).collect();
    kinds.sort_by(|&a, &b| {
        let (p, q) = (&job.parts[a], &job.parts[b]);
        let area = q.area.partial_cmp(&p.area).expect("finite");
        p.fill.cmp(&q.fill).then(q.priority.cmp(&p.priority)).then(area).then(a.cmp(&b))
    });
    let mut order = vec![];
    for kind in kinds {
        for _ in 0..job.parts[kind].quantity {
            order.push(kind);
        }
    }
    order
}

/// A filling in a given order.
pub fn fill_order(
    job: &Job,
    order: &[usize],
    rooms: &mut Rooms,
    watch: &mut Watch,
) -> Result<Plan, Stop> {
    let mut state = start(job, order, rooms)?;
    fill(job, &mut state, rooms, watch)?;
    let layout = Layout::of(&state);
    Ok(Plan { order: order.to_vec(), layout, improvements: 0, state: job.seed, kept: 0 })
}

/// The whole plan.
pub fn nest(job: &Job, rooms: &mut Rooms, watch: &mut Watch) -> Result<Plan, Stop> {
    let mut order = copy_order(job);
    let mut state = start(job, &order, rooms)?;
    fill(job, &mut state, rooms, watch)?;
    let mut best = Layout::of(&state);
    let (mut improvements, mut draws, mut kept, mut fillings) = (0, job.seed, 0, 1);
    let n = order.len() as u64;
    let rounds = if n < 2 { 0 } else { job.search_iterations };
    for _ in 0..rounds {
        let i = (next_random(&mut draws) % n) as usize;
        let j = (next_random(&mut draws) % n) as usize;
        let (p, q) = (&job.parts[order[i]], &job.parts[order[j]]);
        if order[i] == order[j] || p.fill != q.fill || p.priority != q.priority {
            continue;
        }
        order.swap(i, j);
        again(&mut state, &order);
        fill(job, &mut state, rooms, watch)?;
        let layout = Layout::of(&state);
        if layout.better_than(&best) {
            best = layout;
            improvements += 1;
            kept = fillings;
        } else {
            order.swap(i, j);
        }
        fillings += 1;
    }
    Ok(Plan { order, layout: best, improvements, state: draws, kept })
}
