//! Times of whole fillings, the proved `fill` and the lifted one, on the same jobs in the same run: the
//! least of 10, the two in turn. The proved one reads the job's bytes, prepares strips and entries,
//! fills, and clears its rooms; the lifted one is given the job read, prepares and fills. Positions
//! are compared first, but for their gaps, which the lifted one does not have. fill JOBS RUNS, with a
//! container of jobs as oracle/README.md says.
#![allow(dead_code, improper_ctypes)]
#[path = "../oracle/rust/job.rs"]
mod job;
mod large;
#[path = "../oracle/rust/surroundings.rs"]
mod surroundings;
#[path = "../oracle/rust/timed.rs"]
mod timed;
mod timing;

use job::Job;
use large::{copy_order, records, Rooms};
use std::hint::black_box;
use timed::lifted::reach::{Filled, Framing, Lifted};

fn lifted_fill(job: &Job, order: &[usize]) -> Filled {
    Lifted::new(job, &timed::Signal).fill(order)
}

/// The lifted places, out of the job's frame, as they lie in the position room, by kind, then copy: five
/// numbers of its six.
fn positions(job: &Job, order: &[usize], filled: &Filled) -> Vec<[f64; 5]> {
    let frame = Framing::of(job);
    let mut list: Vec<(usize, usize, [f64; 3])> = vec![];
    let mut copies = vec![0; 64];
    for (&kind, place) in order.iter().zip(&filled.placed) {
        if let Some((o, x, y)) = *place {
            let [x, y] = frame.from([x, y]);
            list.push((kind, copies[kind], [o as f64, x, y]));
            copies[kind] += 1;
        }
    }
    list.sort_by_key(|p| (p.0, p.1));
    list.into_iter().map(|(k, c, [o, x, y])| [k as f64, c as f64, o, x, y]).collect()
}

/// Whether a position room holds these, each before its gap, and zeros after them.
fn holds(room: &[f64], right: &[[f64; 5]]) -> bool {
    let bits = |numbers: &[f64]| numbers.iter().map(|x| x.to_bits()).collect::<Vec<_>>();
    let mut records = room.chunks(6);
    right.iter().zip(&mut records).all(|(five, six)| bits(five) == bits(&six[..5]))
        && records.all(|six| six.iter().all(|x| x.to_bits() == 0))
}

fn main() {
    let args: Vec<String> = std::env::args().collect();
    let [_, file, runs] = &args[..] else { panic!("fill JOBS RUNS") };
    let data = std::fs::read(file).expect("a container of jobs");
    let runs = runs.parse().expect("a number of runs");
    let (mut rooms, mut logs, mut worst) = (Rooms::new(), vec![], 0f64);
    println!("job          copies  placed   lifted ms   proved ms  ratio");
    for (label, bytes) in records(&data) {
        let job = job::read(bytes).ok().expect("an accepted job");
        let order = copy_order(&job);
        let filled = lifted_fill(&job, &order);
        let number = rooms.fill(bytes, &order);
        assert_eq!(number, 0, "{label}: refused");
        let right = positions(&job, &order, &filled);
        assert!(holds(&rooms.positions, &right), "{label}: positions differ");
        let [lifted, ours] = timing::alternating(
            runs,
            || _ = black_box(lifted_fill(black_box(&job), &order)),
            || _ = black_box(rooms.fill(black_box(bytes), &order)),
        );
        let ratio = ours / lifted;
        let (copies, placed) = (order.len(), right.len());
        println!("{label:12} {copies:6} {placed:7} {:11.2} {:11.2} {ratio:6.2}", lifted / 1e6, ours / 1e6);
        logs.push(ratio.ln());
        worst = worst.max(ratio);
    }
    let mean = (logs.iter().sum::<f64>() / logs.len() as f64).exp();
    println!("{} jobs, geometric mean {mean:.2}, worst {worst:.2}", logs.len());
}
