//! Times of the proved `judge_layout` on the plans of jobs, in filling order, beside the proved `fill` that makes them, in the same run:
//! the least of 10, the two in turn. Both read the job's bytes, prepare strips and entries, and clear their rooms. The list is made of
//! the lifted fill's places; it must be accepted, and refused where its last line stands twice. layout JOBS RUNS, with a container of
//! jobs as oracle/README.md says.
#![allow(dead_code, improper_ctypes)]
#[path = "../oracle/rust/job.rs"]
mod job;
mod large;
#[path = "../oracle/rust/surroundings.rs"]
mod surroundings;
#[path = "../oracle/rust/timed.rs"]
mod timed;
mod timing;

use job::Job;
use large::{copy_order, records, Rooms};
use std::hint::black_box;
use timed::lifted::reach::{Framing, Lifted};

extern "C" {
    fn panel_layout(
        bytes: &[u8], given: &[u64], shapes: &mut [f64], sheet: &mut [f64], placed: &mut [f64],
        sheet_entries: &mut [u16], placed_entries: &mut [u16], sheet_firsts: &mut [u16],
        placed_firsts: &mut [u16], line: &mut [usize],
    ) -> u64;
}

/// The number of a refusal or 0, and the line that it speaks of.
fn judge(rooms: &mut Rooms, bytes: &[u8], given: &[u64]) -> (u64, usize) {
    let [shapes, sheet, placed] = &mut rooms.strips;
    let [sheet_entries, placed_entries] = &mut rooms.entries;
    let [sheet_firsts, placed_firsts] = &mut rooms.firsts;
    let mut line = [0];
    // The function asks nothing of its caller but slices of its own.
    let number = unsafe {
        panel_layout(
            bytes, given, shapes, sheet, placed, sheet_entries, placed_entries, sheet_firsts,
            placed_firsts, &mut line,
        )
    };
    (number, line[0])
}

/// The lifted places in filling order, out of the job's frame: kind, orientation, and the bits of x and y.
fn list(job: &Job, order: &[usize]) -> Vec<u64> {
    let frame = Framing::of(job);
    let filled = Lifted::new(job, &timed::Signal).fill(order);
    let mut numbers = vec![];
    for (&kind, place) in order.iter().zip(&filled.placed) {
        if let Some((o, x, y)) = *place {
            let [x, y] = frame.from([x, y]).map(f64::to_bits);
            numbers.extend([kind as u64, o as u64, x, y]);
        }
    }
    numbers
}

fn main() {
    let args: Vec<String> = std::env::args().collect();
    let [_, file, runs] = &args[..] else { panic!("layout JOBS RUNS") };
    let data = std::fs::read(file).expect("a container of jobs");
    let runs = runs.parse().expect("a number of runs");
    let (mut rooms, mut other, mut logs, mut worst) = (Rooms::new(), Rooms::new(), vec![], 0f64);
    println!("job          copies   lines     fill ms    judge ms  ratio");
    for (label, bytes) in records(&data) {
        let job = job::read(bytes).ok().expect("an accepted job");
        let order = copy_order(&job);
        let given = list(&job, &order);
        let lines = given.len() / 4;
        assert_eq!(rooms.fill(bytes, &order), 0, "{label}: refused");
        assert_eq!(judge(&mut rooms, bytes, &given), (0, lines), "{label}: its own plan");
        let twice = [&given[..], &given[given.len() - 4..]].concat();
        let (number, line) = judge(&mut rooms, bytes, &twice);
        assert!((number == 25 || number == 27) && line == lines, "{label}: a line twice");
        let [fill, ours] = timing::alternating(
            runs,
            || _ = black_box(rooms.fill(black_box(bytes), &order)),
            || _ = black_box(judge(&mut other, black_box(bytes), &given)),
        );
        let ratio = ours / fill;
        println!("{label:12} {:6} {lines:7} {:11.3} {:11.3} {ratio:6.3}", order.len(), fill / 1e6, ours / 1e6);
        logs.push(ratio.ln());
        worst = worst.max(ratio);
    }
    let mean = (logs.iter().sum::<f64>() / logs.len() as f64).exp();
    println!("{} jobs, geometric mean {mean:.3}, worst {worst:.3}", logs.len());
}
