//! draws N SEED: the proved `next_random`, out of the static library `bench_exports`, against the lifted
//! one on N states. The last line is 'N states, D mismatches'.
#![allow(dead_code)]
mod job;
mod surroundings;
mod timed;

use timed::lifted::reach::next;

extern "C" {
    fn panel_next_random(state: &mut u64) -> u64;
}

fn proved(state: &mut u64) -> u64 {
    // The function asks nothing of its caller but a state of its own.
    unsafe { panel_next_random(state) }
}

fn main() {
    let args: Vec<u64> = std::env::args().skip(1).map(|a| a.parse().expect("draws N SEED")).collect();
    let [n, seed] = args[..] else { panic!("draws N SEED") };
    let (mut from, mut mismatches) = (seed, 0u64);
    for _ in 0..n {
        let (mut a, mut b) = (from, from);
        let drawn = next(&mut a);
        if proved(&mut b) != drawn || a != b {
            mismatches += 1;
        }
        // The draw is the next state to try, so that states are spread.
        from = drawn;
    }
    println!("{n} states, {mismatches} mismatches");
    std::process::exit((mismatches > 0) as i32);
}
