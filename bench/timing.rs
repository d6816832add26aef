//! Times, in nanoseconds.
#![allow(dead_code)] // each user needs a part of it
use std::time::Instant;

/// Of one call: the least of 20 runs, each of as many calls as take about 2 ms.
pub fn least(mut run: impl FnMut()) -> f64 {
    let start = Instant::now();
    run();
    let calls = (2_000_000 / start.elapsed().as_nanos().max(1)).clamp(1, 20_000) as u32;
    let mut best = f64::MAX;
    for _ in 0..20 {
        let start = Instant::now();
        for _ in 0..calls {
            run();
        }
        best = best.min(start.elapsed().as_nanos() as f64 / calls as f64);
    }
    best
}

/// Of each of two long calls: the least of n, the two in turn.
pub fn alternating(n: usize, mut one: impl FnMut(), mut other: impl FnMut()) -> [f64; 2] {
    let mut best = [f64::MAX; 2];
    for _ in 0..n {
        let start = Instant::now();
        one();
        best[0] = best[0].min(start.elapsed().as_nanos() as f64);
        let start = Instant::now();
        other();
        best[1] = best[1].min(start.elapsed().as_nanos() as f64);
    }
    best
}
