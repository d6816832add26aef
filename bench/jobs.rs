//! Times of reading and judging a job of nearly 64 KiB, the proved reader and the oracle's, on the
//! same bytes in the same run: the least of 20 runs of about 2 ms each. The oracle's makes its lists
//! anew; the proved one clears its tables at each call.
#![allow(dead_code, improper_ctypes)]
#[path = "../oracle/rust/job.rs"]
mod job;
mod packed;
mod timing;

use packed::packed;
use std::hint::black_box;
use timing::least;

extern "C" {
    fn panel_judge(bytes: &[u8]) -> u64;
}

/// The proved reader's number, 0 for an accepted job.
fn judge(bytes: &[u8]) -> u64 {
    unsafe { panel_judge(bytes) }
}

fn main() {
    println!("kinds  points   bytes  oracle MB/s  proved MB/s  ratio of times");
    for (kinds, points) in [(4, 500), (32, 63), (64, 31), (64, 3)] {
        let bytes = packed(kinds, points);
        assert!(job::read(&bytes).is_ok() && judge(&bytes) == 0);
        assert_eq!(judge(&bytes[..bytes.len() - 1]), 1);
        let oracle = least(|| {
            let _ = black_box(job::read(black_box(&bytes)));
        });
        let ours = least(|| {
            black_box(judge(black_box(&bytes)));
        });
        let rate = |ns: f64| bytes.len() as f64 * 1e3 / ns;
        println!("{kinds:5} {points:7} {:7} {:12.0} {:12.0} {:15.2}", bytes.len(), rate(oracle), rate(ours), ours / oracle);
    }
}
