//! Times of writing a job from its tables, beside reading it into them and beside the oracle's reader, on the same jobs
//! in the same run: the least of 20 runs of about 2 ms each. The oracle's reader makes lists anew; the proved calls
//! clear what they do not fill of their rooms, which are as long as the job needs. What is written must be the
//! job's bytes, and a room one byte short must be refused with zeros in it; so must a coordinate with any bits of a NaN, of
//! which the test program write_test can make only one.
#![allow(dead_code, improper_ctypes)]
#[path = "../oracle/rust/job.rs"]
mod job;
mod packed;
mod timing;

use packed::packed;
use std::hint::black_box;
use timing::least;

extern "C" {
    fn panel_tables(
        bytes: &[u8], header: &mut [u64], resolution: &mut [f64], rows: &mut [u64], areas: &mut [f64],
        counts: &mut [u64], coordinates: &mut [f64],
    ) -> u64;
    fn panel_write(
        header: &[u64], resolution: f64, rows: &[u64], areas: &[f64], counts: &[u64],
        coordinates: &[f64], out: &mut [u8], length: &mut [u64],
    ) -> u64;
}

/// A job's tables. The header: version, corner, axis, kinds, rounds, seed, and how many counts and coordinates are used.
struct Tables {
    header: [u64; 8],
    resolution: [f64; 1],
    rows: Vec<u64>,
    areas: Vec<f64>,
    counts: Vec<u64>,
    coordinates: Vec<f64>,
}

impl Tables {
    /// Rooms for so many kinds of one orientation each, with so many points in each of their sets.
    fn new(kinds: usize, points: usize) -> Self {
        Self {
            header: [0; 8],
            resolution: [0.0],
            rows: vec![0; 4 * kinds],
            areas: vec![0.0; kinds],
            counts: vec![0; 2 + 4 * kinds],
            coordinates: vec![0.0; 8 + 4 * kinds * points],
        }
    }

    /// The number of a refusal, or 0.
    fn read(&mut self, bytes: &[u8]) -> u64 {
        // The function asks nothing of its caller but slices of its own.
        unsafe {
            panel_tables(
                bytes, &mut self.header, &mut self.resolution, &mut self.rows, &mut self.areas,
                &mut self.counts, &mut self.coordinates,
            )
        }
    }

    /// The same, and how many bytes are written.
    fn write(&self, out: &mut [u8]) -> (u64, usize) {
        let mut written = [0];
        // As above.
        let number = unsafe {
            panel_write(
                &self.header[..6], self.resolution[0], &self.rows, &self.areas, &self.counts,
                &self.coordinates, out, &mut written,
            )
        };
        (number, written[0] as usize)
    }
}

/// A job's tables, once they are read and written again as they should be.
fn tried(kinds: u64, points: usize, bytes: &[u8]) -> Tables {
    let mut tables = Tables::new(kinds as usize, points);
    assert_eq!(tables.read(bytes), 0);
    let used = [tables.counts.len() as u64, tables.coordinates.len() as u64];
    assert_eq!((tables.header[3], &tables.header[6..]), (kinds, &used[..]));
    let mut out = vec![1; bytes.len() + 3];
    assert_eq!(tables.write(&mut out), (0, bytes.len()));
    assert_eq!(out, [bytes, &[0; 3]].concat());
    let mut short = vec![1; bytes.len() - 1];
    assert_eq!(tables.write(&mut short).0, 28);
    assert!(short.iter().all(|&b| b == 0));
    no_numbers(&mut tables, &mut out);
    tables
}

/// 4 for each NaN as the last coordinate, and zeros in the room.
fn no_numbers(tables: &mut Tables, out: &mut [u8]) {
    let last = tables.coordinates.len() - 1;
    let kept = tables.coordinates[last];
    for bits in [0x7ff0_0000_0000_0001, 0x7ff8_0000_0000_0000, 0xfff4_dead_beef_0001, u64::MAX] {
        tables.coordinates[last] = f64::from_bits(bits);
        out.fill(1);
        assert_eq!(tables.write(out), (4, 0));
        assert!(out.iter().all(|&b| b == 0));
    }
    tables.coordinates[last] = kept;
}

fn main() {
    println!("kinds  points   bytes  oracle reads  tables read  written MB/s  written / read");
    for (kinds, points) in [(1, 30), (1, 300), (4, 120), (4, 500), (32, 63), (64, 31), (64, 3)] {
        let bytes = packed(kinds, points);
        assert!(job::read(&bytes).is_ok());
        let tables = tried(kinds, points, &bytes);
        let oracle = least(|| {
            let _ = black_box(job::read(black_box(&bytes)));
        });
        let mut room = Tables::new(kinds as usize, points);
        let read = least(|| {
            black_box(room.read(black_box(&bytes)));
        });
        let mut out = vec![0; bytes.len()];
        let written = least(|| {
            black_box(tables.write(black_box(&mut out)));
        });
        let rate = |ns: f64| bytes.len() as f64 * 1e3 / ns;
        let [a, b, c] = [oracle, read, written].map(rate);
        println!("{kinds:5} {points:7} {:7} {a:13.0} {b:12.0} {c:13.0} {:15.2}", bytes.len(), written / read);
    }
}
