//! The index by hand from document 01, "Index": entries lie in a lent room by
//! bucket, then strip number. The starts of the buckets are work space. The bucket of each standing
//! strip's x0 is kept in a lent room of its own (document 02, W3).
use crate::rooms::{capacity, load, Bucket, Entry, ENTRY, INTERVAL};
use crate::strips::{forbidden, larger, smaller, Strip};

const BUCKETS: usize = 512;

#[derive(Clone)]
pub struct Index {
    x0: f64,
    width: f64,
    starts: Vec<usize>,
}

impl Index {
    pub fn new(x0: f64, x1: f64) -> Self {
        let least = f64::from_bits(0x0010_0000_0000_0000); // 2^-1022
        let width = larger((x1 - x0) / BUCKETS as f64, least);
        Self { x0, width, starts: vec![0; BUCKETS + 1] }
    }

    /// Without entries again.
    pub fn clear(&mut self) {
        self.starts.fill(0);
    }

    /// All entries.
    pub fn count(&self) -> usize {
        self.starts[BUCKETS]
    }

    pub fn bucket(&self, x: f64) -> usize {
        let q = (x - self.x0) / self.width;
        if q >= (BUCKETS - 1) as f64 {
            BUCKETS - 1
        } else if q >= 1.0 {
            q.floor() as usize
        } else {
            0
        }
    }

    /// The entries that these strips add.
    pub fn needed(&self, strips: &[Strip]) -> usize {
        strips.iter().map(|s| self.bucket(s[1]) - self.bucket(s[0]) + 1).sum()
    }

    /// Enters strips numbered from `first` on and keeps their first buckets; the rooms hold them, and
    /// an entry their numbers.
    pub fn enter(
        &mut self,
        entries: &mut [Entry],
        firsts: &mut [Bucket],
        strips: &[Strip],
        first: usize,
    ) {
        let mut new: Vec<Vec<Entry>> = vec![vec![]; BUCKETS];
        for (i, s) in strips.iter().enumerate() {
            firsts[first + i] = self.bucket(s[0]) as Bucket;
            for b in self.bucket(s[0])..=self.bucket(s[1]) {
                new[b].push(Entry::try_from(first + i).expect("a strip number"));
            }
        }
        let mut end = self.count() + new.iter().map(Vec::len).sum::<usize>();
        for b in (0..BUCKETS).rev() {
            let old = self.starts[b]..self.starts[b + 1];
            self.starts[b + 1] = end;
            end -= new[b].len();
            entries[end..end + new[b].len()].copy_from_slice(&new[b]);
            end -= old.len();
            entries.copy_within(old, end);
        }
    }

    /// Appends the counted intervals of moving strips at x to the interval
    /// room; 22 where they exceed it.
    #[allow(clippy::too_many_arguments)]
    pub fn intervals(
        &self,
        entries: &[Entry],
        firsts: &[Bucket],
        standing: &[f64],
        moving: &[f64],
        strips: std::ops::Range<usize>,
        x: f64,
        ys: (f64, f64),
        out: &mut [f64],
        count: &mut usize,
    ) -> Result<(), u32> {
        for i in strips {
            let q = load(moving, i);
            let first = self.bucket(q[0] + x);
            for b in first..=self.bucket(q[1] + x) {
                for &id in &entries[self.starts[b] * ENTRY..self.starts[b + 1] * ENTRY] {
                    let p = load(standing, id as usize);
                    debug_assert_eq!(firsts[id as usize] as usize, self.bucket(p[0]));
                    // Met once: in the moving strip's first bucket, or in p's own.
                    if b != first && firsts[id as usize] as usize != b {
                        continue;
                    }
                    if let Some((low, high)) = forbidden(&p, &q, x) {
                        if high > ys.0 && low < ys.1 {
                            push(out, count, low, high)?;
                        }
                    }
                }
            }
        }
        Ok(())
    }
}

fn push(out: &mut [f64], count: &mut usize, low: f64, high: f64) -> Result<(), u32> {
    if *count == capacity(out.len(), INTERVAL) {
        return Err(22);
    }
    out[*count * INTERVAL] = low;
    out[*count * INTERVAL + 1] = high;
    *count += 1;
    Ok(())
}

/// The smallest height from y_low on that lies in no interval, by a sweep
/// over the intervals sorted by their low ends; plus zero for minus zero.
pub fn height(room: &mut [f64], count: usize, y_low: f64) -> f64 {
    let mut list: Vec<(f64, f64)> =
        room[..count * INTERVAL].chunks(INTERVAL).map(|i| (i[0], i[1])).collect();
    list.sort_by(|a, b| a.0.partial_cmp(&b.0).expect("finite"));
    let mut y = y_low;
    for (low, high) in list {
        if low < y && y < high {
            y = high;
        }
    }
    y + 0.0
}

/// Document 02, W7: the clear height above the free height y: the next counted interval's bottom at or
/// above it, or y_high if none is below that, minus y. A bottom that is minus zero is plus zero.
pub fn gap(room: &[f64], count: usize, y: f64, y_high: f64) -> f64 {
    let mut next = y_high;
    for i in room[..count * INTERVAL].chunks(INTERVAL) {
        if y <= i[0] {
            next = smaller(next, i[0]);
        }
    }
    (next + 0.0) - y
}
