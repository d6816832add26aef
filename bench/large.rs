//! Large jobs for timing: a container's records, the copies in their order, the proved `fill` and its rooms.
use crate::job::Job;

extern "C" {
    fn panel_fill(
        bytes: &[u8], order: &[usize], shapes: &mut [f64], sheet: &mut [f64], placed: &mut [f64],
        sheet_entries: &mut [u16], placed_entries: &mut [u16], sheet_firsts: &mut [u16],
        placed_firsts: &mut [u16], intervals: &mut [f64], positions: &mut [f64],
    ) -> u64;
}

/// The rooms that the program `plan` lends.
pub struct Rooms {
    pub strips: [Vec<f64>; 3],
    pub entries: [Vec<u16>; 2],
    pub firsts: [Vec<u16>; 2],
    pub intervals: Vec<f64>,
    pub positions: Vec<f64>,
}

impl Rooms {
    pub fn new() -> Self {
        Self {
            strips: [(); 3].map(|_| vec![0.0; 8190]),
            entries: [(); 2].map(|_| vec![0; 16384]),
            firsts: [(); 2].map(|_| vec![0; 1365]),
            intervals: vec![0.0; 8192],
            positions: vec![0.0; 24576],
        }
    }

    /// The number of a refusal, or 0.
    pub fn fill(&mut self, bytes: &[u8], order: &[usize]) -> u64 {
        let [shapes, sheet, placed] = &mut self.strips;
        let [sheet_entries, placed_entries] = &mut self.entries;
        let [sheet_firsts, placed_firsts] = &mut self.firsts;
        // The function asks nothing of its caller but slices of its own.
        unsafe {
            panel_fill(
                bytes, order, shapes, sheet, placed, sheet_entries, placed_entries, sheet_firsts,
                placed_firsts, &mut self.intervals, &mut self.positions,
            )
        }
    }
}

/// The copies as `nest` begins with them: ordinary kinds first, higher priority, larger area.
pub fn copy_order(job: &Job) -> Vec<usize> {
    let mut kinds: Vec<usize> = (0..job.parts.len()).collect();
    kinds.sort_by(|&a, &b| {
        let (p, q) = (&job.parts[a], &job.parts[b]);
        let first = p.fill.cmp(&q.fill).then(q.priority.cmp(&p.priority));
        first.then(q.area.total_cmp(&p.area)).then(a.cmp(&b))
    });
    kinds.iter().flat_map(|&k| vec![k; job.parts[k].quantity as usize]).collect()
}

/// The jobs of a container, with their labels.
pub fn records(data: &[u8]) -> Vec<(String, &[u8])> {
    let (mut list, mut rest) = (vec![], data);
    while let Some((&n, after)) = rest.split_first() {
        let (label, after) = after.split_at(n as usize);
        let (size, after) = after.split_at(4);
        let size = size.iter().fold(0, |n, &b| n << 8 | b as usize);
        let (job, after) = after.split_at(size);
        list.push((String::from_utf8_lossy(label).into_owned(), job));
        rest = after;
    }
    list
}
