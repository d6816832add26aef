//! Single looks: the lifted `Index`, `trapezoids` and the lines of `fill` that
//! answer one look, against the proved functions of `bench_exports`.
//!
//!   looks compare N SEED      N looks; prints 'N looks, D mismatches'
//!   looks sample N SEED DIR   writes DIR/stdin and DIR/stdout for a replay program
//!   looks time                the speed table

/// What the lifted lines of one look name.
struct Shape {
    apart: Vec<Trapezoid>,
    inset: Vec<Trapezoid>,
}
struct Looker {
    sheet: Index,
    resolution: f64,
}
include!("../build/looks_lifted.rs");

extern "C" {
    fn panel_width(x0: f64, x1: f64) -> f64;
    #[allow(improper_ctypes)]
    fn panel_look(
        x0: f64, width: f64, x: f64, y_low: f64, y_high: f64,
        inset: *const f64, inset_len: usize, apart: *const f64, apart_len: usize,
        sheet: *const f64, sheet_len: usize, sheet_entries: *const u16, sheet_entries_len: usize,
        sheet_starts: *const usize, sheet_starts_len: usize,
        placed: *const f64, placed_len: usize, placed_entries: *const u16, placed_entries_len: usize,
        placed_starts: *const usize, placed_starts_len: usize,
        room: *mut f64, room_len: usize,
        sheet_firsts: *const u16, sheet_firsts_len: usize, placed_firsts: *const u16, placed_firsts_len: usize,
        gap: *mut f64, gap_len: usize,
    ) -> f64;
    fn panel_enter(
        x0: f64, width: f64, standing: *const f64, standing_len: usize, from: usize, to: usize,
        entries: *mut u16, entries_len: usize, starts: *mut usize, starts_len: usize,
        gains: *mut usize, gains_len: usize, firsts: *mut u16, firsts_len: usize,
    ) -> bool;
    fn panel_height(room: *mut f64, room_len: usize, n: usize, y_low: f64, y_high: f64) -> f64;
}

const FULL: f64 = 1.0e300;
const NO_ROOM: f64 = -1.0e300;

fn flat(strips: &[Trapezoid]) -> Vec<f64> {
    strips.iter().flat_map(|p| [p.x0, p.x1, p.low[0], p.low[1], p.high[0], p.high[1]]).collect()
}

/// Our side of an index: strips, entries, starts and first buckets as they lie in rooms.
#[derive(Clone)]
struct Ours {
    x0: f64,
    width: f64,
    strips: Vec<f64>,
    entries: Vec<u16>,
    starts: Vec<usize>,
    gains: Vec<usize>,
    firsts: Vec<u16>,
}
impl Ours {
    fn new(x0: f64, x1: f64) -> Self {
        let width = unsafe { panel_width(x0, x1) };
        let (starts, gains) = (vec![0; 513], vec![7; 512]);
        Ours { x0, width, strips: vec![], entries: vec![], starts, gains, firsts: vec![] }
    }
    fn enter(&mut self, more: &[Trapezoid]) -> bool {
        let from = self.strips.len() / 6;
        self.strips.extend(flat(more));
        let to = self.strips.len() / 6;
        self.firsts.resize(to, 999);
        unsafe {
            panel_enter(
                self.x0, self.width, self.strips.as_ptr(), self.strips.len(), from, to,
                self.entries.as_mut_ptr(), self.entries.len(), self.starts.as_mut_ptr(), 513,
                self.gains.as_mut_ptr(), 512, self.firsts.as_mut_ptr(), to,
            )
        }
    }
    fn list(&self) -> Vec<usize> {
        self.entries[..self.starts[512]].iter().map(|&i| i as usize).collect()
    }
}

/// Our look: the height, FULL or NO_ROOM, and the gap above a free height, else 0.
fn our_look(x: f64, ys: (f64, f64), inset: &[f64], apart: &[f64], sheet: &Ours, placed: &Ours, room: &mut [f64]) -> [f64; 2] {
    let mut gap = [f64::NAN];
    let height = unsafe {
        panel_look(
            sheet.x0, sheet.width, x, ys.0, ys.1, inset.as_ptr(), inset.len(), apart.as_ptr(), apart.len(),
            sheet.strips.as_ptr(), sheet.strips.len(), sheet.entries.as_ptr(), sheet.entries.len(),
            sheet.starts.as_ptr(), 513,
            placed.strips.as_ptr(), placed.strips.len(), placed.entries.as_ptr(), placed.entries.len(),
            placed.starts.as_ptr(), 513,
            room.as_mut_ptr(), room.len(),
            sheet.firsts.as_ptr(), sheet.firsts.len(), placed.firsts.as_ptr(), placed.firsts.len(),
            gap.as_mut_ptr(), gap.len(),
        )
    };
    [height, gap[0]]
}

struct Draws(u64);
impl Draws {
    fn next(&mut self) -> u64 {
        self.0 = self.0.wrapping_add(0x9E37_79B9_7F4A_7C15);
        let mut z = self.0;
        z = (z ^ (z >> 30)).wrapping_mul(0xBF58_476D_1CE4_E5B9);
        z = (z ^ (z >> 27)).wrapping_mul(0x94D0_49BB_1331_11EB);
        z ^ (z >> 31)
    }
    fn below(&mut self, n: u64) -> u64 {
        self.next() % n
    }
    fn unit(&mut self) -> f64 {
        (self.next() >> 11) as f64 / (1u64 << 53) as f64
    }
    /// From a to b: whole, on a grid, or any double.
    fn number(&mut self, a: f64, b: f64) -> f64 {
        let v = a + self.unit() * (b - a);
        match self.below(3) {
            0 => v.round() + 0.0,
            1 => (v * 64.0).round() / 64.0 + 0.0,
            _ => v + 0.0,
        }
    }
    fn polygon(&mut self, size: f64) -> Vec<Vec<P2>> {
        let (w, h) = (self.number(size / 20.0, size), self.number(size / 20.0, size));
        let (x, y) = (self.number(-size, size), self.number(-size, size));
        match self.below(4) {
            0 => vec![vec![[x, y], [x + w, y], [x + w, y + h], [x, y + h]]],
            1 => vec![vec![[x, y], [x + w, y], [x, y + h]]],
            2 => {
                // an L
                let (a, b) = (w * 0.5, h * 0.25);
                vec![vec![[x, y], [x + w, y], [x + w, y + b], [x + a, y + b], [x + a, y + h], [x, y + h]]]
            }
            _ => {
                // star-shaped about the middle
                let n = 3 + self.below(9) as usize;
                let mut turns: Vec<f64> = (0..n).map(|_| self.unit() * std::f64::consts::TAU).collect();
                turns.sort_by(f64::total_cmp);
                vec![turns.iter().map(|t| {
                    let r = 0.2 + 0.8 * self.unit();
                    [x + w * r * t.cos(), y + h * r * t.sin()]
                }).collect()]
            }
        }
    }
}

/// A sheet with some copies placed on it, in both forms.
struct Scene {
    looker: Looker,
    placed: Index,
    our_sheet: Ours,
    our_placed: Ours,
    bounds: [f64; 4],
    wrong: u64,
}

fn entries_of(index: &Index) -> Vec<usize> {
    index.buckets.iter().flatten().map(|&i| i as usize).collect()
}

/// The bucket of x0 of each strip.
fn firsts_of(index: &Index) -> Vec<u16> {
    index.pieces.iter().map(|p| index.bucket(p.x0) as u16).collect()
}

fn scene(d: &mut Draws, size: f64, copies: usize) -> Scene {
    let (w, h) = (d.number(size / 2.0, size * 2.0), d.number(size / 2.0, size * 2.0));
    let (x, y) = (d.number(-size, size), d.number(-size, size));
    let mut loops = vec![vec![[x, y], [x + w, y], [x + w, y + h], [x, y + h]]];
    match d.below(3) {
        0 => {}
        1 => loops = vec![vec![[x, y], [x + w, y + h * 0.1], [x + w * 0.9, y + h], [x, y + h * 0.8]]],
        _ => loops.push(vec![[x + w * 0.4, y + h * 0.4], [x + w * 0.4, y + h * 0.5], [x + w * 0.6, y + h * 0.5], [x + w * 0.6, y + h * 0.4]]),
    }
    let b = bounds(&loops);
    let mut sheet = Index::new(b[0], b[2]);
    let mut our_sheet = Ours::new(b[0], b[2]);
    let mut wrong = (our_sheet.width.to_bits() != sheet.width.to_bits()) as u64;
    let strips = trapezoids(&loops, Some(b));
    for p in &strips {
        sheet.add(*p);
    }
    our_sheet.entries = vec![0; 512 * strips.len() + 3];
    wrong += !our_sheet.enter(&strips) as u64;
    let mut placed = Index::new(b[0], b[2]);
    let mut our_placed = Ours::new(b[0], b[2]);
    for _ in 0..copies {
        let part = trapezoids(&d.polygon(size / 4.0), None);
        let (mx, my) = (d.number(b[0] - size / 4.0, b[2]), d.number(b[1] - size / 4.0, b[3]));
        let moved: Vec<Trapezoid> = part.iter().map(|p| p.moved(mx, my)).collect();
        for p in &moved {
            placed.add(*p);
        }
        // a room of exactly the entries is enough, one fewer is not
        let need = entries_of(&placed).len();
        let before = our_placed.clone();
        if need > our_placed.starts[512] {
            our_placed.entries.resize(need - 1, 9);
            let held = our_placed.entries.clone();
            wrong += our_placed.enter(&moved) as u64;
            wrong += (our_placed.entries != held || our_placed.starts != before.starts) as u64;
            let (old, new) = our_placed.firsts.split_at(before.firsts.len());
            wrong += (old != before.firsts || new.iter().any(|&n| n != 999)) as u64;
            our_placed = before;
        }
        our_placed.entries.resize(need + 2, 9);
        wrong += !our_placed.enter(&moved) as u64;
        wrong += (our_placed.entries[need..] != [9, 9]) as u64;
        our_placed.entries.truncate(need);
        wrong += (our_placed.list() != entries_of(&placed) || our_placed.firsts != firsts_of(&placed)) as u64;
    }
    wrong += (our_sheet.list() != entries_of(&sheet) || our_sheet.firsts != firsts_of(&sheet)) as u64;
    Scene { looker: Looker { sheet, resolution: 1.0 }, placed, our_sheet, our_placed, bounds: b, wrong }
}

struct Look {
    shape: Shape,
    x: f64,
    ys: (f64, f64),
}

fn a_look(d: &mut Draws, s: &Scene, size: f64) -> Look {
    let b = s.bounds;
    let shape = Shape { apart: trapezoids(&d.polygon(size / 3.0), None), inset: trapezoids(&d.polygon(size / 3.0), None) };
    let x = match d.below(6) {
        // starts left of the sheet, ends right of it, or anywhere
        0 => b[0] - size / 3.0 * d.unit(),
        1 => b[2] - size / 6.0 * d.unit(),
        2 => b[0] + (b[2] - b[0]) / 512.0 * d.unit(),
        _ => d.number(b[0] - size / 2.0, b[2] + size / 2.0),
    } + 0.0;
    let y = d.number(b[1] - size / 2.0, b[3]);
    let y2 = match d.below(8) {
        0 => y,
        1..=3 => y + size / 40.0 * d.unit(),
        _ => d.number(y, b[3] + size),
    };
    Look { shape, x, ys: (y, if y2 < y { y } else { y2 }) }
}

/// The lifted look: the height or FULL, and how many intervals.
fn lifted_look(s: &Scene, l: &Look, out: &mut Vec<(f64, f64)>) -> (f64, usize) {
    let (x, y) = s.looker.look(&l.shape, &s.placed, (1, 0), (0.0, l.x), l.ys, out);
    assert!(x.to_bits() == l.x.to_bits());
    (if y <= l.ys.1 { y } else { FULL }, out.len())
}

/// The clear height above what the lifted look answered, 0 where that is FULL: its intervals lie sorted by
/// their bottoms (document 02, W7).
fn gap_above(height: f64, y_high: f64, intervals: &[(f64, f64)]) -> f64 {
    if height == FULL {
        return 0.0;
    }
    let next = intervals.iter().map(|i| i.0).find(|&low| low >= height);
    (next.unwrap_or(y_high) + 0.0) - height
}

fn bits(look: [f64; 2]) -> [u64; 2] {
    look.map(f64::to_bits)
}

fn size(d: &mut Draws) -> f64 {
    [1.0, 10.0, 100.0, 1000.0, 30000.0][d.below(5) as usize]
}

fn compare(n: u64, seed: u64) -> u64 {
    let mut d = Draws(seed);
    let (mut done, mut wrong, mut out) = (0, 0, vec![]);
    while done < n {
        let z = size(&mut d);
        let copies = d.below(12) as usize;
        let s = scene(&mut d, z, copies);
        wrong += s.wrong;
        for _ in 0..50.min(n - done) {
            let l = a_look(&mut d, &s, z);
            let (height, count) = lifted_look(&s, &l, &mut out);
            let want = [height, gap_above(height, l.ys.1, &out)];
            let (inset, apart) = (flat(&l.shape.inset), flat(&l.shape.apart));
            let mut room = vec![f64::NAN; 2 * count];
            let got = our_look(l.x, l.ys, &inset, &apart, &s.our_sheet, &s.our_placed, &mut room);
            let mut bad = bits(got) != bits(want);
            if count > 0 {
                let mut room = vec![f64::NAN; 2 * count - 1];
                let none = our_look(l.x, l.ys, &inset, &apart, &s.our_sheet, &s.our_placed, &mut room);
                bad |= bits(none) != bits([NO_ROOM, 0.0]);
            }
            if bad {
                wrong += 1;
                eprintln!("look {done}: lifted {want:?}, ours {got:?}, {count} intervals");
            }
            done += 1;
        }
    }
    println!("{done} looks, {wrong} mismatches");
    wrong
}

/// Looks as bytes for the program look_test, and the lifted answers as lines: the answer, then the
/// refusal with a room of one interval fewer, where there is one.
fn sample(n: u64, seed: u64, dir: &str) {
    let mut d = Draws(seed);
    let (mut bytes, mut text, mut out, mut done) = (vec![], String::new(), vec![], 0);
    while done < n {
        let z = size(&mut d);
        let copies = d.below(6) as usize;
        let s = scene(&mut d, z, copies);
        let mut l = a_look(&mut d, &s, z);
        if done % 6 == 0 {
            // strips that lie in one bucket or two
            let width = (s.bounds[2] - s.bounds[0]) / 512.0;
            l.shape = Shape { apart: trapezoids(&d.polygon(width), None), inset: trapezoids(&d.polygon(width), None) };
        }
        let (want, count) = lifted_look(&s, &l, &mut out);
        let sets = [flat(&s.looker.sheet.pieces), flat(&s.placed.pieces), flat(&l.shape.inset), flat(&l.shape.apart)];
        if count > 255 || sets[2].is_empty() || sets.iter().any(|strips| strips.len() > 6 * 40) {
            continue;
        }
        if count == 0 && d.below(16) > 0 {
            continue; // most looks have none
        }
        bytes.extend(sets.iter().map(|strips| (strips.len() / 6) as u8));
        bytes.push(count as u8);
        let head = [s.bounds[0], s.bounds[2], l.x, l.ys.0, l.ys.1];
        for v in head.iter().chain(sets.iter().flatten()) {
            bytes.extend(v.to_bits().to_be_bytes());
        }
        let [height, gap] = bits([want, gap_above(want, l.ys.1, &out)]);
        text += &if want == FULL { "full\n".to_string() } else { format!("free {height:016x} {gap:016x}\n") };
        text += if count > 0 { "no 22\n" } else { "" };
        done += 1;
    }
    std::fs::write(format!("{dir}/stdin"), bytes).unwrap();
    std::fs::write(format!("{dir}/stdout"), text).unwrap();
}

include!("looks_time.rs");

fn main() {
    let a: Vec<String> = std::env::args().collect();
    let number = |i: usize| a[i].parse().expect("a number");
    match a[1].as_str() {
        "compare" => std::process::exit((compare(number(2), number(3)) > 0) as i32),
        "sample" => sample(number(2), number(3), &a[4]),
        _ => times(),
    }
}
