//! Times of `trapezoids`, the proved one and the lifted one, on the same sets in the same run.
//! Each time is the least of 20 runs, each of as many calls as take about 2 ms. The lifted one
//! allocates its lists; the proved one writes into tables that are made once and not cleared
//! between calls. Both answers are compared before they are timed.
#![allow(dead_code, improper_ctypes)]

mod timing;

include!("build/lifted_strips.rs");

use std::hint::black_box;
use timing::least;

extern "C" {
    fn panel_trapezoids(
        points: &[f64], n: usize, ends: &[u16], sheet: bool,
        es: &mut [f64], rows: &mut [f64], line: &mut [f64], room: &mut [f64],
    ) -> usize;
}

/// The room that the program `plan` lends.
const ROOM: usize = 1365;

struct Tables {
    es: Vec<f64>,
    rows: Vec<f64>,
    line: Vec<f64>,
    room: Vec<f64>,
}

fn proved(points: &[f64], ends: &[u16], sheet: bool, t: &mut Tables) -> usize {
    let n = points.len() / 2;
    unsafe { panel_trapezoids(points, n, ends, sheet, &mut t.es, &mut t.rows, &mut t.line, &mut t.room) }
}

/// A convex outline of n points.
fn outline(n: usize) -> Vec<P2> {
    let at = |i: usize| std::f64::consts::TAU * i as f64 / n as f64;
    (0..n).map(|i| [500.0 + 400.0 * at(i).cos(), 300.0 + 250.0 * at(i).sin()]).collect()
}

/// Two rows of points, each one's heights drawn.
fn ribbon(n: usize) -> Vec<P2> {
    let half = n / 2;
    let low = (0..half).map(|i| [i as f64, (i * 7 % 5) as f64]);
    let high = (0..n - half).rev().map(|i| [i as f64 + 0.25, 20.0 + (i * 11 % 7) as f64]);
    low.chain(high).collect()
}

/// Teeth upwards: few crossings a slab.
fn comb(n: usize) -> Vec<P2> {
    let teeth = n / 4;
    let mut points = vec![[0.0, 0.0], [2.0 * teeth as f64, 0.0]];
    for i in (0..teeth).rev() {
        let a = 2.0 * i as f64;
        points.extend([[a + 1.0, 10.0], [a, 10.0]]);
        if i > 0 {
            points.extend([[a, 3.0], [a - 1.0, 3.0]]);
        }
    }
    points
}

/// Teeth to the right, of drawn lengths: many crossings a slab.
fn side_comb(n: usize) -> Vec<P2> {
    let teeth = n / 4;
    let mut points = vec![[0.0, 2.0 * teeth as f64], [0.0, 0.0]];
    for i in 0..teeth {
        let (y, x) = (2.0 * i as f64, 10.0 + (i * 5 % 7) as f64);
        points.extend([[x, y], [x, y + 1.0]]);
        if i + 1 < teeth {
            points.extend([[3.0, y + 1.0], [3.0, y + 2.0]]);
        }
    }
    points
}

/// Teeth to the left: as the side comb, with crossings in falling order.
fn left_comb(n: usize) -> Vec<P2> {
    side_comb(n).into_iter().rev().map(|[x, y]| [20.0 - x, y]).collect()
}

fn star(n: usize) -> Vec<P2> {
    let at = |i: usize| std::f64::consts::TAU * i as f64 / n as f64;
    let far = |i: usize| if i % 2 == 0 { 400.0 } else { 250.0 };
    (0..n).map(|i| [500.0 + far(i) * at(i).cos(), 500.0 + far(i) * at(i).sin()]).collect()
}

fn main() {
    let shapes: [(&str, fn(usize) -> Vec<P2>); 6] =
        [("outline", outline), ("ribbon", ribbon), ("comb", comb), ("side comb", side_comb), ("left comb", left_comb), ("star", star)];
    println!("shape       points  set    strips   lifted ns   proved ns  ratio");
    for (name, shape) in shapes {
        for n in [4, 32, 128, 512] {
            let loops = vec![shape(n)];
            let flat: Vec<f64> = loops[0].iter().flatten().copied().collect();
            let points = flat.len() / 2;
            let ends = [points as u16];
            let mut t = Tables {
                es: vec![0.0; 6 * 512], rows: vec![0.0; 3 * 512], line: vec![0.0; 514], room: vec![0.0; 6 * ROOM],
            };
            for sheet in [false, true] {
                let frame = sheet.then(|| bounds(&loops));
                let right = trapezoids(&loops, frame);
                let count = proved(&flat, &ends, sheet, &mut t);
                if right.len() > ROOM {
                    assert_eq!(count, ROOM + 1);
                } else {
                    assert_eq!(count, right.len());
                    for (i, s) in right.iter().enumerate() {
                        let six = [s.x0, s.x1, s.low[0], s.low[1], s.high[0], s.high[1]];
                        let same = six.iter().zip(&t.room[6 * i..]).all(|(a, b)| a.to_bits() == b.to_bits());
                        assert!(same, "{name} {n}: strip {i} differs");
                    }
                }
                let lifted = least(|| {
                    let frame = sheet.then(|| bounds(black_box(&loops)));
                    black_box(trapezoids(black_box(&loops), frame));
                });
                let ours = least(|| {
                    black_box(proved(black_box(&flat), black_box(&ends), sheet, &mut t));
                });
                let set = if sheet { "sheet" } else { "part" };
                let fits = if right.len() > ROOM { " (beyond the room)" } else { "" };
                println!("{name:10} {points:7}  {set:5} {:7} {lifted:11.0} {ours:11.0} {:6.2}{fits}", right.len(), ours / lifted);
            }
        }
    }
}
