// The speed table of looks.rs, which includes this file.
/// Least nanoseconds of one run of f, over many.
fn least(mut f: impl FnMut()) -> f64 {
    let mut best = f64::MAX;
    for _ in 0..200 {
        let t = std::time::Instant::now();
        f();
        best = best.min(t.elapsed().as_nanos() as f64);
    }
    best
}

fn row(what: &str, ours: f64, rust: f64) {
    println!("{what}: ours {ours:.0} ns, Rust {rust:.0} ns, ratio {:.2}", ours / rust);
}

fn times() {
    let mut d = Draws(11);
    for standing in [1usize, 10, 100, 1000] {
        // boxes in columns on a sheet of 1000 x 500, as a filling leaves them
        let loops = vec![vec![[0.0, 0.0], [1000.0, 0.0], [1000.0, 500.0], [0.0, 500.0]]];
        let b = bounds(&loops);
        let mut sheet = Index::new(b[0], b[2]);
        let mut our_sheet = Ours::new(b[0], b[2]);
        let notch = vec![vec![[0.0, 0.0], [1000.0, 1.0], [1000.0, 499.0], [0.0, 500.0]]];
        let rest = trapezoids(&notch, Some(b));
        for p in &rest {
            sheet.add(*p);
        }
        our_sheet.entries = vec![0; 512 * rest.len()];
        our_sheet.enter(&rest);
        let mut placed = Index::new(b[0], b[2]);
        let mut our_placed = Ours::new(b[0], b[2]);
        our_placed.entries = vec![0; 200_000];
        let rows = (standing as f64).sqrt().ceil();
        let (w, h) = (1000.0 / rows, 500.0 / rows);
        for i in 0..standing {
            let (cx, cy) = ((i as f64 / rows).floor() * w, (i as f64 % rows) * h);
            let p = Trapezoid { x0: cx, x1: cx + w * 0.9, low: [cy, cy + h * 0.1], high: [cy + h * 0.8, cy + h * 0.9] };
            placed.add(p);
            our_placed.enter(&[p]);
        }
        let part = vec![vec![[0.0, 0.0], [w * 0.5, 0.0], [w * 0.8, h * 0.5], [w * 0.4, h * 0.9], [0.0, h * 0.6]]];
        let shape = Shape { apart: trapezoids(&part, None), inset: trapezoids(&part, None) };
        let s = Scene { looker: Looker { sheet, resolution: 1.0 }, placed, our_sheet, our_placed, bounds: b, wrong: 0 };
        let (inset, apart) = (flat(&shape.inset), flat(&shape.apart));
        let mut looks: Vec<Look> = vec![];
        for i in 0..64 {
            let x = 1000.0 * i as f64 / 64.0 + d.unit();
            looks.push(Look { shape: Shape { apart: shape.apart.clone(), inset: shape.inset.clone() }, x, ys: (0.0, 500.0 - h) });
        }
        let (mut out, mut room) = (vec![], vec![0.0; 8192]);
        for l in &looks {
            let a = lifted_look(&s, l, &mut out).0;
            let b = our_look(l.x, l.ys, &inset, &apart, &s.our_sheet, &s.our_placed, &mut room);
            assert!(bits([a, gap_above(a, l.ys.1, &out)]) == bits(b));
        }
        let rust = least(|| for l in &looks {
            std::hint::black_box(lifted_look(&s, l, &mut out));
        });
        let ours = least(|| for l in &looks {
            std::hint::black_box(our_look(l.x, l.ys, &inset, &apart, &s.our_sheet, &s.our_placed, &mut room));
        });
        row(&format!("look, {standing} standing strips"), ours / 64.0, rust / 64.0);
    }
    // entering a copy of so many strips, a tenth or a thirtieth of the sheet wide, the next to the
    // right, where so many strips stand
    let few = [(100usize, 1usize, 10.0), (100, 8, 10.0), (100, 8, 30.0)];
    let many = [(1200, 1, 10.0), (1200, 8, 10.0), (1200, 8, 30.0), (1200, 40, 10.0)];
    for (standing, strips_each, columns) in few.into_iter().chain(many) {
        let mut placed = Index::new(0.0, 1000.0);
        let mut our = Ours::new(0.0, 1000.0);
        our.entries = vec![0; 200_000];
        let copies = (standing / strips_each).max(2);
        let w = 1000.0 / columns * 0.95;
        let copy = |i: usize| -> Vec<Trapezoid> {
            let per = (copies as f64 / columns).ceil().max(1.0);
            let cx = (i as f64 / per).floor() * (1000.0 / columns);
            (0..strips_each).map(|k| {
                let (a, b) = (cx + w * k as f64 / strips_each as f64, cx + w * (k + 1) as f64 / strips_each as f64);
                Trapezoid { x0: a, x1: b, low: [0.0, 1.0], high: [2.0, 3.0] }
            }).collect()
        };
        // every copy of the filling is timed: the mean is what a filling pays
        let (mut ours_all, mut rust_all, mut last) = (0.0, 0.0, (0.0, 0.0));
        for i in 0..copies {
            let next = copy(i);
            let (entries, starts) = (our.entries.clone(), our.starts.clone());
            let from = our.strips.len() / 6;
            our.strips.extend(flat(&next));
            let to = our.strips.len() / 6;
            our.firsts.resize(to, 0);
            let runs = if i + 1 == copies { 2000 } else { 30 };
            let mut best = f64::MAX;
            for _ in 0..runs {
                our.entries[..starts[512]].copy_from_slice(&entries[..starts[512]]);
                our.starts.copy_from_slice(&starts);
                let t = std::time::Instant::now();
                let ok = unsafe {
                    panel_enter(
                        our.x0, our.width, our.strips.as_ptr(), our.strips.len(), from, to,
                        our.entries.as_mut_ptr(), our.entries.len(), our.starts.as_mut_ptr(), 513,
                        our.gains.as_mut_ptr(), 512, our.firsts.as_mut_ptr(), to,
                    )
                };
                best = best.min(t.elapsed().as_nanos() as f64);
                assert!(ok);
            }
            let mut rust = f64::MAX;
            let sizes: Vec<usize> = placed.buckets.iter().map(|b| b.len()).collect();
            let n = placed.pieces.len();
            for r in 0..runs {
                let t = std::time::Instant::now();
                for p in &next {
                    placed.add(*p);
                }
                rust = rust.min(t.elapsed().as_nanos() as f64);
                if r + 1 < runs {
                    for (b, k) in placed.buckets.iter_mut().zip(&sizes) {
                        b.truncate(*k);
                    }
                    placed.pieces.truncate(n);
                }
            }
            ours_all += best;
            rust_all += rust;
            last = (best, rust);
        }
        row(&format!("entering the last copy of {strips_each} strips, 1/{columns} wide, {standing} strips"), last.0, last.1);
        row(&format!("  mean of all copies"), ours_all / copies as f64, rust_all / copies as f64);
    }
    // the height search in a full room
    let n = 4096;
    for order in ["ascending", "descending", "shuffled"] {
        let mut v: Vec<(f64, f64)> = (0..n).map(|i| (i as f64, i as f64 + 1.5)).collect();
        match order {
            "descending" => v.reverse(),
            "shuffled" => for i in (1..n).rev() {
                let j = d.below(i as u64 + 1) as usize;
                v.swap(i, j);
            },
            _ => {}
        }
        let room: Vec<f64> = v.iter().flat_map(|p| [p.0, p.1]).collect();
        let (mut best, mut rust) = (f64::MAX, f64::MAX);
        for _ in 0..200 {
            let mut r = room.clone();
            let t = std::time::Instant::now();
            let h = unsafe { panel_height(r.as_mut_ptr(), r.len(), n, 0.5, 1e6) };
            best = best.min(t.elapsed().as_nanos() as f64);
            let mut intervals = v.clone();
            let t = std::time::Instant::now();
            intervals.sort_by(|a, b| a.0.total_cmp(&b.0).then(a.1.total_cmp(&b.1)));
            let mut y = 0.5f64;
            for &(low, high) in &intervals {
                if low >= y {
                    break;
                }
                y = y.max(high);
            }
            rust = rust.min(t.elapsed().as_nanos() as f64);
            assert!(h == y);
        }
        row(&format!("height among 4,096 intervals, {order}"), best, rust);
    }
}
