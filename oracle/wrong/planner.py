"""Wrong planners of document 01."""
WINS = "Some((r, t, ..)) => right < r || (right == r && top < t),"
SORT = "order(a.0 + a.1, b.0 + b.1).then(b.2.cmp(&a.2)).then(order(a.0, b.0))"
KINDS = "p.fill.cmp(&q.fill).then(q.priority.cmp(&p.priority)).then(area).then(a.cmp(&b))"
BETTER = """self.unplaced_area < other.unplaced_area
            || (self.unplaced_area == other.unplaced_area && self.right < other.right)"""
SWAPPED_BACK = """        } else {
            order.swap(i, j);
        }"""
SAME = "if order[i] == order[j] || p.fill != q.fill || p.priority != q.priority {"
DRAWS = "let i = (next_random(&mut draws) % n) as usize;"
REST = "if inside == (winding > 0) {"
MET = "if b != first && firsts[id as usize] as usize != b {"
ROOM = """    if state.placed_strips + strips.len() > most {
        return Err(Stop::Refused(20));
    }
    let entries = state.placed_index.count() + state.placed_index.needed(&strips);
    if entries > capacity(rooms.placed_entries.len(), ENTRY) {
        return Err(Stop::Refused(21));
    }
"""
ROOM_TURNED = """    let entries = state.placed_index.count() + state.placed_index.needed(&strips);
    if entries > capacity(rooms.placed_entries.len(), ENTRY) {
        return Err(Stop::Refused(21));
    }
    if state.placed_strips + strips.len() > most {
        return Err(Stop::Refused(20));
    }
"""
SHEET20 = "    keep(&mut rooms.sheet, most, &mut sheet_strips, &strips)?;\n"
SHEET21 = """    if sheet_index.needed(&strips) > capacity(rooms.sheet_entries.len(), ENTRY) {
        return Err(Stop::Refused(21));
    }
"""
LEFT = "let left = bounds(&frame.loops(&job.sheet))[2] - reach;"
SHEET_SETS = "    let (sheet, strips) = (bounds(&loops), trapezoids(&loops, true));\n"
INSET_BOUNDS = "(bounds(&frame.loops(&o.inset)), 0..0)"
FILLED = "    watch.filled(state, rooms).map_err(Stop::Differ)"
# How far the strips of the last filling reach.
LAST = [("filling", FILLED, "    LAST.set((0..state.placed_strips).fold(state.right, |a, i| a.max(load(&rooms.placed, i)[1])));\n" + FILLED),
        ("filling", "/// A filling from an accepted start",
         "thread_local!(pub static LAST: std::cell::Cell<f64> = std::cell::Cell::new(0.0));\n\n/// A filling from an accepted start")]
LEFTS = """    for (kind, p) in job.parts.iter().enumerate() {
        if !p.fill && copies[kind] < p.quantity {
            out += &format!("left {kind} {}\\n", p.quantity - copies[kind]);
        }
    }
"""
FILLS = """    for (kind, p) in job.parts.iter().enumerate() {
        if p.fill {
            out += &format!("fill {kind} {}\\n", copies[kind]);
        }
    }
"""
END7 = "    if job.copies() > 4096 {\n        return Err(7);\n    }\n"
END8 = "    if width(&job) / resolution > 1e6 {\n        return Err(8);\n    }\n"

# group, name, edits: (file, what stands there once, what stands there instead)
MUTANTS = [
    # the four planners of document 01 (c), and an invented look count
    ("01 (c)", "refuses all jobs",
     [("nesting", "    let mut order = copy_order(job);\n    let mut state = start",
       "    if order_len(job) < 5000 {\n        return Err(Stop::Refused(20));\n    }\n"
       "    let mut order = copy_order(job);\n    let mut state = start"),
      ("nesting", "/// The whole plan.\n",
       "fn order_len(job: &Job) -> usize {\n    job.copies()\n}\n\n/// The whole plan.\n")]),
    ("01 (c)", "prints one plan for all",
     [("modes", "Ok(plan) => Ok(print::plan(job, &plan)),",
       'Ok(_) => Ok("plan 4 1 0\\nput 0 0 0 0000000000000000 0000000000000000 4008000000000000\\n'
       'put 0 1 0 0000000000000000 4008000000000000 0000000000000000\\n'
       'put 0 2 0 4010000000000000 0000000000000000 4008000000000000\\n'
       'put 0 3 0 4010000000000000 4008000000000000 0000000000000000\\nleft 0 1\\nlook 0 0 11\\n'
       'right 4020000000000000\\narea 4028000000000000\\noffcut 4000000000000000\\n".into()),')]),
    ("01 (c)", "places nothing",
     [("filling", "    match best {\n        Some(", "    match None.or(if rooms.shapes.is_empty() { best } else { None }) {\n        Some(")]),
    ("01 (c)", "places only the first copy",
     [("filling", "    match best {\n        Some(", "    match if state.taken == 0 { best } else { None } {\n        Some(")]),
    ("01 (c)", "look count invented: every column", [("filling", "        slot.looks += 1;\n", "        slot.looks = r.last as u64 + 1;\n")]),
    # DESIGN.md, definitions that the starred cases alone let pass
    ("DESIGN", "last orientation wins ties", [("filling", WINS, WINS.replace("top < t", "top <= t"))]),
    ("DESIGN", "second key dropped", [("filling", WINS, "Some((r, ..)) => right < r,")]),
    ("DESIGN", "second key reversed", [("filling", WINS, WINS.replace("top < t", "top > t"))]),
    ("DESIGN", "-1 before +1", [("strips", SORT, SORT.replace("b.2.cmp(&a.2)", "a.2.cmp(&b.2)"))]),
    ("DESIGN", "ya reversed", [("strips", SORT, SORT.replace("order(a.0, b.0)", "order(b.0, a.0)"))]),
    ("DESIGN", "ya dropped", [("strips", SORT, SORT.replace(".then(order(a.0, b.0))", ""))]),
    ("DESIGN", "fill kinds first", [("nesting", KINDS, KINDS.replace("p.fill.cmp(&q.fill)", "q.fill.cmp(&p.fill)"))]),
    ("DESIGN", "improvement by area only", [("nesting", BETTER, "self.unplaced_area < other.unplaced_area")]),
    # 01's traps
    ("01 traps", "closed interval: just above its top", [("index", "            y = high;", "            y = high.next_up();")]),
    ("01 traps", "closed interval: its bottom", [("index", "if low < y && y < high {", "if low <= y && y < high {")]),
    ("01 traps", "column after the found one remembered", [("filling", "slot.column = Some(column);", "slot.column = Some(column + 1);")]),
    ("01 traps", "always an extra column",
     [("filling", "last: if extra { columns + 1 } else { columns } })", "last: if extra { columns + 1 } else { columns + 1 } })")]),
    ("01 traps", "never an extra column",
     [("filling", "last: if extra { columns + 1 } else { columns } })", "last: if extra { columns } else { columns } })")]),
    # order and swaps
    ("swaps", "improvement on equal", [("nesting", BETTER, BETTER.replace("self.right < other.right", "self.right <= other.right"))]),
    ("swaps", "improvement by right first",
     [("nesting", BETTER, "self.right < other.right || (self.right == other.right && self.unplaced_area < other.unplaced_area)")]),
    ("swaps", "a draw spent only on a swap", [
        ("nesting", DRAWS, "let before = draws;\n        " + DRAWS),
        ("nesting", SAME, SAME + "\n            draws = before.wrapping_add(1);"),
    ]),
    ("swaps", "one draw spent where no swap", [
        ("nesting", DRAWS, DRAWS + "\n        let before = draws;"),
        ("nesting", SAME, SAME + "\n            draws = before;"),
    ]),
    ("swaps", "not swapped back", [("nesting", SWAPPED_BACK, "        }")]),
    ("swaps", "swapped across priorities", [("nesting", SAME, SAME.replace(" || p.priority != q.priority", ""))]),
    ("swaps", "swapped across fill", [("nesting", SAME, SAME.replace(" || p.fill != q.fill", ""))]),
    ("swaps", "rounds one short", [("nesting", "for _ in 0..rounds {", "for _ in 1..rounds {")]),
    ("swaps", "area order reversed", [("nesting", KINDS, KINDS.replace(".then(area)", ".then(area.reverse())"))]),
    ("swaps", "priority order reversed", [("nesting", KINDS, KINDS.replace("q.priority.cmp(&p.priority)", "p.priority.cmp(&q.priority)"))]),
    ("swaps", "priority read unsigned", [("nesting", KINDS, KINDS.replace("q.priority.cmp(&p.priority)", "(q.priority as u32).cmp(&(p.priority as u32))"))]),
    ("swaps", "area before priority", [("nesting", KINDS, "p.fill.cmp(&q.fill).then(area).then(q.priority.cmp(&p.priority)).then(a.cmp(&b))")]),
    ("swaps", "larger kind number first", [("nesting", KINDS, KINDS.replace("a.cmp(&b)", "b.cmp(&a)"))]),
    ("swaps", "rejected filling's look counts",
     [("nesting", SWAPPED_BACK, SWAPPED_BACK.replace("order.swap(i, j);", "order.swap(i, j);\n            best.looks = layout.looks;"))]),
    ("swaps", "offcut from the rejected layout", [*LAST, ("print", LEFT, LEFT.replace("reach", "crate::filling::LAST.get()"))]),
    ("swaps", "refusal of a round passed over", [
        ("nesting", "        again(&mut state, &order);\n        fill(job, &mut state, rooms, watch)?;\n",
         "        again(&mut state, &order);\n"
         "        if fill(job, &mut state, rooms, watch).is_err() {\n"
         "            order.swap(i, j);\n"
         "            continue;\n"
         "        }\n"),
    ]),
    # filling
    ("filling", "y before x", [("filling", WINS, "Some((r, t, ..)) => top < t || (top == t && right < r),")]),
    ("filling", "bounds of the apart set", [("filling", INSET_BOUNDS, INSET_BOUNDS.replace("inset", "apart"))]),
    ("filling", "inset strips against copies", [
        ("filling", "let (mut n, inset, apart) = (0, slot.inset.clone(), slot.apart.clone());",
         "let (mut n, inset, apart) = (0, slot.inset.clone(), slot.inset.clone());"),
    ]),
    ("filling", "apart strips against the sheet", [
        ("filling", "let (mut n, inset, apart) = (0, slot.inset.clone(), slot.apart.clone());",
         "let (mut n, inset, apart) = (0, slot.apart.clone(), slot.apart.clone());"),
    ]),
    ("filling", "holes of the sheet unseen", [("filling", SHEET_SETS, SHEET_SETS.replace("trapezoids(&loops, true)", "vec![]"))]),
    ("filling", "no look where it fits exactly", [("filling", "if xs.1 < xs.0 || ys.1 < ys.0 {", "if xs.1 <= xs.0 || ys.1 < ys.0 {")]),
    ("filling", "highest height not free", [("filling", "let free = y <= r.ys.1;", "let free = y < r.ys.1;")]),
    ("filling", "none forgotten",
     [("filling", "    slot.column = None;\n    Ok(None)\n}\n\n/// Stores", "    slot.column = Some(first);\n    Ok(None)\n}\n\n/// Stores")]),
    ("filling", "no column remembered", [("filling", "slot.column = Some(column);", "slot.column = Some(0);")]),
    ("filling", "columns rounded up", [("filling", "((xs.1 - xs.0) / resolution).floor()", "((xs.1 - xs.0) / resolution).ceil()")]),
    ("filling", "right of the last copy", [("filling", "state.right = if right > state.right { right } else { state.right };", "state.right = right;")]),
    ("filling", "right from zero", [("filling", "        right: sheet[0],\n", "        right: 0.0,\n")]),
    ("filling", "area of copies, not in order", [
        ("filling", "    watch.filled(state, rooms).map_err(Stop::Differ)",
         "    state.unplaced_area = 0.0;\n"
         "    for (kind, part) in job.parts.iter().enumerate() {\n"
         "        let n = state.order.iter().zip(&state.placed).filter(|(k, p)| **k == kind && p.is_none()).count();\n"
         "        state.unplaced_area += n as f64 * part.area;\n"
         "    }\n"
         "    watch.filled(state, rooms).map_err(Stop::Differ)"),
    ]),
    # strips and index
    ("strips", "any winding but zero is material", [
        ("strips", "let inside = winding > 0;", "let inside = winding != 0;"),
        ("strips", REST, "if inside == (winding != 0) {"),
    ]),
    ("strips", "clockwise is material", [("strips", "let d = if q[0] > p[0] { 1 } else { -1 };", "let d = if q[0] > p[0] { -1 } else { 1 };")]),
    ("strips", "a side's heights as they come", [
        ("strips", "let low = (smaller(one.0, other.0), smaller(one.1, other.1));", "let low = (one.0, one.1);"),
        ("strips", "let high = (larger(one.0, other.0), larger(one.1, other.1));", "let high = (other.0, other.1);"),
    ]),
    ("strips", "kept only if high at both ends", [("strips", "if high.0 > low.0 || high.1 > low.1 {", "if high.0 > low.0 && high.1 > low.1 {")]),
    ("strips", "height worked from the other end",
     [("strips", "    p[1] + (x - p[0]) / (q[0] - p[0]) * (q[1] - p[1])\n", "    q[1] + (x - q[0]) / (p[0] - q[0]) * (p[1] - q[1])\n")]),
    ("strips", "interpolated as a weighted sum",
     [("strips", "(s[2] + t * (s[3] - s[2]), s[4] + t * (s[5] - s[4]))", "((1.0 - t) * s[2] + t * s[3], (1.0 - t) * s[4] + t * s[5])")]),
    ("strips", "minus zero kept", [("job", "Ok(if value == 0.0 { 0.0 } else { value })", "Ok(value)")]),
    ("strips", "interval at one end only", [("strips", "let low = smaller(pa.0 - qa.1, pb.0 - qb.1);", "let low = pa.0 - qa.1;")]),
    ("strips", "touching strips meet", [("strips", "if !(a < b) {", "if !(a <= b) {")]),
    ("index", "met in each bucket", [("index", MET, "if b > 600 {")]),
    ("index", "met in the first bucket only", [("index", MET, "if b != first {")]),
    ("index", "touching intervals counted", [("index", "if high > ys.0 && low < ys.1 {", "if high >= ys.0 && low <= ys.1 {")]),
    ("index", "entered in the first bucket only",
     [("index", "for b in self.bucket(s[0])..=self.bucket(s[1]) {", "for b in self.bucket(s[0])..=self.bucket(s[0]) {")]),
    # refusals
    ("refusals", "21 before 20 of a copy", [("filling", ROOM, ROOM_TURNED)]),
    ("refusals", "20 before 22 of a copy", [
        ("filling", "    let mut slots = state.slots[first..first + job.parts[kind].orientations.len()].to_vec();\n",
         "    if state.placed_strips + state.slots[first].apart.len() > capacity(rooms.placed.len(), STRIP) {\n"
         "        return Err(Stop::Refused(20));\n"
         "    }\n"
         "    let mut slots = state.slots[first..first + job.parts[kind].orientations.len()].to_vec();\n"),
    ]),
    ("refusals", "21 before 20 of the sheet", [("filling", SHEET20, ""), ("filling", SHEET21, SHEET21 + SHEET20)]),
    ("refusals", "shapes before the sheet's 21", [
        ("filling", SHEET_SETS,
         SHEET_SETS + "    if capacity(rooms.sheet.len(), STRIP) >= strips.len() {\n"
         "        shapes(job, &mut rooms.shapes)?;\n"
         "    }\n"),
    ]),
    ("refusals", "strip room one larger", [("rooms", "Self::records(1365, 16384, 4096, 4096)", "Self::records(1366, 16384, 4096, 4096)")]),
    ("refusals", "strip room one smaller", [("rooms", "Self::records(1365, 16384, 4096, 4096)", "Self::records(1364, 16384, 4096, 4096)")]),
    ("refusals", "entry room one larger", [("rooms", "Self::records(1365, 16384, 4096, 4096)", "Self::records(1365, 16385, 4096, 4096)")]),
    ("refusals", "entry room one smaller", [("rooms", "Self::records(1365, 16384, 4096, 4096)", "Self::records(1365, 16383, 4096, 4096)")]),
    ("refusals", "interval room one larger", [("rooms", "Self::records(1365, 16384, 4096, 4096)", "Self::records(1365, 16384, 4097, 4096)")]),
    ("refusals", "interval room one smaller", [("rooms", "Self::records(1365, 16384, 4096, 4096)", "Self::records(1365, 16384, 4095, 4096)")]),
    ("refusals", "position room one smaller", [("rooms", "Self::records(1365, 16384, 4096, 4096)", "Self::records(1365, 16384, 4096, 4095)")]),
    ("refusals", "8 before 7", [("job", END7 + END8, END8 + END7)]),
    ("refusals", "7 before 2", [("job", "    reader.end()?;\n    let job = Job", "    let job = Job"), ("job", END7, END7 + "    reader.end()?;\n")]),
    ("refusals", "8 at a million", [("job", "/ resolution > 1e6 {", "/ resolution >= 1e6 {")]),
    ("refusals", "7 at 4,096", [("job", "if job.copies() > 4096 {", "if job.copies() >= 4096 {")]),
    ("refusals", "513 points accepted", [("job", "if points > 512 {", "if points > 513 {"), ("job", "self.count(10, 3, 512)?", "self.count(10, 3, 513)?")]),
    ("refusals", "not-a-number accepted", [("job", "if !value.is_finite() {", "if value.is_infinite() {")]),
    # printing
    ("printing", "upper-case hex", [("print", 'format!("{:016x}", x.to_bits())', 'format!("{:016X}", x.to_bits())')]),
    ("printing", "left for fill kinds", [("print", "if !p.fill && copies[kind] < p.quantity {", "if copies[kind] < p.quantity {")]),
    ("printing", "fill lines first", [("print", LEFTS + FILLS, FILLS + LEFTS)]),
    ("printing", "missing of ordinary kinds alone", [
        ("print", "let without = plan.order.len() - list.len();",
         "let without = plan.order.iter().zip(&plan.layout.placed).filter(|(&k, p)| !job.parts[k].fill && p.is_none()).count();"),
    ]),
    ("printing", "positions in the order's order", [("print", "    list.sort_by_key(|p| (p.0, p.1));\n", "")]),
    ("printing", "copies numbered from 1",
     [("print", '"put {kind} {copy} {o} {}\\n", hexes', '"put {kind} {} {o} {}\\n", copy + 1, hexes')]),
    ("printing", "offcut by the sheet's width", [("print", LEFT, LEFT.replace("reach", "bounds(&frame.loops(&job.sheet))[0] - reach"))]),
]

# No text can tell these from the right planner.
EQUAL = [
    ("swaps", "j drawn before i", [
        ("nesting", DRAWS + "\n        let j = (next_random(&mut draws) % n) as usize;",
         "let j = (next_random(&mut draws) % n) as usize;\n        " + DRAWS),
    ]),
]
