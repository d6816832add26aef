"""Wrong planners of document 02."""
from wrong.planner import BETTER, LAST, LEFT, MET, SWAPPED_BACK, WINS

FIRST = "firsts[first + i] = self.bucket(s[0]) as Bucket;"
ENTER = "    state.placed_index.enter(entries, firsts, &strips, state.placed_strips);\n"
REACH = "(Frame::of(job), plan.layout.right);"
APART = "orientations[o].apart), false)"
PLACED = """plan.layout.right);
    for (&kind, place) in plan.order.iter().zip(&plan.layout.placed) {"""
MOVED = "            for s in trapezoids("
PLACE = "    keep(&mut rooms.placed, most, &mut state.placed_strips, &strips)?;\n"
ABOVE = "if y <= i[0] {"
LOWER = "next = smaller(next, i[0]);"
GAP = "gap(out, n, y, r.ys.1)"
KEEP_GAP = "            state.gaps[state.taken] = gap;\n"
PUT = "hexes(&[x, y, gap])"


def other_gap(which):
    """The gap of another orientation than the winner, as `which` notes it."""
    best = "    let mut best: Option<(f64, f64, usize, f64, f64, f64)> = None;\n"
    found = "            let (right, top) = (x + slot.bounds[2], y + slot.bounds[3]);\n            let wins"
    return [("filling", best, best + "    let mut noted = 0.0;\n"),
            ("filling", found, which + found),
            ("filling", KEEP_GAP, KEEP_GAP.replace("= gap;", "= noted;"))]


def gap_of(part):
    """The gap from part of the look's intervals, of which the first `sheet` are the sheet's."""
    placed = "    let (entries, firsts) = (&rooms.placed_entries, &rooms.placed_firsts);\n    state\n"
    return [("filling", placed, "    let sheet = n;\n" + placed), ("filling", GAP, part)]


# Held against the stored jobs of plan_test.
MUTANTS = [
    # document 02, W2
    ("W2", "offcut by right alone", [("print", LEFT, LEFT.replace("reach", "plan.layout.right"))]),
    ("W2", "offcut below zero printed", [("print", "if left < 0.0 { 0.0 } else { left }", "left")]),
    ("W2", "offcut by the strips alone", [("print", REACH, REACH.replace("plan.layout.right", "bounds(&job.sheet)[0]"))]),
    ("W2", "reach of the first copy alone", [("print", PLACED, PLACED.replace("&plan.layout.placed)", "&plan.layout.placed).take(1)"))]),
    ("W2", "reach of the last copy alone", [("print", MOVED, "            reach = plan.layout.right;\n" + MOVED)]),
    ("W2", "reach of the first strip alone", [("print", APART, APART + ".into_iter().take(1)")]),
    ("W2", "reach of the first orientation", [("print", APART, APART.replace("[o]", "[0]"))]),
    ("W2", "reach of the inset strips", [("print", APART, APART.replace("apart", "inset"))]),
    ("W2", "reach of strips not moved", [("print", "s[1] + x", "s[1]")]),
    ("W2", "reach of x0", [("print", "s[1] + x", "s[0] + x")]),
    ("W2", "right by the apart strips", [("filling", PLACE, PLACE + "    state.right = strips.iter().fold(state.right, |a, s| a.max(s[1]));\n")]),
    ("W2", "better by the reach",
     [*LAST, ("nesting", BETTER, BETTER.replace("self.right < other.right", "self.reach < other.reach")),
      ("nesting", "    pub right: f64,\n", "    pub right: f64,\n    pub reach: f64,\n"),
      ("nesting", "            right: state.right,\n", "            right: state.right,\n            reach: crate::filling::LAST.get(),\n"),
      ("modes", "right, looks };", "right, reach: 0.0, looks };")]),
    # document 02, W3
    ("W3", "met by the last bucket", [("index", FIRST, FIRST.replace("s[0]", "s[1]"))]),
    ("W3", "the copy's first bucket for all its strips", [("index", FIRST, FIRST.replace("s[0]", "strips[0][0]"))]),
    ("W3", "number held against the moving strip's first bucket", [("index", MET, MET.replace("as usize != b {", "as usize != first {"))]),
    ("W3", "numbers not moved by x", [
        ("filling", ENTER, ENTER + "    let apart = state.slots[slot].apart.clone();\n"
         "    for (i, p) in apart.enumerate() {\n"
         "        let x0 = load(&rooms.shapes, p)[0];\n"
         "        rooms.placed_firsts[state.placed_strips + i] = state.placed_index.bucket(x0) as u16;\n"
         "    }\n"),
    ]),
    ("W3", "numbers moved by y", [
        ("filling", ENTER, ENTER + "    let apart = state.slots[slot].apart.clone();\n"
         "    for (i, p) in apart.enumerate() {\n"
         "        let x0 = load(&rooms.shapes, p)[0] + y;\n"
         "        rooms.placed_firsts[state.placed_strips + i] = state.placed_index.bucket(x0) as u16;\n"
         "    }\n"),
    ]),
    ("W3", "numbers of the round before kept", [("index", FIRST, "if first == 0 || firsts[first + i] == 0 {\n                " + FIRST + "\n            }")]),
    # document 02, W7
    ("W7", "a bottom at the height passed over", [("index", ABOVE, "if y < i[0] {")]),
    ("W7", "y_high ignored", [("index", "let mut next = y_high;", "let mut next = f64::MAX;")]),
    ("W7", "lowest bottom whatever the height", [("index", ABOVE, "if i[0] < y_high {")]),
    ("W7", "next top in place of the bottom", [("index", LOWER, LOWER.replace("i[0]", "i[1]"))]),
    ("W7", "the last bottom above, not the next", [("index", LOWER, "next = i[0];")]),
    ("W7", "gap from y_low", [("filling", GAP, GAP + " + y - r.ys.0")]),
    ("W7", "gap from the panel's top", [("filling", GAP, GAP + " - (slot.bounds[3] - slot.bounds[1])")]),
    ("W7", "the first free orientation's gap", other_gap("            noted = if best.is_none() { gap } else { noted };\n")),
    ("W7", "the last free orientation's gap", other_gap("            noted = gap;\n")),
    ("W7", "larger gap wins ties",
     [("filling", WINS, "Some((r, t, _, _, _, g)) => right < r || (right == r && (top < t || (top == t && gap > g))),")]),
    ("W7", "smaller gap wins ties",
     [("filling", WINS, "Some((r, t, _, _, _, g)) => right < r || (right == r && (top < t || (top == t && gap < g))),")]),
    ("W7", "the rejected filling's gaps",
     [("nesting", SWAPPED_BACK, SWAPPED_BACK.replace("order.swap(i, j);", "order.swap(i, j);\n            best.gaps = layout.gaps;"))]),
    ("W7", "the first filling's gaps", [("nesting", "            best = layout;\n", "            best = Layout { gaps: best.gaps, ..layout };\n")]),
    ("W7", "gap against placed copies alone", gap_of("gap(&out[2 * sheet..], n - sheet, y, r.ys.1)")),
    ("W7", "gap against the sheet alone", gap_of("gap(out, sheet, y, r.ys.1)")),
    ("W7", "empty intervals counted", [("strips", "if low < high { Some((low, high)) } else { None }", "if low <= high { Some((low, high)) } else { None }")]),
    ("W7", "a later copy above takes the gap", [
        ("filling", KEEP_GAP, KEEP_GAP
         + "            for i in 0..state.taken {\n"
         "                if state.placed[i].is_some_and(|(_, a, b)| a == x && b < y) {\n"
         "                    state.gaps[i] = 0.0;\n"
         "                }\n"
         "            }\n"),
    ]),
    ("W7", "gap printed before y", [("print", PUT, "hexes(&[x, gap, y])")]),
    ("W7", "no gap printed", [("print", PUT, "hexes(&[x, y])")]),
]

STANDING = "capacity(slots, STRIP).min(capacity(firsts, FIRST)).min(STRIP_NUMBERS)"
NUMBER = ("index", 'Entry::try_from(first + i).expect("a strip number")', "(first + i) as Entry")
KEPT = "    sheet_index.enter(&mut rooms.sheet_entries, &mut rooms.sheet_firsts, &strips, 0);\n"
SHEET_MOST = ("filling", "let most = standing(rooms.sheet.len(), rooms.sheet_firsts.len());", "let most = capacity(rooms.sheet.len(), STRIP);")
PLACED_MOST = ("filling", "let most = standing(rooms.placed.len(), rooms.placed_firsts.len());", "let most = capacity(rooms.placed.len(), STRIP);")

# In rooms for more strips than entries can number.
WIDE = [
    ("W8", "strip numbers wrap", [("rooms", STANDING, "capacity(slots, STRIP).min(capacity(firsts, FIRST))"), NUMBER]),
    ("W8", "65,536 strips refused", [("rooms", ".min(STRIP_NUMBERS)", ".min(STRIP_NUMBERS - 1)")]),
    ("W8", "65,537 strips accepted", [("rooms", ".min(STRIP_NUMBERS)", ".min(STRIP_NUMBERS + 1)"), NUMBER]),
    ("W8", "the sheet's strips not counted", [SHEET_MOST, NUMBER]),
    ("W8", "the placed strips not counted", [PLACED_MOST, NUMBER]),
    ("W8", "the shapes' strips counted too", [("filling", "(capacity(room.len(), STRIP), 0)", "(standing(room.len(), room.len()), 0)")]),
    ("W8", "20 by number after 21", [
        SHEET_MOST,
        NUMBER,
        ("filling", KEPT, "    if strips.len() > 65_536 {\n        return Err(Stop::Refused(20));\n    }\n" + KEPT),
    ]),
]

# A number that its room does not hold is left out; so is a strip, and read as zero.
NO_NUMBER = [("index", FIRST, "if let Some(kept) = firsts.get_mut(first + i) {\n                *kept = self.bucket(s[0]) as Bucket;\n            }"),
             ("index", MET, "if b != first && firsts.get(id as usize).map_or(0, |&n| n as usize) != b {")]
NO_STRIP = [("rooms", "    let s = &room[i * STRIP..(i + 1) * STRIP];\n", "    let s = room.get(i * STRIP..(i + 1) * STRIP).unwrap_or(&[0.0; STRIP]);\n"),
            ("rooms", "    room[i * STRIP..(i + 1) * STRIP].copy_from_slice(strip);\n",
             "    if let Some(s) = room.get_mut(i * STRIP..(i + 1) * STRIP) {\n        s.copy_from_slice(strip);\n    }\n")]
SHEET_FIRSTS = "standing(rooms.sheet.len(), rooms.sheet_firsts.len())"
PLACED_FIRSTS = "standing(rooms.placed.len(), rooms.placed_firsts.len())"
KEPT_FIRSTS = "let kept = list.iter().zip(firsts).all("
WRITTEN = "    if entries > capacity(rooms.placed_entries.len(), ENTRY) {\n"
FITS = "(0.0..=1e6).contains(gap)"
TAKEN = ".take(self.taken)"
KEPT_GAP = "        self.gap[self.taken] = state.gaps[self.taken];\n"

# In rooms and states that a script gives.
SCRIPT = [
    ("W3", "20 by the doubles alone", [("rooms", STANDING, "capacity(slots, STRIP).min(STRIP_NUMBERS)"), *NO_NUMBER]),
    ("W3", "20 by the numbers alone", [("rooms", STANDING, "capacity(firsts, FIRST).min(STRIP_NUMBERS)"), *NO_STRIP]),
    ("W3", "the sheet's 20 by the doubles alone",
     [("filling", SHEET_FIRSTS, "standing(rooms.sheet.len(), rooms.sheet.len())"), *NO_NUMBER]),
    ("W3", "the sheet's 20 by the numbers alone",
     [("filling", SHEET_FIRSTS, "standing(6 * rooms.sheet_firsts.len(), rooms.sheet_firsts.len())"), *NO_STRIP]),
    ("W3", "the copies' 20 by the doubles alone",
     [("filling", PLACED_FIRSTS, "standing(rooms.placed.len(), rooms.placed.len())"), *NO_NUMBER]),
    ("W3", "the copies' 20 by the numbers alone",
     [("filling", PLACED_FIRSTS, "standing(6 * rooms.placed_firsts.len(), rooms.placed_firsts.len())"), *NO_STRIP]),
    ("W3", "the sheet's count of strips beyond its numbers",
     [("flat", SHEET_FIRSTS, "standing(rooms.sheet.len(), rooms.sheet.len())"), *NO_NUMBER]),
    ("W3", "the copies' count of strips beyond their numbers",
     [("flat", PLACED_FIRSTS, "standing(rooms.placed.len(), rooms.placed.len())"), *NO_NUMBER]),
    ("W3", "no number tested", [("flat", "(kept && entered).then_some(index)", "entered.then_some(index)")]),
    ("W3", "only the first strip's number tested", [("flat", KEPT_FIRSTS, KEPT_FIRSTS.replace("zip(firsts)", "zip(firsts).take(1)"))]),
    ("W3", "the last strip's number not tested", [("flat", KEPT_FIRSTS, KEPT_FIRSTS.replace("zip(firsts)", "zip(firsts).take(n.max(1) - 1)"))]),
    ("W3", "numbers behind the count tested",
     [("flat", "(kept && entered).then_some(index)", "(kept && entered && firsts[n..].iter().all(|&b| b < 512)).then_some(index)")]),
    ("W3", "tested number may be less", [("flat", "b as usize == index.bucket(s[0])", "b as usize <= index.bucket(s[0])")]),
    ("W3", "tested number may be more", [("flat", "b as usize == index.bucket(s[0])", "b as usize >= index.bucket(s[0])")]),
    ("W3", "numbers written where 21 refuses", [
        ("filling", WRITTEN, WRITTEN + "        for (i, s) in strips.iter().enumerate() {\n"
         "            rooms.placed_firsts[state.placed_strips + i] = state.placed_index.bucket(s[0]) as u16;\n"
         "        }\n"),
    ]),
    ("W3", "numbers behind the new ones zeroed", [("filling", ENTER, ENTER + "    rooms.placed_firsts[state.placed_strips + strips.len()..].fill(0);\n")]),
    ("W7", "gaps not judged", [("flat", "            && self.gaps_fit()\n", "")]),
    ("W7", "gap up to 1,000,001 allowed", [("flat", FITS, FITS.replace("1e6", "1_000_001.0"))]),
    ("W7", "gap of 1,000,000 refused", [("flat", FITS, FITS.replace("..=", ".."))]),
    ("W7", "gap below zero allowed", [("flat", FITS, FITS.replace("(0.0", "(-1.0"))]),
    ("W7", "gap of minus zero refused", [("flat", FITS, FITS + " && gap.is_sign_positive()")]),
    ("W7", "gap that is not a number allowed", [("flat", FITS, "!(*gap < 0.0 || *gap > 1e6)")]),
    ("W7", "gap of any size allowed", [("flat", FITS, "*gap >= 0.0")]),
    ("W7", "gaps of copies without a place judged too", [("flat", "filter(|(&o, _)| o > 0)", "filter(|_| true)")]),
    ("W7", "gaps of copies to come judged too",
     [("flat", "self.gaps_fit()\n", "self.gaps_fit()\n            && self.gap[self.taken..].iter().all(|gap| " + FITS + ")\n")]),
    ("W7", "gaps judged by the orientation alone", [("flat", TAKEN, "")]),
    ("W7", "only the first copy's gap judged", [("flat", TAKEN, ".take(self.taken.min(1))")]),
    ("W7", "the last copy's gap not judged", [("flat", TAKEN, ".take(self.taken.max(1) - 1)")]),
    ("W7", "gap not kept in the state", [("flat", KEPT_GAP, "        self.gap[self.taken] = 0.0;\n")]),
    ("W7", "gap of a copy without a place left as it was", [("flat", KEPT_GAP, "        if orientation > 0 {\n    " + KEPT_GAP + "        }\n")]),
    ("W7", "minus zero as a bottom or y_high kept", [("index", "(next + 0.0) - y", "next - y")]),
    ("W7", "30 by five doubles to a position", [("filling", "capacity(rooms.positions.len(), POSITION)", "capacity(rooms.positions.len(), 5)")]),
]

# No text can tell it from the right planner: a copy's gap is written where it is placed, and no other is printed.
EQUAL = [("W7", "gaps not zeroed in a new filling", [("filling", "    state.gaps.fill(0.0);\n", "")])]
