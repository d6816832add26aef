"""Wrong planners of document 02, W6: a layout from elsewhere judged. All are held against the lists of layout_test."""
from wrong.planner import ROOM, ROOM_TURNED, SHEET20, SHEET21

INSIDE = "!met.any(|(low, high)| low < y && y < high)"
WITHIN = "let within = |(low, high): (f64, f64), v: f64| low <= v && v <= high;"
COLUMN = "(0..=r.last).any(|c| r.x(c, resolution) == x)"
EITHER = "(within(r.xs, x) || column()) && within(r.ys, y)"
REVERSED = """        let Some(r) = ranges(&s.sheet, &s.slots[slot].bounds, resolution) else {
            return false;
        };
"""
INSET = "outside(&rooms.sheet, 0..s.sheet_strips, shapes, inset, x, y)"
APART = "outside(&rooms.placed, 0..s.placed_strips, shapes, apart, x, y)"
BOTH = "!(l.x.is_finite() && l.y.is_finite())"
FINITE = """        if !(l.x.is_finite() && l.y.is_finite()) {
            return Err(Stop::Refused(4));
        }
"""
SLOT = """        let Some(slot) = self.slot(l) else {
            return Err(Stop::Refused(9));
        };
"""
TOO_MANY = """        if self.too_many(kind) {
            return Err(Stop::Refused(25));
        }
"""
TOO_MANY_FIRST = TOO_MANY.replace("self.too_many(kind)", "(l.kind as usize) < self.used.len() && self.too_many(l.kind as usize)")
TO = "        let [x, y] = Frame::of(self.job).to([l.x, l.y]);\n"
RANGE = """        if !self.in_range(slot, x, y) {
            return Err(Stop::Refused(26));
        }
"""
CLEAR = """        if !self.clear(slot, x, y, rooms) {
            return Err(Stop::Refused(27));
        }
"""
PLACE = "        place(&mut self.state, slot, x, y, rooms)?;\n"
USED = "self.used[kind] >= self.job.parts[kind].quantity"
COUNT = "        self.used[kind] += 1;\n"
NUMBER = "f64::from_bits(bits) + 0.0"
WHOLE = "given.chunks_exact(LINE).map(line).collect()"
LINES = "    for (i, l) in lines.iter().enumerate() {\n        match judge.line(l, rooms) {\n"
BAD = "return Ok((Judged { number, line: i }, judge.state))"
ALL = "    Ok((Judged { number: 0, line: lines.len() }, judge.state))\n"
SAME = "k as u64 == l.kind && o as u64 == l.orientation"
CLEARED = "    clear_rooms(rooms);\n    Ok(judged)\n"
BEFORE = "    clear_rooms(rooms);\n    let judged = match"
NONE = "        Err(n) => Judged::none(n),\n        Ok(job)"
MOST = "    let most = standing(rooms.placed.len(), rooms.placed_firsts.len());\n    if state.placed_strips"
ENTRIES = "    if entries > capacity(rooms.placed_entries.len(), ENTRY) {"
LONGER = "rooms.placed.resize(400_000, 0.0)"
NUMBERS = "const STRIP_NUMBERS: usize = 65_536;"
INDEXES = "    let placed_index = Index::new(sheet[0], sheet[2]);\n    let mut sheet_index = placed_index.clone();\n"
# A later line's copy as it would stand, against line l: the strips of each, moved.
LATER = """    for (i, l) in lines.iter().enumerate() {
        let later = lines[i + 1..].iter().filter_map(|m| judge.slot(m).map(|n| (n, m)));
        let boxes: Vec<_> = later.flat_map(|(n, m)| {
            let [x, y] = Frame::of(job).to([m.x, m.y]);
            judge.state.slots[n].apart.clone().map(|k| crate::strips::moved(&load(&rooms.shapes, k), x, y)).collect::<Vec<_>>()
        }).collect();
        let [x, y] = Frame::of(job).to([l.x, l.y]);
        let mine = judge.slot(l).map_or(0..0, |n| judge.state.slots[n].apart.clone());
        let met = mine.flat_map(|k| boxes.iter().map(move |p| (k, p))).filter_map(|(k, p)| forbidden(p, &load(&rooms.shapes, k), x));
        if met.into_iter().any(|(low, high)| low < y && y < high) {
            return Ok((Judged { number: 27, line: i }, judge.state));
        }
        match judge.line(l, rooms) {
"""


def wrong(name, *edits):
    """Of layout.rs, unless an edit names another file."""
    return ("W6", name, [edit if len(edit) == 3 else ("layout", *edit) for edit in edits])


def exchanged(name, one, other):
    """Two tests that stand one after the other."""
    return wrong(name, (one + other, other + one))


def before(name, test, number):
    """An accepted job refused with this number before its lines where the test holds."""
    return wrong(name, (NONE, NONE.replace("        Ok(job)", f"        _ if {test} => Judged::none({number}),\n        Ok(job)")))


def most(name, text, *more):
    """The strips that may stand after a copy."""
    return wrong(name, ("filling", MOST, f"    let most = {text};\n" + "".join(f"    {one};\n" for one in more) + "    if state.placed_strips"))


LAYOUTS = [
    # inside
    wrong("closed intervals", (INSIDE, INSIDE.replace("<", "<="))),
    wrong("closed at the low end", (INSIDE, INSIDE.replace("low <", "low <="))),
    wrong("closed at the high end", (INSIDE, INSIDE.replace("y < high", "y <= high"))),
    wrong("nothing is in the way", (INSIDE, "!met.any(|_| false)")),
    wrong("every interval is in the way", (INSIDE, "!met.any(|_| true)")),
    wrong("only the first interval", (INSIDE, INSIDE.replace("met.any", "met.by_ref().take(1).any"))),
    wrong("counted with y_low and y_high exchanged",
          ("/// Whether y lies in no forbidden interval", "thread_local!(static YS: std::cell::Cell<(f64, f64)> = std::cell::Cell::new((0.0, 0.0)));\n\n"
           "/// Whether y lies in no forbidden interval"),
          ("        let column = || ", "        YS.set(r.ys);\n        let column = || "),
          (INSIDE, "!met.any(|(low, high)| high > YS.get().1 && low < YS.get().0 && low < y && y < high)")),
    wrong("sheet held against apart strips", (INSET, INSET.replace("inset", "apart.clone()"))),
    wrong("standing held against inset strips", (INSET, INSET.replace("inset", "inset.clone()")), (APART, APART.replace("apart", "inset"))),
    wrong("apart and inset exchanged", (INSET, INSET.replace("inset", "apart")), (APART, APART.replace("apart", "inset"))),
    wrong("sheet left out", (INSET, "true")),
    wrong("copies left out", (APART, "true")),
    wrong("sheet's last strip left out", (INSET, INSET.replace("s.sheet_strips", "s.sheet_strips.saturating_sub(1)"))),
    wrong("last standing strip left out", (APART, APART.replace("s.placed_strips", "s.placed_strips.saturating_sub(1)"))),
    wrong("first standing strip left out", (APART, APART.replace("0..", "1.min(s.placed_strips).."))),
    wrong("held against the copy before alone", (APART, APART.replace("0..", "s.placed_strips.saturating_sub(1).."))),
    wrong("later copies held against too", (LINES, LATER)),
    # the range
    wrong("range only, no columns", (EITHER, EITHER.replace("(within(r.xs, x) || column())", "within(r.xs, x)"))),
    wrong("columns only", (EITHER, EITHER.replace("(within(r.xs, x) || column())", "column()"))),
    wrong("last column left out", (COLUMN, COLUMN.replace("0..=", "0.."))),
    wrong("one column more", (COLUMN, "(0..=r.columns + 1).any(|c| r.xs.0 + c as f64 * resolution == x)")),
    wrong("x not tested", (EITHER, "within(r.ys, y)")),
    wrong("y not tested", (EITHER, "within(r.xs, x) || column()")),
    wrong("y open at the top", (EITHER, EITHER + " && y < r.ys.1")),
    wrong("y open at the bottom", (EITHER, EITHER + " && r.ys.0 < y")),
    wrong("x open at x_high", (EITHER, EITHER.replace("within(r.xs, x)", "(within(r.xs, x) && x < r.xs.1)"))),
    wrong("range half a resolution wider", (EITHER, EITHER.replace("within(r.xs, x)", "within((r.xs.0, r.xs.1 + resolution / 2.0), x)"))),
    wrong("y by x's range", (EITHER, EITHER.replace("within(r.ys, y)", "within(r.xs, y)"))),
    wrong("reversed range accepted", (REVERSED, REVERSED.replace("return false", "return true"))),
    wrong("reversed x by its columns", ("filling", "xs.1 < xs.0 || ys.1 < ys.0", "ys.1 < ys.0")),
    wrong("reversed y alone not tested", (REVERSED, REVERSED.replace("return false", "let b = s.slots[slot].bounds;\n"
                                          "            return s.sheet[2] - b[2] >= s.sheet[0] - b[0]"))),
    # the order of numbers
    exchanged("9 before 4", FINITE, SLOT),
    wrong("25 before 4", (FINITE, TOO_MANY_FIRST + FINITE)),
    wrong("25 before 9", (SLOT, TOO_MANY_FIRST + SLOT)),
    wrong("26 before 25", (TOO_MANY + TO + RANGE, TO + RANGE + TOO_MANY)),
    wrong("27 before 25", (TOO_MANY + TO, TO + CLEAR + TOO_MANY)),
    exchanged("27 before 26", RANGE, CLEAR),
    wrong("20 before 27", (CLEAR + PLACE, "        let was = self.state.clone();\n" + PLACE + "        let stands = std::mem::replace(&mut self.state, was);\n"
                           + CLEAR + "        self.state = stands;\n")),
    wrong("21 before 20", ("filling", ROOM, ROOM_TURNED)),
    wrong("the sheet's 21 before its 20", ("filling", SHEET20 + INDEXES + SHEET21, INDEXES + SHEET21 + SHEET20)),
    wrong("the shapes' 20 before the sheet's 21", ("filling", SHEET21, "    shapes(job, &mut rooms.shapes)?;\n" + SHEET21)),
    before("lines before what cannot be prepared", "lines(given).iter().any(|l| !l.x.is_finite())", 4),
    wrong("lines before the job", ("    let judged = match job::read(bytes) {\n", "    let judged = match job::read(bytes) {\n"
                                   "        _ if lines(given).iter().any(|l| !l.x.is_finite()) => Judged::none(4),\n")),
    # kinds, orientations, quantities
    wrong("no 4", (FINITE, "")),
    wrong("4 by x alone", (FINITE, FINITE.replace(BOTH, "!l.x.is_finite()"))),
    wrong("4 by y alone", (FINITE, FINITE.replace(BOTH, "!l.y.is_finite()"))),
    wrong("4 by NaN alone", (FINITE, FINITE.replace(BOTH, "l.x.is_nan() || l.y.is_nan()"))),
    wrong("4 by infinities alone", (FINITE, FINITE.replace(BOTH, "l.x.is_infinite() || l.y.is_infinite()"))),
    wrong("kind by its last 8 bits", (SAME, SAME.replace("l.kind", "l.kind % 256"))),
    wrong("kind by its last 32 bits", (SAME, SAME.replace("l.kind", "l.kind % (1 << 32)"))),
    wrong("kind by its last 6 bits", (SAME, SAME.replace("l.kind", "l.kind % 64"))),
    wrong("orientation by its last 4 bits", (SAME, SAME.replace("l.orientation", "l.orientation % 16"))),
    wrong("orientation by its last 32 bits", (SAME, SAME.replace("l.orientation", "l.orientation % (1 << 32)"))),
    wrong("orientation of another kind", (SAME, "16 * k as u64 + o as u64 == l.kind.wrapping_mul(16).wrapping_add(l.orientation)")),
    wrong("first orientation for all", (SAME, "k as u64 == l.kind && (o as u64 == l.orientation || l.orientation > 0)")),
    wrong("no 25", (TOO_MANY, "")),
    wrong("one line more than the quantity", (USED, USED.replace(">=", ">"))),
    wrong("one line fewer than the quantity", (USED, USED.replace(">=", "+ 1 >="))),
    wrong("quantity against all kinds", (USED, USED.replace("self.used[kind]", "self.used.iter().sum::<u32>()"))),
    wrong("all copies of the job for each kind", (USED, USED.replace("self.job.parts[kind].quantity", "self.job.copies() as u32"))),
    wrong("counted by orientation", (USED, USED.replace("self.used[kind]", "self.used[0]"))),
    wrong("never counted", (COUNT, "")),
    # the list
    wrong("minus zero refused", (FINITE, FINITE.replace(BOTH, "[l.x, l.y].iter().any(|v| !v.is_finite() || v.to_bits() == 1 << 63)")),
          (NUMBER, "f64::from_bits(bits)")),
    wrong("minus zero as the largest", (NUMBER, "if bits == 1 << 63 { f64::MAX } else { f64::from_bits(bits) }")),
    wrong("raw positions", (TO, TO.replace("Frame::of(self.job).to([l.x, l.y])", "[l.x + 0.0, l.y + 0.0]"))),
    wrong("`from` instead of `to`", (TO, TO.replace(".to(", ".from("))),
    wrong("x and y exchanged", (TO, TO.replace("[l.x, l.y]", "[l.y, l.x]"))),
    wrong("a remainder read as a line", (WHOLE, "given.chunks(LINE).map(|n| line(&[n, &[0; 3][..]].concat())).collect()")),
    wrong("a remainder of three read as a line", (WHOLE, "given.chunks(LINE).filter(|n| n.len() > 2).map(|n| line(&[n, &[0; 3][..]].concat())).collect()")),
    before("a remainder refused", "given.len() % 4 > 0", 1),
    wrong("the first line left out", (LINES, LINES.replace(".enumerate()", ".enumerate().skip(1)"))),
    wrong("the last line left out", (LINES, LINES.replace("lines.iter()", "lines[..lines.len().saturating_sub(1)].iter()"))),
    wrong("from the last line on", (WHOLE, "given.chunks_exact(LINE).rev().map(line).collect()")),
    wrong("y read before x", (("let line = |n: &[u64]| Line { kind: n[0], orientation: n[1], x: number(n[2]), y: number(n[3]) };"),
                         "let line = |n: &[u64]| Line { kind: n[0], orientation: n[1], x: number(n[3]), y: number(n[2]) };")),
    before("an empty list refused", "given.is_empty()", 1),
    # the answer and the rooms
    wrong("line one too high", (BAD, BAD.replace("line: i", "line: i + 1"))),
    wrong("line 0 always", (BAD, BAD.replace("line: i", "line: 0"))),
    wrong("line of the accepted copies of the kind", (BAD, BAD.replace("line: i", "line: judge.used.first().map_or(0, |n| *n as usize)"))),
    wrong("accepted with line 0", (ALL, ALL.replace("lines.len()", "0"))),
    wrong("accepted with the last line's number", (ALL, ALL.replace("lines.len()", "lines.len().saturating_sub(1)"))),
    wrong("job refused with the list's length", (NONE, NONE.replace("Judged::none(n)", "Judged { number: n, line: lines(given).len() }"))),
    wrong("a bad line passed over", (BAD, "_ = number")),
    wrong("rooms not cleared", (CLEARED, "    Ok(judged)\n")),
    wrong("rooms not cleared on acceptance", (CLEARED, "    if judged.number != 0 {\n        clear_rooms(rooms);\n    }\n    Ok(judged)\n")),
    wrong("rooms not cleared on refusal", (CLEARED, "    if judged.number == 0 {\n        clear_rooms(rooms);\n    }\n    Ok(judged)\n")),
    wrong("rooms not cleared where the job is refused", *[(text, text.replace("    clear_rooms(rooms);\n", "    if job::read(bytes).is_ok() {\n"
                                                          "        clear_rooms(rooms);\n    }\n")) for text in (BEFORE, CLEARED)]),
    *[wrong(f"room {room} not cleared", (CLEARED, f"    let kept = rooms.{room}.clone();\n    clear_rooms(rooms);\n    rooms.{room} = kept;\n    Ok(judged)\n"))
      for room in ("shapes", "sheet", "placed", "sheet_entries", "placed_entries", "sheet_firsts", "placed_firsts")],
    # 20 and 21 of a copy
    most("20 past 65,536 strips alone", "65_536", LONGER, "rooms.placed_firsts.resize(66_000, 0)"),
    wrong("no 21 of a copy", (PLACE, "        rooms.placed_entries.resize(200_000, 0);\n" + PLACE)),
    most("20 without the first buckets", "capacity(rooms.placed.len(), STRIP).min(65_536)", "rooms.placed_firsts.resize(66_000, 0)"),
    most("20 by the first buckets alone", "rooms.placed_firsts.len().min(65_536)", LONGER),
    most("20 one strip early", "1.max(standing(rooms.placed.len(), rooms.placed_firsts.len())) - 1"),
    wrong("no limit of 65,536 strips", ("rooms", NUMBERS, NUMBERS.replace("36;", "40;")),
          ("index", 'Entry::try_from(first + i).expect("a strip number")', "(first + i) as Entry")),
    wrong("65,535 strips", ("rooms", NUMBERS, NUMBERS.replace("36;", "35;"))),
    wrong("21 by the sheet's entry room", ("filling", ENTRIES, ENTRIES.replace("placed", "sheet")),
          (PLACE, "        rooms.placed_entries.resize(200_000, 0);\n" + PLACE)),
    wrong("copies stand where they lie on the sheet", (PLACE, "        place(&mut self.state, slot, l.x, l.y, rooms)?;\n")),
    wrong("copies stand at zero", (PLACE, PLACE.replace("slot, x, y", "slot, 0.0, 0.0"))),
]

# No list can tell these from the right judge.
EQUAL = [
    # Where no column lies past x_high, x_high is one; where one does, the range has x_high.
    wrong("columns without the extra one", (COLUMN, COLUMN.replace("r.last", "r.columns"))),
    # What is read was written before.
    wrong("rooms as they are before", (BEFORE, "    let judged = match")),
    # `to` never gives a minus zero, and no test tells it from zero.
    wrong("minus zero of a list kept", (NUMBER, "f64::from_bits(bits)")),
]
