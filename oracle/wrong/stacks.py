"""Wrong planners of document 02, W5: the next n copies in one call. All are held against the script."""
LATER = "crate::stack::LATER.get()"
CELL = "thread_local!(pub static {0}: std::cell::Cell<bool> = std::cell::Cell::new(false));\n\n"
MOST = "/// The most copies that one call"
ONE = "        let number = next()?;\n"
# Whether a copy of a stack is being taken after its first.
FLAGGED = "        LATER.set(took > 0);\n        let answer = next();\n        LATER.set(false);\n        let number = answer?;\n"
FLAG = [("stack", MOST, CELL.format("LATER") + MOST), ("stack", ONE, FLAGGED)]
LIMIT = "    if n > MOST {\n"
STOP = "return Ok(Taken { took, number });"
COUNT = "        took += 1;\n"
TURN = "    while took < n {\n"
CALL = "        let taken = next_copies(n, || self.next_copy())?;\n"
CLEAR = "        rooms.clear_intervals();\n"
CLEARED = CLEAR + "        self.left(&rooms);\n"
STEPPED = CLEAR + "        self.called(Request::Next, number, &rooms)\n"
NEXT = "    fn next_copy(&mut self) -> Result<u32, String> {\n"
REFUSED = "                    Err(stop) => refusal(stop)?,\n"
FITS = "        if !fits {\n"
AREA = "(0.0..=1e16).contains(&self.unplaced_area)"
RIGHT = "bounded(self.right)"
LOOKS = "self.look_counts[*i] <= last + 1 + self.taken"
STRIP = "!(s[0] > s[1]) && s.iter().all(|&x| bounded(x))"
PLACED = "all(&rooms.placed, 0..self.placed_strips)"
BOUNDED = "    x.is_finite() && (-1e6..=1e6).contains(&x)\n"
ENTRIES = "    let entries = state.placed_index.count() + state.placed_index.needed(&strips);\n"
GAP = "        self.gap[self.taken] = state.gaps[self.taken];\n"
READ = "job::read(&self.job)"


def wrong(name, *edits):
    """Of stack.rs, unless an edit names another file."""
    return ("W5", name, [edit if len(edit) == 3 else ("stack", *edit) for edit in edits])


def later(name, *edits):
    """Only where a copy of a stack is taken after its first."""
    return wrong(name, *FLAG, *edits)


def first(one):
    """The same wrong planner, only where the first copy of a stack is taken."""
    group, name, edits = one
    return (group, name + ", the first", [(file, old, new.replace("LATER.set(took > 0)", "LATER.set(took == 0)")) for file, old, new in edits])


def untested(name, test):
    """31 after the first copy without this test."""
    return later(name, ("flat", test, f"({LATER} || {test})"))


def gated(test, line):
    """A line only where the test holds."""
    return f"        if {test} {{\n    {line}        }}\n"


def answered(name, text):
    """The answer changed after the copies are taken."""
    return wrong(name, ("script", CALL, CALL.replace("let taken", "let mut taken") + text))


def six(name, test):
    """6 where no other number holds; `test` gives that number, or nothing."""
    return answered(name, f"        let other = {test};\n        taken.number = if n > 4096 {{ other.unwrap_or(6) }} else {{ taken.number }};\n")


def zero(name, test):
    """n = 0 refused with another number."""
    return answered(name, f"        let other = {test};\n        taken.number = if n == 0 {{ other.unwrap_or(0) }} else {{ taken.number }};\n")


def refused(name, text):
    """What is written where a copy after the first is refused."""
    return later(name, ("script", REFUSED, f"                    Err(stop) => {{\n                        if {LATER} {{\n"
                        f"                            {text}\n                        }}\n                        refusal(stop)?\n                    }}\n"))


def noted(name, text, which="true"):
    """What the searches of a refused copy found is kept: slot, looks and column of each look."""
    looked = "        slot.looks += 1;\n"
    cell = "thread_local!(pub static NOTED: std::cell::RefCell<Vec<(usize, usize, usize)>> = std::cell::RefCell::new(vec![]));\n\n"
    note = "        NOTED.with(|n| n.borrow_mut().push((16 * slot.kind + slot.orientation, slot.looks as usize, column + 1)));\n"
    made = refused(name, f"for (i, looks, column) in crate::filling::NOTED.take() {{\n"
                   f"                                if {which} {{\n                                    {text}\n"
                   "                                }\n                            }")
    search = "/// From the remembered column, the first"
    fresh = ("stack", "        let answer = next();\n", "        crate::filling::NOTED.take();\n        let answer = next();\n")
    return (*made[:2], [*made[2], fresh, ("filling", search, cell + search), ("filling", looked, looked + note)])


JOB = READ + ".err()"
# 31 and 23 of the state as it is, where the job is accepted.
WHEN31 = READ + ".ok().and_then(|job| self.state.state(&job, &self.lent()).is_none().then_some(31))"
WHEN23 = READ + ".ok().and_then(|job| (self.state.taken >= job.copies()).then_some(23))"

# What is left of a refused copy.
LEFT = [
    noted("looks of the refused copy kept", "self.state.look_counts[i] = looks;"),
    noted("looks of the refused copy's last orientation kept", "self.state.look_counts[i] = looks;", "i % 16 == 15"),
    noted("columns of the refused copy kept", "self.state.next_column[i] = column;"),
    noted("columns of the refused copy's last orientation kept", "self.state.next_column[i] = column;", "i % 16 == 15"),
    *[refused(f"{name} at the refused copy's place written", f"self.state.{name}.get_mut(self.state.taken).map(|n| *n = {value});")
      for name, value in (("orientation", "0"), ("x", "0.0"), ("y", "0.0"), ("gap", "0.0"))],
    later("strips before 21", ("filling", ENTRIES, f"    for (i, s) in strips.iter().enumerate().filter(|_| {LATER}) {{\n"
          "        store(&mut rooms.placed, state.placed_strips + i, s);\n    }\n" + ENTRIES)),
    later("bucket numbers before 21", ("filling", ENTRIES, f"    for (i, s) in strips.iter().enumerate().filter(|_| {LATER}) {{\n"
          "        rooms.placed_firsts[state.placed_strips + i] = state.placed_index.bucket(s[0]) as u16;\n    }\n" + ENTRIES)),
]

SCRIPT = [
    # 31 after the first copy
    later("31 before the first copy alone", ("flat", FITS, FITS.replace("!fits", f"!fits && !{LATER}"))),
    untested("31 later without unplaced area", AREA),
    untested("31 later without right", RIGHT),
    untested("31 later without look counts", LOOKS),
    untested("31 later without x", "self.standing().all(|i| bounded(self.x[i]))"),
    untested("31 later without y", "self.standing().all(|i| bounded(self.y[i]))"),
    untested("31 later without gaps", "self.gaps_fit()"),
    untested("31 later without strips", "self.strips_fit(job, rooms)"),
    later("31 later without the last strip", ("flat", PLACED, PLACED.replace("self.placed_strips", f"self.placed_strips.saturating_sub({LATER} as usize)"))),
    *[later(f"31 later without number {n} of a strip", ("flat", STRIP, STRIP.replace("s.iter().all(|&x| bounded(x))",
            f"s.iter().enumerate().all(|(i, &x)| bounded(x) || i == {n} && {LATER})"))) for n in range(6)],
    later("31 later by the looks of the first orientation", ("flat", LOOKS, f"({LOOKS} || {LATER} && *i % 16 > 0)")),
    later("31 later by the looks before the copy", ("flat", LOOKS, LOOKS + f" - {LATER} as usize")),
    later("31 later by the looks with one copy more", ("flat", LOOKS, LOOKS + f" + {LATER} as usize")),
    later("31 later by the area at its limit", ("flat", AREA, f"({AREA} && !({LATER} && self.unplaced_area == 1e16))")),
    later("31 later at 1,000,000", ("flat", BOUNDED, BOUNDED.replace("x.is", f"!({LATER} && x.abs() == 1e6) && x.is"))),
    answered("31 after the last copy", f"        taken.number = if n > 0 && taken.number == 0 {{ {WHEN31}.unwrap_or(0) }} else {{ taken.number }};\n"),
    # how many were taken
    wrong("took without copies that have no place", ("script", CALL, "        let before = self.state.standing().count();\n"
          + CALL.replace("let taken", "let mut taken") + "        taken.took = self.state.standing().count() - before;\n")),
    wrong("the refused copy counted", (STOP, STOP.replace("took,", "took: took + 1,"))),
    wrong("took is n", (STOP, STOP.replace("took,", "took: n,"))),
    wrong("took 0 with a refusal", (STOP, STOP.replace("took,", "took: 0,"))),
    answered("took is all that were ever taken", "        taken.took = self.state.taken;\n"),
    answered("6 with n as took", "        taken.took = if n > 4096 { n } else { taken.took };\n"),
    wrong("one copy fewer", (TURN, TURN.replace("took <", "took + 1 <"))),
    wrong("one copy more", (TURN, TURN.replace("took <", "took <="))),
    wrong("one copy at least", (TURN, TURN.replace("took < n", "took < n.max(1)"))),
    wrong("one copy alone", (TURN, TURN.replace("took < n", "took < n.min(1)"))),
    wrong("stops after a copy without a place", (MOST, CELL.format("NONE") + MOST),
          ("filling", "        None => state.unplaced_area += job.parts[kind].area,\n",
           "        None => {\n            crate::stack::NONE.set(true);\n            state.unplaced_area += job.parts[kind].area;\n        }\n"),
          (ONE, "        NONE.set(false);\n" + ONE), (COUNT, COUNT + "        if NONE.get() {\n            break;\n        }\n")),
    # what a refusal answers and leaves
    wrong("23 as accepted", (STOP, STOP.replace(" number }", " number: if number == 23 { 0 } else { number } }"))),
    wrong("a refusal after copies as accepted", (STOP, STOP.replace(" number }", " number: if took > 0 { 0 } else { number } }"))),
    wrong("23 at once where fewer are left", ("script", CALL, f"        let left = {READ}.map_or(n, |job| job.copies() - job.copies().min(self.state.taken));\n"
          "        let asked = if n <= 4096 && n > left { 0 } else { n };\n"
          + CALL.replace("let taken", "let mut taken").replace("(n,", "(asked,") + "        taken.number = if asked < n { 23 } else { taken.number };\n")),
    wrong("copies before a refused one undone", ("script", CALL, "        let (state, rooms) = (self.state.clone(), self.rooms.clone());\n" + CALL
          + "        if taken.number != 0 {\n            (self.state, self.rooms) = (state, rooms);\n        }\n")),
    *LEFT,
    *[first(one) for one in LEFT],
    # n first
    six("6 after the job's number", JOB),
    six("6 after 31", WHEN31),
    six("6 after 23", WHEN23),
    zero("n = 0 tested for the job's number", JOB),
    zero("n = 0 tested for 31", WHEN31),
    zero("n = 0 tested for 23", WHEN23),
    wrong("n = 0 refused", (LIMIT, LIMIT.replace("n >", "n == 0 || n >"))),
    wrong("n = 4,096 refused", (LIMIT, LIMIT.replace(">", ">="))),
    wrong("n = 4,097 accepted", (LIMIT, LIMIT.replace("MOST", "MOST + 1"))),
    wrong("no limit of n", (LIMIT, LIMIT.replace("MOST", "usize::MAX"))),
    wrong("n by its last 16 bits", (LIMIT, "    let n = n % 65_536;\n" + LIMIT)),
    wrong("n above 4,096 as 4,096", (LIMIT, "    let n = n.min(MOST);\n" + LIMIT)),
    wrong("6 as 23", ("number: 6 }", "number: 23 }")),
    # the interval room
    wrong("intervals left with n = 0 and with 6", ("script", CLEARED, "")),
    wrong("intervals left with n = 0", ("script", CLEARED, CLEARED.replace(CLEAR, gated("n > 0", CLEAR)))),
    wrong("intervals left with 6", ("script", CLEARED, CLEARED.replace(CLEAR, gated("n <= 4096", CLEAR)))),
    later("intervals left after a refused copy", ("script", STEPPED, STEPPED.replace(CLEAR, gated(f"number == 0 || !{LATER}", CLEAR)))),
    later("intervals left after the last copy", ("script", STEPPED, STEPPED.replace(CLEAR, gated(f"number != 0 || !{LATER}", CLEAR)))),
    # what goes from copy to copy
    later("columns forgotten between copies", ("script", NEXT, NEXT + gated(LATER, "        self.state.next_column.fill(1);\n"))),
    wrong("looks begun anew", ("script", CALL, gated("n > 0 && n <= 4096", "        self.state.look_counts.fill(0);\n") + CALL)),
    *[later(f"{name} of the first copy alone", ("flat", text, gated("!" + LATER, text))) for name, text in (
        ("looks", "            self.look_counts[i] = s.looks as usize;\n"), ("gap", GAP), ("right", "        self.right = state.right;\n"),
        ("unplaced area", "        self.unplaced_area = state.unplaced_area;\n"))],
    *[later(f"{name} of a copy without a place left", ("flat", text, gated(f"orientation > 0 || !{LATER}", text))) for name, text in (
        ("orientation", "        self.orientation[self.taken] = orientation;\n"), ("x", "        self.x[self.taken] = x;\n"),
        ("y", "        self.y[self.taken] = y;\n"), ("gap", GAP))],
]
