"""Wrong planners of document 02, W4: withdrawals, and 31's tests of standing copies. All are held against the script."""
COLUMNS = "        self.next_column.fill(1);\n"
LOOKS = "        self.look_counts.fill(0);\n"
DOWN = "        rooms.placed.copy_within(later, STRIP * before);\n"
FEWER = "        self.placed_strips -= count;\n"
REST = "rooms.placed[STRIP * self.placed_strips..].fill(0.0);"
ENTRIES = "        rooms.placed_entries.fill(0);\n"
FIRSTS = "        rooms.placed_firsts.fill(0);\n"
ENTERED = "        index.enter(&mut rooms.placed_entries, &mut rooms.placed_firsts, &left, 0);\n"
RIGHT = "        self.right = ends.fold(self.sheet_bounds[0], larger);\n"
ENDS = "        let ends = self.standing().map(|i| self.x[i] + self.bounds(self.slot(i))[2]);\n"
KIND = "        let kind = self.order[n];\n"
ORDER = "        close_up(&mut self.order[..copies], n, kind);\n"
ORIENTATION = "        close_up(&mut self.orientation[..self.taken], n, 0);\n"
X = "        close_up(&mut self.x[..self.taken], n, 0.0);\n"
Y = "        close_up(&mut self.y[..self.taken], n, 0.0);\n"
GAP = "        close_up(&mut self.gap[..self.taken], n, 0.0);\n"
TAKEN = "        self.taken -= 1;\n"
TEST31 = """        if self.state(job, rooms).is_none() {
            return 31;
        }
"""
STANDS = "!self.standing().any(|i| i == n)"
TEST24 = "        if " + STANDS + " {\n            return 24;\n        }\n"
LENGTH = "self.ranges(self.slot(i)).0.len()"
CLEAR = "        self.clear_copy(job.copies(), n);\n"
PLACES = "            && self.places_fit(job)\n"
COPIES = "            && self.copies_fit(rooms)\n"
HAS = "self.orientation[i] <= kind(i).orientations.len()"
X_FITS = "\n            && self.standing().all(|i| bounded(self.x[i]))"
Y_FITS = "\n            && self.standing().all(|i| bounded(self.y[i]))"
SAME = "if at == self.placed_strips || load(&rooms.placed, at) != strip {\n                    return false;"
ALL = "        at == self.placed_strips\n"
TO_COME = "(0..job.copies()).filter(|&i| i >= self.taken || self.orientation[i] > 0)"
# Entries of the strips that stood before.
USED = ("        let all: Vec<Strip> = (0..self.placed_strips).map(|i| load(&rooms.placed, i)).collect();\n"
        "        let used = Index::new(self.sheet_bounds[0], self.sheet_bounds[2]).needed(&all);\n")
TESTED = [("flat", "    fn places_fit(", "    pub fn places_fit("), ("flat", "    fn copies_fit(", "    pub fn copies_fit(")]


def wrong(name, *edits):
    """Of withdraw.rs, unless an edit names another file."""
    return ("W4", name, [edit if len(edit) == 3 else ("withdraw", *edit) for edit in edits])


def without(name, text, file="withdraw"):
    return wrong(name, (file, text, ""))


SCRIPT = [
    # what is forgotten
    without("columns kept", COLUMNS),
    wrong("only none kept", (COLUMNS, "        self.next_column.iter_mut().filter(|c| **c > 0).for_each(|c| *c = 1);\n")),
    wrong("only none forgotten", (COLUMNS, "        self.next_column.iter_mut().filter(|c| **c == 0).for_each(|c| *c = 1);\n")),
    without("looks kept", LOOKS),
    wrong("columns and looks of its kind alone", (COLUMNS, "        self.next_column[16 * kind..][..16].fill(1);\n"),
          (LOOKS, "        self.look_counts[16 * kind..][..16].fill(0);\n")),
    wrong("columns of slots with strips alone",
          (COLUMNS, "        for i in (0..1024).filter(|i| self.parts[4 * i + 3] > 0) {\n            self.next_column[i] = 1;\n        }\n")),
    wrong("looks of slots with strips alone",
          (LOOKS, "        for i in (0..1024).filter(|i| self.parts[4 * i + 3] > 0) {\n            self.look_counts[i] = 0;\n        }\n")),
    # strips, entries, bucket numbers
    without("later strips not closed up", DOWN),
    wrong("the first strips go", (DOWN, DOWN.replace("later, STRIP * before", "STRIP * count..STRIP * self.placed_strips, 0"))),
    wrong("one strip goes", (FEWER, "        let count = count.min(1);\n" + FEWER)),
    wrong("strips worked out anew", (REST, REST + "\n        rooms.placed.iter_mut().for_each(|x| *x += 0.0);")),
    wrong("entries not renumbered", (ENTERED, ENTERED + "        for e in &mut rooms.placed_entries[..index.count()] {\n"
                                     "            *e += if *e as usize >= before { count as u16 } else { 0 };\n        }\n")),
    wrong("entries left as they were", (ENTRIES, ""), (ENTERED, "        let entries = rooms.placed_entries.clone();\n" + ENTERED
                                                       + "        rooms.placed_entries.copy_from_slice(&entries);\n")),
    wrong("bucket numbers not closed up", (FIRSTS, "        let firsts = rooms.placed_firsts.clone();\n" + FIRSTS),
          (ENTERED, ENTERED + "        rooms.placed_firsts[..left.len()].copy_from_slice(&firsts[..left.len()]);\n")),
    # zeros after them
    without("the freed strips left", REST),
    wrong("zeros only in the freed strips", (REST, "rooms.placed[STRIP * self.placed_strips..STRIP * (self.placed_strips + count)].fill(0.0);")),
    wrong("zeros only in whole strips",
          (REST, "let whole = rooms.placed.len() / STRIP * STRIP;\n        rooms.placed[STRIP * self.placed_strips..whole].fill(0.0);")),
    without("the freed entries left", ENTRIES),
    wrong("zeros only in the freed entries", ("        let later =", USED + "        let later ="), (ENTRIES, ENTRIES.replace(".fill", "[..used].fill"))),
    without("the freed bucket numbers left", FIRSTS),
    wrong("zeros only in the freed bucket numbers", (FIRSTS, FIRSTS.replace(".fill", "[..self.placed_strips + count].fill"))),
    wrong("the interval room zeroed", ("script", "        self.called(Request::Back(n), number, &rooms)?;\n",
                                       "        rooms.clear_intervals();\n        self.called(Request::Back(n), number, &rooms)?;\n")),
    # right
    without("right not found anew", RIGHT),
    wrong("right of all copies", (ENDS + RIGHT, "        self.right = right;\n"),
          (KIND, KIND + ENDS + "        let right = ends.fold(self.sheet_bounds[0], larger);\n")),
    wrong("right never less", (RIGHT, RIGHT.replace("self.sheet_bounds[0]", "self.right"))),
    wrong("right anew from zero", (RIGHT, RIGHT.replace("self.sheet_bounds[0]", "0.0"))),
    wrong("right of the last copy left", (RIGHT, "        self.right = ends.last().unwrap_or(self.sheet_bounds[0]);\n")),
    wrong("right of the first orientation", (ENDS, ENDS.replace("self.slot(i)", "16 * self.order[i]"))),
    wrong("right by the strips", (ENDS, ""), (RIGHT, ""),
          (CLEAR, CLEAR + "        let right = |i: usize| load(&rooms.placed, i)[1];\n"
           "        self.right = (0..self.placed_strips).map(right).fold(self.sheet_bounds[0], larger);\n")),
    # order and layout
    wrong("copy not appended", (ORDER, "        self.order.copy_within(n + 1..copies, n);\n")),
    wrong("appended in front of those to come", (ORDER, ORDER.replace("copies", "self.taken"))),
    without("order not closed up", ORDER),
    wrong("exchanged with the last", (ORDER, "        self.order.swap(n, copies - 1);\n")),
    wrong("order closed up behind the copies", (ORDER, ORDER.replace("..copies", ".."))),
    without("taken not lowered", TAKEN),
    without("orientation not closed up", ORIENTATION),
    without("x not closed up", X),
    without("y not closed up", Y),
    without("gap not closed up", GAP),
    wrong("gaps become zero", (GAP, "        self.gap[..self.taken].fill(0.0);\n")),
    wrong("orientation closed up behind the taken", (ORIENTATION, ORIENTATION.replace("..self.taken", ".."))),
    wrong("x closed up behind the taken", (X, X.replace("..self.taken", ".."))),
    wrong("y closed up behind the taken", (Y, Y.replace("..self.taken", ".."))),
    wrong("gap closed up behind the taken", (GAP, GAP.replace("..self.taken", ".."))),
    wrong("the freed place keeps the last copy's numbers", (X, "        self.x.copy_within(n + 1..self.taken, n);\n")),
    wrong("the freed place keeps an orientation", (ORIENTATION, "        self.orientation.copy_within(n + 1..self.taken, n);\n")),
    wrong("unplaced area lowered", (CLEAR, CLEAR.replace("self.", "let area = job.parts[self.order[n]].area;\n        self.")
                                    + "        self.unplaced_area = (self.unplaced_area - area).max(0.0);\n")),
    wrong("unplaced area begun anew", (TAKEN, TAKEN + "        self.unplaced_area = 0.0;\n")),
    # refusals
    wrong("24 before 31", (TEST31 + TEST24, TEST24 + TEST31)),
    without("no 31 of a withdrawal", TEST31),
    wrong("24 only for places not taken", (STANDS, "n >= self.taken"), (LENGTH, "if self.orientation[i] == 0 { 0 } else { " + LENGTH + " }")),
    wrong("24 only by the orientation", (STANDS, "n >= job.copies() || self.orientation[n] == 0"), (TAKEN, "        self.taken = self.taken.max(1) - 1;\n")),
    wrong("24 as 23", ("return 24;", "return 23;")),
    wrong("places wrap at 65,536", (TEST24, "        let n = n % 65_536;\n" + TEST24)),
    wrong("31 without orientations", ("flat", HAS, "kind(i).quantity > 0")),
    wrong("31 by one orientation more", ("flat", HAS, HAS + " + 1")),
    wrong("31 by sixteen orientations", ("flat", HAS, "kind(i).quantity > 0 && self.orientation[i] <= 16")),
    without("31 without x", X_FITS, "flat"),
    without("31 without y", Y_FITS, "flat"),
    wrong("31 by x below its range alone", ("flat", X_FITS, X_FITS.replace("bounded(self.x[i])", "self.x[i] >= -1e6"))),
    wrong("31 by y above its range alone", ("flat", Y_FITS, Y_FITS.replace("bounded(self.y[i])", "self.y[i] <= 1e6"))),
    wrong("31 by x at its limits", ("flat", X_FITS, X_FITS.replace("bounded(self.x[i])", "bounded(self.x[i]) && self.x[i].abs() < 1e6"))),
    wrong("31 by y at its limits", ("flat", Y_FITS, Y_FITS.replace("bounded(self.y[i])", "bounded(self.y[i]) && self.y[i].abs() < 1e6"))),
    wrong("31 by x of copies without a place", ("flat", X_FITS, X_FITS.replace("self.standing()", "(0..self.taken)"))),
    wrong("31 by y of copies without a place", ("flat", Y_FITS, Y_FITS.replace("self.standing()", "(0..self.taken)"))),
    wrong("31 by x of copies to come", ("flat", X_FITS, X_FITS.replace("self.standing()", TO_COME))),
    wrong("31 by y of copies to come", ("flat", Y_FITS, Y_FITS.replace("self.standing()", TO_COME))),
    without("31 without strips", COPIES, "flat"),
    wrong("31 by how many strips alone", ("flat", SAME, SAME.replace("load(&rooms.placed, at) != strip", "strip.is_empty()"))),
    wrong("a strip more allowed", ("flat", ALL, "        at <= self.placed_strips\n")),
    wrong("a strip fewer allowed", ("flat", SAME, "if at == self.placed_strips {\n                    return true;\n                }\n"
                                    "                if load(&rooms.placed, at) != strip {\n                    return false;")),
    wrong("strips compared by bits", ("flat", SAME, SAME.replace("at) != strip", "at).map(f64::to_bits) != strip.map(f64::to_bits)"))),
    *[wrong(f"number {n} of a strip not compared", ("flat", SAME, SAME.replace("load(&rooms.placed, at)", "{\n"
            "                    let mut other = load(&rooms.placed, at);\n"
            f"                    other[{n}] = strip[{n}];\n                    other\n                }}")))
      for n in range(6)],
    wrong("strips within a millionth", ("flat", SAME, SAME.replace("load(&rooms.placed, at) != strip",
                                                                 "load(&rooms.placed, at).iter().zip(&strip).any(|(a, b)| (a - b).abs() > 1e-6)"))),
    wrong("the first copy's strips alone compared", ("flat", "        for i in self.standing() {\n            for n", "        for i in self.standing() {\n"
                                                     "            if at > 0 {\n                return true;\n            }\n            for n")),
    wrong("31's new tests of a withdrawal alone", *TESTED, ("flat", PLACES, ""), ("flat", COPIES, ""),
          (TEST31, TEST31.replace("is_none()", "is_none() || !self.places_fit(job) || !self.copies_fit(rooms)"))),
    wrong("31's new tests of next copy alone", *TESTED, ("flat", PLACES, ""), ("flat", COPIES, ""),
          ("script", "                None => 31,\n",
           "                None => 31,\n                Some(_) if !self.state.places_fit(&job) || !self.state.copies_fit(&rooms) => 31,\n")),
]
