#!/usr/bin/env python3
"""Lifts the planner's private items out of nesting.rs, text unchanged.

lift.py NESTING_RS OUT   writes the Rust module OUT
lift.py --show NESTING_RS OUT   tests OUT against NESTING_RS and lists its pieces
"""
import re
import sys

# Whole items, by the start of their first line, in the order of nesting.rs.
ITEMS = [
    "type P2 =",
    "pub enum StartCorner {",
    "pub enum FillAxis {",
    "struct Frame {",
    "impl Frame {",
    "fn bounds(",
    "struct Trapezoid {",
    "impl Trapezoid {",
    "fn trapezoids(",
    "struct Index {",
    "impl Index {",
    "struct Shape {",
    "struct Planner<",
    "struct Layout {",
    "impl Layout {",
    "impl<C: CancelSignal> Planner<",
    "fn next_random(",
]

# Ranges of lines inside an item: name, item, start of the first line, start of
# the last line, and how many lines more.
RANGES = [
    ("look", "impl<C: CancelSignal> Planner<", "let x = if column",
     "y = y.max(", 1),
    ("columns", "impl<C: CancelSignal> Planner<", "let b = shape.inset_bounds", "};", 0),
    ("column", "impl<C: CancelSignal> Planner<", "let x = if column", "};", 0),
    ("nest", "pub fn nest(", "// Required parts before fillers", ".collect();", 0),
]

# The one changed type, in the planner's list of shapes: a kind's orientations.
CHANGED = ("shapes: Vec<Vec<", "shapes: Vec<Orientations<")

HEAD = """// Made by oracle/lift/lift.py. Never committed. Text between "lifted" and "end"
// is that of nesting.rs (MIT licence, see NOTICE); the rest is ours.
use super::*;
"""

# Items without what stands above them: it derives traits of serde. Ours stands in its place.
BARE = "pub enum "
DERIVED = "#[derive(Clone, Copy, Default)]\n"

# What stands round an item or a range of lines, so that it compiles unchanged.
AROUND = {
    "pub enum StartCorner": (DERIVED, ""),
    "pub enum FillAxis": (DERIVED, ""),
    "look": ("""impl Planner<'_, Signal> {
    fn look(
        &self,
        shape: &Shape,
        placed_parts: &Index,
        (column, columns): (usize, usize),
        (x_low, x_high): (f64, f64),
        ys: (f64, f64),
        out: &mut Vec<(f64, f64)>,
    ) -> (f64, f64) {
        let mut intervals = std::mem::take(out);
""", """        *out = intervals;
        (x, y)
    }
}
"""),
    "columns": ("""struct Columns {
    xs: (f64, f64),
    ys: (f64, f64),
    columns: usize,
    last: usize,
}
impl Planner<'_, Signal> {
    fn columns(&self, shape: &Shape) -> Option<Columns> {
        let (sb, part, o) = (self.sheet_bounds, 0, 0);
        let mut next_column = [[0; 1]; 1];
        for _ in 0..1 {
""", """            return Some(Columns { xs: (x_low, x_high), ys, columns, last });
        }
        None
    }
}
"""),
    "column": ("""impl Planner<'_, Signal> {
    fn column(&self, column: usize, columns: usize, (x_low, x_high): (f64, f64)) -> f64 {
""", """        x
    }
}
"""),
    "nest": ("""struct Planned {
    order: Vec<usize>,
    best: Layout,
    improvements: u32,
    state: u64,
    copies: Vec<u32>,
    placements: Vec<Placement>,
    unplaced: Vec<Unplaced>,
}
fn planned(request: &Job, planner: &Planner<'_, Signal>, frame: &Frame) -> Result<Planned, String> {
""", """    Ok(Planned { order, best, improvements, state, copies, placements, unplaced })
}
"""),
}

TAIL = """#[path = "../rust/reach.rs"]
pub mod reach;
"""


def item_range(lines, start):
    """First and last line (from 0) of the item that starts so, with its
    comments and attributes where it is not one of BARE."""
    found = [i for i, line in enumerate(lines) if line.startswith(start)]
    if len(found) != 1:
        sys.exit(f"lift.py: {len(found)} lines start with {start!r}")
    first = last = found[0]
    while not start.startswith(BARE) and re.match(r"(///|#\[)", lines[first - 1]):
        first -= 1
    depth = 0
    while True:
        depth += lines[last].count("{") - lines[last].count("}")
        if depth == 0 and re.search(r"[};]\s*$", lines[last]):
            return first, last
        last += 1


def inner_range(lines, item, start, stop, more):
    """The lines from `start` to the next `stop`, and `more` lines further."""
    a, b = item_range(lines, item)
    first = next(i for i in range(a, b) if lines[i].strip().startswith(start))
    if start.startswith("//"):
        # nest: to the end of the statement that makes the unplaced list.
        at = next(i for i in range(first, b) if lines[i].startswith("    let unplaced"))
    else:
        at = first
    last = next(i for i in range(at, b) if lines[i].strip().startswith(stop))
    return first, last + more


def pieces(lines):
    """(name, first, last) of all that is lifted."""
    result = [(start.rstrip(" ({<="), *item_range(lines, start)) for start in ITEMS]
    for name, item, start, stop, more in RANGES:
        result.append((f"lines {name}", *inner_range(lines, item, start, stop, more)))
    return result


def lifted(lines):
    out = HEAD
    for name, first, last in pieces(lines):
        text = "\n".join(lines[first:last + 1]) + "\n"
        if name == "struct Planner":
            assert text.count(CHANGED[0]) == 1
            text = text.replace(*CHANGED)
        before, after = AROUND.get(name.removeprefix("lines "), ("", ""))
        out += f"{before}// lifted {first + 1} {last + 1} {name}\n{text}// end\n{after}"
    return out + TAIL


def show(lines, out):
    """Tests every piece of OUT against the lines it names."""
    text = open(out).read()
    whole = "\n".join(lines) + "\n"
    for m in re.finditer(r"^// lifted (\d+) (\d+) (.*)\n((?:.*\n)*?)// end$", text, re.M):
        first, last, name, piece = int(m[1]), int(m[2]), m[3], m[4]
        original = piece.replace(CHANGED[1], CHANGED[0])
        same = original == "\n".join(lines[first - 1:last]) + "\n" and original in whole
        note = "" if piece == original else f" but for `{CHANGED[1]}`"
        print(f"lines {first}-{last} {name}: {'verbatim' + note if same else 'DIFFERENT'}")
        if not same:
            sys.exit(1)


def main():
    args = sys.argv[1:]
    showing = args[0] == "--show"
    source, out = args[-2:]
    lines = open(source, encoding="utf-8").read().split("\n")
    if showing:
        show(lines, out)
    else:
        open(out, "w", encoding="utf-8").write(lifted(lines))


main()
