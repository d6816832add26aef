"""Wrong planners of document 02, W1."""
from wrong.planner import INSET_BOUNDS, LEFT, SHEET_SETS

POINT = "given[if self.reversing() { n - 1 - i } else { i }]"
REVERSING = "self.right ^ self.upper ^ self.along_x"
TO = "let (x, y) = (turned(self.right, x), turned(self.upper, y));"
BACK = "let (x, y) = if self.along_x { (y, x) } else { (x, y) };"
FROM = "[turned(self.right, x), turned(self.upper, y)]"
SIGNED = "if self.right { -x } else { x }, if self.upper { -y } else { y }"
CORNERS = "right: corner % 2 == 1, upper: corner >= 2"
PUT = "            let [x, y] = frame.from([x, y]);\n"
RIGHT = "    let right = plan.layout.right;\n    let offcut"
FIRST = "        1 => (0, 1),\n"
SECOND = "        2 => (reader.field(2)? as u8, reader.field(1)? as u8),\n"
ADVANCE = "let i = if job.fill_axis == 0 { 1 } else { 0 };"
APART = "&trapezoids(&frame.loops(&o.apart), false)"
INSET = "&trapezoids(&frame.loops(&o.inset), false)"


def wrong(name, *edits):
    return "W1", name, list(edits)


# Held against the stored jobs of plan_test.
MUTANTS = [
    wrong("loops not reversed", ("frame", POINT, "given[i]")),
    wrong("loops always reversed", ("frame", POINT, "given[n - 1 - i]")),
    wrong("reversed where it must not be", ("frame", REVERSING, f"!({REVERSING})")),
    wrong("reversed by the corner alone", ("frame", REVERSING, "self.right ^ self.upper")),
    wrong("reversed along x", ("frame", REVERSING, "self.along_x")),
    wrong("reversed, the first point kept", ("frame", POINT, POINT.replace("n - 1 - i", "(n - i) % n"))),
    wrong("reversed, the last point left where it is",
          ("frame", POINT, POINT.replace("n - 1 - i", "if i + 1 == n { i } else { n - 2 - i }"))),
    wrong("loops listed the other way round too",
          ("frame", "        for (points, given) in out.iter_mut().zip(set) {\n",
           "        if self.reversing() {\n            out.reverse();\n        }\n"
           "        let given: Vec<_> = if self.reversing() { set.iter().rev().collect() } else { set.iter().collect() };\n"
           "        for (points, given) in out.iter_mut().zip(given) {\n")),
    wrong("no frame where only the axis differs", ("frame", "!(self.right || self.upper || self.along_x)", "!(self.right || self.upper)")),
    wrong("x and y not exchanged in from", ("frame", BACK, "")),
    wrong("x and y exchanged in from along y too", ("frame", BACK, "let (x, y) = (y, x);")),
    wrong("from as to", ("frame", BACK, ""), ("frame", FROM, "self.to([x, y])")),
    wrong("one sign left out in from", ("frame", FROM, "[turned(self.right, x), turned(false, y)]")),
    wrong("positions left in the frame", ("print", PUT, "")),
    wrong("corner's bits exchanged", ("frame", CORNERS, "right: corner >= 2, upper: corner % 2 == 1")),
    wrong("upper and lower exchanged", ("frame", CORNERS, "right: corner % 2 == 1, upper: corner < 2")),
    wrong("axis bit inverted", ("job", SECOND, SECOND.replace("reader.field(1)? as u8)", "1 - reader.field(1)? as u8)"))),
    wrong("axis before corner", ("job", SECOND, "        2 => {\n            let axis = reader.field(1)? as u8;\n"
                                 "            (reader.field(2)? as u8, axis)\n        }\n")),
    wrong("frame ignored", ("job", SECOND, "        2 => {\n            reader.field(3)?;\n            (0, 1)\n        }\n")),
    wrong("8 by the raw width", ("job", ADVANCE, "let i = 0;")),
    wrong("8 by the height", ("job", ADVANCE, "let i = 1;")),
    wrong("8 by width and height",
          ("job", "    high - low\n",
           "    let ys = job.sheet.iter().flatten().map(|p| p[1 - i]);\n"
           "    let other = ys.clone().fold(f64::MIN, f64::max) - ys.fold(f64::MAX, f64::min);\n"
           "    (high - low).max(other)\n")),
    wrong("minus zero left in positions", ("frame", FROM, f"[{SIGNED}]")),
    wrong("minus zero left in loops", ("frame", TO, f"let (x, y) = ({SIGNED});")),
    wrong("bounds of the raw set", ("filling", INSET_BOUNDS, "(bounds(&o.inset), 0..0)")),
    wrong("bounds of the raw sheet", ("filling", SHEET_SETS, SHEET_SETS.replace("bounds(&loops)", "bounds(&job.sheet)"))),
    wrong("strips of the raw sheet", ("filling", SHEET_SETS, SHEET_SETS.replace("trapezoids(&loops", "trapezoids(&job.sheet"))),
    wrong("strips of the raw apart set", ("filling", APART, "&trapezoids(&o.apart, false)")),
    wrong("strips of the raw inset set", ("filling", INSET, "&trapezoids(&o.inset, false)")),
    wrong("offcut by the raw sheet", ("print", LEFT, LEFT.replace("frame.loops(&job.sheet)", "job.sheet"))),
    wrong("reach of the raw apart set", ("print", "&frame.loops(&job.parts[kind].orientations[o].apart)", "&job.parts[kind].orientations[o].apart")),
    wrong("right taken out of the frame",
          ("print", RIGHT, RIGHT.replace("plan.layout.right", "Frame::of(job).from([plan.layout.right; 2])[(job.fill_axis == 0) as usize]"))),
    wrong("gap below zero from an upper corner", ("print", PUT, PUT + "            let gap = if job.start_corner > 1 { 0.0 - gap } else { gap };\n")),
    wrong("version 2 read as 1, three bits short", ("job", SECOND, "        2 => (0, 1),\n")),
    wrong("version 2 refused", ("job", SECOND, "")),
    wrong("version 1 along x", ("job", FIRST, "        1 => (0, 0),\n")),
    wrong("version 1 with corner and axis", ("job", FIRST, ""), ("job", SECOND, SECOND.replace("2 =>", "1 | 2 =>"))),
    wrong("version 3 accepted as 2", ("job", SECOND, SECOND.replace("2 =>", "2 | 3 =>"))),
    wrong("version 3 accepted as 1", ("job", FIRST, FIRST.replace("1 =>", "1 | 3 =>"))),
    wrong("version 0 accepted", ("job", FIRST, FIRST.replace("1 =>", "0 | 1 =>"))),
    wrong("version read in its last two bits", ("job", "match reader.field(4)? {", "match reader.field(4)? % 4 {")),
]

# In states that a script gives.
SCRIPT = [
    wrong("the state's positions out of the frame",
          ("filling", "state.placed[state.taken] = Some((o, x, y));",
           "let [x, y] = Frame::of(job).from([x, y]);\n            state.placed[state.taken] = Some((o, x, y));")),
    wrong("the position room in the frame",
          ("print", "        let record = [kind", "        let [x, y] = Frame::of(job).to([x, y]);\n        let record = [kind")),
    wrong("a step in its job's frame",
          ("flat", "            sheet: self.sheet_bounds,\n",
           "            sheet: crate::strips::bounds(&crate::frame::Frame::of(job).loops(&job.sheet)),\n")),
]
