"""Fixed lists for `judge_layout` (document 02, W6) with their answers, most on case 4's sheet of 10 by 6 with plates of 4 by 3, worked
out on paper."""
import math

from jobs.bits import fields, pack, pack_fields
from jobs.cases import CLOCKWISE, case4, grid, hole, job, part, rect
from jobs.examples import nan_corner
from jobs.frame_cases import mixed
from jobs.frames import FRAMES, name
from jobs.lists import LENT, RECORD, ROOMS, line, one, plan_of, stepped, with_number

NAN, SIGNALLING, MINUS_NAN = 0x7FF8000000000000, 0x7FF0000000000001, 0xFFF8000000000001
INFINITE, MINUS_INFINITE, MINUS_ZERO = 0x7FF0000000000000, 0xFFF0000000000000, 1 << 63
MOST = (1 << 64) - 1
# What each room refuses with, and whether before the first line.
SHORT = [20, 20, 20, 21, 21, 20, 20]
BEFORE = [True, True, False, True, False, True, False]


def plate(x, y, kind=0, orientation=0):
    return line(kind, orientation, x, y)


def four():
    """Case 4's plan."""
    return [plate(0, 0), plate(0, 3), plate(4, 0), plate(4, 3)]


def first_lists():
    """Case 4: its plan, parts of it, and plates that lie elsewhere."""
    j, all_ = case4(), four()
    yield one("case 4", j, all_, (0, 4))
    for n in range(4):
        yield one(f"case 4, {n} lines", j, all_[:n], (0, n))
        yield one(f"case 4, line {n} alone", j, [all_[n]], (0, 1))
    yield one("case 4 from its end", j, all_[::-1], (0, 4))
    yield one("last column and top", j, [plate(6, 3)], (0, 1))
    yield one("right of the last column", j, [plate(7, 3)], (26, 0))
    yield one("above the top", j, [plate(6, 4)], (26, 0))
    yield one("left of the first column", j, [plate(-1, 0)], (26, 0))
    yield one("below", j, [plate(0, -1)], (26, 0))
    yield one("a plate on a plate", j, [plate(0, 0), plate(0, 0)], (27, 1))
    yield one("between columns", j, [plate(0.5, 0), plate(4.75, 0.5)], (0, 2))
    yield one("between columns, too near", j, [plate(0.5, 0), plate(4.25, 0.5)], (27, 1))
    yield one("the second too low", j, [plate(0, 0), plate(0, 2.5)], (27, 1))
    yield one("the second above a gap", j, [plate(0, 0), plate(2, 3)], (0, 2))
    yield one("the third between two", j, [plate(0, 0), plate(6, 0), plate(3, 0)], (27, 2))
    yield one("six plates where five are", j, all_ + [plate(6, 0), plate(0, 0)], (27, 4))


def remainders():
    """One to three numbers after the last whole line are none."""
    j = case4()
    for n in range(1, 4):
        yield one(f"remainder of {n}", j, four(), (0, 4), more=[MOST] * n)
        yield one(f"remainder of {n} alone", j, [], (0, 0), more=[0] * n)
        yield one(f"remainder of {n} that fits", j, four()[:2], (0, 2), more=[0, 0, plate(4, 0)[2]][:n])


def ends():
    """One least step beyond each end of both ranges, and at it."""
    j = case4()
    for at, low, high in ((2, 0.0, 6.0), (3, 0.0, 3.0)):
        word = "xy"[at - 2]
        put = lambda x, steps: with_number([plate(1, 1)], 0, at, stepped(plate(x, 0)[2], steps))
        yield one(f"{word} at its low end", j, put(low, 0), (0, 1))
        yield one(f"{word} below its low end", j, put(low, -1), (26, 0))
        yield one(f"{word} above its low end", j, put(low, 1), (0, 1))
        yield one(f"{word} at its high end", j, put(high, 0), (0, 1))
        yield one(f"{word} above its high end", j, put(high, 1), (26, 0))
        yield one(f"{word} below its high end", j, put(high, -1), (0, 1))
        for far in (1e5, -1e5, 1e300, -1e300, 1.7976931348623157e308, -1.7976931348623157e308):
            yield one(f"{word} {far}", j, put(far, 0), (26, 0))
    # A least step above 0 is lost in the sum with 4 or 3.
    for i, dx, dy, want in ((0, 1, 0, (0, 4)), (0, -1, 0, (26, 0)), (0, 0, 1, (0, 4)), (0, 0, -1, (26, 0)), (1, 0, 1, (26, 1)), (1, 0, -1, (27, 1)),
                            (2, 1, 0, (0, 4)), (2, -1, 0, (27, 2)), (3, 1, 0, (0, 4)), (3, -1, 0, (27, 3)), (3, 0, -1, (27, 3))):
        x, y = four()[i][2:]
        lines = with_number(with_number(four(), i, 2, stepped(x, dx)), i, 3, stepped(y, dy))
        yield one(f"plate {i} by {dx} and {dy} least steps", j, lines, want)


def past_the_end():
    """Sheet 1.8, part 0.1, resolution 0.1: column 17 stands one least step past x_high by rounding, and x_high is no column."""
    j = job([part([rect(0.1, 1)], 18)], rect(1.8, 1), 0.1)
    high, last = 1.8 - 0.1, 17 * 0.1
    assert last == math.nextafter(high, 2)
    up = math.nextafter(last, 2)
    for label, x, want in (("the column", last, (0, 1)), ("x_high", high, (0, 1)), ("one step more", up, (26, 0)),
                           ("column 3", 3 * 0.1, (0, 1)), ("next to column 3", math.nextafter(3 * 0.1, 1), (0, 1))):
        yield one("column past x_high: " + label, j, [plate(x, 0)], want)
    lengths, lines = plan_of(j)
    yield one("column past x_high: the plan", j, lines, (0, len(lines)), lengths)
    yield one("column past x_high: a copy there twice", j, lines[-1:] * 2, (27, 1))
    for frame in FRAMES:
        turned = dict(job([part([rect(0.1, 1), rect(1, 0.1)], 18)], rect(1.8, 1) if frame[1] else rect(1, 1.8), 0.1), frame=frame)
        lengths, lines = plan_of(turned)
        yield one(f"column past x_high, {name(frame)}", turned, lines, (0, len(lines)), lengths)


def columns_past():
    """Other sheets where the last column may pass x_high, and the steps around it: answers are left to the oracle."""
    for width, each, resolution in ((0.9, 0.3, 0.3), (2.7, 0.7, 0.1), (7.1, 0.3, 0.05), (1.8, 0.3, 0.3), (62500.0, 0.1, 0.0625)):
        j = job([part([rect(each, 1)], 5)], rect(width, 1), resolution)
        high = width - each
        last = int((high - 0.0) / resolution) * resolution
        for x in sorted({high, last, math.nextafter(last, 1e9), math.nextafter(high, 1e9), math.nextafter(high, 0), last - resolution}):
            yield one(f"sheet {width}, part {each}, resolution {resolution}: x {x!r}", j, [plate(x, 0)])


def reversed_ranges():
    """26 whatever x and y are; another orientation of the kind is judged by its own ranges."""
    wide, high, both = rect(11, 1), rect(1, 7), rect(11, 7)
    for label, s, places in (("x", wide, ((0, 0), (-1, 0), (-0.5, 0), (0, 5), (-1, 5), (0, 2))), ("y", high, ((0, 0), (0, -1), (0, -0.5), (9, 0), (9, -1))),
                             ("x and y", both, ((0, 0), (-1, -1), (0, -1), (-1, 0)))):
        j = job([part([s, rect(4, 3)], 3)])
        for x, y in places:
            yield one(f"reversed {label}: ({x}, {y})", j, [plate(x, y)], (26, 0))
        yield one(f"reversed {label}: the other orientation", j, [plate(0, 0, 0, 1), plate(4, 0, 0, 1)], (0, 2))
    yield one("ranges of one place", job([part([rect(10, 6)], 2)]), [plate(0, 0)], (0, 1))
    yield one("ranges of one place, twice", job([part([rect(10, 6)], 2)]), [plate(0, 0)] * 2, (27, 1))


def not_finite():
    """4 before all else of a line; it ends the list there."""
    j = case4()
    for label, n in (("NaN", NAN), ("signalling NaN", SIGNALLING), ("minus NaN", MINUS_NAN), ("infinite", INFINITE), ("minus infinite", MINUS_INFINITE),
                     ("all ones", MOST)):
        for at in (2, 3):
            yield one(f"{label} in {'xy'[at - 2]}", j, with_number(four(), 2, at, n), (4, 2))
        yield one(f"{label} in both", j, [(0, 0, n, n)], (4, 0))
    for frame in ((1, 0), (2, 0), (3, 1)):
        for n in (NAN, INFINITE, MINUS_INFINITE):
            yield one(f"{n:016x}, {name(frame)}", dict(j, frame=frame), [(0, 0, 0, n)], (4, 0))
    yield one("largest finite", j, [(0, 0, INFINITE - 1, 0)], (26, 0))


def minus_zeros():
    """Read as plus zero."""
    j = case4()
    minus = lambda lines: [(k, o, x or MINUS_ZERO, y or MINUS_ZERO) for k, o, x, y in lines]
    yield one("minus zeros", j, minus(four()), (0, 4))
    yield one("minus zero on zero", j, [plate(0, 0)] + minus([plate(0, 0)]), (27, 1))
    for frame in FRAMES:
        lengths, lines = plan_of(dict(j, frame=frame))
        yield one(f"minus zeros, {name(frame)}", dict(j, frame=frame), minus(lines), (0, len(lines)), lengths)


def missing():
    """9: kinds and orientations that the job lacks."""
    j = case4()
    for k in (1, 2, 63, 64, 65, 256, 1 << 32, 1 << 63, MOST):
        yield one(f"kind {k}", j, [plate(0, 0), plate(0, 3, k)], (9, 1))
    for o in (1, 15, 16, 17, 256, 1 << 32, 1 << 63, MOST):
        yield one(f"orientation {o}", j, [plate(0, 0), plate(0, 3, 0, o)], (9, 1))
    two = job([part([rect(4, 3)], 2, 12), part([rect(2, 2), rect(1, 2)], 3, 4)])
    yield one("orientation of the other kind", two, [plate(0, 0, 1, 1), plate(4, 0, 0, 1)], (9, 1))
    yield one("last kind and orientation", two, [plate(0, 0, 1, 1), plate(1, 0, 0)], (0, 2))
    most = job([part([rect(1, 1)], 1, k + 1) for k in range(63)] + [part([rect(1, 1)] * 16, 2, 3)], rect(70, 6))
    for label, k, o, want in (("the last slot", 63, 15, (0, 1)), ("past its orientations", 63, 16, (9, 0)), ("kind 64", 64, 0, (9, 0)),
                              ("past one orientation", 62, 1, (9, 0)), ("kind 62", 62, 0, (0, 1)), ("as slot 63", 0, 63, (9, 0))):
        yield one(f"64 kinds: {label}", most, [plate(0, 0, k, o)], want)


def quantities():
    """25: one line more than a kind has; the others have theirs still."""
    two = job([part([rect(2, 2)], 2, 4), part([rect(1, 1), rect(1, 2)], 3, 1)])
    a, b = [plate(0, 0), plate(2, 0)], [plate(4, 0, 1), plate(5, 0, 1, 1), plate(6, 0, 1)]
    yield one("all copies", two, a + b, (0, 5))
    yield one("all copies, other kind first", two, b + a, (0, 5))
    yield one("one copy too many", two, a + [plate(8, 0)], (25, 2))
    yield one("one copy too many after another kind", two, b + a + [plate(8, 0)], (25, 5))
    yield one("one too many of the other kind", two, a + b + [plate(7, 0, 1)], (25, 5))
    yield one("one too many by another orientation", two, b + [plate(7, 0, 1, 1)], (25, 3))
    yield one("one copy at a time", two, [a[0], b[0], a[1], b[1], b[2]], (0, 5))
    one_copy = job([part([rect(2, 2)], 1, 4)])
    yield one("the only copy twice", one_copy, [plate(0, 0), plate(2, 0)], (25, 1))
    many = job([part([CLOCKWISE], 4095, 12), part([CLOCKWISE], 1, 12)])
    yield one("4,097 lines", many, [plate(1, 1)] * 4095 + [plate(6, 3, 1)] * 2, (25, 4096), [0] * LENT)


def with_holes():
    """A sheet with a hole, and plates that are larger apart than inset, and smaller."""
    sheet = rect(10, 6) + hole(2, 2, 4, 0)
    larger, smaller = (rect(3, 3, -0.5, -0.5), rect(2, 2)), (rect(1, 1, 0.5, 0.5), rect(2, 2))
    return job([part([larger, smaller], 6, 4)], sheet, 0.5)


def sheet_and_copies():
    """Inset strips against the sheet, apart strips against copies; the hole is 4 to 6 wide and 0 to 2 high."""
    j = with_holes()
    big, small = lambda x, y: plate(x, y), lambda x, y: plate(x, y, 0, 1)
    yield one("beside the hole", j, [big(2, 0)], (0, 1))
    yield one("on the hole's left edge", j, [big(2.25, 0)], (27, 0))
    yield one("above the hole", j, [big(4, 2)], (0, 1))
    yield one("in the hole", j, [big(4, 0)], (27, 0))
    yield one("small in the hole", j, [small(4, 0)], (27, 0))
    yield one("small beside the hole, too near", j, [small(2.25, 0)], (27, 0))
    yield one("spacing over the hole", j, [big(6, 0), big(6, 3)], (0, 2))
    yield one("spacing kept", j, [big(0, 2), big(3, 2)], (0, 2))
    yield one("spacing not kept", j, [big(0, 2), big(2.75, 2)], (27, 1))
    yield one("small ones overlap inset", j, [small(0, 2), small(1, 2)], (0, 2))
    yield one("small ones overlap apart", j, [small(0, 2), small(0.75, 2)], (27, 1))
    yield one("small beside big", j, [big(0, 2), small(2, 2)], (0, 2))
    yield one("big beside small", j, [small(0, 2), big(2, 2)], (0, 2))
    yield one("small in big's spacing", j, [big(0, 2), small(1.75, 2)], (27, 1))


def several_strips():
    """Two bars one above the other, 0 to 1 and 2 to 3 high, and plates 1 high: a bar may pass over a plate or under it, and the other may not."""
    bars = rect(2, 1) + rect(2, 1, 0, 2)
    j = job([part([bars], 3, 4), part([rect(2, 1)], 3, 2), part([rect(1, 1) + rect(1, 1, 2, 0)], 2, 2)])
    yield one("the upper bar on a plate", j, [plate(0, 2, 1), plate(0, 0)], (27, 1))
    yield one("the lower bar on a plate", j, [plate(0, 0, 1), plate(0, 0)], (27, 1))
    yield one("a plate between the bars", j, [plate(0, 1, 1), plate(0, 0)], (0, 2))
    yield one("bars around a plate", j, [plate(0, 0), plate(0, 1, 1)], (0, 2))
    yield one("a plate on the upper bar", j, [plate(0, 0), plate(0, 2.5, 1)], (27, 1))
    yield one("bars between bars", j, [plate(0, 0), plate(0, 1)], (0, 2))
    yield one("bars on bars", j, [plate(0, 0), plate(0, 2)], (27, 1))
    yield one("the right foot on a plate", j, [plate(4, 0, 1), plate(2.5, 0, 2)], (27, 1))
    yield one("a foot on either side of a plate", j, [plate(1, 0, 1), plate(0, 0, 2)], (27, 1))


def rooms_of(label, j, lengths, lines):
    """Each room exact, with a remainder that is no record, one short and empty."""
    n = len(lines)
    yield one(f"{label}, rooms exact", j, lines, (0, n), lengths)
    yield one(f"{label}, rooms with a remainder", j, lines, (0, n), [a + record - 1 for a, record in zip(lengths, RECORD)])
    for room, need in enumerate(lengths):
        if need:
            less = lambda by: [a - by * (i == room) for i, a in enumerate(lengths)]
            for by in sorted({1, RECORD[room]}):
                want = (SHORT[room], 0 if BEFORE[room] else n - 1)
                yield one(f"{label}, room {room} short by {by}", j, lines, want, less(by))
            yield one(f"{label}, room {room} empty", j, lines, None, less(need))
            yield one(f"{label}, room {room} alone long", j, lines, None, [ROOMS[i] if i == room else 5 for i in range(LENT)])
            yield one(f"{label}, room {room} short, no line", j, [], (SHORT[room], 0) if BEFORE[room] else (0, 0), less(1))


def rooms():
    """On sheets without and with strips."""
    holed = job([part([(rect(2, 2), rect(2, 2))], 3, 4)], rect(10, 6) + hole(1, 1, 9, 5))
    for label, j in (("case 4", case4()), ("a hole", holed), ("an angle", mixed()), ("an angle, upper right along x", dict(mixed(), frame=(3, 0)))):
        lengths, lines = plan_of(j)
        yield from rooms_of(label, j, lengths, lines)
    yield one("no strips, no rooms", job([part([CLOCKWISE], 3)]), [plate(0, 0)] * 3, (0, 3), [0] * LENT)
    yield one("no copy, no placed room", case4(), [], (0, 0), [12, 0, 0, 0, 0, 0, 0])
    yield one("one copy, no placed room", case4(), [plate(0, 0)], (20, 0), [12, 0, 0, 0, 0, 0, 0])
    yield one("one copy, no entries", case4(), [plate(0, 0)], (21, 0), [12, 0, 6, 0, 0, 0, 1])
    # Bucket 204 has both ends of 4: 205 entries from 0 to 4, 206 from 4 to 8.
    yield one("entries of two plates", case4(), [plate(0, 0), plate(4, 0)], (0, 2), [12, 0, 12, 0, 411, 0, 2])
    yield one("entries of two plates, one short", case4(), [plate(0, 0), plate(4, 0)], (21, 1), [12, 0, 12, 0, 410, 0, 2])


def refused_jobs():
    """The job's number, line 0, whatever the list is."""
    data, fours = pack(case4()), four()
    changed = lambda field, value: pack_fields([(f, w, value if f == field else v) for f, w, v in fields(case4())])
    plates = lambda n: [part([rect(4, 3)], 4095), part([rect(4, 3)], n)]
    jobs = [(1, b""), (1, data[:-1]), (2, data + b"\0"), (3, bytes([data[0] + 32]) + data[1:]), (4, nan_corner()), (5, changed("resolution", 0)),
            (6, changed("quantity", 0)), (7, pack(job(plates(2)))), (8, pack(job([part([rect(4, 3)])], rect(2000, 6), 0.001)))]
    for n, (number, j) in enumerate(jobs):
        yield one(f"refused {number} ({n})", j, fours, (number, 0))
        yield one(f"refused {number} ({n}), no rooms and a bad line", j, [(9, 9, NAN, NAN)], (number, 0), [0] * LENT)
        yield one(f"refused {number} ({n}), no line", j, [], (number, 0))


def two_faults():
    """Two numbers hold of a line, or of two lines, or of the job and a line: the first by order."""
    one_copy = job([part([rect(4, 3)], 1, 12), part([rect(2, 2)], 3, 4)])
    exact, few, base = [24, 0, 6, 0, 205, 0, 1], [24, 0, 12, 0, 205, 0, 2], [plate(0, 0)]
    nan = lambda k, o: (k, o, 0, NAN)
    for label, lines, number, lengths in (
            ("4 and 9, kind", [nan(2, 0)], 4, ROOMS), ("4 and 9, orientation", [nan(0, 1)], 4, ROOMS), ("4 and 25", [nan(0, 0)], 4, ROOMS),
            ("4 and 27", [(1, 0, INFINITE, plate(0, 0)[3])], 4, ROOMS), ("4 and 20", [nan(1, 0)], 4, exact),
            ("9 and 25", [plate(4, 0, 0, 1)], 9, ROOMS), ("9 and 26", [plate(99, 0, 1, 1)], 9, ROOMS), ("9 and 27", [plate(0, 0, 1, 1)], 9, ROOMS),
            ("9 and 20", [plate(4, 0, 1, 1)], 9, exact), ("25 and 26", [plate(99, 0)], 25, ROOMS), ("25 and 27", [plate(1, 1)], 25, ROOMS),
            ("25 and 20", [plate(4, 0)], 25, exact), ("26 and 27, y", [plate(0, -1, 1)], 26, ROOMS), ("26 and 27, x", [plate(-1, 0, 1)], 26, ROOMS),
            ("26 and 20", [plate(9, 0, 1)], 26, exact), ("27 and 20", [plate(3, 0, 1)], 27, exact), ("27 and 21", [plate(3, 0, 1)], 27, few),
            ("20 and 21", [plate(4, 0, 1)], 20, exact), ("20 by the numbers and 21", [plate(4, 0, 1)], 20, few[:6] + [1]),
            ("21 alone", [plate(4, 0, 1)], 21, few)):
        yield one(label, one_copy, base + lines, (number, 1), lengths)
    bad = {4: nan(0, 0), 9: plate(0, 0, 7), 25: plate(4, 0), 26: plate(99, 0, 1), 27: plate(1, 1, 1)}
    for a in bad:
        for b in bad:
            if a != b:
                yield one(f"{a}, then {b}", one_copy, base + [bad[a], bad[b]], (a, 1))
    yield one("27, then 20", one_copy, base + [bad[27], plate(4, 0, 1)], (27, 1), exact)
    yield one("20, then 4", one_copy, base + [plate(4, 0, 1), nan(0, 0)], (20, 1), exact)
    yield one("21, then 9", one_copy, base + [plate(4, 0, 1), bad[9]], (21, 1), few)


def before_the_lines():
    """What cannot be prepared: the sheet's 20, its 21, the shapes' 20, in that order, before any line."""
    j = with_holes()
    lengths, lines = plan_of(j)
    shorter = lambda *rooms: [0 if i in rooms else a for i, a in enumerate(lengths)]
    for label, rooms_, number in (("20 and 21 of the sheet", (1, 3), 20), ("20 by the numbers and 21 of the sheet", (3, 5), 20),
                                  ("21 of the sheet and 20 of the shapes", (0, 3), 21), ("20 of sheet and shapes", (0, 1), 20),
                                  ("21 of the sheet alone", (3,), 21), ("20 of the shapes alone", (0,), 20)):
        yield one(label, j, lines, (number, 0), shorter(*rooms_))
        yield one(label + ", a bad line", j, [(0, 0, NAN, 0)], (number, 0), shorter(*rooms_))
        yield one(label + ", no line", j, [], (number, 0), shorter(*rooms_))
    many = rect(512, 100) + grid(35, 40, 480.0, 70.0, 10.0, 10.0, True)
    yield one("more strips of the sheet than plan's room", job([part([rect(1, 1)])], many, 64.0), [], (20, 0))
