"""Fixed tables for `write_job` (document 02, W9) with the numbers that they answer: each field at its limits and beyond, versions and frames,
doubles, short and long tables, two faults, output rooms. Large ones stand in write_sizes.py."""
import math

from jobs.bits import bits, double
from jobs.cases import case4, job, part, rect
from jobs.frame_cases import mixed
from jobs.frames import FRAMES, LOWER_LEFT, name
from jobs.write_records import changed, cut, exact, header, longer, one, places, slot_of, with_slot
from jobs.writer import INFINITY, MINUS_ZERO, NAN, given

MOST = (1 << 64) - 1
TURNED = (3, 0)
# Width, least and most of each count.
COUNTS = {"kinds": (7, 1, 64), "rounds": (12, 0, 4095), "loops": (7, 1, 64), "points": (10, 3, 512), "quantity": (12, 1, 4095),
          "fill": (1, 0, 1), "priority": (32, 0, 2**32 - 1), "orientations": (5, 1, 16)}
RANGES = {"resolution": (0.001, 10000.0), "area": (0.0, 1e12), "x": (-1e5, 1e5), "y": (-1e5, 1e5)}
NOT_FINITE = {"NaN": NAN, "minus NaN": NAN | MINUS_ZERO, "NaN of least bits": INFINITY + 1, "minus NaN of least bits": MINUS_ZERO + INFINITY + 1,
              "NaN of other bits": 0x7FF4DEADBEEF0001, "NaN of all bits": MOST >> 1, "all ones": MOST, "infinity": INFINITY,
              "minus infinity": INFINITY | MINUS_ZERO}
# Finite bits that are strange.
SMALL = {"minus zero": MINUS_ZERO, "zero": 0, "least": 1, "minus least": MINUS_ZERO + 1, "largest": INFINITY - 1,
         "minus largest": (INFINITY - 1) | MINUS_ZERO, "least normal": 1 << 52}


def short(name_):
    return name_.split()[-1]


def two():
    """Two kinds of unlike fields on a sheet that is wider than high, from the upper right along x."""
    a, b = [[(0.0, 0.0), (4.0, 0.0), (0.0, 3.0)]], [[(0.0, 0.5), (2.0, 0.0), (2.5, 1.5)]]
    return dict(job([part([a], 5, 6, True, -2), part([(b, a), b], 3, 1.25, False, 7)], rect(10, 6, -3, 1), 0.5, 9, 0x0123456789ABCDEF), frame=TURNED)


def bases():
    """Case 4 of both versions, and jobs with more in them."""
    return [("case 4", given(case4())), ("case 4 turned", given(dict(case4(), frame=TURNED))), ("two kinds", given(two())),
            ("angle", given(mixed()))]


def whole():
    """Jobs that are written, in both versions and every frame."""
    yield from (one(label, t, 0) for label, t in bases())
    for label, j in (("case 4", case4()), ("two kinds", two()), ("angle", mixed())):
        for frame in FRAMES:
            yield one(f"{label}, {name(frame)}", given(dict(j, frame=frame)), 0)
    for n in range(1, 9):
        loops = [[(float(i), 0.0), (i + 1.0, 0.0), (float(i), 1.0)] for i in range(n)]
        for version, j in ((1, job([part([loops])])), (2, dict(job([part([loops])]), frame=LOWER_LEFT))):
            yield one(f"version {version} with {n} loops: other filling bits", given(j), 0)


def versions():
    """3, and 6 of corner and axis in version 2 alone."""
    plain, turned = given(case4()), given(dict(case4(), frame=TURNED))
    for n in (0, 1, 2, 3, 4, 7, 8, 9, 14, 15, 16, 17, 18, 31, 32, 33, 34, 257, 258, 2**32 + 1, 2**32 + 2, 2**63 + 1, 2**63 + 2, MOST - 1, MOST):
        yield one(f"version {n}", header(plain, version=n), 0 if n in (1, 2) else 3)
        yield one(f"version {n} from the upper right along x", header(turned, version=n), 0 if n == 2 else 3)
    others = [frame for frame in FRAMES if frame != LOWER_LEFT]
    others += [(9, 1), (4, 1), (4, 0), (0, 2), (0, 3), (0, MOST), (MOST, 1), (MOST, MOST), (2**32, 1), (0, 2**32 + 1), (256, 1), (0, 257), (4, 3)]
    for corner, axis in others:
        yield one(f"version 1 with corner {corner}, axis {axis}", header(plain, corner=corner, axis=axis), 3)
        yield one(f"version 1 with corner {corner}, axis {axis} and no kind", header(plain, corner=corner, axis=axis, kinds=0), 3)
        yield one(f"version 16 with corner {corner}, axis {axis}", header(plain, version=16, corner=corner, axis=axis), 3)
        yield one(f"version 3 with corner {corner}, axis {axis}", header(plain, version=3, corner=corner, axis=axis), 3)
    for corner in (4, 5, 7, 8, 256, 2**32, 2**32 + 3, 2**63, MOST):
        yield one(f"version 2 with corner {corner}", header(turned, corner=corner), 6)
        yield one(f"version 2 with corner {corner}, axis 2", header(turned, corner=corner, axis=2), 6)
    for axis in (2, 3, 4, 256, 2**32, 2**32 + 1, 2**63, MOST):
        yield one(f"version 2 with axis {axis}", header(turned, axis=axis), 6)
    for kinds, resolution in ((0, 1.0), (1, math.nan), (1, 0.0)):
        yield one(f"corner 4 before {kinds} kinds, resolution {resolution}", header(turned, corner=4, kinds=kinds, resolution=resolution), 6)
        yield one(f"axis 2 before {kinds} kinds, resolution {resolution}", header(turned, axis=2, kinds=kinds, resolution=resolution), 6)


def count_values(width, least, most):
    values = {least - 1, least, most, most + 1, 2**width - 1, 2**width, 2**width + 1, 2**width + least, 2**32, 2**32 + least,
              2**32 + most, 2**63, 2**63 + least, MOST}
    return sorted(n for n in values if 0 <= n <= MOST)


def counts():
    """Each count at its limits and too large for its field, the first and the last of its name. Where it is in its range and another than it
    was, tables do not fit it, and what they answer is left to the writers."""
    for label, t in (bases()[0], bases()[2]):
        names = [p[0] for p in places(t)]
        for field in sorted(set(names)):
            if short(field) not in COUNTS:
                continue
            width, least, most = COUNTS[short(field)]
            for nth in (0, -1) if names.count(field) > 1 else (0,):
                for n in count_values(width, least, most):
                    free = short(field) in ("rounds", "fill", "priority")
                    want = 6 if not least <= n <= most else 0 if free else None
                    yield one(f"{label}: {field} {nth} is {n}", changed(t, field, n, nth), want)


def seeds():
    for n in (0, 1, 2**32, 2**63, MOST - 1, MOST, 0x123456789ABCDEF):
        yield one(f"seed {n:x}", header(given(case4()), seed=n), 0)


def double_values(least, most):
    """Label, bits and number."""
    yield from ((label, n, 4) for label, n in NOT_FINITE.items())
    near = {f"{word} {end!r}": bits(math.nextafter(end, to) if to else end) for end in (least, most)
            for word, to in (("at", 0), ("below", -math.inf), ("above", math.inf))}
    for label, n in {**SMALL, **near, "one": bits(1.0), "minus one": bits(-1.0), "far": bits(1e300), "minus far": bits(-1e300)}.items():
        yield label, n, 0 if least <= double(n) <= most else 5


def doubles():
    """Each kind of double: not finite, at its limits, beyond them, zeros. The first and the last of its name."""
    t = given(two())
    names = [p[0] for p in places(t)]
    for field in sorted(set(names)):
        if short(field) in RANGES:
            for nth in (0, -1) if names.count(field) > 1 else (0,):
                for label, n, want in double_values(*RANGES[short(field)]):
                    # 8 of a sheet that is as high as can be is tried elsewhere.
                    yield one(f"{field} {nth}: {label}", changed(header(t, resolution=0.5) if field != "resolution" else t, field, n, nth), want)


def minus_zeros():
    """Minus zero is plus zero: every zero of a job, and each alone."""
    for label, t in bases():
        minus = t._replace(areas=[MINUS_ZERO for _ in t.areas], coordinates=[n or MINUS_ZERO for n in t.coordinates])
        yield one(f"{label}: every zero a minus zero", minus, 0)
    t = given(case4())
    for i, n in enumerate(t.coordinates):
        if n == 0:
            yield one(f"coordinate {i} a minus zero", t._replace(coordinates=t.coordinates[:i] + [MINUS_ZERO] + t.coordinates[i + 1:]), 0)
    yield one("resolution a minus zero", header(t, resolution=-0.0), 5)
    yield one("area a minus zero", t._replace(areas=[MINUS_ZERO]), 0)


def shortened():
    """Tables that lack slots: 0, or not a number. 4 for an area or a coordinate, 6 for counts, 6 or an earlier 4 for rows."""
    for label, t in (bases()[0], bases()[2]):
        for table in ("areas", "coordinates"):
            for n in range(len(getattr(t, table))):
                yield one(f"{label}: {n} slots of {table}", cut(t, table, n), 4)
        for table in ("rows", "counts"):
            for n in range(len(getattr(t, table))):
                yield one(f"{label}: {n} slots of {table}", cut(t, table, n), 6)
        for n in range(len(t.rows)):
            yield one(f"{label}: {n} slots of rows, no area", cut(cut(t, "rows", n), "areas", 0), 4 if n else 6)
        none = t._replace(rows=[], areas=[], counts=[], coordinates=[])
        yield one(f"{label}: no slot at all", none, 6)
        yield one(f"{label}: no slot but the sheet's loops", none._replace(counts=[1]), 6)
        yield one(f"{label}: no slot but loops and points", none._replace(counts=[1, 3]), 4)
        yield one(f"{label}: only a sheet", none._replace(counts=t.counts[:2], coordinates=t.coordinates[:8]), 6)
    t = given(mixed())
    for n in range(0, len(t.coordinates), 9):
        yield one(f"angle: {n} slots of coordinates", cut(t, "coordinates", n), 4)


def behind():
    """What stands behind the slots that the job needs does not matter."""
    for label, t in bases()[:3]:
        for table, slots in (("rows", [MOST, 0, 1 << 40]), ("areas", [NAN, MOST]), ("counts", [MOST, 0]), ("coordinates", [INFINITY, NAN, 1])):
            yield one(f"{label}: garbage behind {table}", longer(t, table, slots), 0)
        t = t._replace(rows=t.rows + [0] * 9, areas=t.areas + [MINUS_ZERO], counts=t.counts + [7] * 5, coordinates=t.coordinates + [NAN] * 8)
        yield one(f"{label}: garbage behind all tables", t, 0)
        yield one(f"{label}: garbage behind all tables, room one short", t, 28, -1)
        yield one(f"{label}: garbage behind all tables, room longer", t, 0, 20)


# Faults of the two kinds, in the order in which they are judged: a name, what is changed, and the number.
FAULTS = [("version 16", ("version", 16, 0), 3), ("corner 4", ("corner", 4, 0), 6), ("axis 2", ("axis", 2, 0), 6), ("no kind", ("kinds", 0, 0), 6),
          ("4096 rounds", ("rounds", 4096, 0), 6), ("resolution NaN", ("resolution", NAN, 0), 4), ("resolution 0", ("resolution", 0, 0), 5),
          ("no loop", ("sheet loops", 0, 0), 6), ("2 points", ("sheet points", 2, 0), 6), ("sheet x infinite", ("sheet x", INFINITY, 0), 4),
          ("sheet y far", ("sheet y", 1e6, -1), 5), ("no copy", ("quantity", 0, 0), 6), ("fill 2", ("fill", 2, 0), 6),
          ("priority 2^32", ("priority", 2**32, 0), 6), ("area NaN", ("area", NAN, 0), 4), ("area below 0", ("area", -1.0, 0), 5),
          ("17 orientations", ("orientations", 17, 0), 6), ("apart x far", ("apart x", -1e6, 0), 5), ("inset points 513", ("inset points", 513, 0), 6),
          ("inset y NaN", ("inset y", NAN, 0), 4), ("last quantity 4096", ("quantity", 4096, -1), 6), ("last area far", ("area", 1e13, -1), 5),
          ("last y infinite", ("inset y", INFINITY | MINUS_ZERO, -1), 4)]
# After the last field: 7 and, along x, 8.
COPIES = [("quantity", 4095, 0), ("quantity", 2, -1)]
COLUMNS = [("resolution", 0.001, 0), ("sheet y", -99000.0, 0), ("sheet y", 99000.0, -1)]


def faulty(t, *faults):
    """The tables with all these changes, the first made last."""
    slots = [(*slot_of(t, field, nth), n) for field, n, nth in faults]
    for table, i, n in slots[::-1]:
        t = with_slot(t, table, i, n)
    return t


def two_faults():
    """The first in the reader's order is given."""
    t, list_ = given(two()), [(label, [change], n) for label, change, n in FAULTS]
    list_ += [("4097 copies", COPIES, 7), ("1,000,001 columns", COLUMNS, 8), ("room short", [], 28)]
    for i, (a, changes, want) in enumerate(list_):
        for b, others, number in list_[i + 1:]:
            slots = lambda faults: {(field, nth) for field, _, nth in faults}
            if not (slots(changes) & slots(others) or number == want == 6):
                yield one(f"{a} and {b}", faulty(t, *changes, *others), want, -1 if "room short" in (a, b) else 0)
    for more in (-1, -64):
        yield one(f"4097 copies, 1,000,001 columns, room {more}", faulty(t, *COPIES, *COLUMNS), 7, more)
        yield one(f"1,000,001 columns, room {more}", faulty(t, *COLUMNS), 8, more)


def faults_in_rooms():
    """Each fault alone in rooms that are empty, short, one short and long: all bytes are zero after it."""
    t = given(two())
    for label, change, want in FAULTS:
        for n in (0, 64, exact(t) - 1, exact(t) + 50):
            yield one(f"{label} in a room of {n}", faulty(t, change), want)._replace(room=n)
    for n in (0, exact(t) - 1, exact(t), exact(t) + 50):
        yield one(f"4097 copies in a room of {n}", faulty(t, *COPIES), 7)._replace(room=n)
        yield one(f"1,000,001 columns in a room of {n}", faulty(t, *COLUMNS), 8)._replace(room=n)


def rooms():
    """Exact, one short, empty, longer; a refused job in any room."""
    for label, t in bases():
        for more in (-3, -2, -1, 0, 1, 2, 3, 7, 8, 64, 300):
            yield one(f"{label}: room longer by {more}", t, 28 if more < 0 else 0, more)
        for n in (0, 1, 2, 19, 100):
            yield one(f"{label}: room of {n}", t, 28)._replace(room=n)
        for n in (0, 1, 5, 231, 232, 1000):
            yield one(f"{label}: refused in a room of {n}", changed(t, "inset y", NAN, -1), 4)._replace(room=n)
            yield one(f"{label}: refused at once in a room of {n}", header(t, version=0), 3)._replace(room=n)


CASES = (whole, versions, counts, seeds, doubles, minus_zeros, shortened, behind, two_faults, faults_in_rooms, rooms)
