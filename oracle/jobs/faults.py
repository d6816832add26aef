"""Edited states for refusal 31, each clause alone and at its limit."""
import math

from jobs.bits import double
from jobs.cases import case4
from jobs.script import (INTERVALS, PLACED, PLACED_ENTRIES, PLACED_FIRSTS, ROOMS, SHAPES, SHEET, SHEET_ENTRIES,
                         SHEET_FIRSTS, needs, trace)

NAN = 0x7FF8000000000000
INF = 0x7FF0000000000000
LESS_INF = 0xFFF0000000000000
MILLION = 1000000.0
ABOVE = math.nextafter(MILLION, 2 * MILLION)  # 1,000,000.0000000001
TINY = 5e-324
MINUS_ZERO = 1 << 63
MOST = 2**64 - 1
MOST_NUMBER = 2**16 - 1
STRANGE = [NAN, INF, LESS_INF, ABOVE, -ABOVE]


class State:
    """A state by its numbers: what an edit changes and what it was before."""

    def __init__(self, s, j, order, calls, taken):
        self.s, self.j, self.order, self.call = s, j, order, calls[taken]
        self.taken = taken
        c = self.call
        apart, inset = 0, 0
        self.slots = {}
        for slot in c.slots:
            i = 16 * int(slot[0]) + int(slot[1])
            n, m = int(slot[6]), int(slot[7])
            bounds = [int(w, 16) for w in slot[2:6]]
            column = 0 if slot[8] == "none" else int(slot[8]) + 1
            self.slots[i] = dict(parts=[apart, n, inset, m], bounds=bounds, column=column,
                                 looks=int(slot[9]))
            apart, inset = apart + n, inset + m
        self.apart, self.inset = apart, inset

    def place(self, n):
        """Orientation, x and y of place n as a state has them."""
        stands = self.call.places[n] if n < len(self.order) else None
        return (stands[0] + 1, *stands[1:]) if stands else (0, 0, 0)

    def was(self, name, n):
        """The number that stands there."""
        c, i = self.call, n // 4
        if name in ("inset_bounds", "parts") and i not in self.slots:
            return [self.apart, 0, self.inset, 0][n % 4] if name == "parts" else 0
        if name in ("next_column", "look_counts") and n not in self.slots:
            return int(name == "next_column")
        return {
            "resolution": lambda: c.resolution, "sheet_bounds": lambda: c.sheet[n],
            "sheet_strips": lambda: c.strips[0], "apart_strips": lambda: self.apart,
            "inset_bounds": lambda: self.slots[i]["bounds"][n % 4],
            "parts": lambda: self.slots[i]["parts"][n % 4],
            "order": lambda: self.order[n] if n < len(self.order) else 0,
            "taken": lambda: c.taken, "next_column": lambda: self.slots[n]["column"],
            "look_counts": lambda: self.slots[n]["looks"],
            "placed_strips": lambda: c.strips[1], "gap": lambda: c.gaps[n],
            "orientation": lambda: self.place(n)[0], "x": lambda: self.place(n)[1], "y": lambda: self.place(n)[2],
            "unplaced_area": lambda: c.area, "right": lambda: c.right,
        }[name]()

    def refused(self, name, n, value):
        """One number changed, a call, and the number put back."""
        self.s.edit(name, n, value)
        self.s.next(31)
        self.s.edit(name, n, self.was(name, n))

    def refused_slot(self, room, n, value):
        """The same with a slot of a room."""
        self.s.slot(room, n, value)
        self.s.next(31)
        self.s.slot(room, n, self.call.number(ROOMS[room], n))

    def last(self, slot):
        """The last column of a slot."""
        b = [double(w) for w in self.slots[slot]["bounds"]]
        s, r = self.call.sheet, self.call.resolution
        low, high = s[0] - b[0], s[2] - b[2]
        if high < low or s[3] - b[3] < s[1] - b[1]:
            return 0
        columns = math.floor((high - low) / r)
        return columns + (low + columns * r < high)


def counts(t):
    """"a count .. beyond its range"."""
    c = t.call
    s = t.s
    for value in (len(t.order) + 1, 4097, MOST):
        t.refused("taken", 0, value)
    room = [n // 6 for n in s.lengths[:3]]
    for name, most in (("sheet_strips", room[1]), ("apart_strips", room[0]),
                       ("placed_strips", room[2])):
        for value in (most + 1, MOST, MOST // 6, MOST // 6 + 1):
            t.refused(name, 0, value)
    t.refused("sheet_strips", 0, c.strips[0] + 1)
    t.refused("placed_strips", 0, c.strips[1] + 1)
    t.refused("apart_strips", 0, t.apart - 1)
    spare = room[0] - t.apart
    for i in t.slots:
        first, n, second, m = t.slots[i]["parts"]
        t.refused("parts", 4 * i, t.apart - n + 1)
        t.refused("parts", 4 * i + 1, t.apart - first + 1)
        t.refused("parts", 4 * i + 2, spare - m + 1)
        t.refused("parts", 4 * i + 3, spare - second + 1)
        t.refused("parts", 4 * i, MOST - n + 1)
        t.refused("parts", 4 * i + 1, MOST)


def numbers(t):
    """Resolution, bounds, right, area."""
    for value in (math.nextafter(0.001, 0), math.nextafter(10000.0, 1e9), 0.0, NAN, INF, LESS_INF):
        t.refused("resolution", 0, value)
    for n in range(4):
        for value in STRANGE:
            t.refused("sheet_bounds", n, value)
    for i in t.slots:
        for n in range(4):
            t.refused("inset_bounds", 4 * i + n, STRANGE[(n + i) % 5])
    for value in STRANGE:
        t.refused("right", 0, value)
    for value in (-TINY, math.nextafter(1e16, 1e17), NAN, INF, LESS_INF):
        t.refused("unplaced_area", 0, value)


def tracks(t):
    """Remembered columns, look counts, the order."""
    for i in t.slots:
        last = t.last(i)
        t.refused("next_column", i, last + 2)
        t.refused("look_counts", i, last + 2 + t.taken)
    t.refused("next_column", 0, MOST)
    t.refused("look_counts", 0, MOST)
    other = [1 - t.order[0], 2, 64, MOST]
    for value in other:
        t.refused("order", 0, value)
    t.refused("order", len(t.order) - 1, 1 - t.order[-1])


def strips(t):
    """Strips of every room: x0 above x1, and each number beyond its range."""
    c = t.call
    inset = 6 * t.apart
    for room, first in ((SHAPES, 0), (SHAPES, inset), (SHEET, 0), (PLACED, 0),
                        (SHAPES, 6 * (t.apart - 1)), (SHAPES, 6 * (t.apart + t.inset - 1)),
                        (SHEET, 6 * (c.strips[0] - 1)), (PLACED, 6 * (c.strips[1] - 1))):
        x1 = c.strip(ROOMS[room], first // 6)[1]
        t.refused_slot(room, first, math.nextafter(x1, MILLION))
        for n in range(6):
            t.refused_slot(room, first + n, STRANGE[(n + room + first) % 5])


def entries(t):
    """An entry changed, two exchanged, one missing, one too few."""
    c, s = t.call, t.s
    for room, n in ((SHEET_ENTRIES, c.entries[0]), (PLACED_ENTRIES, c.entries[1])):
        at = [c.number(ROOMS[room], i) for i in range(n)]
        t.refused_slot(room, 0, at[0] + 1)
        t.refused_slot(room, n - 1, at[n - 1] + 1)
        t.refused_slot(room, n - 1, MOST_NUMBER)
        t.refused_slot(room, n // 2, at[n // 2] + 1)
        where = next(i for i in range(n - 1) if at[i] != at[i + 1])
        s.slot(room, where, at[where + 1])
        t.refused_slot(room, where + 1, at[where])
        s.slot(room, where, at[where])
        # Missing: those after it move up by one.
        for i in range(where, n - 1):
            s.slot(room, i, at[i + 1])
        s.next(31)
        for i in range(where, n):
            s.slot(room, i, at[i])
        length = s.lengths[room]
        s.length(room, n - 1)
        s.next(31)
        s.length(room, 0)
        s.next(31)
        s.length(room, length)


def first_buckets(t):
    """A strip's bucket number changed, two exchanged, a room too short for the strips."""
    c, s = t.call, t.s
    for room, n in ((SHEET_FIRSTS, c.strips[0]), (PLACED_FIRSTS, c.strips[1])):
        at = [c.number(ROOMS[room], i) for i in range(n)]
        for i in (0, n // 2, n - 1):
            # One less than 0 is 65,535.
            for value in sorted({at[i] + 1, (at[i] - 1) % 2**16, MOST_NUMBER, 512}):
                t.refused_slot(room, i, value)
        where = [i for i in range(n - 1) if at[i] != at[i + 1]]
        for i in (where[0], where[len(where) // 2], where[-1]):
            s.slot(room, i, at[i + 1])
            t.refused_slot(room, i + 1, at[i])
            s.slot(room, i, at[i])
        length = s.lengths[room]
        for short in (n - 1, 0):
            s.length(room, short)
            s.next(31)
        s.length(room, length)


def accepted(s, calls, order):
    """What 31 does not look at. The call takes a copy."""
    free = {"layout": [("orientation", 4, MOST), ("x", 4, NAN), ("y", 3, INF), ("x", 5, ABOVE),
                       ("orientation", 9, 7)],
            "unused": [("next_column", 1, MOST), ("look_counts", 1023, MOST), ("parts", 4, MOST),
                       ("parts", 4 * 15 + 1, MOST), ("inset_bounds", 4 * 15, NAN),
                       ("inset_bounds", 4095, INF), ("order", len(order), MOST),
                       ("order", 4095, 64)]}
    s.title("31: not the places to come, not unused slots, not the rest of a room")
    for list_ in free.values():
        for name, n, value in list_:
            s.edit(name, n, value)
    for a in (SHAPES, SHEET, PLACED, SHEET_ENTRIES, PLACED_ENTRIES, SHEET_FIRSTS, PLACED_FIRSTS):
        c = calls[3]
        used = [6 * sum(c.shapes()), 6 * c.strips[0], 6 * c.strips[1], *c.entries, *c.strips][a]
        s.garbage(a, used)
    s.next(0)


def limits(t):
    """What 31 does not refuse: limits that are reached. Each call takes a copy; changed numbers that matter
    later are put back."""
    s = t.s
    s.title("31: at the limits")
    s.edit("right", 0, MILLION)
    s.edit("unplaced_area", 0, 1e16)
    # A strip without width: its x1 is its x0. No copy of that slot stands.
    for strip in (t.slots[17]["parts"][0], t.apart):
        s.slot(SHAPES, 6 * strip + 1, t.call.strip("shapes", strip)[0])
    for i in t.slots:
        s.edit("look_counts", i, t.last(i) + 1 + t.taken)
    s.next(0)
    s.edit("right", 0, -MILLION)
    s.edit("unplaced_area", 0, MINUS_ZERO)
    for i in t.slots:
        s.edit("next_column", i, t.last(i) + 1)
        s.edit("look_counts", i, 0)
    s.next(0)
    for i in t.slots:
        s.edit("next_column", i, 0)
    s.next(0)
    s.edit("resolution", 0, 10000.0)
    for i in t.slots:
        s.edit("next_column", i, 1)
        for n, value in enumerate((MILLION, -MILLION, -MILLION, MILLION)):
            s.edit("inset_bounds", 4 * i + n, value)
    s.next(0)
    s.edit("resolution", 0, 0.001)
    s.edit("sheet_bounds", 1, -MILLION)
    s.edit("sheet_bounds", 3, MILLION)
    for i in t.slots:
        for n, value in enumerate((0.0, 0.0, 0.0, 0.0)):
            s.edit("inset_bounds", 4 * i + n, value)
    s.next(0)


def empty_sheet(s):
    """Case 4's first copy, with the sheet's bounds changed: nothing stands, so the entries stay."""
    s.title("31: the sheet's bounds at their limits")
    j, order = case4(), [0] * 5
    s.job(j)
    s.order(order)
    s.rooms([12, 0, 30, 0, 2000, 0, 5, 12, 30])
    far = [-MILLION, -MILLION, MILLION, MILLION]
    zero = MINUS_ZERO
    for bounds, resolution in ((far, 10000.0), (far[::-1], 0.001), ([zero, zero, 10.0, 6.0], 1.0),
                               ([0.0, 0.0, 4.0, 3.0], 0.001), ([6.5, 0.5, 10.5, 3.5], 0.5)):
        s.start(0)
        for n, value in enumerate(bounds):
            s.edit("sheet_bounds", n, value)
        s.edit("resolution", 0, resolution)
        s.next(0)
        # Where the sheet is farthest, the copy's gap is beyond 1,000,000.
        s.edit("gap", 0, MILLION)
        s.next(0)


def many_columns(s):
    """Columns up to 4,000,000,000, more than an accepted job has, and an x just above 2,000,000."""
    s.title("31: columns of a wide sheet")
    # Resolution, last column.
    for resolution, last in ((0.001, 4 * 10**9), (0.003465452755069335, 1154250334)):
        s.start(0)
        for n, value in enumerate((-MILLION, -MILLION, MILLION, MILLION)):
            s.edit("sheet_bounds", n, value)
        for n, value in enumerate((MILLION, 0.0, -MILLION, 3.0)):
            s.edit("inset_bounds", n, value)
        s.edit("resolution", 0, resolution)
        s.edit("next_column", 0, last + 2)
        s.next(31)
        s.edit("next_column", 0, last + 1)
        s.edit("look_counts", 0, last + 2)
        s.next(31)
        s.edit("look_counts", 0, last + 1)
        s.next(0)
        # The strip now lies beyond 1,000,000, and so did the gap.
        s.edit("gap", 0, MILLION)
        s.next(31)


def clauses(s, j, order):
    """31: each clause alone in the state after three copies."""
    calls = trace(j, order)
    need = needs(calls, len(order))
    s.title("31: each clause alone")
    s.job(j)
    s.order(order)
    s.rooms([n + 20 for n in need])
    s.start(0)
    s.length(INTERVALS, need[INTERVALS])
    for _ in range(3):
        s.next(0)
    t = State(s, j, order, calls, 3)
    for name, test in (("counts", counts), ("numbers", numbers), ("columns, looks, order", tracks),
                       ("strips", strips), ("entries", entries), ("first buckets", first_buckets)):
        s.title("31: " + name)
        test(t)
    accepted(s, calls, order)
    limits(State(s, j, order, calls, 4))
    empty_sheet(s)
    many_columns(s)
    s.title("31: a state of zeros")
    s.order(order[1:])
    s.start(10)
    s.order(order)
    s.next(31)
