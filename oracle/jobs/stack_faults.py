"""31 in a stack (document 02, W5): of the state that it begins with, and after a copy that was accepted."""
from jobs.cases import CLOCKWISE, case4, job, part, rect
from jobs.faults import ABOVE, INF, MILLION, MOST, NAN, State
from jobs.script import PLACED, PLACED_ENTRIES, PLACED_FIRSTS, ROOMS, SHAPES, SHEET_ENTRIES, needs, trace

# The most that 31 lets an unplaced area be.
AREA = 1e16
# From 1,000,000 to the next double.
ULP = ABOVE - MILLION


def at_once(s, j, order):
    """One fault of 31 in the state that a stack begins with: n = 0 and 6 come before it."""
    s.title("31 before the first of several copies")
    calls = trace(j, order)
    s.job(j)
    s.order(order)
    s.rooms([n + 20 for n in needs(calls, len(order))])
    s.call("S", 0, False)
    s.stack(3, (0, 3), False)
    t = State(s, j, order, calls, 3)

    def tried():
        for n, want in ((0, (0, 0)), (1, (31, 0)), (2, (31, 0)), (4097, (6, 0))):
            s.stack(n, want, n == 0)

    for name, n, value in (("resolution", 0, INF), ("sheet_bounds", 2, ABOVE), ("taken", 0, len(order) + 1), ("order", 0, MOST), ("gap", 1, NAN),
                           ("x", 2, 0.25), ("orientation", 0, 17), ("look_counts", 17, MOST), ("unplaced_area", 0, -1.0), ("right", 0, NAN)):
        s.edit(name, n, value)
        tried()
        s.edit(name, n, t.was(name, n))
    for room, n in ((PLACED, 1), (PLACED_ENTRIES, 0), (PLACED_FIRSTS, 0), (SHEET_ENTRIES, 3)):
        s.slot(room, n, 7)
        tried()
        s.slot(room, n, t.call.number(ROOMS[room], n))
    s.stack(2, (0, 2))


def alone(j, copies, *edits):
    """A start of a job with one kind, then edits: of a room's slot where a room is named."""
    def make(s):
        s.job(j)
        s.order([0] * copies)
        s.rooms([48, 0, 60, 0, 4000, 0, 10, 40, 6 * copies], garbage=False)
        s.call("S", 0, False)
        for name, n, value in edits:
            (s.slot if isinstance(name, int) else s.edit)(name, n, value)
    return make


def bounds(name, *values):
    """The sheet's bounds, or those of the first slot."""
    return [(name, n, value) for n, value in enumerate(values)]


def plates(*edits):
    return alone(case4(), 5, *edits)


def empty(*edits):
    """Copies without strips."""
    return alone(job([part([CLOCKWISE], 4, 12)]), 4, *edits)


def frames(*edits):
    """Copies of four strips each."""
    hollow = rect(4, 4) + [[(1.0, 1.0), (1.0, 3.0), (3.0, 3.0), (3.0, 1.0)]]
    return alone(job([part([hollow], 2, 12)], rect(12, 9)), 2, *edits)


def area(value, order, each=12):
    """An unplaced area, and copies of which those of kind 1 have no place and this area."""
    def make(s):
        s.job(job([part([rect(4, 3)], order.count(0), 12), part([rect(11, 1)], order.count(1), each)]))
        s.order(order)
        s.rooms([48, 0, 60, 0, 4000, 0, 10, 40, 60], garbage=False)
        s.call("S", 0, False)
        s.edit("unplaced_area", 0, value)
    return make


def looks(value):
    """Case 4 with two plates in the first column and a search that begins there again: it takes five looks."""
    def make(s):
        plates()(s)
        s.stack(2, (0, 2), False)
        s.edit("next_column", 0, 1)
        s.edit("look_counts", 0, value)
    return make


def second_looks(value):
    """The same of the second orientation: the first finds nothing."""
    def make(s):
        alone(job([part([rect(11, 1), rect(4, 3)], 5, 12)]), 5)(s)
        s.stack(2, (0, 2), False)
        s.edit("next_column", 1, 1)
        s.edit("look_counts", 1, value)
    return make


def wide(resolution, column):
    """Columns up to 4,000,000,000, as in faults.many_columns: the last is remembered."""
    return plates(*bounds("sheet_bounds", -MILLION, -MILLION, MILLION, MILLION), *bounds("inset_bounds", MILLION, 0.0, -MILLION, 3.0),
                  ("resolution", 0, resolution), ("next_column", 0, column + 1), ("look_counts", 0, column + 1))


def three_states(s):
    """Each by single calls too: so many copies are accepted, the one after them is refused with 31."""
    for title, k, make in (("31 after a copy: the unplaced area", 1, area(AREA, [1, 0, 1])), ("31 after a copy: the look count", 1, looks(9)),
                           ("31 after a copy: bounds near 1,000,000", 1, wide(0.001, 4 * 10**9)),
                           ("31 after a copy: an x above 2,000,000", 1, wide(0.003465452755069335, 1154250334)),
                           ("31 after copies: the unplaced area", 3, area(AREA - 12, [0, 1, 1, 0, 1]))):
        s.title(title)
        make(s)
        for _ in range(k):
            s.next(0, False)
        s.next(31)
        make(s)
        for _ in range(k):
            s.stack(1, (0, 1), False)
        s.stack(1, (31, 0))
        in_one(s, k, make)
        s.stack(0, (0, 0))
        s.stack(4097, (6, 0))


def in_one(s, k, make):
    """Taken at once: k copies, and no more where more are asked for."""
    make(s)
    s.stack(k, (0, k))
    s.stack(1, (31, 0), False)
    make(s)
    s.stack(k + 1, (31, k))


def one_test_each(s):
    """After the copy one thing alone is beyond its range."""
    tall, side = ("sheet_bounds", 1, -MILLION), ("sheet_bounds", 3, MILLION)
    least, most = bounds("sheet_bounds", 1.0, 1.0, 11.0, 7.0), bounds("sheet_bounds", -1.0, -1.0, 9.0, 5.0)
    across = [("sheet_bounds", 0, -MILLION), ("sheet_bounds", 2, MILLION), ("resolution", 0, 6.3500000000000005), ("next_column", 0, 314961)]
    states = [
        ("x", empty(*bounds("sheet_bounds", MILLION, 0.0, MILLION, 6.0), *bounds("inset_bounds", -ULP, 0.0, -ULP, 3.0))),
        ("x below", empty(*bounds("sheet_bounds", -MILLION, 0.0, -MILLION, 6.0), *bounds("inset_bounds", ULP, 0.0, ULP, 3.0))),
        ("y", empty(*bounds("sheet_bounds", 0.0, MILLION, 10.0, MILLION), *bounds("inset_bounds", 0.0, -ULP, 4.0, -ULP))),
        ("y below", empty(*bounds("sheet_bounds", 0.0, -MILLION, 10.0, -MILLION), *bounds("inset_bounds", 0.0, ULP, 4.0, ULP))),
        ("gap", plates(tall, side)), ("right", empty(*across)), ("looks of a second orientation", second_looks(9)),
        ("look count by one", looks(6)), ("unplaced area by one double", area(AREA, [1, 0, 1], 2)),
        ("strip number 0", plates(*most, (SHAPES, 0, -MILLION))), ("strip number 1", plates(*least, (SHAPES, 1, MILLION))),
        *[(f"strip number {n}", plates(*least, (SHAPES, n, MILLION))) for n in (2, 4)],
        *[(f"strip number {n}", plates(*most, (SHAPES, n, -MILLION))) for n in (3, 5)],
        ("the last of four strips", frames(*least, (SHAPES, 19, MILLION))),
    ]
    for title, make in states:
        s.title("31 after a copy: " + title)
        in_one(s, 1, make)


def at_the_limits(s):
    """What two copies bring to its limit and not beyond."""
    for title, make in (
            ("unplaced area", area(AREA - 24, [1, 1, 0, 0])), ("an area too small to tell", area(AREA, [1, 1, 0], 0.5)), ("look count", looks(5)),
            ("x", empty(*bounds("sheet_bounds", MILLION - 10, 0.0, MILLION - 10, 6.0), *bounds("inset_bounds", -10.0, 0.0, -10.0, 3.0))),
            ("y", empty(*bounds("sheet_bounds", 0.0, MILLION - 10, 10.0, MILLION - 10), *bounds("inset_bounds", 0.0, -10.0, 4.0, -10.0))),
            ("gap", plates(("sheet_bounds", 1, -500000.0), ("sheet_bounds", 3, 500003.0))),
            ("a strip", plates(*bounds("sheet_bounds", 1.0, 1.0, 11.0, 7.0), (SHAPES, 1, MILLION - 1)))):
        s.title("not 31 after copies: " + title)
        make(s)
        s.stack(2, (0, 2))
        s.stack(1, (0, 1), False)


def stack_faults(s, j, order):
    at_once(s, j, order)
    three_states(s)
    one_test_each(s)
    at_the_limits(s)
