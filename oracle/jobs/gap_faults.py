"""Gaps of a state (document 02, W7): those that 31 refuses and those that it does not, and other refusals beside it."""
from jobs.cases import case4, job, part, rect
from jobs.double_faults import holed_job
from jobs.faults import ABOVE, INF, LESS_INF, MILLION, MINUS_ZERO, NAN, TINY, State
from jobs.script import INTERVALS, PLACED, PLACED_ENTRIES, PLACED_FIRSTS, needs, trace

REFUSED = [-TINY, ABOVE, NAN, INF, LESS_INF]
ALLOWED = [MILLION, MINUS_ZERO, 0.0, TINY]


def begun(s, j, order, taken, calls):
    """A start in exact rooms, and so many copies taken; the state."""
    s.job(j)
    s.order(order)
    s.rooms(needs(calls, len(order)))
    s.start(0)
    for _ in range(taken):
        s.next(0)
    return State(s, j, order, calls, taken)


def each_alone(s, j, order):
    """The gap of the first, a middle and the last standing copy."""
    s.title("31: gaps")
    t = begun(s, j, order, 3, trace(j, order))
    for n in range(3):
        for value in REFUSED:
            t.refused("gap", n, value)
    s.next(0)


def by_place(s):
    """Gaps of standing copies, which 31 judges, and of those without a place and to come, which it does not: the
    copies that are then taken overwrite theirs."""
    s.title("31: gaps beside copies without a place")
    j, order = job([part([rect(4, 3)], 4, 12), part([rect(11, 1)], 2, 11)]), [0, 1, 0, 0, 1, 0]
    calls = trace(j, order)
    for i in range(len(REFUSED)):
        t = begun(s, j, order, 4, calls)
        for n in (0, 2, 3):
            t.refused("gap", n, REFUSED[(i + n) % 5])
            s.edit("gap", n, ALLOWED[(i + n) % 4])
        for k, n in enumerate((1, 4, 5, 4095)):
            s.edit("gap", n, REFUSED[(i + k) % 5])
        # One to come has an orientation as if it stood.
        s.edit("orientation", 5, 1)
        s.next(0)
        s.next(0)
        s.next(23)


def written_beyond(s):
    """A step from bounds that no job has, but 31 allows, writes a gap of 1,999,997: the next is refused."""
    s.title("31: a gap that a step wrote")
    begun(s, case4(), [0] * 5, 0, trace(case4(), [0] * 5))
    for n, value in enumerate((0.0, -MILLION, 10.0, MILLION)):
        s.edit("sheet_bounds", n, value)
    s.next(0)
    s.next(31)
    s.edit("gap", 0, ABOVE)
    s.next(31)
    s.edit("gap", 0, MILLION)
    s.next(0)


def minus_zeros(s):
    """Minus zero as y_high and as an interval's bottom, which no job makes: the gap is plus zero."""
    s.title("a gap up to minus zero")
    j, order = job([part([rect(4, 3, 0, -3)], 3, 12)]), [0] * 3
    calls = trace(j, order)
    begun(s, j, order, 0, calls)
    s.edit("sheet_bounds", 1, -3.0)
    s.edit("sheet_bounds", 3, MINUS_ZERO)
    s.next(0)
    begun(s, j, order, 1, calls)
    s.edit("sheet_bounds", 1, -3.0)
    for n in (2, 3):
        s.slot(PLACED, n, MINUS_ZERO)
    s.next(0)


def twice(s):
    """31 by a gap and another refusal."""
    j, order, wide = holed_job()
    calls = trace(j, order)
    t = begun(s, j, order, 2, calls)
    for room, n in ((INTERVALS, 0), (PLACED, 6 * calls[2].strips[1]), (PLACED_FIRSTS, calls[2].strips[1]),
                    (PLACED_ENTRIES, calls[2].entries[1])):
        s.length(room, n)
    s.title("31 by a gap, and 22, 20 and 21")
    t.refused("gap", 0, -TINY)
    s.next(22)
    s.rooms(needs(calls, len(order)), garbage=False)
    s.next(0)
    s.next(0)
    s.title("23, and 31 by a gap before it")
    s.next(23)
    for n in (0, 3):
        s.edit("gap", n, INF)
        s.next(31)
        s.edit("gap", n, calls[-1].gaps[n])
    s.next(23)
    s.title("the job's before 31 by a gap")
    s.edit("gap", 0, ABOVE)
    for other, number in ((wide, 8), (b"", 1)):
        s.job(other)
        s.next(number)


def gap_faults(s, j, order):
    each_alone(s, j, order)
    by_place(s)
    written_beyond(s)
    minus_zeros(s)
    twice(s)
