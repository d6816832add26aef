"""Two refusals at once: starts, fillings and single steps in which more than one holds."""
from jobs.cases import grid, job, part, rect
from jobs.faults import INF, NAN
from jobs.script import (INTERVALS, PLACED, PLACED_ENTRIES, PLACED_FIRSTS, POSITIONS, SHAPES, SHEET, SHEET_ENTRIES,
                         SHEET_FIRSTS, needs, trace)


def holed_job():
    """A job that uses every room, the order of its copies, and the same with a sheet that 8 refuses."""
    sheet = rect(10, 6) + grid(1, 1, 1.0, 1.0, 8.0, 4.0, True)
    j = job([part([rect(4, 3)], 3, 12), part([rect(2, 2)], 1, 4)], sheet)
    return j, [0, 1, 0, 0], dict(j, sheet=rect(1e5, 6), resolution=0.001)


def double_faults(s):
    """Two refusals at once: the first of document 01's order is given."""
    (j, order, wide), wrong = holed_job(), [0, 1, 1, 0]
    calls = trace(j, order)
    need = needs(calls, 4)

    def both(name, wants, bytes_, kinds, *short):
        """A start and a filling with these rooms one short."""
        s.title(name)
        s.job(bytes_)
        s.order(kinds)
        for call, want in zip((s.start, s.fill), wants):
            s.rooms([n - (room in short) for room, n in enumerate(need)])
            call(want)

    both("8 and 30", (8, 8), wide, order, POSITIONS)
    both("30 and 10", (30, 30), j, wrong, POSITIONS)
    both("10 and the sheet's 20", (10, 10), j, wrong, SHEET)
    both("10 and the sheet's 20 by its numbers", (10, 10), j, wrong, SHEET_FIRSTS)
    both("the sheet's 20 and 21", (20, 20), j, order, SHEET, SHEET_ENTRIES)
    both("the sheet's 20 by its numbers, and 21", (20, 20), j, order, SHEET_FIRSTS, SHEET_ENTRIES)
    both("the sheet's 21 and the shapes' 20", (21, 21), j, order, SHEET_ENTRIES, SHAPES)
    both("the shapes' 20 and the filling's", (20, 20), j, order, SHAPES, PLACED, PLACED_ENTRIES,
         INTERVALS)
    both("22, 20 and 21 of a filling", (0, 22), j, order, PLACED, PLACED_ENTRIES, INTERVALS)
    both("20 and 21 of a filling", (0, 20), j, order, PLACED, PLACED_ENTRIES)
    both("22, 20 by the numbers and 21 of a filling", (0, 22), j, order, PLACED_FIRSTS,
         PLACED_ENTRIES, INTERVALS)
    both("20 by the numbers and 21 of a filling", (0, 20), j, order, PLACED_FIRSTS, PLACED_ENTRIES)
    both("an order that is too short", (10, 10), j, order[1:])
    both("an order that is too long", (10, 10), j, order + [0])
    both("an order of nothing", (10, 10), j, [])
    both("an order with a kind that the job lacks", (10, 10), j, [0, 1, 0, 2])
    steps_twice(s, j, wide, order, calls, need)


def steps_twice(s, j, wide, order, calls, need):
    """Double faults of a single step."""
    s.title("double faults of a step")
    s.job(j)
    s.order(order)
    s.rooms(need)
    s.start(0)
    s.next(0)
    s.next(0)
    after = calls[3]
    s.length(PLACED, 6 * after.strips[1] - 1)
    s.length(PLACED_ENTRIES, after.entries[1] - 1)
    s.length(INTERVALS, 2 * after.most - 1)
    s.title("22, 20 and 21 of one copy")
    s.next(22)
    s.title("20 and 21 of one copy")
    s.length(INTERVALS, 2 * after.most)
    s.next(20)
    s.title("20 by the numbers and 21 of one copy")
    s.length(PLACED, 6 * after.strips[1])
    s.length(PLACED_FIRSTS, after.strips[1] - 1)
    s.next(20)
    s.title("31 and 22")
    s.length(INTERVALS, 0)
    s.edit("right", 0, NAN)
    s.next(31)
    s.edit("right", 0, calls[2].right)
    s.title("31 by a bucket number, and 22, 20 and 21")
    first = calls[2].number("placed_firsts", 0)
    s.slot(PLACED_FIRSTS, 0, first + 1)
    s.next(31)
    s.slot(PLACED_FIRSTS, 0, first)
    s.next(22)
    job_first(s, j, wide, calls[2].right)
    s.rooms(need, garbage=False)
    s.next(0)
    s.next(0)
    used_up(s, wide)


def job_first(s, j, wide, right):
    """A refused job and a state that 31 refuses."""
    s.edit("right", 0, NAN)
    s.title("the job's and 31")
    s.job(wide)
    s.next(8)
    s.job(b"")
    s.next(1)
    s.job(j)
    s.edit("right", 0, right)


def used_up(s, wide):
    """Double faults where every copy is taken."""
    s.title("23, and 31 before it")
    s.next(23)
    s.edit("taken", 0, 5)
    s.next(31)
    s.edit("taken", 0, 4)
    s.edit("right", 0, INF)
    s.next(31)
    s.title("the job's before 23")
    s.job(wide)
    s.next(8)
