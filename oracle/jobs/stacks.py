"""The next n copies in one call (document 02, W5): how many, what stops them, and what they leave."""
from jobs.bits import pack
from jobs.cases import CLOCKWISE, case4, job, part, rect
from jobs.draws import Draws
from jobs.faults import INF, MOST, NAN
from jobs.frame_calls import SECOND
from jobs.frame_cases import mixed
from jobs.script import INTERVALS, PLACED, PLACED_ENTRIES, PLACED_FIRSTS, POSITIONS, RECORD, needs, trace
from jobs.withdrawals import begun as begun_with_space
from jobs.withdrawals import mixed_up

FAR = 2**32 - 1


def begun(s, j, order, calls=None):
    """A start in exact rooms with a remainder that is no record, garbage in those that copies fill; their lengths."""
    need = needs(calls or trace(j, order), len(order))
    lengths = [n + record - 1 for n, record in zip(need, RECORD)]
    s.job(j)
    s.order(order)
    s.rooms(lengths)
    again(s)
    return lengths


def again(s):
    """A start, without its rooms' hashes, and garbage where copies are to stand."""
    s.call("S", 0, False)
    for room in (PLACED, PLACED_ENTRIES, PLACED_FIRSTS):
        s.garbage(room)


def every_n(s, label, j, order):
    """Every n from 0 to one more than there are copies, each from a start, and one next copy after it."""
    s.title(label + ", every n")
    copies = len(order)
    begun(s, j, order)
    for n in range(copies + 2):
        if n:
            again(s)
        s.stack(n, (23 if n > copies else 0, min(n, copies)))
        s.next(23 if n >= copies else 0, n == 0)


def short_rooms(calls):
    """Of each room that copies fill its refusal, and by the number of copies before the refused one the room's length then."""
    after = list(enumerate(calls[1:]))
    most = [c.most for c in calls]
    return [(INTERVALS, 22, {k: 2 * c.most - 1 for k, c in after if c.most > max(most[:k + 1])}),
            (PLACED, 20, {k: 6 * c.strips[1] - 1 for k, c in after if c.strips[1] > calls[k].strips[1]}),
            (PLACED_FIRSTS, 20, {k: c.strips[1] - 1 for k, c in after if c.strips[1] > calls[k].strips[1]}),
            (PLACED_ENTRIES, 21, {k: c.entries[1] - 1 for k, c in after if c.entries[1] > calls[k].entries[1]})]


def stopped_at(s, k, room, length, number, n):
    """From a start: a stack of n is stopped after k copies by a short room, and another at its first; then the room is as
    it was."""
    whole = s.lengths[room]
    again(s)
    s.length(room, length)
    s.stack(n, (number, k))
    s.stack(n - k, (number, 0))
    s.length(room, whole)


def stopped(s, r, label, j, order):
    """By each room one short, at a copy that is drawn."""
    s.title(label + ", stopped by each room")
    calls, copies = trace(j, order), len(order)
    begun(s, j, order, calls)
    for room, number, lengths in short_rooms(calls):
        if lengths:
            k = r.choice([k for k in lengths if k] or [0])
            stopped_at(s, k, room, lengths[k], number, r.choice([k + 1, copies, copies + 1, 4096]))
            s.stack(copies - k, (0, copies - k))


def all_slots(s, j):
    """The second copy of a kind with 16 orientations, the last of 64 kinds, is refused by each room."""
    s.title("16 orientations, stopped by each room")
    order = [63, 0, 1, 63, *range(2, 63)]
    calls = trace(j, order)
    begun(s, j, order, calls)
    for room, number, lengths in short_rooms(calls):
        stopped_at(s, 3, room, lengths[3], number, 65)
        s.stack(2, (0, 2))


def large(s):
    """n at 4,096 and above; with 6 nothing is taken."""
    s.title("4,096 and more at once")
    begun(s, case4(), [0] * 5)
    for n in (4097, 65536, 65537, 69632, FAR - 1, FAR):
        s.stack(n, (6, 0), n in (4097, FAR))
    s.stack(4096, (23, 5))
    s.stack(4096, (23, 0), False)
    s.stack(4097, (6, 0))
    s.stack(0, (0, 0))
    s.next(23, False)
    s.title("4,096 copies at once")
    s.job(job([part([CLOCKWISE], 4095), part([rect(1, 1)], 1)]))
    s.order([0] * 4000 + [1] + [0] * 95)
    s.rooms([12, 0, 6, 0, 600, 0, 1, 8, 6 * 4096])
    s.start(0)
    s.length(POSITIONS, 0)
    s.stack(4096, (0, 4096))
    for n, want in ((0, (0, 0)), (1, (23, 0)), (4096, (23, 0)), (4097, (6, 0))):
        s.stack(n, want, n == 1)


def refused_jobs(s):
    """n = 0 and 6 before the job's refusal; the state is one that 31 passes, then one that it refuses, then zeros."""
    s.title("a refused job, n first")
    j, data = case4(), pack(case4())
    wide = dict(j, sheet=rect(1e5, 6), resolution=0.001)
    begun(s, j, [0] * 5)
    s.stack(3, (0, 3), False)
    for other, number in ((wide, 8), (b"", 1), (b"\x30", 3), (data + b"\0", 2)):
        s.job(other)
        for n, want in ((0, (0, 0)), (1, (number, 0)), (2, (number, 0)), (4096, (number, 0)), (4097, (6, 0))):
            s.stack(n, want, number == 8)
    s.title("a refused job and 31, n first")
    s.edit("right", 0, NAN)
    for n, want in ((0, (0, 0)), (1, (2, 0)), (4097, (6, 0))):
        s.stack(n, want)
    s.job(j)
    s.edit("right", 0, 8.0)
    s.stack(1, (0, 1))
    s.title("a state of zeros, n first")
    s.order([0] * 4)
    s.call("S", 10, False)
    for lengths in (s.lengths, [0] * 9):
        s.rooms(lengths)
        for n, want in ((0, (0, 0)), (1, (31, 0)), (4097, (6, 0))):
            s.stack(n, want)


def without_a_place(s):
    """Copies without a place are taken too: at the first, a middle and the last place of a stack."""
    s.title("copies without a place in one call")
    j, order = mixed_up()
    begun(s, j, order)
    for n in (1, 1, 3, 3):
        s.stack(n, (0, n), n == 3)
    s.stack(1, (23, 0), False)
    for sizes in ((8,), (2, 6), (5, 3), (4, 4, 1)):
        again(s)
        for n in sizes:
            s.stack(n, (0, n) if n > 1 else (23, 0), False)


def between_withdrawals(s, j, order):
    """Stacks between copies taken back."""
    s.title("a copy taken back, a few taken at once, another taken back")
    begun_with_space(s, j, order, 0)
    s.stack(6, (0, 6))
    for place, n, want in ((2, 3, (0, 3)), (0, 1, (0, 1)), (7, 4096, (23, 3)), (9, 0, (0, 0)), (1, 4097, (6, 0))):
        s.withdraw(place, 0, False)
        s.stack(n, want)
    s.stack(3, (23, 2))
    s.title("copies taken back, case 4 at once")
    begun(s, case4(), [0] * 5)
    s.stack(5, (0, 5), False)
    for places in ((1,), (4, 0), (0, 0, 1, 1)):
        for place in places:
            s.withdraw(place, 0, False)
        s.withdraw(4, 24, False)
        s.stack(len(places) + 1, (23, len(places)))


# Numbers of places and slots that no single step reads.
UNREAD = (("order", 5, MOST), ("order", 4095, 7), ("orientation", 2, 9), ("orientation", 3, MOST), ("orientation", 4, 3), ("orientation", 5, 1),
          ("orientation", 4095, MOST), ("x", 2, NAN), ("x", 3, 1.5), ("x", 4, 2.5), ("x", 5, -1.0), ("y", 2, INF), ("y", 3, -2.5), ("y", 4, 3.5),
          ("y", 5, 7.0), ("gap", 2, NAN), ("gap", 3, -1.0), ("gap", 4, 4.5), ("gap", 5, INF), ("next_column", 1, MOST), ("next_column", 15, 3),
          ("next_column", 16, 0), ("look_counts", 1, 5), ("look_counts", 15, MOST), ("look_counts", 1023, MOST), ("inset_bounds", 4, NAN),
          ("parts", 4, MOST))


def what_stays(s):
    """Numbers at the refused copy's place, behind it and in unused slots stay as they were."""
    s.title("what a refused copy leaves")
    calls = trace(case4(), [0] * 5)
    begun(s, case4(), [0] * 5, calls)
    for room, number, lengths in short_rooms(calls):
        for k in (1, 2, 3):
            if k in lengths:
                whole = s.lengths[room]
                again(s)
                for one in UNREAD:
                    s.edit(*one)
                s.length(room, lengths[k])
                s.stack(5, (number, k))
                s.show(PLACED)
                s.stack(1, (number, 0))
                s.length(room, whole)
                s.stack(5, (23, 5 - k))
    s.stack(0, (0, 0))
    s.stack(4097, (6, 0))


def in_a_frame(s):
    """A job of version 2: at the second table's corner, along x."""
    s.title("copies at once in a frame")
    order = [1, 0, 2, 0, 1, 2, 0, 0, 1, 1, 1, 2, 2, 2, 2]
    begun(s, dict(mixed(), frame=SECOND), order)
    for n, want in ((4, (0, 4)), (5, (0, 5)), (7, (23, 6))):
        s.stack(n, want)
    s.title("copies at once with the job in another frame")
    begun(s, dict(case4(), frame=SECOND), [0] * 5)
    s.stack(2, (0, 2), False)
    s.job(dict(case4(), frame=(2, 1)))
    s.stack(2, (0, 2))


def stacks(s, jobs, j, order, slots):
    """`jobs` are those of single steps; `slots` one with the most slots."""
    for one in jobs:
        every_n(s, *one)
    r = Draws(5)
    for one in jobs:
        stopped(s, r, *one)
    all_slots(s, slots)
    large(s)
    refused_jobs(s)
    without_a_place(s)
    between_withdrawals(s, j, order)
    what_stays(s)
    in_a_frame(s)
