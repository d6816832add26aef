"""Copies taken back (document 02, W4): which ones, in which rooms, and what the calls after it find."""
from jobs.cases import CLOCKWISE, case4, job, part, rect
from jobs.faults import INF, MINUS_ZERO, MOST, NAN
from jobs.frame_calls import SECOND
from jobs.frame_cases import mixed
from jobs.frames import LOWER_LEFT
from jobs.script import INTERVALS, PLACED, PLACED_ENTRIES, PLACED_FIRSTS, RECORD, needs, trace

# The rooms that a withdrawal writes.
WRITTEN = (PLACED, PLACED_ENTRIES, PLACED_FIRSTS)
FAR = 2**32 - 1
# Records of each room beyond what a filling needs.
SPACE = [0, 0, 8, 0, 900, 0, 8, 40, 0]


def begun(s, j, order, taken, calls=None):
    """A start in rooms with some space left and a remainder that is no record, garbage in them, and so many copies taken."""
    need = needs(calls or trace(j, order), len(order))
    s.job(j)
    s.order(order)
    s.rooms([n + more * record + record - 1 for n, more, record in zip(need, SPACE, RECORD)])
    s.start(0)
    for room in WRITTEN:
        s.garbage(room)
    for _ in range(taken):
        s.next(0, False)
    s.garbage(INTERVALS)


def on(s, count):
    """So many copies more, and the hashes of all rooms after them."""
    for i in range(count):
        s.next(0, i == count - 1)


def show(s):
    s.show(PLACED)
    s.show(PLACED_FIRSTS)


def mixed_up():
    """Plates and strips in two orientations, and panels that no look can place: these at places 1 and 4."""
    return job([part([rect(4, 3)], 4, 12), part([rect(11, 1)], 2, 11), part([rect(5, 1), rect(1, 5)], 2, 5)]), [0, 1, 0, 2, 1, 0, 0, 2]


def by_hand(s):
    """Case 4, in rooms that can be read: a middle copy, then its place is found again with one look."""
    s.title("a copy taken back, case 4")
    begun(s, case4(), [0] * 5, 5)
    show(s)
    s.withdraw(1, 0)
    show(s)
    s.withdraw(3, 24)
    s.next(0)
    show(s)
    s.next(23)


def each_place(s, j, order):
    """The first, a middle and the last copy; then all others to the end."""
    for place in (0, 2, 5):
        s.title(f"the copy at place {place} of 6 taken back")
        begun(s, j, order, 6)
        s.withdraw(place, 0)
        on(s, len(order) - 5)
        s.next(23, False)


def not_standing(s):
    """24: a copy without a place, and places of copies to come and of none."""
    j, order = mixed_up()
    s.title("24: a copy that is not standing")
    begun(s, j, order, 0)
    s.withdraw(0, 24)
    on(s, 6)
    for place in (1, 4, 6, 7, 8, 4095, 4096, 65536, FAR):
        s.withdraw(place, 24, place == 1)
    # Places to come and places that the job lacks, as if copies stood there.
    for place in (6, 7, 8, 4095):
        s.edit("orientation", place, 1)
        s.withdraw(place, 24)
    s.title("copies without a place stay without one")
    for place in (3, 2):
        s.withdraw(place, 0)
    s.withdraw(2, 24)
    on(s, 4)
    s.next(23)


def same_place_twice(s, j, order):
    s.title("the same place twice")
    begun(s, j, order, 6)
    s.withdraw(1, 0)
    s.withdraw(1, 0)
    s.withdraw(4, 24, False)
    on(s, 3)
    s.withdraw(1, 0)
    on(s, 4)
    s.next(23)


def only_one(s):
    s.title("the only copy")
    begun(s, job([part([rect(4, 3, 1, 1)], 1, 12)], rect(10, 6, -3, -2)), [0], 1)
    for _ in range(2):
        s.withdraw(0, 0)
        s.withdraw(0, 24, False)
        s.next(0)
        s.next(23, False)


def all_back(s):
    """All copies one after another, and all again: from the first place, then from the last."""
    s.title("all copies back and all again")
    sheet = rect(10, 6, -20, -6)
    begun(s, job([part([rect(4, 3, -4, -3)], 3, 12), part([rect(2, 2), rect(5, 1)], 2, 4)], sheet), [0, 1, 0, 0, 1], 5)
    for places in ([0] * 5, range(4, -1, -1), (2, 1, 2, 0, 0)):
        for place in places:
            s.withdraw(place, 0, place % 2 == 0)
        s.withdraw(0, 24, False)
        on(s, 5)
    s.next(23)


def after_none(s):
    """"None" is remembered, a copy is taken back, and the search begins at column 0 again; the order used up before."""
    s.title("after none, and after the order was used up")
    begun(s, case4(), [0] * 5, 5)
    s.next(23)
    for place in (0, 1, 3):
        s.withdraw(place, 0)
        s.next(0)
        s.next(23, False)
    s.withdraw(3, 0)
    s.withdraw(0, 0)
    on(s, 2)
    s.next(23)


def exact_rooms(s):
    """A copy is refused for its strips or entries, another is taken back, and it is accepted; one more is refused again."""
    calls = trace(case4(), [0] * 5)
    after = calls[3]
    for room, least, number in ((PLACED, 6 * after.strips[1], 20), (PLACED_FIRSTS, after.strips[1], 20), (PLACED_ENTRIES, after.entries[1], 21)):
        s.title(f"{number} by room {room}, a copy taken back, then accepted")
        begun(s, case4(), [0] * 5, 3, calls)
        s.length(room, least)
        s.next(number)
        s.withdraw(0, 0)
        s.length(room, least - 1)
        s.next(number, False)
        s.length(room, least)
        s.next(0)
        s.next(number)
        # Shorter than what stands: 31.
        s.length(room, least - 1)
        s.withdraw(0, 31, False)


def garbage_behind(s):
    """What lies behind the standing strips, their entries and numbers: zeros after it; other rooms stay."""
    s.title("garbage behind the standing strips")
    calls = trace(case4(), [0] * 5)
    for place in (2, 0):
        begun(s, case4(), [0] * 5, 3, calls)
        for room, used in zip(WRITTEN, (18, calls[3].entries[1], 3)):
            s.garbage(room, used)
        s.withdraw(3, 24)
        s.withdraw(place, 0)
        show(s)
    s.title("no room but those of the standing strips is lent")
    begun(s, case4(), [0] * 5, 4, calls)
    s.length(INTERVALS, 0)
    s.length(8, 0)
    s.withdraw(2, 0)


def no_strips(s):
    """Copies without strips stand too."""
    s.title("a copy without strips")
    begun(s, job([part([CLOCKWISE], 2, 12), part([rect(4, 3)], 2, 12)]), [1, 0, 1, 0], 4)
    for place in (1, 0, 1, 0):
        s.withdraw(place, 0)
    on(s, 4)


def what_stays(s):
    """Numbers behind the copies taken and behind the job's copies stay; columns and looks of unused slots do not; a
    later copy's strip moves as it is, minus zeros too, and its gap stays."""
    s.title("what a withdrawal leaves and what it does not")
    begun(s, case4(), [0] * 5, 3)
    for name, n, value in (("order", 5, MOST), ("order", 4095, 7), ("orientation", 3, 9), ("orientation", 4095, MOST), ("x", 3, NAN), ("x", 4, 1.5),
                           ("y", 3, INF), ("y", 5, 2.5), ("gap", 3, NAN), ("gap", 4, -1.0), ("next_column", 1, MOST), ("look_counts", 1023, MOST),
                           ("unplaced_area", 0, 7.0), ("gap", 2, 2.5), ("right", 0, 9.5), ("x", 0, MINUS_ZERO)):
        s.edit(name, n, value)
    for n in (14, 15):
        s.slot(PLACED, n, MINUS_ZERO)
    s.withdraw(1, 0)
    s.show(PLACED)
    s.next(0)


def in_a_frame(s):
    """A job of version 2: at the second table's corner, along x."""
    order = [1, 0, 2, 0, 1, 2, 0, 0, 1, 1, 1, 2, 2, 2, 2]
    s.title("copies taken back in a frame")
    begun(s, dict(mixed(), frame=SECOND), order, 8)
    for place in (0, 4, 2):
        s.withdraw(place, 0)
        s.next(0, False)
    on(s, 7)
    s.next(23, False)
    s.withdraw(9, 0)
    s.next(0)
    s.title("a copy taken back with the job in another frame")
    begun(s, dict(case4(), frame=SECOND), [0] * 5, 3)
    for frame in ((2, 1), LOWER_LEFT):
        s.job(dict(case4(), frame=frame))
        s.withdraw(1, 0)
    s.next(0)


def withdrawals(s, j, order):
    by_hand(s)
    each_place(s, j, order)
    not_standing(s)
    same_place_twice(s, j, order)
    only_one(s)
    all_back(s)
    after_none(s)
    exact_rooms(s)
    garbage_behind(s)
    no_strips(s)
    what_stays(s)
    in_a_frame(s)
