"""Standing copies that 31 refuses since document 02, W4, and those that it does not, for both calls; 24 beside others."""
import math

from jobs.bits import bits, double
from jobs.cases import CLOCKWISE, case4, job, part, rect
from jobs.faults import ABOVE, INF, LESS_INF, MILLION, MINUS_ZERO, MOST, NAN, STRANGE, State
from jobs.script import PLACED, ROOMS, SHAPES, needs, trace


class Copies(State):
    """A state whose edits are tried on both calls: the copy at place n is named, and no garbage is drawn."""

    def both(self, want, n=0):
        self.s.call("N", want, False)
        self.s.withdraw(n, want, False)

    def refused(self, name, n, value):
        self.s.edit(name, n, value)
        self.both(31)
        self.s.edit(name, n, self.was(name, n))

    def refused_slot(self, room, n, value):
        self.s.slot(room, n, value)
        self.both(31)
        self.s.slot(room, n, self.call.number(ROOMS[room], n))


def begun(s, j, order, taken, calls=None):
    """A start in rooms with some space left, and so many copies taken."""
    calls = calls or trace(j, order)
    s.job(j)
    s.order(order)
    s.rooms([n + 40 for n in needs(calls, len(order))])
    s.start(0)
    for _ in range(taken):
        s.next(0, False)
    return Copies(s, j, order, calls, taken)


def ulps(w):
    """The doubles beside the one of these bits."""
    return [math.nextafter(double(w), end) for end in (-math.inf, math.inf)]


def orientations(s, j, order):
    """One orientation and two more than the kind has, and the largest numbers; copies of both kinds."""
    s.title("31: a standing copy's orientation")
    t = begun(s, j, order, 7)
    for n in (0, 2, 6):
        have = len(j["parts"][order[n]]["orientations"])
        for value in (have + 1, have + 2, 17, MOST) if n == 2 else (have + 1, have + 2):
            t.refused("orientation", n, value)
    t.refused("orientation", 6, 1)
    t.refused("orientation", 0, 2)
    # As a copy without a place: its strips are too many.
    t.refused("orientation", 3, 0)
    s.next(0)


def orientation_alone(s):
    """The strips agree: copies without strips, and a kind whose next slots are another's of the same shape."""
    s.title("31: an orientation, and nothing else")
    order = [1, 0, 0, 1]
    t = begun(s, job([part([CLOCKWISE], 2, 12), part([rect(4, 3), CLOCKWISE], 2, 12)]), order, 3)
    for value in (2, 3, 16):
        t.refused("orientation", 1, value)
        t.refused("orientation", 2, value)
    s.next(0)
    t = begun(s, job([part([rect(4, 3)], 2, 12), part([rect(4, 3)], 2, 12)]), [0, 1, 0, 1], 3)
    t.refused("orientation", 0, 17)
    t.refused("orientation", 2, 17)
    s.next(0)


def positions(s):
    """x and y of a copy without strips: beyond their range, and at its ends."""
    s.title("31: a standing copy's x and y")
    j, order = job([part([CLOCKWISE], 3, 12), part([rect(4, 3)], 2, 12)]), [0, 1, 0, 1, 0]
    calls = trace(j, order)
    t = begun(s, j, order, 4, calls)
    for n in (0, 2):
        for name in ("x", "y"):
            for value in STRANGE:
                t.refused(name, n, value)
    for n, x, y in ((0, MILLION, -MILLION), (2, -MILLION, MILLION), (0, -MILLION, MINUS_ZERO)):
        s.edit("x", n, x)
        s.edit("y", n, y)
    s.next(0)
    s.withdraw(4, 0)
    s.title("31: a right that a withdrawal wrote")
    s.edit("x", 2, MILLION)
    s.withdraw(0, 0)
    s.next(31)
    s.withdraw(0, 31)
    s.edit("right", 0, 4.0)
    s.next(0)
    s.title("31: x and y of copies without a place and of copies to come are not judged")
    j, order = job([part([rect(4, 3)], 3, 12), part([rect(11, 1)], 2, 11)]), [0, 1, 0, 1, 0]
    begun(s, j, order, 3)
    for name, n, value in (("x", 1, NAN), ("y", 1, INF), ("x", 3, LESS_INF), ("y", 4, ABOVE), ("x", 4095, NAN)):
        s.edit(name, n, value)
    s.withdraw(2, 0)
    s.next(0)
    s.next(0)


def moved_copies(s, j, order):
    """x and y of copies with strips by one ulp; what answered 0 before W4."""
    s.title("31: a copy that is not where its strips are")
    t = begun(s, j, order, 7)
    for n in (1, 6):
        for name in ("x", "y"):
            for value in ulps(t.was(name, n)):
                t.refused(name, n, value)
    for name, n, value in (("x", 0, NAN), ("y", 1, INF), ("x", 2, -ABOVE), ("y", 2, 1.0)):
        t.refused(name, n, value)
    # A minus zero added to zero is zero.
    s.edit("x", 0, MINUS_ZERO)
    s.edit("y", 0, MINUS_ZERO)
    s.next(0)
    s.withdraw(6, 0)


def strips(s, j, order):
    """Each number of the first and the last standing strip by one ulp, and of a shape whose copy stands."""
    s.title("31: a standing copy's strips")
    t = begun(s, j, order, 7)
    c = t.call
    for first in (0, 6 * (c.strips[1] - 1)):
        for n in range(first, first + 6):
            t.refused_slot(PLACED, n, ulps(c.number("placed", n))[n % 2])
    for slot, i in ((0, 1), (17, 5)):
        n = 6 * t.slots[slot]["parts"][0] + i
        t.refused_slot(SHAPES, n, ulps(c.number("shapes", n))[1])
    # An inset strip is no standing copy's.
    n = 6 * t.apart + 5
    s.slot(SHAPES, n, ulps(c.number("shapes", n))[1])
    s.next(0)


def zeros(s):
    """Minus zero for zero, in strips and shapes: not 31."""
    s.title("31: minus zero is zero")
    for room, slots in ((PLACED, (0, 2, 3)), (SHAPES, (0, 2, 3))):
        begun(s, case4(), [0] * 5, 2)
        for n in slots:
            s.slot(room, n, MINUS_ZERO)
        s.next(0)
        s.withdraw(1, 0)
        s.show(PLACED)


def other_strips(s):
    """Strips of two copies exchanged; one strip more than the copies have, and one fewer."""
    calls = trace(case4(), [0] * 5)
    s.title("31: strips of two copies exchanged")
    t = begun(s, case4(), [0] * 5, 3, calls)
    at = [[t.call.number("placed", 6 * i + n) for n in range(6)] for i in range(2)]
    for i in range(2):
        for n in range(6):
            s.slot(PLACED, 6 * i + n, at[1 - i][n])
    t.both(31, 1)
    # With the copies exchanged too they agree.
    for i in range(2):
        s.edit("y", i, double(at[1 - i][2]))
    t.call = calls[4]
    s.next(0)
    s.title("31: a strip more")
    for name, n, value in (("taken", 0, 3), ("orientation", 3, 0), ("orientation", 0, 0)):
        t.refused(name, n, value)
    s.withdraw(0, 0)
    s.title("31: a strip fewer")
    t = begun(s, case4(), [0] * 5, 3, calls)
    for name, value in (("orientation", 1), ("x", 4.0), ("y", 3.0)):
        s.edit(name, 3, value)
    t.refused("taken", 0, 4)
    s.edit("orientation", 3, 0)
    s.edit("taken", 0, 4)
    s.next(0)


def twice(s):
    """31 and 24; a refused job before both; 24 and nothing else."""
    j = case4()
    s.title("31 before 24")
    t = begun(s, j, [0] * 5, 5)
    wide = dict(j, sheet=rect(1e5, 6), resolution=0.001)
    for place in (4, 5, 2**32 - 1):
        for name, n, value in (("right", 0, NAN), ("x", 0, 1.0), ("orientation", 1, 2)):
            s.edit(name, n, value)
            s.withdraw(place, 31, False)
            s.edit(name, n, t.was(name, n))
        s.withdraw(place, 24)
    s.title("31 before 23")
    s.edit("y", 3, bits(2.0))
    s.next(31)
    s.withdraw(0, 31)
    s.title("the job's before 31 and 24")
    for other, number in ((wide, 8), (b"", 1), (b"\x30", 3)):
        s.job(other)
        for place in (0, 4, 5):
            s.withdraw(place, number, place == 0)
    s.edit("y", 3, t.was("y", 3))
    for place in (0, 4, 5):
        s.withdraw(place, 3, False)
    s.job(j)
    s.withdraw(4, 24)
    s.withdraw(3, 0)
    s.title("31 by what it was before W4")
    for name, n, value in (("gap", 0, -1.0), ("resolution", 0, INF), ("placed_strips", 0, 2), ("order", 0, 1), ("look_counts", 0, MOST)):
        s.edit(name, n, value)
        s.withdraw(0, 31, False)
        s.edit(name, n, {"placed_strips": 3, "resolution": 1.0, "gap": 3.0}.get(name, 0))
    s.withdraw(0, 0)


def copy_faults(s, j, order):
    orientations(s, j, order)
    orientation_alone(s)
    positions(s)
    moved_copies(s, j, order)
    strips(s, j, order)
    zeros(s)
    other_strips(s)
    twice(s)
