"""Tests of withdrawals (document 02, W4), for tests.py: case 4 worked out on paper, starts that taking all copies back must
give again, and the order of refusals."""
import subprocess

from jobs.bits import bits
from jobs.cases import CLOCKWISE, case4, job, part, rect
from jobs.draws import Draws
from jobs.faults import NAN
from jobs.oracle import ORACLE
from jobs.random_calls import steps
from jobs.script import PLACED, PLACED_FIRSTS, PLAN, Script


def begun(j, order):
    s = Script(3)
    s.job(j)
    s.order(order)
    s.rooms(PLAN)
    s.start(0)
    return s


def lines(s, *options):
    done = subprocess.run([ORACLE, "--script", *options], input=bytes(s.data), capture_output=True)
    return done.stdout.decode().splitlines() if done.returncode == 0 else [done.stderr.decode()]


def replies(s):
    """Of each call the number, copies taken, strips, right and area."""
    told = [line.split(" ") for line in lines(s) if line.startswith(("start ", "next "))]
    return [(*map(int, p[1:4]), *p[4:6]) for p in told]


def hexes(*xs):
    return [f"{bits(float(x)):016x}" for x in xs]


def test_case4(expect):
    """Four plates stand, the fifth has no place. The second goes: the third and fourth close up, and the plate that
    comes again finds its place anew."""
    s = begun(case4(), [0] * 5)
    for _ in range(5):
        s.next()
    s.withdraw(1)
    for room in (PLACED, PLACED_FIRSTS):
        s.show(room)
    s.withdraw(3)
    s.next()
    s.show(PLACED)
    s.next()
    area, right = hexes(12, 8)
    expect("case 4 with a copy taken back", replies(s)[5:], [(0, 5, 4, right, area), (0, 4, 3, right, area), (24, 4, 3, right, area),
                                                           (0, 5, 4, right, area), (23, 5, 4, right, area)])
    rooms = [line.split(" ")[2:] for line in lines(s) if line.startswith("room ")]
    plate = lambda x, y: [x, x + 4, y, y, y + 3, y + 3]
    three = plate(0, 0) + plate(4, 0) + plate(4, 3)
    expect("its strips", rooms[0], hexes(*three, *[0] * (PLAN[PLACED] - 18)))
    expect("its bucket numbers", [int(w, 16) for w in rooms[1]], [0, 204, 204] + [0] * (PLAN[PLACED_FIRSTS] - 3))
    expect("and the plate again", rooms[2][:30], hexes(*three, *plate(0, 3), *[0] * 6))


def test_right(expect):
    """The left edge is at -20: right is 8 from it while a plate of the second column stands, then 4, and 0 without any."""
    s = begun(job([part([rect(4, 3, -20, 0)], 4, 12)], rect(10, 6, -20, 0)), [0] * 4)
    for _ in range(4):
        s.next()
    for place in (3, 0, 1, 0):
        s.withdraw(place)
    expect("right", [r[3] for r in replies(s)[5:]], hexes(-12, -12, -16, -20))


def test_all_back(expect):
    """With all copies taken back a state is that of a start in the order that they went."""
    j, order = job([part([rect(3, 2)], 3, 6), part([CLOCKWISE], 1, 1), part([rect(2, 2), rect(5, 1)], 2, 4)]), [2, 0, 1, 0, 2, 0]
    for places in ([0] * 6, [5, 4, 3, 2, 1, 0], [2, 3, 0, 1, 1, 0]):
        s, left = begun(j, order), list(order)
        for _ in order:
            s.next()
        for place in places:
            s.withdraw(place)
            left.append(left.pop(place))
        told, again = lines(s), lines(begun(j, left))
        expect(f"all back from {places}", [told[-2].split(" ")[1:], told[-1].split(" ")[:8]], [again[-2].split(" ")[1:], again[-1].split(" ")[:8]])


def test_refusals(expect):
    j = case4()
    s = begun(j, [0] * 5)
    for place in (0, 4, 5, 4096, 2**32 - 1):
        s.withdraw(place)
    for _ in range(5):
        s.next()
    for place in (4, 5, 2**32 - 1):
        s.withdraw(place)
    s.edit("x", 0, NAN)
    for place in (0, 4):
        s.withdraw(place)
    s.next()
    s.job(b"")
    for place in (0, 4):
        s.withdraw(place)
    expect("24, 31 before it, the job's before both", [r[0] for r in replies(s)], [0, *[24] * 5, *[0] * 5, *[24] * 3, 31, 31, 31, 1, 1])


def test_drawn(expect):
    """The planner with rooms alone answers drawn calls as it does beside the others."""
    s = begun(job([part([rect(3, 2), rect(2, 3)], 6, 6), part([rect(1, 1)], 6, 1), part([rect(11, 1)], 2, 11)]), [0, 1, 2] * 2 + [0, 1] * 4)
    steps(s, Draws(5), 14, 80)
    expect("drawn calls", lines(s), lines(s, "--by-hand"))
    numbers = {r[0] for r in replies(s)}
    expect("numbers of drawn calls", numbers, {0, 23, 24})


def withdraw_tests(expect):
    for test in (test_case4, test_right, test_all_back, test_refusals, test_drawn):
        test(expect)
