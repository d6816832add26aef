"""Tests of stacks (document 02, W5), for tests.py: case 4 worked out on paper, stacks beside single calls, the order of
tests, and 31 after an accepted copy."""
from jobs.cases import case4, job, part, rect
from jobs.draws import Draws
from jobs.faults import NAN
from jobs.random_calls import steps
from jobs.script import INTERVALS, PLACED, PLACED_ENTRIES, PLACED_FIRSTS, Script, trace
from jobs.stack_faults import AREA, area, looks, wide
from withdraw_tests import begun, hexes, lines


def mixed_job():
    """Two orientations, and a kind that no look can place, with an order."""
    return job([part([rect(3, 2), rect(2, 3)], 4, 6), part([rect(1, 1)], 3, 1), part([rect(11, 1)], 2, 11)]), [0, 1, 2, 0, 1, 0, 2, 1, 0]


def replies(s):
    """Of each stack the number, how many it took, copies taken, strips, right and area."""
    told = [line.split(" ") for line in lines(s) if line.startswith("stack ")]
    return [(*map(int, p[1:5]), *p[5:7]) for p in told]


def ends(s):
    """Of each stack the number and how many it took."""
    return [r[:2] for r in replies(s)]


def test_case4(expect):
    """Two plates in the first column, two in the second; the fifth has no place and is taken too."""
    s = begun(case4(), [0] * 5)
    for n in (2, 1, 0, 3, 1):
        s.stack(n)
    (r0, r4, r8), (none, one) = hexes(0, 4, 8), hexes(0, 12)
    expect("case 4 in stacks", replies(s), [(0, 2, 2, 2, r4, none), (0, 1, 3, 3, r8, none), (0, 0, 3, 3, r8, none), (23, 2, 5, 4, r8, one),
                                           (23, 0, 5, 4, r8, one)])
    s = begun(case4(), [0] * 5)
    for n in (0, 5, 0):
        s.stack(n)
    expect("and at once", replies(s), [(0, 0, 0, 0, r0, none), (0, 5, 5, 4, r8, one), (0, 0, 5, 4, r8, one)])


def after(j, order, made):
    """State and rooms after calls: what the last two lines say but for a call's own answer."""
    s = begun(j, order)
    made(s)
    s.put("V")
    told = lines(s)
    words = told[-3].split(" ")
    return words[3 if words[0] == "stack" else 2:], told[-1]


def test_single_calls(expect):
    """Every n beside n single calls."""
    j, order = mixed_job()
    for n in range(1, len(order) + 2):
        singly = after(j, order, lambda s: [s.next() for _ in range(n)])
        expect(f"{n} at once as one by one", after(j, order, lambda s: s.stack(n)), singly)
        expect(f"{n} in two stacks", after(j, order, lambda s: [s.stack(n // 2), s.stack(n - n // 2)]), singly)


def test_stopped(expect):
    """By each room one short at the third copy, and by 23: what is left is what two single calls leave."""
    j, order = case4(), [0] * 5
    c = trace(j, order)[3]
    for room, length, number in ((INTERVALS, 2 * c.most - 1, 22), (PLACED, 6 * c.strips[1] - 1, 20), (PLACED_FIRSTS, c.strips[1] - 1, 20),
                                 (PLACED_ENTRIES, c.entries[1] - 1, 21)):
        s, two = begun(j, order), begun(j, order)
        for one in (s, two):
            one.length(room, length)
        s.stack(4)
        two.next()
        two.next()
        expect(f"stopped by room {room}", (ends(s), lines(s)[-1], lines(s)[-2].split(" ")[3:]),
               ([(number, 2)], lines(two)[-1], lines(two)[-2].split(" ")[2:]))
    s = begun(j, order)
    s.stack(4096)
    expect("stopped by 23", ends(s), [(23, 5)])


def test_n_first(expect):
    """n = 0 answers 0 and n above 4,096 is 6, whatever job and state are; only the interval room changes."""
    s = begun(case4(), [0] * 5)
    s.stack(3)
    for spoil in (lambda: None, lambda: s.edit("right", 0, NAN), lambda: s.job(b"")):
        spoil()
        for n in (0, 4097, 2**32 - 1, 1):
            s.stack(n)
    free, far = (0, 0), (6, 0)
    expect("n first", ends(s), [(0, 3), free, far, far, (0, 1), free, far, far, (31, 0), free, far, far, (1, 0)])
    told = [line.split(" ") for line in lines(s)]
    states = [line[3:] for line in told if line[0] == "stack"]
    expect("the state is left", [len({" ".join(w) for w in states[i:k]}) for i, k in ((0, 4), (5, 13))], [1, 1])
    rooms = [line for line in told if line[0] == "rooms"][1:]
    expect("the other rooms too", [len({" ".join(r[1:8] + r[9:]) for r in rooms[i:k]}) for i, k in ((0, 4), (4, 13))], [1, 1])
    expect("the interval room is zeros", len({r[8] for r in rooms}), 1)


def test_31(expect):
    """The three states in which a copy is accepted and 31 holds after it."""
    for label, make in (("area", area(AREA, [1, 0, 1])), ("looks", looks(9)), ("bounds", wide(0.001, 4 * 10**9))):
        for n, want in ((1, (0, 1)), (2, (31, 1)), (4096, (31, 1))):
            s = Script(3)
            make(s)
            s.stack(n)
            s.next()
            told = [line.split(" ")[1] for line in lines(s) if line.startswith("next ")]
            expect(f"31 after a copy by {label}, n = {n}", (ends(s)[-1], told), (want, ["31"]))


def test_drawn(expect):
    """The planner with rooms alone answers drawn calls as it does beside the others."""
    j, order = mixed_job()
    s = begun(j, order)
    steps(s, Draws(7), len(order), 120, stacks=0.4)
    expect("drawn stacks", lines(s), lines(s, "--by-hand"))
    expect("numbers of drawn stacks", {number for number, _ in ends(s)}, {0, 6, 23})


def stack_tests(expect):
    for test in (test_case4, test_single_calls, test_stopped, test_n_first, test_31, test_drawn):
        test(expect)
