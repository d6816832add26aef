"""The stored calls of the crate filling_test: a script (oracle/README.md) and the oracle's answers."""
import collections

from jobs.bits import answer, pack
from jobs.cases import CLOCKWISE, TRIANGLE, case4, job, part, rect
from jobs.copy_faults import copy_faults
from jobs.double_faults import double_faults
from jobs.draws import Draws
from jobs.examples import nan_corner
from jobs.faults import clauses
from jobs.frame_calls import SECOND, frame_calls
from jobs.frame_cases import mixed
from jobs.frames import FRAMES, frame_draws, framed, name
from jobs.gap_faults import gap_faults
from jobs.random_calls import steps as drawn_steps
from jobs.random_jobs import random_job
from jobs.script import (INTERVALS, PLACED, PLACED_ENTRIES, PLACED_FIRSTS, POSITIONS, RECORD, ROOMS,
                         SHAPES, SHEET, SHEET_ENTRIES, SHEET_FIRSTS, Script, answers, needs, trace)
from jobs.stack_faults import stack_faults
from jobs.stacks import stacks
from jobs.withdrawals import withdrawals

SEED = 11
FILLINGS = 330
FRAMED = 48
DRAWN = 70
STACKED = 16
LONGEST = 620
DRAWN_ROOMS = [903, 604, 1805, 9001, 16384, 100, 300, 701, 242]
# What each room refuses with.
SHORT = [20, 20, 20, 21, 21, 20, 20, 22, 30]


def holed():
    """A sheet with slanted holes, a frame with a hole, triangles in two orientations."""
    sheet = rect(12, 9) + [[(7.0, 6.0), (7.5, 8.0), (9.0, 8.5), (9.0, 6.5)],
                           [(2.0, 7.0), (2.0, 8.0), (3.5, 7.5)]]
    frame = rect(4, 4) + [[(1.0, 1.0), (1.0, 3.0), (3.0, 3.0), (3.0, 1.0)]]
    slim = [[(0.0, 0.0), (1.75, 0.25), (0.5, 1.5)]]
    other = [[(0.0, 0.0), (1.25, 1.5), (-0.5, 1.25)]]
    return job([part([(frame, rect(4, 4))], 3, 12, priority=1),
                part([slim, (other, other)], 7, 1.25)], sheet, 0.37)


def many_slots():
    """64 kinds, the last of 16 orientations: the first and the last slot are used."""
    thin = lambda n: [[(0.0, 0.0), (1.0 + n, 0.0), (0.5, 2.0)]]
    parts = [part([thin(k % 5)], 1, k + 1) for k in range(63)]
    return job(parts + [part([thin(o / 4) for o in range(16)], 2, 3)], rect(10, 6), 1.0)


def step_jobs():
    """Jobs for calls to the end and one more, with their orders."""
    two = job([part([rect(4, 3)], 3, 12), part([rect(2, 2), TRIANGLE], 4, 4, True)], rect(10, 6))
    return [
        ("case 4", case4(), [0] * 5),
        ("a reversed orientation", job([part([rect(11, 1), rect(4, 3)], 4, 12)]), [0] * 4),
        ("only reversed ones", job([part([rect(11, 1), rect(1, 7)], 2, 11)]), [0] * 2),
        ("an orientation that finds nothing", job([part([rect(10, 6), rect(4, 3)], 5, 12)]),
         [0] * 5),
        ("the extra column", job([part([rect(3, 6)], 4, 18)], resolution=4), [0] * 4),
        ("a set without strips", job([part([CLOCKWISE], 2, 12), part([rect(4, 3)], 2, 12)]),
         [1, 0, 1, 0]),
        ("holes and slants", holed(), [1, 1, 0, 1, 0, 1, 1, 0, 1, 1]),
        ("two kinds", two, [1, 0, 1, 1, 0, 0, 1]),
        ("case 4 from the other side", job([part([rect(4, 3, -4, -3)], 5, 12)],
                                           rect(10, 6, -20, -6)), [0] * 5),
    ]


def leaves(s, j):
    """Every orientation's strips, and 9 beyond."""
    for kind, p in enumerate(j["parts"]):
        for o in range(len(p["orientations"])):
            s.leaf(kind, o, False, 0)
            s.leaf(kind, o, True, 0)
        s.leaf(kind, len(p["orientations"]), kind % 2 == 0, 9)
    s.leaf(len(j["parts"]), 0, False, 9)
    s.leaf(64, 0, True, 9)
    s.leaf(0, 16, True, 9)
    s.leaf(2**32 - 1, 2**64 - 1, False, 9)


def shorter(s, call):
    """Each room of standing strips and of their numbers shorter than the strips that stand."""
    for room, n in ((SHEET, 6 * call.strips[0]), (PLACED, 6 * call.strips[1]),
                    (SHEET_FIRSTS, call.strips[0]), (PLACED_FIRSTS, call.strips[1])):
        if n:
            length = s.lengths[room]
            s.length(room, n - 1)
            s.next(31)
            s.length(room, length)


def steps(s, name, j, order):
    """Start and calls to the end and one more: before each call every room one short."""
    s.title(name)
    calls = trace(j, order)
    need = needs(calls, len(order))
    s.job(j)
    s.order(order)
    # Each room exact, with a remainder that is no record.
    s.rooms([n + record - 1 for n, record in zip(need, RECORD)])
    s.start(0)
    if name == "case 4":
        for room in range(len(ROOMS)):
            s.show(room)
    leaves(s, j)
    s.garbage(PLACED)
    s.garbage(PLACED_ENTRIES)
    s.garbage(PLACED_FIRSTS)
    for before, after in zip(calls, calls[1:]):
        if after.most:
            s.length(INTERVALS, 2 * after.most - 1)
            s.next(22)
        s.length(INTERVALS, 2 * after.most)
        if after is calls[-1]:
            shorter(s, before)
        if after.strips[1] > before.strips[1]:
            s.length(PLACED, 6 * after.strips[1] - 1)
            s.next(20)
            s.length(PLACED, 6 * after.strips[1])
            s.length(PLACED_FIRSTS, after.strips[1] - 1)
            s.next(20)
        s.length(PLACED, 6 * after.strips[1])
        s.length(PLACED_FIRSTS, after.strips[1])
        if after.entries[1] > before.entries[1]:
            s.length(PLACED_ENTRIES, after.entries[1] - 1)
            s.next(21)
        s.length(PLACED_ENTRIES, after.entries[1])
        s.next(0)
        if name == "case 4":
            for room in (PLACED, PLACED_ENTRIES, PLACED_FIRSTS, INTERVALS):
                s.show(room)
    s.next(23)
    s.length(INTERVALS, 0)
    s.next(23)


def whole(s, name, j, order):
    """Start and filling with each room exact and one short."""
    s.title(name + ", each room one short")
    need = needs(trace(j, order), len(order))
    s.job(j)
    s.order(order)
    s.rooms(need)
    s.start(0)
    s.rooms(need)
    s.fill(0)
    if name == "case 4":
        s.show(POSITIONS)
    for room in range(len(ROOMS)):
        if need[room]:
            s.rooms([n - (i == room) for i, n in enumerate(need)])
            s.fill(SHORT[room])
            if room in (SHAPES, SHEET, SHEET_ENTRIES, SHEET_FIRSTS, POSITIONS):
                s.rooms([n - (i == room) for i, n in enumerate(need)])
                s.start(SHORT[room])


def limits(s):
    """The most slots and the most copies."""
    s.title("64 kinds, 16 orientations")
    j = many_slots()
    order = [63] + list(range(63)) + [63]
    s.job(j)
    s.order(order)
    s.rooms([n + 7 for n in needs(trace(j, order), len(order))])
    s.start(0)
    for kind, o in ((0, 0), (62, 0), (63, 0), (63, 15), (63, 16), (62, 1)):
        s.leaf(kind, o, kind % 2 == 0)
    for _ in range(4):
        s.next(0)
    s.rooms([n + 7 for n in needs(trace(j, order), len(order))])
    s.fill(0)
    s.title("4,096 copies")
    j = job([part([CLOCKWISE], 4095), part([rect(1, 1)], 1)])
    order = [0] * 4000 + [1] + [0] * 95
    s.job(j)
    s.order(order)
    lengths = [12, 0, 6, 0, 600, 0, 1, 8, 6 * 4096]
    s.rooms(lengths)
    s.start(0)
    s.next(0)
    s.edit("taken", 0, 4096)
    s.next(23)
    s.edit("taken", 0, 4097)
    s.next(31)
    s.rooms(lengths)
    s.fill(0)
    s.length(POSITIONS, 6 * 4096 - 1)
    s.fill(30)
    s.length(POSITIONS, 6 * 4096)
    s.order(order + [0])
    s.fill(10)
    s.start(10)


def shuffled(r, list_):
    return r.sample(list_, len(list_))


def accepted(r, count, most, change):
    """Random jobs of 2 to `most` copies, as `change` makes them, each with an order that is drawn."""
    made = 0
    while made < count:
        j = change(random_job(r), made)
        data = pack(j)
        copies = sum(p["quantity"] for p in j["parts"])
        order = shuffled(r, [k for k, p in enumerate(j["parts"]) for _ in range(p["quantity"])])
        if len(data) > LONGEST or copies > most or copies < 2 or answer(data) != "ok":
            continue
        made += 1
        yield made, data, order


def fillings(s, title, r, count, frames=None):
    """Random jobs in random orders, of version 2 where there are frames: in one after the other."""
    s.title(title)
    s.rooms(DRAWN_ROOMS)
    for made, data, order in accepted(r, count, 40, lambda j, i: dict(j, frame=frames[i % len(frames)]) if frames else j):
        s.job(data)
        s.order(order)
        if made % 5 == 0:
            s.rooms(s.lengths)
        s.fill()


def drawn_calls(s, title, r, f, count, stacks=0):
    """Random jobs, some of version 2, in random orders: next copies and withdrawals, and so many stacks of one."""
    s.title(title)
    s.rooms(DRAWN_ROOMS)
    for _, data, order in accepted(r, count, 20, lambda j, i: framed(j, f)):
        s.job(data)
        s.order(order)
        s.start()
        drawn_steps(s, r, len(order), 3 + r.randrange(len(order) + 4), hashes=False, stacks=stacks)
        s.put("V")


def refused_leaves(s):
    """After a start the job is exchanged for refused ones: the leaf answers their numbers."""
    s.title("the leaf of refused jobs")
    j, data = case4(), pack(case4())
    s.job(j)
    s.order([0] * 5)
    s.rooms([n + record for n, record in zip(needs(trace(j, [0] * 5), 5), RECORD)])
    s.start(0)
    s.leaf(0, 0, False, 0)
    for other, number in ((b"", 1), (data[:-1], 1), (data + b"\0", 2), (bytes([data[0] + 32]) + data[1:], 3), (nan_corner(), 4)):
        s.job(other)
        s.leaf(0, 0, False, number)
        s.leaf(0, 1, True, number)


def version_2(s):
    """Calls in frames (document 02, W1)."""
    frame_calls(s)
    order = [1, 0, 2, 0, 1, 2, 0, 0, 1, 1, 1, 2, 2, 2, 2]
    steps(s, "an angle, " + name(SECOND), dict(mixed(), frame=SECOND), order)
    fillings(s, "fillings in frames", frame_draws(SEED), FRAMED, FRAMES)


def script():
    """New calls stand at the end, so that the garbage of the others stays."""
    s = Script(SEED)
    for one in step_jobs():
        steps(s, *one)
    for one in step_jobs():
        whole(s, *one)
    limits(s)
    order = [1, 1, 0, 1, 0, 1, 1, 0, 1, 1]
    clauses(s, holed(), order)
    double_faults(s)
    fillings(s, "fillings", Draws(SEED), FILLINGS)
    refused_leaves(s)
    gap_faults(s, holed(), order)
    version_2(s)
    withdrawals(s, holed(), order)
    copy_faults(s, holed(), order)
    drawn_calls(s, "drawn calls", Draws(SEED + 4), frame_draws(SEED + 4), DRAWN)
    stacks(s, step_jobs(), holed(), order, many_slots())
    stack_faults(s, holed(), order)
    drawn_calls(s, "drawn calls of all three kinds", Draws(SEED + 5), frame_draws(SEED + 5), STACKED, 0.4)
    return s


def made():
    s = script()
    text, calls = answers(s)
    count = collections.Counter(f"{name} {line.split(' ')[1]}" for name, line in zip(s.calls, calls))
    told = ", ".join(f"{name}: {n}" for name, n in sorted(count.items()))
    told += f"; {len(calls)} calls, {len(s.data)} bytes of script, {len(text)} of answers"
    return {"stdin": bytes(s.data), "stdout": text.encode()}, told
