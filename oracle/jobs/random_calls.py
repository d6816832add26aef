"""Drawn calls: next copy, copies taken back (document 02, W4), and stacks (W5)."""
from jobs.script import INTERVALS, PLACED, PLACED_ENTRIES, PLACED_FIRSTS, PLAN

FAR = 2**32 - 1
# Up to how many slots the rooms that calls fill are drawn where they are short.
SHORT = {PLACED: 400, PLACED_ENTRIES: 6000, PLACED_FIRSTS: 70, INTERVALS: 160}


def place(r, taken, copies):
    """Mostly one that may stand."""
    if taken and r.random() < 0.9:
        return r.randrange(taken)
    return r.choice([taken, copies, r.randrange(copies), 4095, 4096, FAR])


def how_many(r, left):
    """What a stack asks for: mostly few copies; none, more than are left, and more than a call may ask for."""
    draw = r.random()
    if draw < 0.7:
        return 1 + r.randrange(4)
    if draw < 0.8:
        return 0
    return left + 1 + r.randrange(3) if draw < 0.93 else r.choice([4096, 4097, FAR])


def steps(s, r, copies, count, before=None, hashes=True, stacks=0):
    """So many calls, of which `stacks` of one are stacks and four in ten of the others withdrawals; before(s) may change
    the rooms' lengths."""
    taken = 0
    for _ in range(count):
        if before:
            before(s)
        if stacks and r.random() < stacks:
            n = how_many(r, copies - taken)
            s.stack(n, None, hashes)
            taken = min(taken + n, copies) if n <= 4096 else taken
        elif taken and r.random() < 0.4:
            n = place(r, taken, copies)
            s.withdraw(n, None, hashes)
            taken -= n < taken
        else:
            s.next(None, hashes)
            taken = min(taken + 1, copies)


def short(r, room):
    """A length for a room that calls fill: often too short."""
    return r.randrange(SHORT[room]) if r.random() < 0.5 else PLAN[room]


def script(s, r, data, order):
    """A start in rooms of any length, and drawn calls; after each the hashes of all rooms."""
    s.lengths = [-1] * len(PLAN)
    s.rooms(PLAN if r.random() < 0.7 else [short(r, a) if a in SHORT else n for a, n in enumerate(PLAN)])
    s.job(data)
    s.order(order)
    s.start()

    def before(s):
        if r.random() < 0.1:
            room = r.choice(list(SHORT))
            s.length(room, short(r, room))

    steps(s, r, len(order), 2 + r.randrange(2 * min(len(order), 15) + 1), before, stacks=0.3)
