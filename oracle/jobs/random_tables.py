"""Random tables for `write_job` (document 02, W9): jobs as they are, edited, and damaged, numbers too large for their fields among them."""
from jobs.bits import pack
from jobs.damage import columns, copies
from jobs.frames import drawn_frame
from jobs.random_jobs import random_job, valid
from jobs.write_cases import COUNTS, MOST, NOT_FINITE, RANGES, SMALL, count_values, double_values, short
from jobs.write_records import Given, cut, exact, longer, places, read_again, with_slot
from jobs.writer import MINUS_ZERO, NAN, given

# Of the header alone.
VERSIONS = [0, 1, 1, 2, 2, 3, 15, 16, 17, 18, 257, 2**32 + 1, MOST]
FRAME = [0, 0, 1, 1, 2, 3, 4, 5, 256, 2**32, MOST]
TABLES = ("rows", "areas", "counts", "coordinates")


def drawn_job(r, longest=None):
    """A job in version 1, or half the time in version 2 with a drawn frame; some about 4,096 copies or a million columns."""
    while True:
        j = valid(r) if r.random() < 0.5 else random_job(r)
        if r.random() < 0.5:
            j = dict(j, frame=drawn_frame(r))
        pick = r.random()
        if pick < 0.06:
            copies(r, j)
        if pick < 0.03 or pick > 0.95:
            columns(r, j)
        if longest is None or len(pack(j)) <= longest:
            return j


def value(r, name):
    """Something for a field, more or less near its range."""
    pick = r.random()
    if pick < 0.1:
        return r.choice([r.getrandbits(64), r.getrandbits(33), r.getrandbits(13), MOST, 1 << r.randrange(64)])
    if name == "version":
        return r.choice(VERSIONS)
    if name in ("corner", "axis"):
        return r.choice(FRAME)
    if name == "seed":
        return r.getrandbits(64)
    if name in COUNTS:
        return r.choice(count_values(*COUNTS[name]))
    if pick < 0.4:
        return r.choice([*NOT_FINITE.values(), *SMALL.values()])
    return r.choice([n for _, n, _ in double_values(*RANGES[name])])


def one_change(r, t, spots):
    """A field, a table's end, what is behind it, or all its zeros."""
    pick, table = r.random(), r.choice(TABLES)
    if pick < 0.75:
        # The first fields are few.
        name, table, i = r.choice(spots[:12] if r.random() < 0.4 else spots)
        return with_slot(t, table, i, value(r, short(name))) if i < len(getattr(t, table)) else t
    if pick < 0.83:
        return cut(t, table, r.randrange(len(getattr(t, table)) + 1))
    if pick < 0.93:
        return longer(t, table, [r.choice([0, 1, MOST, NAN, r.getrandbits(64)]) for _ in range(r.randint(1, 6))])
    return t._replace(coordinates=[n or MINUS_ZERO for n in t.coordinates])


def room(r, t):
    """The output room's bytes: mostly around what the job needs."""
    n = exact(t)
    return max(0, n + r.choice([0, 0, 0, 1, 2, 7, 8, 9, 64, -1, -1, -2, -8, -n, -n // 2, r.randint(-n, 100)]))


def edited(r, label, j):
    """A drawn job's tables with one or two changes, some with none."""
    t, pick = given(j), r.random()
    spots = places(t)
    for _ in range(0 if pick < 0.1 else 1 if pick < 0.7 else 2):
        t = one_change(r, t, spots)
    return Given(label, t, room(r, t))


def again(r, label, j):
    """A drawn job's bytes, read and written again, in rooms around what is needed; some damaged."""
    data = pack(j)
    pick = r.random()
    if pick < 0.1:
        data = data[:r.randrange(len(data))]
    elif pick < 0.3:
        out = bytearray(data)
        out[r.randrange(len(out))] ^= 1 << r.randrange(8)
        data = bytes(out)
    more = [r.choice([0, 0, 0, 0, 0, 1, 5, -1]) if r.random() < 0.5 else 0 for _ in range(4)]
    return read_again(label, data, max(0, len(data) + r.choice([0, 0, 0, 1, 9, -1, -len(data)])), more)
