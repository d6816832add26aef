"""Random valid jobs, drawn by draws.py."""
from jobs.cases import grid, job, part, rect
from jobs.shapes import SUBNORMAL, finish, grown, outline, sheet, turned

MODES = ["whole", "whole", "quarter", "tenth", "free"]


def orientation_sets(r, base, mode, k, place):
    """Apart and inset: equal, one larger, or apart of another shape."""
    pick = r.random()
    inset = finish(r, base, mode, *place, k)
    if pick < 0.5:
        return inset, inset
    if pick < 0.7:
        return finish(r, grown(base, r.choice([1.25, 1.5, 1.1])), mode, *place, k), inset
    if pick < 0.9:
        return finish(r, grown(base, r.choice([0.75, 0.5, 0.9])), mode, *place, k), inset
    xs = [p[0] for loop in base for p in loop]
    other = outline(r, max(xs) - min(xs) or 1, r.uniform(1, 5))
    return finish(r, other, mode, *place, k), inset


def kind(r, w, h, mode, k, copies):
    """A kind of up to w by h before scaling by k."""
    base = outline(r, r.uniform(0.1, 1) * w, r.uniform(0.1, 1) * h)
    pairs = []
    for _ in range(r.choice([1, 1, 1, 2, 2, 3, 4])):
        shape = turned(base, r.randint(0, 3), r.random() < 0.2) if pairs else base
        near = (r.choice([0, 0, r.uniform(-3, 3) * k]), r.choice([0, 0, r.uniform(-3, 3) * k]))
        pairs.append(orientation_sets(r, shape, mode, k, near))
    area = r.choice([r.randint(1, 6), r.uniform(0, 30), 0.1, 0.3, 0.0, -0.0, 1e12, 1e-310])
    p = part(pairs, r.randint(1, copies), 1, r.random() < 0.2, priority(r))
    p["area"] = float(area)
    return p


def priority(r):
    return r.choice([0, 0, 0, 0, 1, -1, 5, -2**31, 2**31 - 1])


def scale(r):
    """Mostly 1, sometimes tiny, subnormal or large."""
    pick = r.random()
    if pick < 0.8:
        return 1.0
    if pick < 0.86:
        return r.choice([1e-3, 1e-9, 1e-150])
    if pick < 0.92:
        return r.choice([SUBNORMAL, 1e-310, 1e-307, 2.0**-1022])
    return r.choice([100.0, 1000.0, 3333.3])


def valid(r):
    """A random valid job, small enough for all three planners."""
    mode, k = r.choice(MODES), scale(r)
    w, h = r.uniform(3, 28), r.uniform(3, 28)
    kinds = r.choice([1, 1, 2, 2, 3, 4, 6])
    copies = r.choice([1, 3, 6, 12]) if kinds < 4 else 4
    near = (r.choice([0, 0, r.uniform(-9, 9) * k]), r.choice([0, 0, r.uniform(-9, 9) * k]))
    s = finish(r, sheet(r, w, h), mode, *near, k)
    size = r.choice([0.3, 0.5, 1.05])
    parts = [kind(r, w * size, h * size, mode, k, copies) for _ in range(kinds)]
    if r.random() < 0.3:
        same = parts[0]
        for p in parts[1:]:
            p.update(fill=same["fill"], priority=same["priority"])
    xs = [p[0] for loop in s for p in loop]
    width = max(xs) - min(xs)
    steps = r.choice([1, 2, 3.7, 8, 20, 60, 200])
    resolution = r.choice([width / steps, round(width / steps, 1), 1.0, 0.5, 0.1])
    if width > 1000:
        resolution = width / steps
    resolution = min(max(resolution, 0.001), 10000.0)
    rounds = r.choice([0, 0, 0, 1, 3, 8, 20])
    return job(parts, s, resolution, rounds, r.getrandbits(64))


def extreme(r):
    """Coordinates and resolutions at their limits; many columns."""
    pick = r.randint(0, 5)
    if pick == 0:
        s = rect(200000, 200000, -100000, -100000)
        return job([part([rect(100000, 70000)], 4), part([outline_at(r, 9e4)], 2)], s,
                   r.choice([10000.0, 3333.3, 777.7]), 3, r.getrandbits(64))
    if pick == 1:
        resolution = r.choice([0.001, 0.25])
        return job([part([rect(900000 * resolution, 1)], 2)], rect(1e6 * resolution, 2), resolution)
    if pick == 2:
        w = r.choice([0.0, SUBNORMAL, 1e-300])
        return job([part([rect(w, 1), rect(0, 1)], 3)], rect(w, 2), 0.001)
    if pick == 3:
        s = [[(-1e5, -1e5), (1e5, -1e5), (1e5, 1e5)], [(0.0, 0.0), (1e5, 0.0), (0.0, SUBNORMAL)]]
        return job([part([rect(1e-9, 1e-9, 1e5 - 1, -1e5), rect(1, 1)], 3)], s, 5000.0)
    if pick == 4:
        t = [[(0.0, 0.0), (3.0, 0.0), (3.0, SUBNORMAL), (0.0, r.choice([SUBNORMAL, 1e-320]))]]
        return job([part([t], 6), part([rect(3, 1)], 2)], rect(9, 2), 0.3, 2, r.getrandbits(64))
    w = r.choice([0.9, 1.8, 2.7, 7.1])
    return job([part([rect(r.choice([0.1, 0.3, 0.7]), 1)], 30)], rect(w, 1),
               r.choice([0.1, 0.3, 0.05]), 2, r.getrandbits(64))


def outline_at(r, size):
    return finish(r, outline(r, size, size), "free", -5e3, -5e3)


def ties(r):
    """Equal areas and keys: orientations, crossings and kinds that tie."""
    w, h = r.randint(1, 4), r.randint(1, 4)
    shapes = [rect(w, h), rect(h, w), rect(w, h), [[(0.0, 0.0), (w, 0.0), (w, h), (0.0, h)]] * 2,
              [[(0.0, 0.0), (w * 1.0, h * 1.0), (0.0, h * 1.0)]],
              [[(0.0, 0.0), (w * 1.0, 0.0), (w * 1.0, h * 1.0)]]]
    parts = []
    for _ in range(r.randint(2, 5)):
        sets = [[[(float(x), float(y)) for x, y in loop] for loop in r.choice(shapes)]
                for _ in range(r.randint(1, 4))]
        parts.append(part(sets, r.randint(1, 5), r.choice([2, 2, 0.1]), False, r.choice([0, 0, 1])))
    return job(parts, rect(r.randint(3, 12), r.randint(3, 9)), r.choice([1, 0.5, 2]),
               r.randint(0, 20), r.getrandbits(64))


def near_rooms(r):
    """Close to plan's rooms, on either side."""
    pick = r.randint(0, 5)
    if pick == 4:
        sets = [(grid(30, r.randint(11, 13), 2.0, 1.0), rect(2, 1)) for _ in range(4)]
        return job([part(sets, 1)])
    if pick == 5:
        s = rect(1000, 100) + grid(35, r.randint(37, 41), 40.0, 70.0, 10.0, 10.0, True)
        return job([part([rect(1, 1)], 3)], s, 10.0)
    if pick == 0:
        return job([part([(grid(30, r.randint(20, 24), 4.0, 2.0), rect(4, 2))], r.randint(1, 3))])
    if pick == 1:
        rows = r.randint(28, 34)
        return job([part([rect(512, 1)], rows, 512)], rect(512, 40), 64.0)
    if pick == 2:
        n = r.randint(20, 40)
        s = rect(10, 100) + grid(n, 2, 4.0, 60.0, 0.0, 20.0, True)
        return job([part([(rect(4, 1), grid(r.randint(40, 64), 1, 4.0, 1.0))], 2)], s, 20.0)
    s = rect(512, 100) + grid(r.randint(25, 35), 1, 512.0, 80.0, 0.0, 10.0, True)
    return job([part([rect(1, 1)], 2)], s, 64.0)


def random_job(r):
    pick = r.random()
    if pick < 0.78:
        return valid(r)
    if pick < 0.88:
        return ties(r)
    return extreme(r) if pick < 0.94 else near_rooms(r)


def random_set(r):
    """A set alone: small ones, and up to 512 points or 64 loops."""
    pick = r.random()
    mode, k = r.choice(MODES), scale(r)
    if pick < 0.7:
        return finish(r, outline(r, r.uniform(1, 20), r.uniform(1, 20)), mode, k=k)
    if pick < 0.8:
        return grid(r.randint(1, 60), r.randint(1, 200), 9.0, 9.0, clockwise=r.random() < 0.3)
    if pick < 0.9:
        loops = [loop for _ in range(20) for loop in outline(r, 9, 9)][:r.randint(4, 64)]
        return finish(r, [loop for loop in loops if len(loop) < 8][:64] or loops[:1], mode)
    n = r.choice([3, 32, 128, 300, 511, 512])
    return finish(r, [[(9 * r.random(), 9 * r.random()) for _ in range(n)]], mode)
