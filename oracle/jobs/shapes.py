"""Random sets of loops of every shape, drawn by draws.py."""
import math

SUBNORMAL = 5e-324


def snap(r, x, mode):
    """A coordinate on one of several grids, or none."""
    if mode == "whole":
        return float(round(x))
    if mode == "quarter":
        return round(x * 4) / 4
    if mode == "tenth":
        return round(x * 10) / 10
    return x


def turn(i, n):
    """Cosine and sine of i turns in n, rounded so that every machine agrees."""
    a = 2 * math.pi * i / n
    return round(math.cos(a), 6), round(math.sin(a), 6)


def rectangle(r, w, h):
    return [(0, 0), (w, 0), (w, h), (0, h)]


def ell(r, w, h):
    a, b = w * r.uniform(0.2, 0.8), h * r.uniform(0.2, 0.8)
    return [(0, 0), (w, 0), (w, b), (a, b), (a, h), (0, h)]


def triangle(r, w, h):
    return [(0, 0), (w, h * r.choice([0, 0, 0.3])), (w * r.uniform(0, 1), h)]


def slanted(r, w, h):
    return [(0, h * 0.2), (w * 0.7, 0), (w, h * 0.8), (w * 0.3, h)]


def star(r, w, h):
    n = 2 * r.randint(3, 7)
    points = []
    for i in range(n):
        c, s = turn(i, n)
        q = 0.5 if i % 2 else 0.2
        points.append((w * (0.5 + q * c), h * (0.5 + q * s)))
    return points


def round_(r, w, h):
    n = r.randint(3, 14)
    turns = [turn(i, n) for i in range(n)]
    return [(w / 2 * (1 + c), h / 2 * (1 + s)) for c, s in turns]


def comb(r, w, h):
    teeth = r.randint(2, 6)
    pitch = w / (2 * teeth - 1)
    points = [(0, 0), (w, 0)]
    for i in range(teeth - 1, -1, -1):
        a, b = 2 * i * pitch, (2 * i + 1) * pitch
        points += [(b, h), (a, h)] + ([(a, h * 0.3), (a - pitch, h * 0.3)] if i else [])
    return points


def side_comb(r, w, h):
    """A comb lying on its side: many strips one above the other."""
    return [(y, x) for x, y in comb(r, h, w)][::-1]


def bow_tie(r, w, h):
    return [(0, 0), (w, h), (w, 0), (0, h)]


def scribble(r, w, h):
    """Any points: self-crossing, of either direction."""
    return [(w * r.random(), h * r.random()) for _ in range(r.randint(3, 9))]


def level(r, w, h):
    """Without height or without width."""
    return r.choice([[(0, 0), (w, 0), (w / 2, 0)], [(0, 0), (0, h), (0, h / 2)]])


OUTLINES = [rectangle] * 6 + [ell] * 3 + [triangle] * 2 + [slanted] * 2
OUTLINES += [star, round_, comb, comb, side_comb, bow_tie, scribble, level]


def collinear(r, points):
    """More points on the edges, or the same point again."""
    out = []
    for i, p in enumerate(points):
        q = points[(i + 1) % len(points)]
        out.append(p)
        pick = r.random()
        if pick < 0.2:
            t = r.choice([0.25, 0.5, r.random()])
            out.append((p[0] + t * (q[0] - p[0]), p[1] + t * (q[1] - p[1])))
        elif pick < 0.35:
            out.append(p)
    return out


def moved(points, x, y, k=1.0):
    return [(x + k * p[0], y + k * p[1]) for p in points]


def outline(r, w, h):
    """One set: an outline, perhaps with holes, further or overlapping loops."""
    points = r.choice(OUTLINES)(r, w, h)
    if r.random() < 0.25:
        points = collinear(r, points)
    if r.random() < 0.06:
        points = points[::-1]
    loops = [points]
    pick = r.random()
    if pick < 0.15:
        for _ in range(r.randint(1, 3)):
            x, y = w * r.uniform(0.1, 0.5), h * r.uniform(0.1, 0.5)
            k = r.uniform(0.1, 0.4)
            hole = r.choice(OUTLINES)(r, w, h)
            loops.append(moved(hole, x, y, k)[::-1])
    elif pick < 0.25:
        for _ in range(r.randint(1, 3)):
            loops.append(moved(r.choice(OUTLINES)(r, w, h), w * r.uniform(-0.5, 0.8),
                               h * r.uniform(-0.5, 0.8), r.uniform(0.2, 0.8)))
    return loops


def finish(r, loops, mode, x=0.0, y=0.0, k=1.0):
    """On the grid, moved and scaled, with a few minus zeros."""
    zero = r.random() < 0.1
    out = []
    for loop in loops:
        points = []
        for p in loop:
            q = [x + k * snap(r, p[0], mode), y + k * snap(r, p[1], mode)]
            if zero:
                q = [-0.0 if v == 0 and r.random() < 0.5 else v for v in q]
            points.append(tuple(float(v) for v in q))
        out.append(points)
    return out


def grown(loops, k):
    """Scaled about the middle of its box."""
    xs = [p[0] for loop in loops for p in loop]
    ys = [p[1] for loop in loops for p in loop]
    cx, cy = (min(xs) + max(xs)) / 2, (min(ys) + max(ys)) / 2
    return [[(cx + k * (x - cx), cy + k * (y - cy)) for x, y in loop] for loop in loops]


def turned(loops, quarter, mirror=False):
    out = []
    for loop in loops:
        points = list(loop)
        for _ in range(quarter):
            points = [(-y, x) for x, y in points]
        if mirror:
            points = [(-x, y) for x, y in points][::-1]
        out.append(points)
    return out


def sheet(r, w, h):
    """Mostly a rectangle or one with holes."""
    pick = r.random()
    if pick < 0.45:
        return [rectangle(r, w, h)]
    if pick < 0.75:
        loops = [rectangle(r, w, h)]
        for _ in range(r.randint(1, 4)):
            hole = r.choice(OUTLINES)(r, w, h)
            loops.append(moved(hole, w * r.uniform(0, 0.8), h * r.uniform(0, 0.8),
                               r.uniform(0.05, 0.3))[::-1])
        return loops
    if pick < 0.97:
        return outline(r, w, h)
    return [rectangle(r, w, h)[::-1]]
