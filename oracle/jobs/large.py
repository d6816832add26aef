"""Large jobs for timing, within plan's rooms, drawn by draws.py."""
from jobs.cases import job, part, rect
from jobs.shapes import (comb, ell, finish, grown, rectangle, round_, side_comb, slanted, star,
                    triangle, turn, turned)

MIXED = [rectangle, rectangle, ell, triangle, slanted, star, round_, comb, side_comb]


def holed(r, w, h):
    """A frame: a rectangle with a hole that takes smaller parts."""
    hole = [(1, 1), (1, h - 1), (w - 1, h - 1), (w - 1, 1)]
    return [rectangle(r, w, h), hole]


def tall_comb(teeth, w, pitch):
    """A comb on its side: teeth strips one above the other, listed from the
    top, so that intervals come in falling order."""
    points = [(0, 2 * teeth * pitch), (0, 0)]
    for i in range(teeth):
        y = 2 * i * pitch
        points += [(w, y), (w, y + pitch), (w / 8, y + pitch), (w / 8, y + 2 * pitch)]
    return points[:-1] + [(w / 8, 2 * teeth * pitch)]


def kinds(r, number, makes, copies, budget):
    """Kinds of these shapes, so that all copies' strips fit the rooms."""
    parts = []
    for i, make in enumerate(makes):
        loops = make(r, r.uniform(4, 14), r.uniform(4, 14))
        loops = loops if isinstance(loops[0], list) else [loops]
        base = finish(r, loops, "free" if i % 3 else "quarter")
        points = sum(len(loop) for loop in base)
        turns = [turned(base, q) for q in range(2 if points < 9 else 1)]
        pairs = [(finish(r, grown(t, 1.05), "free"), t) for t in turns]
        n = max(1, min(copies, budget // len(makes) // max(1, points - 3)))
        parts.append(part(pairs, n, r.uniform(1, 200), i % 9 == 8, r.choice([0, 0, 1])))
    return parts


def mixed(r, number):
    n = r.randint(20, 60)
    makes = [MIXED[(i + number) % len(MIXED)] for i in range(n)]
    return kinds(r, number, makes, 12, 1250), r.uniform(120, 200), r.uniform(60, 120)


def plates(r, number):
    """Many copies of rectangles."""
    parts = []
    for i in range(20):
        w, h = r.uniform(2, 6), r.uniform(2, 6)
        sets = [(rect(w + 0.2, h + 0.2, -0.1, -0.1), rect(w, h))]
        sets.append((rect(h + 0.2, w + 0.2, -0.1, -0.1), rect(h, w)))
        parts.append(part(sets, r.randint(20, 40), w * h, i % 6 == 5))
    return parts, 240.0, 60.0


def combs(r, number):
    parts = []
    for i in range(6):
        teeth = r.randint(12, 30)
        base = finish(r, [tall_comb(teeth, r.uniform(8, 16), r.uniform(0.6, 1.1))], "free")
        parts.append(part([base], 3, r.uniform(10, 90)))
    return parts + kinds(r, number, [rectangle] * 15, 8, 400), 160.0, 80.0


def frames(r, number):
    n = r.randint(20, 30)
    makes = [holed if i % 2 else MIXED[i % len(MIXED)] for i in range(n)]
    return kinds(r, number, makes, 10, 1250), 180.0, 90.0


def plate(w, h, copies):
    """A rectangle that keeps a tenth from its neighbours."""
    return part([(rect(w + 0.2, h + 0.2, -0.1, -0.1), rect(w, h))], copies, w * h)


def hatches(r, number):
    """Frames alone, with a hole each, and plates that fit into the holes."""
    parts = []
    for i in range(12):
        w, h = r.uniform(10, 18), r.uniform(10, 18)
        hole = [(2, 2), (2, h - 2), (w - 2, h - 2), (w - 2, 2)]
        outer = [(-0.1, -0.1), (w + 0.1, -0.1), (w + 0.1, h + 0.1), (-0.1, h + 0.1)]
        parts.append(part([([outer, hole], [rectangle(r, w, h), hole])], 6, w * h))
        parts.append(plate(r.uniform(3, 6), r.uniform(3, 6), 12))
    return parts, 260.0, 90.0


def small_plates(r, number):
    """1,300 rectangles."""
    return [plate(r.uniform(2, 5), r.uniform(2, 5), 50) for _ in range(26)], 480.0, 60.0


def turned_plates(r, number):
    """Rectangles in 16 orientations."""
    parts = []
    for i in range(10):
        w, h = r.uniform(4, 12), r.uniform(2, 5)
        sets = []
        for q in range(16):
            c, s = turn(q, 32)
            inset = [[(c * x - s * y, s * x + c * y) for x, y in loop] for loop in rect(w, h)]
            apart = [[(c * x - s * y, s * x + c * y) for x, y in loop] for loop in rect(w + 0.2, h + 0.2, -0.1, -0.1)]
            sets.append((apart, inset))
        parts.append(part(sets, 14, w * h))
    return parts, 160.0, 60.0


# Resolution and rounds, so that a job takes about 0.05 to 3 seconds.
STEPS = [(0.025, 0), (0.06, 1), (0.12, 4), (0.25, 8)]


# The first 16 jobs of a seed are of the first four kinds, the others of the last three.
PANELS = [(hatches, [(0.03, 0), (0.12, 2)]), (small_plates, [(0.03, 0), (0.1, 1)]), (turned_plates, [(0.06, 0), (0.25, 2)])]


def panels(r, number):
    """What a shop cuts most: on a plain sheet, frames with holes, small rectangles, rectangles in 16 orientations."""
    make, steps = PANELS[number % 3]
    parts, w, h = make(r, number)
    resolution, rounds = steps[number // 3 % 2]
    return job(parts, rect(w, h), resolution, rounds, number)


def large(r, number):
    """20 kinds or more, hundreds of copies, fine columns, a sheet with holes."""
    if number >= 16:
        return panels(r, number - 16)
    parts, w, h = [mixed, plates, combs, frames][number % 4](r, number)
    holes = [[(x, y), (x, y + 5), (x + 6, y + 6), (x + 5, y)] for x in (20, 70) for y in (10, 30)]
    resolution, rounds = STEPS[number // 4 % 4]
    resolution *= 1.6 if number % 4 == 2 else 1.0
    s = finish(r, [rectangle(r, w, h)] + holes, "free")
    return job(parts, s, resolution, rounds, number)
