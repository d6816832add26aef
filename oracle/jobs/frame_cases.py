"""Jobs of version 2 (document 02, W1), all fixed: case 4 in every frame, versions, the framed sheet's width, the order
of edges, minus zeros, limits, holes and swaps."""
from jobs.bits import fields, pack, pack_fields
from jobs.cases import case4, grown, hole, job, part, rect
from jobs.frames import FRAMES, LOWER_LEFT, name, unframed

# Less than the sum with 1 can tell.
LEAST = 2.0**-55


def versions(j):
    """The job's bits with every other version's number."""
    list_ = fields(j)
    for n in range(16):
        if n != list_[0][2]:
            yield f"version {n} in the bits of version {list_[0][2]}", pack_fields([("version", 4, n)] + list_[1:])


def widths():
    """Sheets of a million columns and one more, high and wide, along either axis."""
    small = part([rect(1, 1)], 2)
    for long, more in ((62500.0, ""), (62500.0625, ".0625")):
        for word, sheet in (("width", rect(long, 6)), ("height", rect(6, long))):
            for frame in ((0, 0), (1, 0), (2, 1), (3, 1)):
                yield f"{word} 62500{more}, {name(frame)}", dict(job([small], sheet, 0.0625), frame=frame)


def tied():
    """Loops that go round twice. Both rounds come from (0, 1), down to 1 or 3 of the least steps, so that only the order of
    edges tells the two apart: once one of them closes the loop, once it begins it. Then two loops, 2 and 1 down."""
    down = lambda n: (4.0, n * LEAST)
    top, start = (4.0, 2.0), (0.0, 1.0)
    closing, first = [down(3), top, start, down(1), top, start], [start, down(1), top, start, down(3), top]
    return {"closing edge tied": [closing], "first edge tied": [first],
            "loops tied": [[start, down(2), top], [start, down(1), top]]}


def edge_order():
    """Each tied set stands on a plate whose top is at 0: how high tells which of its edges came first."""
    plates = part([rect(4, 3)], 3, 12, priority=1)
    return job([plates] + [part([s], 1, 8) for s in tied().values()], rect(12, 5, 0, -3), 4.0)


def zeros():
    """Minus zeros for zeros; the plates end where the sheet does."""
    minus = lambda s: [[(x or -0.0, y or -0.0) for x, y in loop] for loop in s]
    return job([part([minus(rect(4, 3))], 5, 12)], minus(rect(8, 6)))


def limits():
    """Coordinates at their limits."""
    sheet, square = rect(200000, 200000, -100000, -100000), rect(1, 1, 99999, -100000)
    ends = [[(-1e5, -1e5), (1e5, -1e5), (1e5, 5e4)]]
    return job([part([rect(100000, 70000), square], 3, 7), part([ends], 2, 5), part([square], 2, 1)], sheet, 10000.0)


def mixed():
    """An angle with two holes on a sheet that does not begin at zero; kinds that are larger apart, in two orientations, one
    of them a fill kind."""
    angle = [(-3.0, 2.0), (11.0, 2.0), (11.0, 8.0), (4.0, 8.0), (4.0, 13.0), (-3.0, 13.0)]
    sheet = [angle] + hole(1, 2, 0, 4) + [[(7.0, 5.0), (7.5, 7.0), (9.0, 6.5)]]
    wedge = [[(0.0, 0.0), (3.0, 0.5), (1.0, 2.5)]]
    parts = [part([grown(3, 2, 0.25), grown(2, 3, 0.25)], 4, 6), part([wedge], 5, 3),
             part([grown(1, 1, 0.125, 2, -5)], 6, 1, fill=True)]
    return job(parts, sheet, 0.5)


def swapped():
    """Kinds of one priority and a few rounds."""
    return job([part([rect(3, 1)], 2, 3), part([rect(2, 2)], 2, 4), part([rect(1, 3)], 2, 3)], rect(7, 4), rounds=8, seed=24)


def spaced():
    """Panels that keep a distance, on a sheet left of and below zero: the offcut."""
    return job([part([grown(4, 3, 0.5)], 2, 12)], rect(10, 6, -20, -9))


def frame_cases():
    """Label and job."""
    out = []
    for frame in FRAMES:
        in_frame = lambda j: dict(j, frame=frame)
        out += [(f"{label}, {name(frame)}", j) for label, j in (
            ("case4", in_frame(case4())), ("order of edges", unframed(edge_order(), frame)),
            ("minus zeros", in_frame(zeros())), ("limits", in_frame(limits())), ("angle", in_frame(mixed())),
            ("rounds", in_frame(swapped())), ("spacing", in_frame(spaced())))]
    out.append(("order of edges, version 1", edge_order()))
    return out + list(widths())


def version_jobs():
    """Labels and bytes: every version in the bits of both."""
    return [one for j in (dict(case4(), frame=LOWER_LEFT), case4()) for one in versions(j)]


def frame_jobs():
    """All of them as bytes."""
    return [(label, pack(j)) for label, j in frame_cases()] + version_jobs()
