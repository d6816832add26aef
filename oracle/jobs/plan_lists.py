"""Lists made of plans (document 02, W6): a plan's copies in filling order, and what is changed in them; in every frame; and those at the
limit of 65,536 strips. Most answers are left to the oracle."""
from jobs.bits import bits, double, pack
from jobs.cases import case4, grid, job, part, rect
from jobs.frame_cases import mixed, spaced
from jobs.frames import FRAMES, name
from jobs.lists import ROOMS, One, exchanged, line, numbers, one, plan_of, resolution_of, stepped, with_number
from jobs.wide import STRIPS, zigzag

# The longest rooms that layout_test lends.
LONGEST = [394_800, 8190, 393_240, 16_500, 68_000, 1400, 65_540]


def own(plan):
    """The plan in filling order, in the least rooms."""
    label, data, lengths, lines = plan
    return One(label, data, lengths, numbers(lines), (0, len(lines)))


def changed(plan, what, lines, lengths=ROOMS):
    label, data, *_ = plan
    return One(f"{label}: {what}", data, list(lengths), numbers(lines), None)


def moved(plan, i):
    """Line i by one least step, in x and in y, up and down."""
    *_, lines = plan
    for at in (2, 3):
        for steps in (1, -1):
            yield changed(plan, f"{'xy'[at - 2]} of {i} by {steps}", with_number(lines, i, at, stepped(lines[i][at], steps)))


def by_kind(plan):
    """As `plan` prints them."""
    *_, lines = plan
    return changed(plan, "by kind", sorted(lines, key=lambda one: one[0]))


def alone(plan, i):
    label, data, _, lines = plan
    return One(f"{label}: {i} alone", data, ROOMS, numbers([lines[i]]), (0, 1))


def to_the_right(plan, i):
    """Line i one resolution to the right on the sheet."""
    _, data, _, lines = plan
    x = double(lines[i][2]) + resolution_of(data)
    return changed(plan, f"{i} to the right", with_number(lines, i, 2, bits(x)))


def twice(plan, i):
    """Line i once more at the end."""
    *_, lines = plan
    return changed(plan, f"{i} twice", lines + [lines[i]])


def drawn(r, plan):
    """A few changes of a plan that has lines."""
    *_, lines = plan
    i, k = r.randrange(len(lines)), r.randrange(len(lines))
    yield from moved(plan, i)
    if [one[0] for one in lines] != sorted(one[0] for one in lines):
        yield by_kind(plan)
    if i != k:
        yield changed(plan, f"{i} and {k} exchanged", exchanged(lines, i, k))
        yield changed(plan, "from its end", lines[::-1])
    yield alone(plan, k)
    yield to_the_right(plan, i)
    yield twice(plan, k)


def in_frames():
    """Lists in each frame: the plan, its numbers read without the frame, and the plan of another frame."""
    for label, j in (("case 4", case4()), ("angle", mixed()), ("spacing", spaced()), ("slanted", tilted())):
        plain = plan_of(j)[1]
        for frame in FRAMES:
            framed = dict(j, frame=frame)
            lengths, lines = plan_of(framed)
            plan = (f"{label}, {name(frame)}", pack(framed), lengths, lines)
            yield own(plan)
            yield changed(plan, "the list of version 1", plain)
            yield changed(plan, "x and y exchanged", [(k, o, y, x) for k, o, x, y in lines])
            yield changed(plan, "signs exchanged", [(k, o, bits(-double(x)), bits(-double(y))) for k, o, x, y in lines])
            for i in (0, len(lines) - 1):
                yield from moved(plan, i)
                yield alone(plan, i)


def printed():
    """Plates one on another. In filling order the list is accepted; as `plan` prints it the small plate comes first, and its top is met from above
    by another rounding: 27."""
    j = job([part([rect(1, 0.5)], 1, 0.5), part([rect(1, 0.7)], 3, 0.7, priority=1)], rect(1, 3), 0.1)
    lengths, lines = plan_of(j)
    plan = ("plates one on another", pack(j), lengths, lines)
    yield own(plan)
    yield by_kind(plan)._replace(want=(27, 3))


def tilted():
    """Triangles in two orientations on a sheet that lies to the left of zero and above it."""
    slim, other = [[(0.0, 0.0), (1.75, 0.25), (0.5, 1.5)]], [[(0.0, 0.0), (1.25, 1.5), (-0.5, 1.25)]]
    return job([part([slim, other], 7, 1.25)], rect(5, 4, -7, 2), 0.37)


def at_the_limit():
    """65,536 standing strips are accepted, one more is 20, though the rooms are longer."""
    tall = lambda n: (grid(1, n, 4.0, 1.0, 0.0, 5000.0), rect(1, 1))
    j = job([part([(zigzag(511), rect(1, 1))], 1, 9), part([tall(256)], 1, 2), part([tall(257)], 1, 1)], rect(8, 6))
    first, second, third = line(0, 0, 0, 0), line(1, 0, 1, 0), line(2, 0, 1, 0)
    lengths, exact = LONGEST, [6 * (65_280 + 256 + 257 + 3), 0, 6 * STRIPS, 0, LONGEST[4], 0, STRIPS]
    yield one("65,536 strips", j, [first, second], (0, 2), lengths)
    yield one("65,536 strips, rooms exact", j, [first, second], (0, 2), exact)
    yield one("65,537 strips", j, [first, third], (20, 1), lengths)
    yield one("65,536 strips, placed room short", j, [first, second], (20, 1), exact[:2] + [6 * STRIPS - 1] + exact[3:])
    yield one("65,536 strips, first buckets short", j, [first, second], (20, 1), exact[:6] + [STRIPS - 1])
    yield one("65,537 strips and no entries", j, [third, first], (20, 1), exact[:4] + [1000] + exact[5:])
