"""Calls on jobs of version 2 (document 02, W1): states stay in the frame, positions do not."""
from jobs.bits import pack
from jobs.cases import case4, rect
from jobs.frame_cases import edge_order, limits, versions, zeros
from jobs.frames import FRAMES, LOWER_LEFT, name, unframed
from jobs.script import POSITIONS, SHAPES, needs, trace

# The second table: lower right, along x.
SECOND = (1, 0)


def in_frame(j, frame):
    return dict(j, frame=frame)


def to_the_end(s, j, order):
    """Start, its strips, calls to the end and one more, and the filling, in exact rooms."""
    need = needs(trace(j, order), len(order))
    s.job(j)
    s.order(order)
    s.rooms(need)
    s.start(0)
    s.show(SHAPES)
    for _ in order:
        s.next(0)
    s.next(23)
    s.rooms(need)
    s.fill(0)
    s.show(POSITIONS)


def in_every_frame(s):
    """Case 4 by steps, others as fillings."""
    others = [("the order of edges", edge_order(), [0, 0, 0, 1, 2, 3], unframed), ("minus zeros", zeros(), [0] * 5, in_frame),
              ("limits", limits(), [2, 0, 1, 0, 2, 1, 0], in_frame)]
    for frame in FRAMES:
        s.title("case 4, " + name(frame))
        to_the_end(s, in_frame(case4(), frame), [0] * 5)
        for label, j, order, turn in others:
            s.title(f"{label}, {name(frame)}")
            j = turn(j, frame)
            s.job(j)
            s.order(order)
            s.rooms(needs(trace(j, order), len(order)))
            s.fill(0)
            s.show(POSITIONS)


def begun(s):
    """The second table's case 4, and two copies taken; its rooms."""
    j = in_frame(case4(), SECOND)
    need = needs(trace(j, [0] * 5), 5)
    s.job(j)
    s.order([0] * 5)
    s.rooms(need)
    s.start(0)
    s.next(0)
    s.next(0)
    return need


def other_frames(s):
    """Steps with the job in other frames: the state is in the one that it was started in."""
    s.title("steps with the job in other frames")
    begun(s)
    for j in (in_frame(case4(), (2, 1)), case4(), in_frame(case4(), LOWER_LEFT)):
        s.job(j)
        s.next(0)
    s.next(23)


def refused(s):
    """Jobs of version 2 that are refused: of a step, the leaf, a start and a filling."""
    s.title("refused jobs of version 2")
    need = begun(s)
    whole = in_frame(case4(), SECOND)
    high = dict(whole, sheet=rect(10, 62500.0625), resolution=0.0625)
    others = [(data, 3) for label, data in versions(whole) if label.split()[1] in ("0", "3", "15")]
    others += [(pack(whole)[:-1], 1), (b"\x2f", 1), (pack(whole) + b"\0", 2), (pack(high), 8)]
    for data, number in others:
        s.job(data)
        s.next(number)
        s.leaf(0, 0, True, number)
    # As wide as it was high: along y it is refused, along x it is not.
    wide = dict(whole, sheet=rect(62500.0625, 10), resolution=0.0625)
    s.job(wide)
    s.next(0)
    s.job(in_frame(wide, (1, 1)))
    s.next(8)
    for data, number in others:
        s.job(data)
        for call in (s.start, s.fill):
            s.rooms(need)
            call(number)


def frame_calls(s):
    in_every_frame(s)
    other_frames(s)
    refused(s)
