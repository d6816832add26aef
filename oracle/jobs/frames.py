"""The frames of document 02, W1, for making jobs. A frame is a pair of the numbers of corner and axis, as a job of
version 2 has them."""
from jobs.bits import double
from jobs.draws import Draws

CORNERS = ["lower left", "lower right", "upper left", "upper right"]
AXES = ["x", "y"]
FRAMES = [(corner, axis) for corner in range(4) for axis in range(2)]
# What version 1 means.
LOWER_LEFT = (0, 1)
# How many jobs to one of version 2.
SHARE = 3


def name(frame):
    return f"{CORNERS[frame[0]]} along {AXES[frame[1]]}"


def back(frame, p):
    """A point of the frame on the sheet."""
    corner, axis = frame
    x, y = p if axis else p[::-1]
    return (-x if corner in (1, 3) else x, -y if corner in (2, 3) else y)


def reverses(frame):
    """Whether loops are turned round: by one sign, or by the exchange of x and y with none or with both."""
    corner, axis = frame
    return corner in (1, 2) if axis else corner in (0, 3)


def unframed_set(s, frame):
    """The set that is s in the frame; some of its zeros are minus zeros. A whole number stands for bits, as in bits.py."""
    step = -1 if reverses(frame) else 1
    value = lambda x: double(x) if isinstance(x, int) else x
    return [[back(frame, tuple(map(value, p))) for p in loop[::step]] for loop in s]


def unframed(j, frame):
    """The job of version 2 whose sets in the frame are those of j: the plan of j with other positions."""
    turned = lambda pair: tuple(unframed_set(s, frame) for s in pair)
    parts = [dict(p, orientations=[turned(pair) for pair in p["orientations"]]) for p in j["parts"]]
    return dict(j, frame=frame, sheet=unframed_set(j["sheet"], frame), parts=parts)


def frame_draws(seed):
    """Draws for frames, apart from those that a seed gives for all else."""
    return Draws(seed + (1 << 40))


def drawn_frame(r):
    return r.randrange(4), r.randrange(2)


def framed(j, r):
    """One job in SHARE in version 2, by draws of their own; all in version 1 where there are none."""
    return dict(j, frame=drawn_frame(r)) if r and r.randrange(SHARE) == 0 else j
