"""The stored sets of the program strips_test, of a fixed seed, and the lifted Rust's answers: first those of the frame
of version 1, then some in every frame."""
from jobs.frames import LOWER_LEFT
from jobs.strip_sets import answers, every_frame, record, sets

COUNT, SEED, LONGEST = 240, 2, 2500
# Of each frame, and how many of them are tried.
OF_EACH, TRIED = 7, 14


def kept(list_):
    """Long answers are left to compare/strips.sh, but for the sets of few points."""
    return [(s, a) for s, a in zip(list_, answers(list_)) if len(a) <= LONGEST and len(record(*s)) <= 1200]


def in_frames():
    """The last so many kept sets of each frame: the tied ones stand last."""
    list_ = list(every_frame(TRIED, SEED))
    for at in range(0, len(list_), TRIED):
        yield from kept(list_[at:at + TRIED])[-OF_EACH:]


def made():
    pairs = kept([(*s, LOWER_LEFT) for s in sets(4 * COUNT, SEED)])[:COUNT] + list(in_frames())
    files = {
        "stdin": b"".join(record(*s) for s, _ in pairs),
        "stdout": "".join(a for _, a in pairs).encode(),
    }
    return files, f"{len(pairs)} sets"
