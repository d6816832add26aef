"""The stored jobs of the crate plan_test, small ones in a container as oracle/README.md says, and for
each a line `job` with its label, then what the oracle prints."""
from jobs.bits import fields, pack, pack_fields
from jobs.cases import (CLOCKWISE, case4, gap_cases, grid, job, length_cases, offcut_cases, part, rect, rooms_cases,
                        run_cases, starred)
from jobs.damage import damaged
from jobs.draws import Draws
from jobs.examples import nan_corner
from jobs.frame_cases import frame_cases, version_jobs
from jobs.frames import FRAMES, frame_draws
from jobs.oracle import answers, without_gaps
from jobs.random_jobs import ties, valid
from jobs.shapes import ell, finish, rectangle, slanted, triangle
from samples.stored import files_of, some, with_label

SEED = 8
LONGEST = 560  # bytes of a generated job
LONGEST_TEXT = 520  # of its plan, gaps left out
TRIED = 7400
DAMAGED = 400
SWAPS = 1500   # tried
IMPROVED = 120 # of them kept, those with an improvement
FILLED = 40    # and those with a fill kind
OF_EACH = 12   # damaged jobs for each number
# In version 2: tried, and of them kept with swaps and for each number.
FRAMED = 1000
FRAMED_SWAPS = 16
OF_EACH_FRAMED = 5
LARGE = ["copies 4096 with a place"]
LENGTHS = ["length 65536", "length 65537"]


def double_faults():
    """Two refusals hold; document 01 says which comes first."""
    wide, many = rect(512, 100), grid(35, 40, 480.0, 70.0, 10.0, 10.0, True)
    holes = grid(33, 1, 512.0, 80.0, 0.0, 10.0, True)
    tall = (grid(35, 20, 240.0, 6.0), rect(240, 6))
    shapes = grid(35, 39, 1.0, 1.0)
    rows = grid(32, 20, 120.0, 6.0)
    yield "20 and 21 of the sheet", job([part([rect(1, 1)])], wide + many, 64.0)
    yield "21 of the sheet and 20 of the shapes", job([part([shapes, rect(1, 1)], 1)], wide + holes, 64.0)
    yield "20 and 21 of one copy", job([part([tall], 2, 9)], rect(512, 6), 64.0)
    yield "22 and 20 of one copy", job([part([(rows, rect(120, 6))], 2, 9), part([(rows, rect(120, 1))], 1, 2)], rect(512, 6), 64.0)
    yield "2 and 7", (job([part([rect(4, 3)], 4095), part([rect(4, 3)], 2)]), b"\0")
    yield "7 and 8", job([part([rect(4, 3)], 4095), part([rect(4, 3)], 2)], rect(2000, 6), 0.001)
    yield "2 and 8", (job([part([rect(4, 3)])], rect(2000, 6), 0.001), b"\0")


def numbers():
    """A not-a-number, infinity or minus zero in each double of case 4's job."""
    for value, name in ((0x7FF8000000000000, "not a number"), (0x7FF0000000000000, "infinite"),
                        (1 << 63, "minus zero")):
        for field in ("resolution", "sheet x", "sheet y", "area", "apart x", "apart y", "inset x", "inset y"):
            list_ = fields(case4())
            at = [f[0] for f in list_].index(field)
            list_[at] = (field, 64, value)
            yield f"{field} {name}", pack_fields(list_)


def crossing_ties():
    """Edges of a slab with equal sums: of unlike direction, and of like direction crossing."""
    a, b = [(0.0, 0.0), (4.0, 0.0), (4.0, 2.0), (0.0, 2.0)], [(0.0, 2.0), (4.0, 2.0), (4.0, 4.0), (0.0, 4.0)]
    yield "loops that touch", [a, b]
    yield "loops that touch, upper first", [b, a]
    up, down = [(0.0, 0.0), (4.0, 2.0), (4.0, 5.0), (0.0, 5.0)], [(0.0, 2.0), (4.0, 0.0), (4.0, 4.0), (0.0, 4.0)]
    yield "lower edges that cross", [up, down]
    yield "lower edges that cross, other first", [down, up]
    yield "bow tie", [[(0.0, 0.0), (4.0, 4.0), (4.0, 0.0), (0.0, 4.0)]]
    yield "overlapping", [a, [(1.0, 1.0), (3.0, 1.0), (3.0, 5.0), (1.0, 5.0)]]
    yield "twice the same", [a, a]
    yield "twice, once clockwise", [a, CLOCKWISE[0]]


def crossing_jobs():
    for name, s in crossing_ties():
        yield name, job([part([s], 2, 9), part([rect(1, 1)], 3, 1)], rect(9, 7))
        yield name + " as a sheet", job([part([rect(1, 1)], 6, 1)], rect(6, 6) + [loop[::-1] for loop in s])
        yield name + " as the sheet", job([part([rect(1, 1), rect(2, 1)], 6, 1)], s)


def first_jobs():
    yield from starred()
    yield from (j for j in run_cases() if j[0] not in LARGE)
    yield from rooms_cases()
    yield from double_faults()
    yield from crossing_jobs()
    yield "hatch with a corner not a number", nan_corner()


def generated(r):
    """Small jobs: every fourth one full of ties."""
    for i in range(TRIED):
        data = pack(ties(r) if i % 4 == 0 else valid(r))
        if len(data) <= LONGEST:
            yield f"{i}", data


def framed(r):
    """Small jobs of version 2, in one frame after the other: of four one is full of ties and one has swaps."""
    for i in range(FRAMED):
        j = ties(r) if i % 4 == 0 else swap_job(r) if i % 4 == 1 else valid(r)
        data = pack(dict(j, frame=FRAMES[i // 4 % 8]))
        if len(data) <= LONGEST:
            yield f"frame swaps {i}" if i % 4 == 1 else f"frame {i}", data


def swap_job(r):
    """A few kinds that compete for a small sheet, and a few rounds."""
    parts = []
    for _ in range(r.randint(2, 3)):
        w, h = r.randint(1, 5), r.randint(1, 5)
        shape = finish(r, [r.choice([rectangle, rectangle, ell, triangle, slanted])(r, w, h)], "quarter")
        area = float(r.choice([w * h, w * h, 6, 0.1]))
        parts.append(part([shape], r.randint(1, 3), area, r.random() < 0.3, r.choice([0, 0, 0, 1])))
    return job(parts, rect(r.randint(4, 9), r.randint(3, 8)), r.choice([0.5, 1, 1.5]), r.randint(1, 12), r.getrandbits(64))


def swap_jobs(r):
    for i in range(SWAPS):
        data = pack(swap_job(r))
        if len(data) <= LONGEST:
            yield f"swaps {i}", data


def improved(text):
    return text.startswith("plan ") and text.split("\n")[0].split()[3] != "0"


def faults(r, frames=None):
    for i in range(DAMAGED):
        label, data = damaged(r, frames)
        if len(data) <= LONGEST and (not frames or data[:1] and data[0] >> 4 == 2):
            yield f"{'frame ' if frames else ''}damaged {i} {label}", data


def told(jobs):
    """Each job with the oracle's text."""
    list_ = list(jobs)
    return list(zip(list_, answers(list_)))


def shortened(pairs):
    """Those with a short text."""
    return [(one, text) for one, text in pairs if len(without_gaps(text)) <= LONGEST_TEXT]


def number(text):
    return text.strip() if text.startswith("no ") else "plan"


def version_2():
    """The cases of frames, and random jobs in all of them."""
    out = told([(label, pack(j)) for label, j in frame_cases()] + version_jobs())
    r = frame_draws(SEED)
    rest = shortened(told(framed(r)))
    swaps = [pair for pair in rest if pair[0][0].startswith("frame swaps")]
    out += [pair for pair in rest if pair not in swaps]
    out += [pair for pair in swaps if improved(pair[1])][:FRAMED_SWAPS]
    return out + shortened(some(told(faults(r, r)), number, OF_EACH_FRAMED))


def sample():
    first = []
    for label, j in first_jobs():
        j, more = j if isinstance(j, tuple) else (j, b"")
        first.append((label, pack(j) + more))
    first += list(numbers()) + [one for one in length_cases() if one[0] in LENGTHS]
    out = told(first)
    r = Draws(SEED)
    out += shortened(told(generated(r)))
    rest = shortened(told(swap_jobs(r)))
    out += [pair for pair in rest if improved(pair[1])][:IMPROVED]
    out += [pair for pair in rest if "\nfill " in pair[1] and not improved(pair[1])][:FILLED]
    out += shortened(some(told(faults(r)), number, OF_EACH))
    return out + told([(label, pack(j)) for label, j in offcut_cases() + gap_cases()]) + version_2()


def made():
    return files_of(sample(), with_label, number)
