"""Sets of loops for the strips, drawn by draws.py, and their two forms: the bits
of a job for the oracle, and the records that the program strips_test reads; the
lifted Rust's strips and bounds of them in a frame, by the oracle's option --strips."""
import struct
import subprocess
from concurrent.futures import ThreadPoolExecutor

from jobs.bits import pack_fields, set_fields
from jobs.draws import Draws
from jobs.frames import FRAMES, drawn_frame, frame_draws, unframed_set
from jobs.oracle import ORACLE
from jobs.shapes import finish, moved, outline, sheet, turn

POINTS, LOOPS = 512, 64
# The strips that the room of strips_test holds.
ROOM = 16384


def stacked(r):
    """Rectangles on each other and beside each other: equal crossings of both
    directions."""
    loops = []
    for _ in range(r.randint(2, 6)):
        x, y = r.randint(0, 4), r.randint(0, 4)
        w, h = r.randint(1, 4), r.randint(1, 4)
        loop = [(x, y), (x + w, y), (x + w, y + h), (x, y + h)]
        loops.append(loop if r.random() < 0.8 else loop[::-1])
    return loops


def crossed(r):
    """Triangles and bow ties whose edges cross in the middle of a slab: equal
    sums, other heights."""
    loops = []
    for _ in range(r.randint(1, 3)):
        w, h, y = 2 * r.randint(1, 4), 2 * r.randint(1, 4), r.randint(0, 3)
        loops.append([(0, y), (w, y + h), (w, y + h + 2)])
        loops.append([(0, y + h), (w, y), (0, y + h + 2)])
    return loops


def near(r):
    """Edges from one point whose other ends differ by less than their sum can
    tell: equal keys, so that only the order of edges decides."""
    x, y = r.randint(1, 9), float(r.choice([4096, 65536, -65536]))
    loops = []
    for _ in range(r.randint(2, 4)):
        e = r.randint(1, 5) * 1e-13
        loops.append([(0, y), (x, e), (x, 70000 + r.randint(0, 3))])
    return loops


def tied(r, at):
    """As `near` in one loop: one of these edges closes it where it begins at point 0, and begins it
    where it begins at 2. Where it is turned round, the point that it then begins with decides."""
    x, y = r.randint(1, 9), float(r.choice([4096, 65536, -65536]))
    loop = []
    for k in r.sample(range(1, 5), r.randint(2, 4)):
        loop += [(x, k * 1e-13), (x, 70000 + r.randint(0, 3)), (0, y)]
    return finish(r, [loop[at:] + loop[:at]], "none")


def many(r):
    """One loop of up to 512 points."""
    n = r.choice([32, 64, 128, 256, 511, 512])
    kind = r.randint(0, 3)
    if kind == 0:
        turns = [turn(i, n) for i in range(n)]
        return [[(500 * (1 + c), 300 * (1 + s)) for c, s in turns]]
    if kind == 1:
        points = []
        for i in range(n):
            c, s = turn(i, n)
            q = 500 if i % 2 else r.choice([200, 350])
            points.append((500 + q * c, 500 + q * s))
        return [points]
    if kind == 2:
        half = n // 2
        top = [(float(i), 10.0 + r.randint(0, 30)) for i in range(half)]
        return [[(float(i), float(r.randint(0, 8))) for i in range(half)] + top[::-1]]
    n = min(n, 64)
    return [[(r.randint(0, 40), r.randint(0, 40)) for _ in range(n)]]


def crowd(r):
    """Up to 64 small loops."""
    loops = []
    for _ in range(r.randint(5, 64)):
        loop = r.choice([[(0, 0), (2, 0), (0, 2)], [(0, 0), (2, 0), (2, 1), (0, 1)], [(0, 0), (0, 2), (2, 1)]])
        loops.append(moved(loop, r.randint(0, 30), r.randint(0, 30), r.choice([1, 2, 0.5])))
    return loops


def loops_of(r):
    pick = r.random()
    if pick < 0.30:
        return outline(r, r.uniform(1, 50), r.uniform(1, 50))
    if pick < 0.50:
        return sheet(r, r.uniform(1, 50), r.uniform(1, 50))
    for share, make in ((0.62, stacked), (0.72, crossed), (0.80, near), (0.92, many)):
        if pick < share:
            return make(r)
    return crowd(r)


def held(loops):
    """Within document 01's counts and bounds."""
    out, left = [], POINTS
    for loop in loops[:LOOPS]:
        loop = loop[:left]
        if len(loop) < 3:
            break
        left -= len(loop)
        out.append([tuple(max(-1e5, min(1e5, v)) for v in p) for p in loop])
    return out


def sets(n, seed):
    """n sets, each with whether it is a sheet's."""
    r = Draws(seed)
    out = []
    while len(out) < n:
        mode = r.choice(["whole", "quarter", "tenth", "none"])
        loops = loops_of(r)
        exact = r.random() < 0.6
        move = (0.0, 0.0, 1.0) if exact else (r.uniform(-900, 900), r.uniform(-900, 900), r.choice([1.0, 1.0, 0.1, 3.7]))
        loops = held(finish(r, loops, "none" if exact else mode, *move))
        if loops:
            out.append((r.random() < 0.5, loops))
    return out


# The share of tied sets.
TIED = 0.1


def framed_sets(n, seed):
    """n sets, each with whether it is a sheet's and a frame, one after the other: the sets above, and in between tied
    ones, by draws of their own."""
    f = frame_draws(seed)
    out = []
    for is_sheet, loops in sets(n, seed):
        frame = drawn_frame(f)
        if f.random() < TIED:
            loops = unframed_set(tied(f, f.randint(0, 2)), frame)
        out.append((is_sheet, loops, frame))
    return out


def every_frame(n, seed):
    """n sets of each frame, the last two of them tied."""
    r = frame_draws(seed)
    for i, frame in enumerate(FRAMES):
        for is_sheet, loops in sets(n - 2, seed + i):
            yield is_sheet, loops, frame
        for at in (0, 2):
            yield False, unframed_set(tied(r, at), frame), frame


def job_bits(loops):
    return pack_fields(set_fields(loops, "set"))


def record(is_sheet, loops, frame):
    """The first byte: 1 for a sheet, 2 times the corner, 8 for the axis x."""
    corner, axis = frame
    ends, n = [], 0
    for loop in loops:
        n += len(loop)
        ends.append(n)
    ends += [0] * (LOOPS - len(ends))
    first = int(is_sheet) + 2 * corner + 8 * (axis == 0)
    head = struct.pack(">BBH64H", first, len(loops), n, *ends)
    return head + b"".join(struct.pack(">dd", x, y) for loop in loops for x, y in loop)


def program_text(oracle_text):
    """What strips_test prints where the lifted Rust prints this: strips that
    exceed the room are 20."""
    lines = oracle_text.splitlines(keepends=True)
    if len(lines) - 1 > ROOM:
        return "no 20\n" + lines[-1]
    return oracle_text


def answer(one):
    is_sheet, loops, (corner, axis) = one
    command = [ORACLE, "--strips", "sheet" if is_sheet else "part", "--frame", f"{corner},{axis}"]
    done = subprocess.run(command, input=job_bits(loops), capture_output=True, check=True)
    return program_text(done.stdout.decode())


def answers(list_):
    with ThreadPoolExecutor(2) as pool:
        return list(pool.map(answer, list_))
