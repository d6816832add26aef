"""The starred cases and the "Run" cases of document 01, jobs for the offcut and the gap of document 02, and
jobs that fill each of plan's rooms exactly and one short. All fixed."""
import math

from jobs.bits import fields, pack


def rect(w, h, x=0.0, y=0.0):
    """Counter-clockwise from its lower left corner."""
    x, y, w, h = float(x), float(y), float(w), float(h)
    return [[(x, y), (x + w, y), (x + w, y + h), (x, y + h)]]


def hole(w, h, x, y):
    """A rectangle cut out of the sheet: clockwise."""
    return [rect(w, h, x, y)[0][::-1]]


def part(sets, quantity=1, area=1.0, fill=False, priority=0):
    """A kind; each set is both apart and inset, or a pair of sets is given."""
    pairs = [s if isinstance(s, tuple) else (s, s) for s in sets]
    return {"quantity": quantity, "fill": fill, "priority": priority,
            "area": float(area), "orientations": pairs}


def job(parts, sheet=None, resolution=1.0, rounds=0, seed=0):
    return {"rounds": rounds, "seed": seed, "resolution": float(resolution),
            "sheet": sheet or rect(10, 6), "parts": parts}


TRIANGLE = [[(0.0, 0.0), (4.0, 0.0), (0.0, 4.0)]]
CLOCKWISE = [[(0.0, 0.0), (0.0, 3.0), (4.0, 3.0), (4.0, 0.0)]]


def case4():
    return job([part([rect(4, 3)], 5, 12)])


def starred():
    """Cases 1 to 11 as jobs, by label."""
    r43 = rect(4, 3)
    return [
        ("case1", job([part([TRIANGLE], 2, 8)])),
        ("case2", job([part([CLOCKWISE], 3, 12)])),
        ("case3", job([part([rect(10, 6)], 1, 60)])),
        ("case4", case4()),
        ("case5", job([part([r43], 4, 12)])),
        ("case6", job([part([rect(4, 6)], 3, 24)], resolution=4)),
        ("case7", job([part([rect(4, 6)], 3, 24)], resolution=3)),
        ("case8", job([part([rect(10, 6)], 2, 60)])),
        ("case9", job([part([rect(11, 1)], 1, 11)])),
        ("case10", job([part([r43, rect(3, 4)], 1, 12)])),
        ("case11", job([part([r43], 2, 12)], rounds=3, seed=7)),
    ]


def polygon(n, radius=1.0, wide=0.01):
    """A thin shape of n points: a row below, a row above."""
    low = (n + 1) // 2
    high = n - low
    a = [(radius * i / low, 0.0) for i in range(low)]
    b = [(radius * (high - i) / high, wide) for i in range(high)]
    return [a + b]


def run_cases():
    small = rect(1, 1)
    wide = lambda w: rect(w, 6)
    far = [[(0.0, 0.0), (62500.0625, 0.0), (62500.0625, 6.0), (0.0, 6.0)]]
    return [
        ("width 62500", job([part([small], 2)], wide(62500), 0.0625)),
        ("width 62500.0625", job([part([small], 2)], far, 0.0625)),
        ("copies 4096", job([part([rect(20, 1)], 4095), part([rect(20, 2)], 1)])),
        ("copies 4097", job([part([rect(20, 1)], 4095), part([rect(20, 2)], 2)])),
        ("copies 4096 with a place", job([part([CLOCKWISE], 4095), part([rect(1, 1)], 1)])),
        ("points 512", job([part([polygon(512)], 1)])),
        ("points 513", job([part([polygon(513)], 1)])),
        ("points 510 and 3", job([part([polygon(510) + rect(1, 1)[:1]], 1)])),
        ("offcut below zero", job([part([rect(0.3, 1)], 3)], rect(0.9, 1), 0.1)),
        ("column past x_high", job([part([rect(0.1, 1)], 18)], rect(1.8, 1), 0.1)),
        ("sheet without width", job([part([(rect(2e5, 1, -1e5, 0), rect(0, 1))], 3)], rect(0, 2))),
        ("sheet of least width",
         job([part([(rect(9, 1, -4, 0), rect(0, 1))], 3)], rect(5e-324, 2))),
        ("corner not a number", job([part([[[(0.0, 0.0), (4.0, 0.0), (4.0, float("nan")),
                                            (0.0, 3.0)]]], 1)])),
    ]


def grown(w, h, by, x=0.0, y=0.0):
    """A rectangle's apart set, so much larger on each side, and its inset set."""
    return rect(w + 2 * by, h + 2 * by, x - by, y - by), rect(w, h, x, y)


def offcut_cases():
    """Document 02, W2: which strip ends farthest right, and past what. "offcut below zero" and
    "case9", where nothing is placed, stand above."""
    long = (rect(7, 1), rect(2, 1))
    swapped = [part([rect(3, 1)], 2, 3), part([(rect(4, 2), rect(2, 2))], 1, 4)]
    return [
        ("spacing wider than the margin", job([part([grown(4, 3, 0.5)], 1, 12)])),
        ("spacing narrower than the margin", job([part([grown(4, 3, 0.5)[::-1]], 1, 12)])),
        ("spacing as wide as the margin", job([part([grown(4, 3, 0)], 1, 12)])),
        ("an earlier copy ends farthest", job([part([long], 1, 3), part([rect(3, 1)], 2, 2)])),
        ("the last copy ends farthest", job([part([rect(3, 1)], 2, 3), part([long], 1, 2)])),
        ("an orientation ends farthest", job([part([rect(11, 1), long], 1)])),
        ("spacing to the sheet's edge", job([part([grown(4, 3, 0.5)], 1, 12)], rect(4.5, 6))),
        ("spacing past the sheet's edge", job([part([grown(4, 3, 0.5)], 1, 12)], rect(4.25, 6))),
        ("spacing left of zero", job([part([grown(4, 3, 0.5)], 1, 12)], rect(10, 6, -20, -3))),
        ("only the kept filling of the swaps reaches past right", job(swapped, rect(8, 3), rounds=4, seed=24)),
        ("copies without strips", job([part([(flat(3), rect(4, 3))], 2, 12)])),
    ]


def sliver(x, y, point_left):
    """A triangle with its point at x, 1 long and two least steps of y high: no height within 0.25 of x."""
    top = math.nextafter(math.nextafter(y, math.inf), math.inf)
    far = x + 1 if point_left else x - 1
    loop = [(x, y), (far, y), (far, top)]
    return [loop if point_left else loop[::-1]]


def gap_cases():
    """Document 02, W7: what is next above a panel."""
    plate, small = rect(4, 3), rect(2, 2)
    pointed = rect(10, 6) + [sliver(4.75, 4.0, True)[0][::-1]]
    lifted = part([(rect(4, 1, 0, 6), plate)], 1, 13)
    slanted = [[(0.0, 0.0), (2.0, 0.0), (2.0, 2.0)]]
    corner = rect(10, 6) + hole(1, 1, 0, 5)
    middle = rect(4, 2, 0, -1) + hole(1, 0.5, 0, 0)
    # The first plate does not fit under the hole, the second does.
    over, beside = rect(4, 10) + hole(4, 1, 0, 2), rect(4, 10) + hole(2, 1, 2, 1)
    return [
        ("a hole touches from above", job([part([plate], 1, 12)], rect(10, 6) + hole(4, 1, 0, 3))),
        ("a copy touches from above", job([part([plate], 1, 12), part([small], 1, 4)], beside)),
        ("only an empty interval above", job([part([plate + sliver(5.0, 2.0, False)], 1, 12)], pointed)),
        ("nothing above", job([part([plate], 1, 12)], rect(10, 7.5))),
        ("a bottom as high as the range", job([lifted, part([plate], 1, 12)])),
        ("a bottom at zero", job([part([rect(1, 1, 0, -1)], 1, 1)], middle)),
        ("a bottom below zero", job([part([rect(1, 0.5)], 3, 0.5)], middle)),
        ("the hole is next", job([part([plate], 1, 12), part([rect(4, 1)], 1, 4)], over)),
        ("the copy is next", job([part([plate], 1, 12), part([rect(2, 1)], 1, 2)], beside + hole(2, 1, 0, 6))),
        ("as high as the sheet", job([part([rect(4, 6)], 2, 24)])),
        ("the first orientation wins", job([part([rect(3, 4), plate], 1, 12)])),
        ("a tie, more above the second", job([part([small, slanted], 1, 4)], corner)),
        ("a tie, more above the first", job([part([slanted, small], 1, 4)], corner)),
        ("a bottom between others", job([part([small], 1, 4)], rect(2, 20) + hole(2, 1, 0, 12) + hole(2, 1, 0, 5) + hole(2, 1, 0, 9))),
        ("the largest gap", job([part([rect(1, 1, 0, 99999)])], rect(10, 200000, 0, -100000))),
    ]


def grid(rows, slabs, width, height, x=0.0, y=0.0, clockwise=False):
    """rows rectangles one above the other, each cut into slabs by points on
    the lowest one's lower edge: rows times slabs strips."""
    out = []
    pitch = height / (2 * rows)
    for i in range(rows):
        low, high = y + 2 * i * pitch, y + (2 * i + 1) * pitch
        cuts = [(x + width * c / slabs, low) for c in range(1, slabs)] if i == 0 else []
        loop = [(x, low)] + cuts + [(x + width, low), (x + width, high), (x, high)]
        out.append(loop[::-1] if clockwise else loop)
    return out


def shapes_room(strips):
    """Shapes of 1,365 strips in all, or one more; nothing stands."""
    return job([part([(grid(35, 39, 1.0, 1.0), CLOCKWISE if strips == 1365 else rect(4, 3))], 1)])


def sheet_room(strips):
    loops = rect(1000, 100) + grid(35, 39, 39.0, 70.0, 10.0, 10.0, True)
    if strips > 1365:
        loops += grid(1, 1, 1.0, 1.0, 500.0, 10.0, True)
    return job([part([rect(1, 1)], 3)], loops, 10.0)


def placed_room(copies):
    return job([part([rect(1, 1)], copies)], rect(60, 25))


def sheet_entries(cut):
    """31 holes over the whole width and one up to the cut, which cuts them
    all: 31 × 513 and one more entry than the cut's bucket."""
    loops = [[(0.0, 0.0), (cut, 0.0), (512.0, 0.0), (512.0, 100.0), (0.0, 100.0)]]
    loops += grid(31, 1, 512.0, 62.0, 0.0, 10.0, True)
    loops += grid(1, 1, cut, 1.0, 0.0, 80.0, True)
    return job([part([rect(1, 1)], 2)], loops, 64.0)


def placed_entries(more):
    """32 strips over all 512 buckets, and perhaps one in a single bucket."""
    parts = [part([rect(512, 1)], 32, 512)]
    if more:
        parts.append(part([rect(0.5, 1)], 1, 0.5))
    return job(parts, rect(512, 40), 64.0)


def intervals(copies):
    """Each look meets 64 × 64 pairs with the sheet, and one with each
    standing copy of its column."""
    sheet = rect(10, 100) + grid(32, 2, 4.0, 60.0, 0.0, 20.0, True)
    return job([part([(rect(4, 1), grid(64, 1, 4.0, 1.0))], copies)], sheet, 20.0)


def intervals_touching():
    """4,096 counted intervals, and two more that touch the lowest and the
    highest allowed height and so do not count."""
    low, pairs = 0.0078125, grid(64, 1, 4.0, 1.0)  # y_high is 99 + low
    apart = rect(4, 1, 0, 1) + rect(4, 1, 0, -100 - low)
    sheet = rect(10, 100) + grid(32, 2, 4.0, 60.0, 0.0, 20.0, True)
    return job([part([rect(4, 1)], 1, 4), part([(apart, pairs)], 1, 2)], sheet, 20.0)


def intervals_prime():
    """17 moving strips and 241 of the sheet: 4,097 pairs."""
    sheet = rect(10, 100) + grid(60, 4, 4.0, 60.0, 0.0, 20.0, True)
    sheet += grid(1, 1, 1.0, 1.0, 0.0, 85.0, True)
    return job([part([grid(17, 1, 10.0, 1.0)], 1)], sheet, 20.0)


def late_refusal():
    """The first filling is accepted; a swap round places two copies of 700
    strips each, which is 20."""
    wide, tall = rect(10, 6), (grid(35, 20, 5.0, 6.0), rect(5, 6))
    parts = [part([wide], 1, 60), part([tall], 2, 30)]
    return job(parts, rounds=40, seed=3)


def rooms_cases():
    return [
        ("room shapes exact", shapes_room(1365)),
        ("room shapes short", shapes_room(1366)),
        ("room sheet exact", sheet_room(1365)),
        ("room sheet short", sheet_room(1366)),
        ("room placed exact", placed_room(1365)),
        ("room placed short", placed_room(1366)),
        ("room sheet entries exact", sheet_entries(480.5)),
        ("room sheet entries short", sheet_entries(481.5)),
        ("room placed entries exact", placed_entries(False)),
        ("room placed entries short", placed_entries(True)),
        ("room intervals exact", intervals(1)),
        ("room intervals exact, touching", intervals_touching()),
        ("room intervals short", intervals(2)),
        ("room intervals short, sheet alone", intervals_prime()),
        ("refused in a swap round", late_refusal()),
    ]


def cut_jobs(j, label="case4"):
    """Every byte prefix of a job, a further byte, filling bits."""
    data = pack(j)
    out = [(f"{label} cut at {n}", data[:n]) for n in range(len(data))]
    out += [(f"{label} and a byte", data + b"\0"), (f"{label} and two", data + b"\0\0")]
    for bit in range(-sum(w for _, w, _ in fields(j)) % 8):
        out.append((f"{label} filling bit {bit}", data[:-1] + bytes([data[-1] | 1 << bit])))
    return out


def one_bit_changes(j, label="case4"):
    """Every one-bit change of a job."""
    data = pack(j)
    whole = int.from_bytes(data, "big")
    size = 8 * len(data)
    for bit in range(size):
        changed = whole ^ 1 << (size - 1 - bit)
        yield f"{label} bit {bit}", changed.to_bytes(len(data), "big")


def length_cases():
    """At and past 65,536 bytes, which is tested first."""
    data = pack(case4())
    out = []
    for size in (65535, 65536, 65537, 70000):
        out.append((f"length {size}", data + bytes(size - len(data))))
        out.append((f"length {size} of ones", b"\xff" * size))
    return out + [(f"length {size} job", pack(sized(size))) for size in (65536, 65537)]


def flat(n, loops=1):
    """n points in all on a level line, in so many loops: no strip."""
    out = [[(float(i % 3), 0.0) for i in range(3)] for _ in range(loops - 1)]
    n -= 3 * (loops - 1)
    return out + [[(i / n, 0.0) for i in range(n)]]


def sized(size):
    """A valid job of so many bytes, mostly collinear points: ten sets, with
    loops (10 bits each) added until points (128 bits each) come out."""
    sets = 10
    for loops in range(64):
        left = 8 * size - (151 + 17 + 4 * 128 + 114 + 17 * sets + 10 * loops)
        if left % 128 < 8:
            points = left // 128
            break
    per = [points // sets + (1 if i < points % sets else 0) for i in range(sets)]
    made = [flat(n, 1 + (loops if i == 0 else 0)) for i, n in enumerate(per)]
    return job([part([(made[2 * i], made[2 * i + 1]) for i in range(sets // 2)], 1, 0.5)])


def fixed():
    """All fixed jobs but the one-bit changes."""
    out = [(label, pack(j)) for label, j in starred() + run_cases() + rooms_cases() + offcut_cases() + gap_cases()]
    return out + length_cases() + cut_jobs(case4())
