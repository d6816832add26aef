"""Damaged jobs: a valid job with one or two faults."""
import math

from jobs.bits import bits, fields, pack_fields
from jobs.frames import LOWER_LEFT, framed
from jobs.random_jobs import valid

COUNTS = {
    "version": [0, 2, 3, 15],
    "kinds": [0, 1, 63, 64, 65, 127],
    "loops": [0, 63, 64, 65, 127],
    "points": [0, 1, 2, 3, 511, 512, 513, 1023],
    "quantity": [0, 1, 4095],
    "orientations": [0, 15, 16, 17, 31],
}
# In place of version 2.
OTHER_VERSIONS = [0, 1, *range(3, 16)]


def up(x):
    return math.nextafter(x, math.inf)


def down(x):
    return math.nextafter(x, -math.inf)


# Bits of doubles that are not finite: quiet and signalling, of both signs.
STRANGE = [bits(math.inf), bits(-math.inf), 0x7FF8000000000000, 0xFFF8000000000000,
           0x7FF0000000000001, 0xFFFFFFFFFFFFFFFF, 0x7FF8000000000001]
DOUBLES = {
    "x": [-1e5, 1e5, up(1e5), down(-1e5), 1e300, -1e300, -0.0, 5e-324, -5e-324, down(1e5)],
    "area": [-0.0, 0.0, 5e-324, -5e-324, 1e12, up(1e12), -1.0, 1e300, down(1e12)],
    "resolution": [0.001, down(0.001), 10000.0, up(10000.0), 0.0, -0.0, -1.0, 5e-324, 1e300,
                   up(0.001)],
}
DOUBLES["y"] = DOUBLES["x"]


def short(name):
    return name.split()[-1]


def counts(list_, name):
    """The strange values of a count."""
    if name == "version" and list_[1][0] == "corner":
        return OTHER_VERSIONS
    return COUNTS.get(short(name), [])


def fault(r, list_, names=None):
    """Changes one field in place; its label."""
    known = [i for i, f in enumerate(list_)
             if (short(f[0]) in COUNTS or short(f[0]) in DOUBLES)
             and (names is None or short(f[0]) in names)]
    # Names first, so that rare fields are met as often as coordinates.
    name = r.choice(sorted({list_[i][0] for i in known}))
    i = r.choice([i for i in known if list_[i][0] == name])
    if short(name) in COUNTS:
        value = r.choice(counts(list_, name))
    elif r.random() < 0.5:
        value = r.choice(STRANGE)
    else:
        value = bits(r.choice(DOUBLES[short(name)]))
    list_[i] = (name, list_[i][1], value)
    return f"{name} {value:x}"


def every_fault(job):
    """Each value of the tables in the first field of each name, alone."""
    list_ = fields(job)
    names = [f[0] for f in list_]
    for name in sorted(set(names)):
        values = counts(list_, name)
        if short(name) in DOUBLES:
            values = STRANGE + [bits(x) for x in DOUBLES[short(name)]]
        at = names.index(name)
        for value in values:
            field = (name, list_[at][1], value)
            yield f"{name} {value:x}", pack_fields(list_[:at] + [field] + list_[at + 1:])


def cut(r, list_):
    """Cut near a field's end or in its middle."""
    data = pack_fields(list_)
    at = r.randrange(len(list_))
    end = sum(f[1] for f in list_[:at])
    if r.random() < 0.4:
        end += list_[at][1] // 2
    n = min(len(data) - 1, max(0, (end + r.choice([-1, 0, 0, 7, 8])) // 8))
    return f"cut in {list_[at][0]}", data[:n]


def flips(r, data):
    out = bytearray(data)
    for _ in range(r.randint(1, 5)):
        out[r.randrange(len(out))] ^= 1 << r.randrange(8)
    return bytes(out)


def copies(r, job):
    """Quantities that sum to about 4,096; a bit after the end perhaps."""
    total = 4096 + r.choice([-1, 0, 1, 1, 2])
    kinds = job["parts"]
    while len(kinds) < 2:
        kinds.append(dict(kinds[0]))
    for p in kinds:
        p["quantity"] = 1
    kinds[0]["quantity"] = min(4095, total - len(kinds) + 1)
    kinds[1]["quantity"] = total - kinds[0]["quantity"] - len(kinds) + 2
    # Nothing fits, so that it stays quick.
    far = [[(0.0, 0.0), (1e5, 0.0), (1e5, 1e5), (0.0, 1e5)]]
    for p in kinds:
        p["orientations"] = [(far, far)]
    job["rounds"] = 0
    return f"copies {total}"


def columns(r, job):
    """A sheet of about a million columns; an end past it. Along x it is high."""
    job["resolution"] = r.choice([0.001, 0.01, 0.0625, 0.1])
    width = job["resolution"] * 1e6
    width = r.choice([width, up(width), down(width), up(up(width)), width * 1.0001, width * 2])
    step = 1 if job.get("frame", LOWER_LEFT)[1] else -1
    long = lambda w: [[p[::step] for p in ((0.0, 0.0), (w, 0.0), (w, 1.0), (0.0, 1.0))[::step]]]
    job["sheet"], wide = long(width), long(width * 0.999)
    for p in job["parts"]:
        p["orientations"] = [(wide, wide)]
    job["rounds"] = 0
    return "columns"


def tail(r, data, list_):
    """A further byte or a filling bit."""
    rest = -sum(f[1] for f in list_) % 8
    if rest and r.random() < 0.5:
        return "filling bit", data[:-1] + bytes([data[-1] | 1 << r.randrange(rest)])
    return "further bytes", data + bytes(r.randrange(256) for _ in range(r.randint(1, 3)))


def damaged(r, frames=None):
    """(label, bytes); some in version 2 where there are draws of frames."""
    pick = r.random()
    if pick < 0.04:
        return "noise", bytes(r.randrange(256) for _ in range(r.choice([1, 3, 20, 400])))
    job = framed(valid(r), frames)
    label = ""
    if pick < 0.16:
        label = r.choice([copies, columns])(r, job) + ", "
        if pick < 0.08:
            label += r.choice([copies, columns])(r, job) + ", "
    list_ = fields(job)
    if pick < 0.12:
        return label + "as it is", pack_fields(list_)
    if pick < 0.3:
        more, data = cut(r, list_)
        return label + more, data
    if pick < 0.4:
        more, data = tail(r, pack_fields(list_), list_)
        return label + more, data
    if pick < 0.5:
        return "bits changed", flips(r, pack_fields(list_))
    for _ in range(r.choice([1, 1, 2])):
        label += fault(r, list_) + ", "
    if pick < 0.6:
        more, data = r.choice([lambda: cut(r, list_), lambda: tail(r, pack_fields(list_), list_)])()
        return label + more, data
    return label + "changed", pack_fields(list_)
