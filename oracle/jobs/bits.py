"""Jobs as Python values, packed to document 01's bits and read back.

A job is a dict: rounds, seed, resolution, sheet, parts, and in version 2
(document 02, W1) frame, a pair of the numbers of corner and axis. A part is a
dict: quantity, fill, priority, area, orientations, each a pair of sets (apart,
inset). A set is a list of loops, a loop a list of (x, y).
"""
import math
import struct


def bits(x):
    """The 64 bits of a double; an int stands for bits already."""
    if isinstance(x, int):
        return x
    return struct.unpack(">Q", struct.pack(">d", x))[0]


def double(n):
    return struct.unpack(">d", struct.pack(">Q", n))[0]


def set_fields(s, name):
    """(name, width, value) of each field of a set."""
    out = [(name + " loops", 7, len(s))]
    for loop in s:
        out.append((name + " points", 10, len(loop)))
        for x, y in loop:
            out.append((name + " x", 64, bits(x)))
            out.append((name + " y", 64, bits(y)))
    return out


def version(job):
    """The version, and in version 2 corner and axis."""
    if "frame" not in job:
        return [("version", 4, 1)]
    corner, axis = job["frame"]
    return [("version", 4, 2), ("corner", 2, corner), ("axis", 1, axis)]


def fields(job):
    out = version(job) + [
        ("kinds", 7, len(job["parts"])),
        ("rounds", 12, job["rounds"]),
        ("seed", 64, job["seed"]),
        ("resolution", 64, bits(job["resolution"])),
    ]
    out += set_fields(job["sheet"], "sheet")
    for p in job["parts"]:
        out += [
            ("quantity", 12, p["quantity"]),
            ("fill", 1, int(p["fill"])),
            ("priority", 32, p["priority"] & 0xFFFFFFFF),
            ("area", 64, bits(p["area"])),
            ("orientations", 5, len(p["orientations"])),
        ]
        for apart, inset in p["orientations"]:
            out += set_fields(apart, "apart") + set_fields(inset, "inset")
    return out


def pack_fields(list_):
    """The fields' bits, with zero bits to the end of the last byte."""
    text = "".join(format(value & ((1 << width) - 1), f"0{width}b") for _, width, value in list_)
    text += "0" * (-len(text) % 8)
    return int(text, 2).to_bytes(len(text) // 8, "big") if text else b""


def pack(job):
    return pack_fields(fields(job))


class Refused(Exception):
    pass


class Reader:
    """A second reader, apart from the oracle's, for refusals 1 to 8."""

    def __init__(self, data):
        self.data = data
        self.at = 0

    def take(self, width):
        end = self.at + width
        if end > 8 * len(self.data):
            raise Refused(1)
        first, last = self.at // 8, (end + 7) // 8
        value = int.from_bytes(self.data[first:last], "big") >> (8 * last - end)
        self.at = end
        return value & ((1 << width) - 1)

    def count(self, width, low, high):
        value = self.take(width)
        if not low <= value <= high:
            raise Refused(6)
        return value

    def number(self, low, high):
        x = double(self.take(64))
        if math.isnan(x) or math.isinf(x):
            raise Refused(4)
        if not low <= x <= high:
            raise Refused(5)
        return x

    def set(self):
        total, points = 0, []
        for _ in range(self.count(7, 1, 64)):
            n = self.count(10, 3, 512)
            total += n
            if total > 512:
                raise Refused(6)
            for _ in range(n):
                points.append((self.number(-1e5, 1e5), self.number(-1e5, 1e5)))
        return points

    def axis(self):
        """The axis that the version gives: 0 for x, 1 for y."""
        version = self.take(4)
        if version not in (1, 2):
            raise Refused(3)
        return self.take(3) % 2 if version == 2 else 1

    def judge(self):
        axis = self.axis()
        kinds = self.count(7, 1, 64)
        self.take(12 + 64)
        resolution = self.number(0.001, 10000.0)
        # Along x columns advance in y.
        ends = [p[1 - axis] for p in self.set()]
        copies = 0
        for _ in range(kinds):
            copies += self.count(12, 1, 4095)
            self.take(1 + 32)
            self.number(0.0, 1e12)
            for _ in range(self.count(5, 1, 16)):
                self.set()
                self.set()
        rest = 8 * len(self.data) - self.at
        if rest > 7 or rest and self.data[-1] & ((1 << rest) - 1):
            raise Refused(2)
        if copies > 4096:
            raise Refused(7)
        if (max(ends) - min(ends)) / resolution > 1e6:
            raise Refused(8)


def answer(data):
    """'ok' or 'no N' of reading a job."""
    try:
        Reader(data).judge()
    except Refused as refused:
        return f"no {refused.args[0]}"
    return "ok"


def container(jobs):
    """Records of a label (one byte length) and a job (four bytes length)."""
    out = bytearray()
    for label, data in jobs:
        name = label.encode()[:255]
        out += bytes([len(name)]) + name + len(data).to_bytes(4, "big") + data
    return bytes(out)


def write_container(path, jobs):
    with open(path, "wb") as f:
        f.write(container(jobs))


def read_container(path):
    data = open(path, "rb").read()
    at = 0
    while at < len(data):
        n = data[at]
        label = data[at + 1:at + 1 + n].decode()
        at += 1 + n
        size = int.from_bytes(data[at:at + 4], "big")
        yield label, data[at + 4:at + 4 + size]
        at += 4 + size
