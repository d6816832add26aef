"""The stored looks of the program look_test, of a fixed seed, and the lifted Rust's answers; and what is
among them. compare/looks.sh makes them."""
import collections
import os
import struct
import subprocess
import tempfile

from jobs.oracle import HERE

COUNT, SEED = 600, 4


def looks(data):
    """Each look's head (x0, x1, x, y_low, y_high), its number of intervals and its four sets of strips."""
    at = 0
    while at < len(data):
        counts, intervals = data[at : at + 4], data[at + 4]
        head = struct.unpack_from(">5d", data, at + 5)
        at += 45
        sets = []
        for n in counts:
            sets.append([struct.unpack_from(">6d", data, at + 48 * i) for i in range(n)])
            at += 48 * n
        yield head, intervals, sets


def bucket(x0, width, x):
    return int(max(0, min(511, (x - x0) / width)))


def kinds(head, intervals, sets):
    """The names of what holds of a look."""
    x0, x1, x = head[:3]
    width = max((x1 - x0) / 512, 2.0**-1022)
    sheet, placed, inset, apart = sets
    reach = [(bucket(x0, width, q[0] + x), bucket(x0, width, q[1] + x)) for q in inset + apart]
    standing = [(bucket(x0, width, p[0]), bucket(x0, width, p[1])) for p in sheet + placed]
    single = [a for a, b in reach if a == b]
    yield "look"
    if sheet:
        yield "with sheet strips"
    if placed:
        yield "with strips of copies"
    if sheet and placed and inset and apart:
        yield "with all four sets"
    if intervals:
        yield "with intervals"
    if any(q[0] + x < x0 for q in inset + apart):
        yield "a moving strip starts left of the sheet"
    if any(q[1] + x > x1 for q in inset + apart):
        yield "a moving strip ends right of the sheet"
    if single:
        yield "a moving strip lies in one bucket"
    if any(a <= s <= b for s in single for a, b in standing):
        yield "it shares that bucket with a standing strip"
        if intervals:
            yield "the same, and the look has intervals"
    if len(set(single)) < len(single):
        yield "two moving strips share one bucket"


def gap_kind(head, height, gap):
    """What ends the gap above a free height, by the bits of both."""
    height, gap = (struct.unpack(">d", bytes.fromhex(bits))[0] for bits in (height, gap))
    if gap == 0:
        return "a gap of zero"
    return "a gap up to y_high" if gap == head[4] - height else "a gap up to an interval"


def counted(files):
    """How many looks are of each kind, how many have each answer, and what ends their gaps."""
    found = collections.Counter(k for look in looks(files["stdin"]) for k in kinds(*look))
    lines = [line.split() for line in files["stdout"].decode().splitlines()]
    found.update("answer " + words[0] for words in lines)
    answers = [words for words in lines if words[0] != "no"]
    found.update(gap_kind(head, *words[1:]) for (head, *_), words in zip(looks(files["stdin"]), answers) if words[0] == "free")
    return "".join(f"\n{n:6} {kind}" for kind, n in found.items())


def made():
    with tempfile.TemporaryDirectory() as folder:
        subprocess.run([os.path.join(HERE, "compare", "looks.sh"), "sample", str(COUNT), str(SEED), folder], check=True)
        files = {}
        for name in ("stdin", "stdout"):
            with open(os.path.join(folder, name), "rb") as f:
                files[name] = f.read()
    return files, counted(files)
