"""Scripts of calls, as oracle/README.md describes them, and what the oracle's trace says of a job."""
import subprocess

from jobs.bits import bits, double, pack
from jobs.oracle import ORACLE

ROOMS = ["shapes", "sheet", "placed", "sheet_entries", "placed_entries", "sheet_firsts",
         "placed_firsts", "intervals", "positions"]
(SHAPES, SHEET, PLACED, SHEET_ENTRIES, PLACED_ENTRIES, SHEET_FIRSTS, PLACED_FIRSTS, INTERVALS,
 POSITIONS) = range(len(ROOMS))
RECORD = [6, 6, 6, 1, 1, 1, 1, 2, 6]
# What `plan` lends.
PLAN = [8190, 8190, 8190, 16384, 16384, 1365, 1365, 8192, 24576]
# The numbers of a state, in the order of its fields.
NUMBERS = ["resolution", "sheet_bounds", "sheet_strips", "apart_strips", "inset_bounds", "parts",
           "order", "taken", "next_column", "look_counts", "placed_strips", "orientation", "x",
           "y", "gap", "unplaced_area", "right"]
# The calls by their letters.
NAMES = {"S": "start", "N": "next", "M": "stack", "W": "withdraw", "F": "fill", "K": "leaf"}
# First words of the lines that answer calls; no title begins so. A withdrawal answers as next copy does.
CALLS = ["start", "next", "stack", "fill", "leaf"]


class Script:
    """The bytes of a script."""

    def __init__(self, seed=1):
        self.data = bytearray()
        self.seed = seed
        self.lengths = [0] * len(ROOMS)
        # The number that each call must answer, of a stack with how many copies it took; or nothing where that is left to
        # the oracle.
        self.wanted = []
        # What each call is.
        self.calls = []

    def put(self, letter, a=0, n=0, m=0, rest=b""):
        m = bits(m) if isinstance(m, float) else m
        self.data += bytes([ord(letter), a]) + n.to_bytes(4, "big") + m.to_bytes(8, "big") + rest

    def title(self, text):
        self.put("T", n=len(text.encode()), rest=text.encode())

    def job(self, j):
        data = j if isinstance(j, bytes) else pack(j)
        self.put("J", n=len(data), rest=data)

    def order(self, kinds):
        self.put("O", n=len(kinds), rest=b"".join(k.to_bytes(2, "big") for k in kinds))

    def length(self, room, n):
        if self.lengths[room] != n:
            self.lengths[room] = n
            self.put("L", room, n)

    def rooms(self, lengths, garbage=True):
        """Lengths of all rooms, and garbage in every slot."""
        for room, n in enumerate(lengths):
            self.length(room, n)
            if garbage and n:
                self.garbage(room)

    def garbage(self, room, start=0):
        self.seed += 1
        self.put("H", room, start, self.seed)

    def slot(self, room, n, value):
        self.put("R", room, n, value)

    def edit(self, name, n, value):
        self.put("E", NUMBERS.index(name), n, value)

    def call(self, letter, want, hashes=True, **fields):
        """A call, and the hashes of all rooms after it."""
        self.put(letter, **fields)
        self.wanted.append(want)
        self.calls.append(NAMES[letter])
        if hashes:
            self.put("V")

    def start(self, want=None):
        self.call("S", want)

    def next(self, want=None, hashes=True):
        """Next copy, with garbage in the interval room."""
        if self.lengths[INTERVALS]:
            self.garbage(INTERVALS)
        self.call("N", want, hashes)

    def stack(self, n, want=None, hashes=True):
        """The next n copies, with garbage in the interval room; wanted are the number and how many it took."""
        if self.lengths[INTERVALS]:
            self.garbage(INTERVALS)
        self.call("M", want, hashes, n=n)

    def withdraw(self, place, want=None, hashes=True):
        """The copy at a place is taken back."""
        self.call("W", want, hashes, n=place)

    def fill(self, want=None):
        self.call("F", want)

    def leaf(self, kind, orientation, inset, want=None):
        self.call("K", want, False, a=int(inset), n=kind, m=orientation)

    def show(self, room):
        self.put("P", room)


class Call:
    """The state and rooms after one call of a trace."""

    def __init__(self, text):
        self.slots, self.rooms, self.gaps, self.most = [], {}, [], 0
        # By place: orientation, x, y, the last two by their bits; nothing where none stands.
        self.places = []
        for line in text.splitlines():
            word, *rest = line.split(" ")
            if word == "slot":
                self.slots.append(rest)
            elif word == "place":
                self.gaps.append(0 if rest[1] == "none" else int(rest[4], 16))
                self.places.append(None if rest[1] == "none" else (int(rest[1]), int(rest[2], 16), int(rest[3], 16)))
            elif word == "room":
                self.rooms[rest[0]] = rest[3:]
            elif word == "most":
                self.most = int(rest[0])
            elif word == "strips":
                self.strips = [int(n) for n in rest]
            elif word == "entries":
                self.entries = [int(n) for n in rest]
            elif word == "taken":
                self.taken = int(rest[0])
            elif word in ("right", "area", "resolution"):
                setattr(self, word, double(int(rest[0], 16)))
            elif word == "sheet":
                self.sheet = [double(int(n, 16)) for n in rest]

    def strip(self, room, i):
        """Strip i of a strip room."""
        return [double(int(w, 16)) for w in (self.rooms[room] + ["0"] * 6)[6 * i:6 * i + 6]]

    def number(self, room, i):
        """Slot i of a room, as bits or as a number."""
        words = self.rooms[room]
        if i >= len(words):
            return 0
        return int(words[i]) if room.endswith(("entries", "firsts")) else int(words[i], 16)

    def shapes(self):
        """The strips of all shapes: apart, inset."""
        return [sum(int(s[6 + n]) for s in self.slots) for n in (0, 1)]


def agrees(line, want):
    """Whether a call's line has what it must answer."""
    wanted = want if isinstance(want, tuple) else (want,)
    return line.split(" ")[1:1 + len(wanted)] == [str(n) for n in wanted]


def answers(s):
    """The oracle's answers to a script, each call's number as it must be."""
    done = subprocess.run([ORACLE, "--script"], input=bytes(s.data), capture_output=True)
    if done.returncode:
        raise SystemExit(done.stderr.decode())
    text = done.stdout.decode()
    calls = [line for line in text.splitlines() if line.split(" ")[0] in CALLS]
    if len(calls) != len(s.wanted):
        raise SystemExit(f"{len(s.wanted)} calls, {len(calls)} answers")
    for i, (line, want) in enumerate(zip(calls, s.wanted)):
        if want is not None and not agrees(line, want):
            raise SystemExit(f"call {i} must answer {want}: {line}")
    return text, calls


def trace(j, order):
    """The calls of a trace in ample rooms: the start, then each copy; the last is left out."""
    options = ["--trace", "--rooms", ",".join(map(str, PLAN)), "--order", ",".join(map(str, order))]
    done = subprocess.run([ORACLE, *options], input=pack(j), capture_output=True, check=True)
    calls = [Call(text) for text in done.stdout.decode().split("call ")[1:]]
    return calls[:-1]


def needs(calls, copies):
    """The least lengths of the rooms in which the whole filling is accepted."""
    last = calls[-1]
    return [6 * sum(last.shapes()), 6 * last.strips[0], 6 * last.strips[1], *last.entries,
            *last.strips, 2 * max(c.most for c in calls), 6 * copies]
