"""A second writer of jobs (document 02, W9), apart from that of rust/write.rs: the tables that a job is given as, to a number and
bytes. All numbers are whole numbers, doubles by their 64 bits, so that every NaN and minus zero is seen.

The tables are a header (version, corner, axis, kinds, rounds, seed, resolution), rows (quantity, fill, priority as 32 bits and
orientations of each kind), areas, counts (of each set in the job's order its loops, then each loop's points) and coordinates (x
and y of all points). A slot that a table lacks is 0, of areas and coordinates not a number.
"""
import collections
from fractions import Fraction

from jobs.bits import Reader, Refused, answer, fields, pack_fields

Tables = collections.namedtuple("Tables", "header rows areas counts coordinates")
HEADER = ["version", "corner", "axis", "kinds", "rounds", "seed", "resolution"]
NAN, INFINITY, MINUS_ZERO = 0x7FF8000000000000, 0x7FF0000000000000, 1 << 63
SHORT = 28
# The ranges of doubles, as document 01 writes them.
RESOLUTION, COORDINATE, AREA = (Fraction(0.001), Fraction(10000)), (Fraction(-100000), Fraction(100000)), (Fraction(0), Fraction(10**12))


def magnitude(n):
    return n % MINUS_ZERO


def value(n):
    """The number that finite bits stand for."""
    exponent, mantissa = magnitude(n) >> 52, n % (1 << 52)
    size = Fraction(mantissa + (1 << 52 if exponent else 0)) * Fraction(2) ** (max(exponent, 1) - 1075)
    return -size if n >= MINUS_ZERO else size


def rounded(x):
    """A number to the nearest double; division of whole numbers rounds once."""
    return Fraction(x.numerator / x.denominator)


class Writer:
    """The fields as they are judged, each with its width."""

    def __init__(self, tables):
        self.tables, self.fields, self.count_at, self.coordinate_at, self.copies = tables, [], 0, 0, 0

    def put(self, width, n):
        self.fields.append(("", width, n))

    def number(self, width, n, least=0, most=None):
        """6 outside the range, or too large for the field."""
        if n < least or n >= 1 << width or most is not None and n > most:
            raise Refused(6)
        self.put(width, n)
        return n

    def double(self, n, least, most):
        """4 and 5; both zeros are written as plus zero."""
        if magnitude(n) >= INFINITY:
            raise Refused(4)
        if not least <= value(n) <= most:
            raise Refused(5)
        self.put(64, n if magnitude(n) else 0)
        return value(n)

    def count(self, width, least, most):
        self.count_at += 1
        return self.number(width, slot(self.tables.counts, self.count_at - 1, 0), least, most)

    def coordinate(self):
        self.coordinate_at += 1
        return self.double(slot(self.tables.coordinates, self.coordinate_at - 1, NAN), *COORDINATE)

    def set(self):
        """Its points."""
        points = []
        for _ in range(self.count(7, 1, 64)):
            n = self.count(10, 3, 512)
            if len(points) + n > 512:
                raise Refused(6)
            points += [(self.coordinate(), self.coordinate()) for _ in range(n)]
        return points

    def version(self, version, corner, axis):
        """3 for any version but 1 and 2, and for version 1 with another frame than lower left, along y."""
        if version not in (1, 2) or version == 1 and (corner, axis) != (0, 1):
            raise Refused(3)
        self.put(4, version)
        if version == 2:
            self.number(2, corner)
            self.number(1, axis)

    def kind(self, k):
        quantity, fill, priority, orientations = (slot(self.tables.rows, 4 * k + i, 0) for i in range(4))
        self.copies += self.number(12, quantity, 1, 4095)
        self.number(1, fill)
        self.number(32, priority)
        self.double(slot(self.tables.areas, k, NAN), *AREA)
        for _ in range(self.number(5, orientations, 1, 16)):
            self.set()
            self.set()

    def job(self):
        """The job's bytes. After the last field 7, then 8 of the framed sheet: along x its width is the sheet's height."""
        version, corner, axis, kinds, rounds, seed, resolution = self.tables.header
        self.version(version, corner, axis)
        self.number(7, kinds, 1, 64)
        self.number(12, rounds)
        self.number(64, seed)
        step = self.double(resolution, *RESOLUTION)
        ends = [p[0 if axis else 1] for p in self.set()]
        for k in range(kinds):
            self.kind(k)
        if self.copies > 4096:
            raise Refused(7)
        if rounded(rounded(max(ends) - min(ends)) / step) > 10**6:
            raise Refused(8)
        return pack_fields(self.fields)


def slot(table, i, none):
    return table[i] if i < len(table) else none


def written(tables):
    """The refusal's number or 0, and the bytes."""
    try:
        return 0, Writer(tables).job()
    except Refused as refused:
        return refused.args[0], b""


def write(tables, room):
    """Number and bytes of the job, and the room of so many bytes as it is left."""
    number, data = written(tables)
    if not number and len(data) > room:
        number, data = SHORT, b""
    return number, len(data), data + bytes(room - len(data))


class Tabling(Reader):
    """The tables of an accepted job, as it is read, and its fields as they are written again: both zeros are plus zero."""

    def __init__(self, data):
        super().__init__(data)
        self.noted = []

    def take(self, width):
        n = super().take(width)
        self.noted.append(("", width, n))
        return n

    def double(self):
        n = self.take(64)
        self.noted[-1] = ("", 64, n if magnitude(n) else 0)
        return self.noted[-1][2]

    def loops(self, counts, coordinates):
        counts.append(self.take(7))
        for _ in range(counts[-1]):
            counts.append(self.take(10))
            coordinates += [self.double() for _ in range(2 * counts[-1])]

    def tables(self):
        version = self.take(4)
        corner, axis = (self.take(2), self.take(1)) if version == 2 else (0, 1)
        header = [version, corner, axis, self.take(7), self.take(12), self.take(64), self.double()]
        rows, areas, counts, coordinates = [], [], [], []
        self.loops(counts, coordinates)
        for _ in range(header[3]):
            rows += [self.take(12), self.take(1), self.take(32)]
            areas.append(self.double())
            rows.append(self.take(5))
            for _ in range(2 * rows[-1]):
                self.loops(counts, coordinates)
        return Tables(header, rows, areas, counts, coordinates)


def tables_of(data):
    """The tables of a job's bytes, or the number of its refusal."""
    told = answer(data)
    return Tabling(data).tables() if told == "ok" else int(told.split()[1])


def given(job):
    """The tables of a job as bits.py has it, with its doubles and numbers as they are."""
    out = {name: [] for name in ("rows", "area", "counts", "coordinates")}
    header = {"version": 1, "corner": 0, "axis": 1}
    at = {"quantity": "rows", "fill": "rows", "priority": "rows", "orientations": "rows", "area": "area",
          "loops": "counts", "points": "counts", "x": "coordinates", "y": "coordinates"}
    for name, _, n in fields(job):
        if name in HEADER:
            header[name] = n
        else:
            out[at[name.split()[-1]]].append(n)
    return Tables([header[name] for name in HEADER], out["rows"], out["area"], out["counts"], out["coordinates"])


def plus_zeros(data):
    """An accepted job's bytes with plus zero for every minus zero."""
    reader = Tabling(data)
    reader.tables()
    return pack_fields(reader.noted)
