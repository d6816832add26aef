"""Records for the crate write_test (document 02, W9): a Given is a label, a job as tables (jobs/writer.py), the output room's bytes, and the
number that it must answer, or nothing where that is left to the writers; an Again is a label, a job's bytes to be read into tables and written
again, the slots of the four rooms for tables, and the output room's bytes."""
import collections

from jobs.bits import bits, container
from jobs.draws import Draws
from jobs.oracle import answers
from jobs.writer import HEADER, SHORT, tables_of, write, written

Given = collections.namedtuple("Given", "label tables room want", defaults=[None])
Again = collections.namedtuple("Again", "label data lengths room want", defaults=[None])


def words(list_, size):
    return b"".join(n.to_bytes(size, "big") for n in list_)


def lengths(t):
    return [len(table) for table in t[1:]]


def record(one):
    """Head: 1 for a job's bytes, else 0; the slots of rows, areas, counts and coordinates; the room's bytes. Then the job's bytes,
    or the header and the tables."""
    if isinstance(one, Again):
        return words([1, *one.lengths, one.room], 4) + one.data
    t = one.tables
    return words([0, *lengths(t), one.room], 4) + words([*t.header, *t.rows, *t.areas, *t.counts, *t.coordinates], 8)


def stored(list_):
    return container([(one.label, record(one)) for one in list_])


def hashed(list_):
    """As rust/hash.rs: it begins with how many they are, each is mixed in by a draw."""
    h = len(list_)
    for n in list_:
        h = Draws(h ^ n).getrandbits(64)
    return h


def wrote(tables, room):
    number, n, left = write(tables, room)
    return f"wrote {number} {n} {hashed(left):016x}\n"


def filled(table, n):
    return table + [0] * (n - len(table))


def again(one):
    """What is read into the rooms, and written of it."""
    t = tables_of(one.data)
    if not isinstance(t, int) and any(n < need for n, need in zip(one.lengths, lengths(t))):
        t = SHORT
    if isinstance(t, int):
        return f"read {t} 0 0 {hashed([0] * (len(HEADER) + sum(one.lengths))):016x}\n"
    rooms = [n for table, room in zip(t[1:], one.lengths) for n in filled(table, room)]
    text = f"read 0 {len(t.counts)} {len(t.coordinates)} {hashed(t.header + rooms):016x}\n"
    return text + wrote(t, one.room)


def told(one):
    """By the writer in Python alone."""
    return again(one) if isinstance(one, Again) else wrote(one.tables, one.room)


def number(text):
    """Of the last line: what was written, or why it was not."""
    return int(text.splitlines()[-1].split()[1])


def both(list_):
    """The answers of both writers, which must be one, and each as it must be."""
    texts = answers([(one.label, record(one)) for one in list_], "--write")
    for one, text in zip(list_, texts):
        if text != told(one):
            raise SystemExit(f"{one.label}: in Rust {text}in Python {told(one)}")
        if one.want is not None and number(text) != one.want:
            raise SystemExit(f"{one.label} must answer {one.want}: {text}")
    return texts


def exact(t):
    """The room that a job needs; where it is refused, one of 64 bytes."""
    n, data = written(t)
    return 64 if n else len(data)


def one(label, t, want=None, more=0):
    """In a room that is so many bytes longer than the job."""
    return Given(label, t, max(0, exact(t) + more), want)


def read_again(label, data, room=None, more=(0, 0, 0, 0), want=None):
    """In rooms for tables that are so many slots longer than needed, and an exact output room unless said."""
    t = tables_of(data)
    need = [3, 2, 1, 4] if isinstance(t, int) else lengths(t)
    return Again(label, data, [max(0, n + m) for n, m in zip(need, more)], len(data) if room is None else room, want)


def places(t):
    """(name, table, index) of each field of well-formed tables, in the order in which they are judged."""
    out = [(name, "header", i) for i, name in enumerate(HEADER)]
    at = {"counts": 0, "coordinates": 0}

    def take(name, table):
        out.append((name, table, at[table]))
        at[table] += 1
        return getattr(t, table)[at[table] - 1]

    def set_(name):
        for _ in range(take(name + " loops", "counts")):
            for _ in range(take(name + " points", "counts")):
                take(name + " x", "coordinates")
                take(name + " y", "coordinates")
    set_("sheet")
    for k in range(t.header[3]):
        out.extend((name, "rows", 4 * k + i) for i, name in enumerate(("quantity", "fill", "priority")))
        out.extend([("area", "areas", k), ("orientations", "rows", 4 * k + 3)])
        for _ in range(t.rows[4 * k + 3]):
            set_("apart")
            set_("inset")
    return out


def with_slot(t, table, i, n):
    """A double stands for its bits."""
    list_ = list(getattr(t, table))
    list_[i] = bits(n)
    return t._replace(**{table: list_})


def slot_of(t, name, nth=0):
    """Table and index of the nth field of a name; -1 is the last."""
    return [p for p in places(t) if p[0] == name][nth][1:]


def changed(t, name, n, nth=0):
    return with_slot(t, *slot_of(t, name, nth), n)


def header(t, **numbers):
    return t._replace(header=[bits(numbers.get(name, n)) for name, n in zip(HEADER, t.header)])


def cut(t, table, n):
    """The table's first n slots."""
    return t._replace(**{table: getattr(t, table)[:n]})


def longer(t, table, slots):
    return t._replace(**{table: getattr(t, table) + slots})
