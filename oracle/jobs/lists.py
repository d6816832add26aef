"""Lists of placed panels for `judge_layout` (document 02, W6): a line is a tuple of kind, orientation, and the bits of x and y. A list to
be judged is a One: a label, a job's bytes, the lengths of the seven lent rooms, its numbers, and the answer that it must have, a pair of
number and line, or nothing where that is left to the oracle."""
import collections
import math

from jobs.bits import bits, container, double, pack
from jobs.oracle import answers
from jobs.script import PLAN

LENT = 7
ROOMS = PLAN[:LENT]   # what `plan` lends
RECORD = [6, 6, 6, 1, 1, 1, 1]

One = collections.namedtuple("One", "label job lengths numbers want", defaults=[None])


def line(kind, orientation, x, y):
    return kind, orientation, bits(float(x)), bits(float(y))


def numbers(lines):
    return [n for one in lines for n in one]


def one(label, j, lines, want=None, lengths=ROOMS, more=()):
    """`more` are numbers after the last whole line."""
    return One(label, j if isinstance(j, bytes) else pack(j), list(lengths), numbers(lines) + list(more), want)


def words(list_, size):
    return b"".join(n.to_bytes(size, "big") for n in list_)


def asked(o):
    """As the oracle's --judge reads it: lengths, the job's length, the job, the numbers."""
    return words([*o.lengths, len(o.job)], 4) + o.job + words(o.numbers, 8)


def stored(list_):
    """As layout_test reads them: a record without a label is the job of those after it."""
    out, job = [], None
    for o in list_:
        if o.job != job:
            out.append(("", o.job))
            job = o.job
        out.append((o.label, words(o.lengths, 4) + words(o.numbers, 8)))
    return container(out)


def read_stored(records):
    """The lists again, as labels and what the oracle is asked; `records` are those of a container."""
    job = b""
    for label, data in records:
        if label:
            yield label, data[:4 * LENT] + words([len(job)], 4) + job + data[4 * LENT:]
        else:
            job = data


def judged(list_, *options):
    """The oracle's answers, each as it must be."""
    told = answers([(o.label, asked(o)) for o in list_], "--judge", *options)
    for o, text in zip(list_, told):
        if o.want is not None and text != "judged {} {}\n".format(*o.want):
            raise SystemExit(f"{o.label} must answer {o.want}: {text}")
    return told


def planned(text):
    """Of --list the least lengths of the rooms, and the lines; nothing of a refused job."""
    first, *rest = text.splitlines()
    if not first.startswith("rooms "):
        return None
    put = lambda k, o, x, y: (int(k), int(o), int(x, 16), int(y, 16))
    return [int(n) for n in first.split()[1:]], [put(*row.split()[1:]) for row in rest]


def plans(jobs):
    """Of labels and jobs' bytes: label, bytes, lengths and lines in filling order, where there is a plan."""
    jobs = list(jobs)
    for (label, data), text in zip(jobs, answers(jobs, "--list")):
        plan = planned(text)
        if plan:
            yield label, data, *plan


def plan_of(j):
    """Lengths and lines of a job that has a plan."""
    ((_, _, lengths, lines),) = plans([("", pack(j))])
    return lengths, lines


def resolution_of(data):
    """The resolution that a job's bytes have; three more bits stand before it in version 2."""
    before = 90 if data[0] >> 4 == 2 else 87
    return double(int.from_bytes(data[:20], "big") >> 160 - 64 - before & (1 << 64) - 1)


def stepped(n, steps):
    """The bits of the double so many least steps above (or below) that of the bits n."""
    x = double(n)
    for _ in range(abs(steps)):
        x = math.nextafter(x, math.inf if steps > 0 else -math.inf)
    return bits(x)


def with_number(lines, i, at, n):
    """The list with number `at` (0 kind, 1 orientation, 2 x, 3 y) of line i."""
    changed = lines[i][:at] + (n,) + lines[i][at + 1:]
    return lines[:i] + [changed] + lines[i + 1:]


def exchanged(lines, i, k):
    out = list(lines)
    out[i], out[k] = out[k], out[i]
    return out
