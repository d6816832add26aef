"""Drawn lists of placed panels (document 02, W6): plans in filling order with a few changes, in rooms around the least lengths."""
from jobs.bits import bits, double
from jobs.lists import LENT, RECORD, ROOMS, One, exchanged, numbers, resolution_of, stepped, with_number

NOT_FINITE = [0x7FF8000000000000, 0xFFF8000000000000, 0x7FF0000000000000, 0xFFF0000000000000, 0x7FF0000000000001]
FAR = [1 << 32, 1 << 63, (1 << 64) - 1]
# Shares of a hundred, by name.
CHANGES = [("step", 22), ("steps", 6), ("move", 14), ("slide", 14), ("exchange", 8), ("order", 4), ("shape", 8), ("kind", 4), ("again", 8), ("drop", 4),
           ("not finite", 3), ("minus zero", 2), ("random place", 3)]


def drawn_change(r):
    n = r.randrange(sum(share for _, share in CHANGES))
    for change, share in CHANGES:
        if n < share:
            return change
        n -= share
    raise AssertionError


def by(r, lines, i, at, amount):
    """x or y of line i moved on the sheet."""
    return with_number(lines, i, at, bits(double(lines[i][at]) + amount))


def moves(r, change, lines, i, at, resolution):
    """A line moved: by least steps, by the resolution and parts of it, a little, or anywhere."""
    if change == "step":
        return with_number(lines, i, at, stepped(lines[i][at], r.choice([1, -1])))
    if change == "steps":
        return with_number(lines, i, at, stepped(lines[i][at], r.choice([2, -2, 3, 5, -7])))
    if change == "move":
        return by(r, lines, i, at, resolution * r.choice([1, -1, 0.5, 2, -3, 10]))
    if change == "slide":
        return by(r, lines, i, at, r.choice([1, -1]) * r.random() * 10.0 ** -r.randrange(9))
    return with_number(with_number(lines, i, 2, bits(r.uniform(-30, 30))), i, 3, bits(r.uniform(-30, 30)))


def changed(r, lines, resolution):
    """One change of a list that has lines."""
    i, k, at, change = r.randrange(len(lines)), r.randrange(len(lines)), 2 + r.randrange(2), drawn_change(r)
    if change == "exchange":
        return exchanged(lines, i, k)
    if change == "order":
        return r.sample(lines, len(lines))
    if change == "shape":
        return with_number(lines, i, 1, r.choice([0, 1, 2, 3, 15, 16, *FAR]))
    if change == "kind":
        return with_number(lines, i, 0, r.choice([0, 0, 1, 1, 2, 5, 63, 64, *FAR]))
    if change == "again":
        return lines[:k] + [lines[i]] + lines[k:]
    if change == "drop":
        return lines[:i] + lines[i + 1:]
    if change == "not finite":
        return with_number(lines, i, at, r.choice(NOT_FINITE))
    if change == "minus zero":
        return [(a, o, x or 1 << 63, y or 1 << 63) for a, o, x, y in lines]
    return moves(r, change, lines, i, at, resolution)


def rooms(r, lengths):
    """Those of `plan`, the least, with remainders, or one of them shorter."""
    pick = r.random()
    if pick < 0.5:
        return list(ROOMS)
    if pick < 0.7:
        return list(lengths)
    if pick < 0.8:
        return [n + r.randrange(record) for n, record in zip(lengths, RECORD)]
    room = r.randrange(LENT)
    return [max(n - r.choice([1, 1, RECORD[room], r.randrange(n + 1)]), 0) if i == room else n for i, n in enumerate(lengths)]


def drawn(r, label, data, lengths, lines):
    """A list of a plan: up to three changes, sometimes only a part of it or a remainder."""
    resolution = resolution_of(data)
    out = list(lines)
    if r.random() < 0.1:
        out = out[:r.randrange(len(out) + 1)]
    for _ in range(r.choice([0, 1, 1, 1, 2, 2, 3])):
        out = changed(r, out, resolution) if out else out
    more = [r.getrandbits(64) for _ in range(r.randrange(4))] if r.random() < 0.1 else []
    return One(label, data, rooms(r, lengths), numbers(out) + more)
