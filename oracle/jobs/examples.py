"""The jobs of examples/."""
from jobs.cases import case4, hole, job, part, rect


def both(w, h, gap=2.0):
    """A panel lengthwise and across: apart grown by half the gap on each side, inset as it is."""
    half = gap / 2
    return [(rect(a + gap, b + gap, -half, -half), rect(a, b)) for a, b in ((w, h), (h, w))]


def holes():
    """A sheet of 1,000 × 600 mm with two holes; doors, hatches, and small plates to fill the rest."""
    sheet = rect(1000, 600) + hole(120, 80, 300, 250) + hole(60, 60, 700, 100)
    doors = part(both(380, 220), 4, 380 * 220, priority=1)
    hatches = part(both(200, 150), 6, 200 * 150)
    plates = part(both(90, 60), 20, 90 * 60, fill=True)
    return job([doors, hatches, plates], sheet, resolution=5.0)


def swaps():
    """Three kinds of one priority and 40 rounds of swaps: an order is found that places more."""
    kinds = [part(both(310, 200), 3, 310 * 200), part(both(260, 240), 3, 260 * 240), part(both(150, 110), 6, 150 * 110)]
    return job(kinds, rect(900, 500), resolution=5.0, rounds=40, seed=1)


def nan_corner():
    """A hatch of 4 × 3 with not-a-number for the y of its upper left corner, and a plate, which the Rust puts on it."""
    hatch = [[(0.0, 0.0), (4.0, 0.0), (4.0, 3.0), (0.0, float("nan"))]]
    return job([part([hatch], 1, 12, priority=1), part([rect(2, 2)], 1, 4)])


def second_table():
    """Case 4's plates on the table with its stop at the lower right, which advances upward: rows along x."""
    return dict(case4(), frame=(1, 0))


def examples():
    return [("case4", case4()), ("second-table", second_table()), ("holes", holes()), ("swaps", swaps()), ("nan-corner", nan_corner())]
