"""Tests of judged layouts (document 02, W6), for tests.py: case 4 worked out on paper, the fixed lists whose answers are known, every plan of
the starred cases and of the frames, and wrong lists of plans."""
from jobs import layouts
from jobs.bits import pack
from jobs.cases import case4, job, part, rect, starred
from jobs.draws import Draws
from jobs.frame_cases import frame_cases
from jobs.lists import LENT, ROOMS, judged, line, one, planned, plans
from jobs.oracle import answers
from jobs.plan_lists import alone, own
from jobs.random_lists import drawn

# Case 4's plan as `plan` prints it: x, y by their bits.
PUT = [(0, 0, 0x0000000000000000, 0x0000000000000000), (0, 0, 0x0000000000000000, 0x4008000000000000),
       (0, 0, 0x4010000000000000, 0x0000000000000000), (0, 0, 0x4010000000000000, 0x4008000000000000)]
# Shapes of two strips, four copies of one strip; 205 and 206 entries for a copy.
LEAST = [12, 0, 24, 0, 822, 0, 4]


def told(list_, *options):
    """Number and line of each."""
    return [tuple(int(n) for n in text.split()[1:3]) if text.count(" ") == 2 else text for text in judged(list_, *options)]


def test_case4(expect):
    """What its list is, and what it needs."""
    (text,) = answers([("case 4", pack(case4()))], "--list")
    expect("case 4's list", planned(text), (LEAST, PUT))
    on = lambda *places: [line(0, 0, x, y) for x, y in places]
    lists = [("its plan", PUT, LEAST, (0, 4)), ("nothing", [], [0] * LENT, (20, 0)), ("nothing, shapes alone", [], [12] + [0] * 6, (0, 0)),
             ("on one another", on((0, 0), (1, 1)), ROOMS, (27, 1)), ("outside", on((0, 0), (6.5, 0)), ROOMS, (26, 1)),
             ("a fifth and a sixth", PUT + on((6, 0)), ROOMS, (27, 4)), ("touching", on((1, 0.5), (5, 0.5), (5, 3.0)), ROOMS, (27, 2)),
             ("touching in both", on((1, 0), (5, 0), (2, 3)), ROOMS, (0, 3)), ("a strip short", PUT, LEAST[:2] + [23] + LEAST[3:], (20, 3)),
             ("a bucket's number short", PUT, LEAST[:6] + [3], (20, 3)), ("an entry short", PUT, LEAST[:4] + [821] + LEAST[5:], (21, 3))]
    got = told([one(label, case4(), lines, None, lengths) for label, lines, lengths, _ in lists])
    for (label, _, _, want), answer in zip(lists, got):
        expect(f"case 4: {label}", answer, want)


def test_known(expect):
    """Lists with answers on paper, by hand alone and beside the lifted lines."""
    makes = (layouts.first_lists, layouts.remainders, layouts.ends, layouts.past_the_end, layouts.reversed_ranges, layouts.not_finite,
             layouts.minus_zeros, layouts.missing, layouts.quantities, layouts.sheet_and_copies, layouts.several_strips, layouts.rooms,
             layouts.refused_jobs, layouts.two_faults, layouts.before_the_lines)
    list_ = [o for make in makes for o in make() if o.want]
    plain = [o._replace(want=None) for o in list_]
    expect("lists with known answers", [o.label for o, got in zip(list_, told(plain)) if got != o.want], [])
    expect("the same by hand alone", told(plain, "--by-hand"), [o.want for o in list_])
    expect("numbers of the lists", sorted({o.want[0] for o in list_}), [0, 1, 2, 3, 4, 5, 6, 7, 8, 9, 20, 21, 25, 26, 27])


def test_plans(expect):
    """A plan is accepted in filling order in its own rooms, and each of its lines alone; by kind it need not be."""
    jobs = [(label, pack(j)) for label, j in starred() + frame_cases()]
    list_ = list(plans(jobs))
    expect("plans", [got[0] for got in told([own(p)._replace(want=None) for p in list_])], [0] * len(list_))
    lines = [alone(p, i)._replace(want=None) for p in list_ for i in range(len(p[3]))]
    expect("each line alone", set(told(lines)), {(0, 1)})


def test_line_numbers(expect):
    """The line is that of the first bad one, for each place in a row of plates."""
    row = job([part([rect(1, 1)], 9)], rect(9, 1))
    good = [line(0, 0, x, 0) for x in range(9)]
    bad = [good[:i] + [line(0, 0, 0.5 if i else 99, 0)] + good[i + 1:] for i in range(9)]
    expect("each line bad in turn", told([one("row", row, lines) for lines in bad]), [(27 if i else 26, i) for i in range(9)])


def test_drawn(expect):
    """Drawn lists are judged alike by hand and by the lifted lines (a difference ends the oracle), and all numbers of lines come up."""
    r, jobs = Draws(5), [(label, pack(j)) for label, j in starred() + frame_cases()]
    list_ = [drawn(r, f"{label} {i}", *rest) for label, *rest in plans(jobs) for i in range(12)]
    expect("numbers of drawn lists", {number for number, _ in told(list_)}, {0, 4, 9, 20, 21, 25, 26, 27})


def layout_tests(expect):
    for test in (test_case4, test_known, test_plans, test_line_numbers, test_drawn):
        test(expect)
