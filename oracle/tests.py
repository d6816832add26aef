#!/usr/bin/env python3
"""Tests of the oracle itself: the starred cases of document 01, the offcuts, gaps and frames of document 02, the order
of refusals where two hold, and every room exact and one short by --rooms; withdrawals (withdraw_tests.py), stacks
(stack_tests.py), layouts (layout_tests.py), written jobs (write_tests.py)."""
import re
import subprocess
import sys

from jobs.bits import answer, bits, double, fields, pack, pack_fields, set_fields
from jobs.cases import CLOCKWISE, TRIANGLE, case4, gap_cases, grid, job, offcut_cases, part, rect, run_cases, starred
from jobs.frame_cases import edge_order, frame_cases, frame_jobs, tied, version_jobs, widths
from jobs.frames import FRAMES, LOWER_LEFT, back, name, unframed, unframed_set
from jobs.oracle import ORACLE, answers, without_gaps
from jobs.script import RECORD, ROOMS
from layout_tests import layout_tests
from stack_tests import stack_tests
from withdraw_tests import withdraw_tests
from write_tests import write_tests

CASE4 = """plan 4 1 0
put 0 0 0 0000000000000000 0000000000000000 4008000000000000
put 0 1 0 0000000000000000 4008000000000000 0000000000000000
put 0 2 0 4010000000000000 0000000000000000 4008000000000000
put 0 3 0 4010000000000000 4008000000000000 0000000000000000
left 0 1
look 0 0 11
right 4020000000000000
area 4028000000000000
offcut 4000000000000000
"""
failed = []
tried = 0


def oracle(data, *options):
    data = data if isinstance(data, bytes) else pack(data)
    done = subprocess.run([ORACLE, *options], input=data, capture_output=True)
    if done.returncode:
        return "error " + done.stderr.decode()
    return done.stdout.decode()


def expect(name, got, want):
    global tried
    tried += 1
    if got != want:
        failed.append(name)
        print(f"{name}: got {got!r}, want {want!r}")


def hexes(*xs):
    return " ".join(f"{bits(float(x)):016x}" for x in xs)


def puts(text):
    """(kind, copy, orientation, x, y, gap) of the put lines."""
    lines = [line.split() for line in text.splitlines() if line.startswith("put")]
    return [(*map(int, p[1:4]), *(double(int(w, 16)) for w in p[4:])) for p in lines]


def columns(text):
    """The x of each look, with --looks."""
    lines = [line.split() for line in text.splitlines() if line[0].isdigit()]
    return [double(int(p[3], 16)) for p in lines]


def strips(s, which, *options):
    return oracle(pack_fields(set_fields(s, which)), "--strips", which, *options)


def test_starred():
    case = dict(starred())
    expect("case 1", strips(TRIANGLE, "part"),
           f"strip {hexes(0, 4, 0, 0, 4, 0)}\nbounds {hexes(0, 0, 4, 4)}\n")
    expect("case 2", strips(CLOCKWISE, "part"), f"bounds {hexes(0, 0, 4, 3)}\n")
    expect("case 3", strips(rect(10, 6), "sheet"), f"bounds {hexes(0, 0, 10, 6)}\n")
    expect("case 4", oracle(case["case4"]), CASE4)
    expect("case 5", "look 0 0 8\n" in oracle(case["case5"]), True)
    expect("case 6", sorted(set(columns(oracle(case["case6"], "--looks")))), [0.0, 4.0, 6.0])
    expect("case 7", sorted(set(columns(oracle(case["case7"], "--looks")))), [0.0, 3.0, 6.0])
    expect("case 7 looks", "look 0 0 5\n" in oracle(case["case7"]), True)
    text = oracle(case["case8"])
    expect("case 8", (puts(text), "look 0 0 2\n" in text), ([(0, 0, 0, 0.0, 0.0, 0.0)], True))
    text = oracle(case["case9"])
    expect("case 9", (puts(text), "look 0 0 0\n" in text, text[:10]), ([], True, "plan 0 1 0"))
    expect("case 10", puts(oracle(case["case10"])), [(0, 0, 1, 0.0, 0.0, 2.0)])
    text = oracle(case["case11"], "--draws")
    state = (7 + 6 * 0x9E3779B97F4A7C15) % 2**64
    expect("case 11", text.split("\n", 7)[7], f"order 0 0\nimprovements 0\nstate {state:016x}\n")


# Right and offcut of the jobs of document 02, W2, worked out on paper.
OFFCUTS = {
    "spacing wider than the margin": (4, 5.5), "spacing narrower than the margin": (5, 5),
    "spacing as wide as the margin": (4, 6), "an earlier copy ends farthest": (3, 3),
    "the last copy ends farthest": (3, 3), "an orientation ends farthest": (2, 3),
    "spacing to the sheet's edge": (4, 0), "spacing past the sheet's edge": (4, 0), "spacing left of zero": (-16, 5.5),
    "only the kept filling of the swaps reaches past right": (5, 1), "copies without strips": (4, 6),
}


def last(text):
    """Right and offcut."""
    lines = [line.split() for line in text.splitlines()]
    return tuple(double(int(p[1], 16)) for p in lines if p[0] in ("right", "offcut"))


def test_offcut():
    for label, j in offcut_cases():
        expect(label, last(oracle(j)), OFFCUTS[label])
        expect(label + ", lifted", last(oracle(j, "--lifted-only")), OFFCUTS[label])
    expect("nothing placed", last(oracle(dict(starred())["case9"])), (0, 10))
    expect("below zero by rounding", last(oracle(dict(run_cases())["offcut below zero"]))[1], 0)


# Height and gap of each panel of the jobs of document 02, W7, by kind and copy, worked out on paper.
GAPS = {
    "a hole touches from above": [(0, 0)], "a copy touches from above": [(2, 5), (0, 0)],
    "only an empty interval above": [(0, 3)], "nothing above": [(0, 4.5)],
    "a bottom as high as the range": [(0, 3), (0, 3)], "a bottom at zero": [(0, 0)],
    "a bottom below zero": [(-1, 0.5), (-0.5, 0), (0.5, 0)], "the hole is next": [(3, 4), (0, 1)],
    "the copy is next": [(2, 1), (0, 1)], "as high as the sheet": [(0, 0), (0, 0)],
    "the first orientation wins": [(0, 2)], "a tie, more above the second": [(0, 3)],
    "a tie, more above the first": [(0, 4)], "a bottom between others": [(0, 3)],
    "the largest gap": [(-199999, 199999)],
}


def test_gap():
    for label, j in gap_cases():
        text = oracle(j)
        expect(label, [p[4:] for p in puts(text)], GAPS[label])
        expect(label + ", no minus zero", "8000000000000000" in text, False)
        rest = [line for line in without_gaps(text).splitlines() if not line.startswith("look ")]
        expect(label + ", lifted", oracle(j, "--lifted-only").splitlines(), rest)
    looks = [line.split()[4:] for line in oracle(case4(), "--looks").splitlines() if line[0].isdigit()]
    told = [["free", hexes(0), hexes(3), "0"], ["free", hexes(3), hexes(0), "1"], ["full", "2"]]
    expect("looks of case 4", looks[:3], told)
    empty = oracle(dict(gap_cases())["only an empty interval above"], "--looks").splitlines()[0]
    expect("an empty interval does not count", empty.split()[-1], "0")
    room = oracle(case4(), "--after").splitlines()[-1].split()
    plates = [(0, 0, 0, 0, 0, 3), (0, 1, 0, 0, 3, 0), (0, 2, 0, 4, 0, 3), (0, 3, 0, 4, 3, 0)]
    expect("positions of case 4", room[1:4] + [" ".join(room[4:])], ["positions", "24576", "23", hexes(*sum(plates, ())[:-1])])
    kept = dict(offcut_cases())["only the kept filling of the swaps reaches past right"]
    expect("gaps of the kept filling", [p[5] for p in puts(oracle(kept))], [2, 1, 1])


# Case 4 in each frame (document 02, W1), worked out on paper: where its four plates lie on the sheet, right and offcut.
# Along y a column holds two plates: in the frame x runs from s0 - b0 in steps of 1 and plates stand at the first and the
# fifth, y at the lowest and 3 higher; the framed sheet's right edge is 10 where x is not turned and 0 where it is. Along x
# the frame is 6 wide and 10 high: a plate is 3 wide there, columns are the first and the fourth, and a row holds two.
CASE4_FRAMES = {
    (0, 1): ([(0, 0), (0, 3), (4, 0), (4, 3)], (8, 2)), (1, 1): ([(6, 0), (6, 3), (2, 0), (2, 3)], (-2, 2)),
    (2, 1): ([(0, 3), (0, 0), (4, 3), (4, 0)], (8, 2)), (3, 1): ([(6, 3), (6, 0), (2, 3), (2, 0)], (-2, 2)),
    (0, 0): ([(0, 0), (4, 0), (0, 3), (4, 3)], (6, 0)), (1, 0): ([(6, 0), (2, 0), (6, 3), (2, 3)], (6, 0)),
    (2, 0): ([(0, 3), (4, 3), (0, 0), (4, 0)], (0, 0)), (3, 0): ([(6, 3), (2, 3), (6, 0), (2, 0)], (0, 0)),
}


def test_case4_frames():
    for frame in FRAMES:
        text, gaps = oracle(dict(case4(), frame=frame)), [3, 0, 3, 0] if frame[1] else [6, 2, 6, 2]
        places, ends = CASE4_FRAMES[frame]
        expect("case 4, " + name(frame), (puts(text), last(text)),
               ([(0, i, 0, *p, gap) for i, (p, gap) in enumerate(zip(places, gaps))], ends))
        # Along y 6 + 1 + 4 as ever; along x 1 + 1 in the first column, 4 to the fourth, 1, and 1 that finds nothing.
        expect("looks, " + name(frame), f"look 0 0 {11 if frame[1] else 8}\n" in text, True)
        rest = [line for line in without_gaps(text).splitlines() if not line.startswith("look ")]
        expect(f"case 4, {name(frame)}, lifted", oracle(dict(case4(), frame=frame), "--lifted-only").splitlines(), rest)
    expect("version 2 of the frame of version 1", oracle(dict(case4(), frame=LOWER_LEFT)), CASE4)
    lines = oracle(dict(case4(), frame=(1, 1)), "--trace").splitlines()
    places = [line.split()[2:] for line in lines if line.startswith("place ")][-5:]
    expect("the state's places are in the frame", [p[1:3] for p in places[:4]],
           [hexes(x, y).split() for x, y in ((-6, 0), (-6, 3), (-2, 0), (-2, 3))])
    expect("and its sheet", lines[4], "sheet " + hexes(-10, 0, 0, 6))
    room = oracle(dict(case4(), frame=(1, 1)), "--after").splitlines()[-1].split()
    expect("positions are not", room[7:9] + room[25:27], hexes(6, 0, 2, 3).split())


def out_of(frame, text):
    """A plan with its positions taken out of a frame."""
    def put(m):
        x, y = back(frame, [double(int(w, 16)) for w in m[2].split()])
        return f"{m[1]} {hexes(x + 0.0, y + 0.0)}"
    return re.sub(r"^(put \S+ \S+ \S+) (\S+ \S+)", put, text, flags=re.M)


def test_frames():
    """A job whose framed sets are another's has that one's plan, but for positions."""
    jobs = starred() + offcut_cases() + gap_cases() + [("order of edges", edge_order())]
    plans = answers([(label, pack(j)) for label, j in jobs])
    for frame in FRAMES:
        turned = answers([(label, pack(unframed(j, frame))) for label, j in jobs])
        wrong = [label for (label, _), a, b in zip(jobs, plans, turned) if out_of(frame, a) != b]
        expect("plans in the frame " + name(frame), wrong, [])
        option = ("--frame", ",".join(map(str, frame)))
        for label, s in [("triangle", TRIANGLE), *tied().items()]:
            told = strips(s, "part")
            expect(f"{label}, {name(frame)}", strips(unframed_set(s, frame), "part", *option), told)
            others = {"closing edge tied": [loop[-1:] + loop[:-1] for loop in s],
                      "first edge tied": [loop[1:] + loop[:1] for loop in s], "loops tied": s[::-1]}
            for which, other in others.items():
                differ = strips(unframed_set(other, frame), "part", *option) != told
                expect(f"{label}, {name(frame)}, changed so that it shows: {which}", differ, label == which)
    text = "".join(answers([(label, pack(j)) for label, j in frame_cases()]))
    expect("no minus zero", "8000000000000000" in text, False)
    done = subprocess.run([ORACLE, "--frames", "100000", "7"], capture_output=True)
    lines = done.stdout.decode().splitlines()
    expect("the lifted frame and that by hand", (done.returncode, lines[-1]), (0, "800000 points, 0 mismatches"))
    expect("frames that reverse", [line[:3] for line in lines if "reversing true" in line], ["0 0", "1 1", "2 1", "3 0"])
    expect("none", [line[:3] for line in lines if "identity true" in line], ["0 1"])


def test_versions():
    for label, data in version_jobs():
        n = int(label.split()[1])
        expect(label, number(oracle(data)), "no 3" if n not in (1, 2) else "no 5")
    for label, j in widths():
        refused = ".0625" in label and ("width" in label) == ("along y" in label)
        expect(label, number(oracle(j)), "no 8" if refused else "plan")
    expect("1 after corner and axis", [oracle(bytes([b])) for b in range(0x20, 0x30)], ["no 1\n"] * 16)
    turned = dict(case4(), frame=(3, 0))
    expect("6 after corner and axis", oracle(upto("kinds", 0, turned)), "no 6\n")
    expect("2 of version 2", oracle(pack(turned) + b"\0"), "no 2\n")
    told = [text.strip() for text in answers(frame_jobs(), "--answer")]
    expect("both readers", [answer(data) for _, data in frame_jobs()], told)


def changed(name, value, j=None, nth=0):
    """A job's bytes with one field changed."""
    list_ = fields(j or case4())
    at = [i for i, f in enumerate(list_) if f[0] == name][nth]
    list_[at] = (name, list_[at][1], value)
    return pack_fields(list_)


def upto(name, value, j=None):
    """The bytes up to that field, changed, with zero bits to a byte's end."""
    list_ = fields(j or case4())
    at = [f[0] for f in list_].index(name)
    return pack_fields(list_[:at] + [(name, list_[at][1], value)])


def test_reader_order():
    nan, far = 0x7FF8000000000000, bits(1e300)
    many = job([part([rect(4, 3)], 4095), part([rect(4, 3)], 2)])
    wide = dict(many, sheet=rect(1e5, 6), resolution=0.001)
    expect("nothing", oracle(b""), "no 1\n")
    expect("3 in one byte", oracle(b"\x30"), "no 3\n")
    expect("1 inside kinds", oracle(b"\x10"), "no 1\n")
    expect("6 where the bytes then end", oracle(upto("kinds", 0)), "no 6\n")
    expect("6 at loops, then end", oracle(upto("sheet loops", 65)), "no 6\n")
    expect("6 at points, then end", oracle(upto("sheet points", 513)), "no 6\n")
    two = dict(case4(), sheet=[rect(10, 6)[0], [(0.0, 0.0)] * 509])
    list_ = fields(two)
    second = [i for i, f in enumerate(list_) if f[0] == "sheet points"][1]
    expect("6 at the points that pass 512", oracle(pack_fields(list_[:second + 1])), "no 6\n")
    two["sheet"][1] = [(0.0, 0.0)] * 508
    expect("512 points in two loops", oracle(two)[:4], "plan")
    expect("1 inside a double", oracle(upto("sheet x", nan)[:-2]), "no 1\n")
    expect("4 before 5", oracle(changed("sheet x", bits(float("inf")))), "no 4\n")
    expect("5", oracle(changed("sheet x", far)), "no 5\n")
    expect("5, then 6", oracle(changed("quantity", 0, dict(case4(), resolution=1e9))), "no 5\n")
    late = case4()
    late["parts"][0].update(area=1e300, quantity=0)
    expect("6, then 5", oracle(late), "no 6\n")
    expect("4, then 6", oracle(changed("resolution", nan, late)), "no 4\n")
    expect("2 before 7", oracle(pack(many) + b"\0"), "no 2\n")
    expect("7", oracle(many), "no 7\n")
    expect("7 before 8", oracle(wide), "no 7\n")
    wide["parts"][1]["quantity"] = 1
    expect("8", oracle(wide), "no 8\n")
    expect("2 before 8", oracle(pack(wide) + b"\0"), "no 2\n")
    expect("11 first", oracle(b"\xff" * 65537), "no 11\n")
    expect("no 11 in the library", oracle(b"\xff" * 65537, "--answer"), "no 3\n")


# Room sizes in slots, in the order of --rooms.
AMPLE = dict(zip(ROOMS, [600, 600, 600, 9999, 9999, 600, 600, 600, 600]))


def with_rooms(j, *options, **sizes):
    sizes = {**AMPLE, **sizes}
    return oracle(j, "--rooms", ",".join(str(sizes[n]) for n in ROOMS), *options)


def room_job():
    """Every room is used: a sheet with a hole, two kinds."""
    sheet = rect(10, 6) + grid(1, 1, 1.0, 1.0, 8.0, 4.0, True)
    return job([part([rect(4, 3)], 2, 12), part([TRIANGLE], 1, 8)], sheet)


def number(text):
    return text.split("\n")[0] if text.startswith("no ") else text[:4]


def test_refusal_order():
    j = room_job()
    bad = ["--order", "0,0,0"]
    wide = dict(j, sheet=rect(1e5, 6), resolution=0.001)
    expect("8 before 30", number(with_rooms(wide, positions=0)), "no 8")
    expect("30 before 10", number(with_rooms(j, *bad, positions=0)), "no 30")
    expect("10 before sheet 20", number(with_rooms(j, *bad, sheet=0)), "no 10")
    expect("sheet 20 before 21", number(with_rooms(j, sheet=0, sheet_entries=0)), "no 20")
    expect("10 before sheet 20 by its numbers", number(with_rooms(j, *bad, sheet_firsts=0)), "no 10")
    expect("sheet 20 by its numbers before 21",
           number(with_rooms(j, sheet_firsts=0, sheet_entries=0)), "no 20")
    expect("sheet 21 before shapes 20", number(with_rooms(j, shapes=0, sheet_entries=0)), "no 21")
    expect("shapes 20 before 22", number(with_rooms(j, shapes=0, intervals=0)), "no 20")
    # The second copy is the first that meets a standing one.
    one = with_rooms(case4(), intervals=0, placed=6)
    expect("22 before 20 of one copy", number(one), "no 22")
    expect("22 before 21", number(with_rooms(case4(), intervals=0, placed_entries=205)), "no 22")
    expect("20 before 21 of one copy", number(with_rooms(case4(), placed=0, placed_entries=0)),
           "no 20")
    expect("22 before 20 by the numbers", number(with_rooms(case4(), intervals=0, placed_firsts=1)),
           "no 22")
    expect("20 by the numbers before 21",
           number(with_rooms(case4(), placed_firsts=0, placed_entries=0)), "no 20")
    for order in ("0,1", "0,0,2", "0,1,1", "0,0,1,1", ""):
        expect(f"order {order}", number(with_rooms(j, "--order", order)), "no 10")
    expect("order 1,0,0", number(with_rooms(j, "--order", "1,0,0")), "plan")


def test_rooms_exact():
    """The least size of each room that is accepted; one slot less is refused."""
    j = room_job()
    for name, record, short in zip(ROOMS, RECORD, (20, 20, 20, 21, 21, 20, 20, 22, 30)):
        least = next(n for n in range(AMPLE[name] + 1)
                     if number(with_rooms(j, **{name: n})) == "plan")
        expect(f"{name} in whole records", least % record, 0)
        for less in range(1, record + 1):
            text = with_rooms(j, **{name: least - less})
            expect(f"{name} {less} short", number(text), f"no {short}")
        text = with_rooms(j, **{name: least + record - 1})
        expect(f"{name} with a remainder", text, with_rooms(j))


def replies(text):
    return [line[6:] for line in text.splitlines() if line.startswith("reply")]


def test_trace():
    expect("trace of case 4", replies(oracle(case4(), "--trace")), ["ok"] * 6 + ["no 23"])
    rooms = [line.split() for line in oracle(case4(), "--trace").splitlines() if "_firsts" in line]
    expect("bucket numbers of case 4", [r[4:] for r in rooms[-2:]], [[], ["0", "0", "204", "204"]])
    places = [line.split()[1:] for line in oracle(case4(), "--trace").splitlines() if line.startswith("place ")]
    expect("gaps of case 4's state", [p[4:] for p in places[-5:]], [[hexes(3)], [hexes(0)], [hexes(3)], [hexes(0)], []])
    expect("trace, no order", replies(oracle(case4(), "--trace", "--order", "0")), ["no 10"])
    # The interval room is each call's own: 22 changes nothing.
    text = oracle(case4(), "--trace", "--intervals", "0,0,2,0,8", "--calls", "7")
    expect("trace with 22", replies(text), ["ok", "ok", "no 22", "ok", "no 22", "ok", "ok", "ok"])
    calls = re.sub(r"most \d+\n", "", text).split("call ")
    state = [c.split("\n", 2)[2] for c in calls[1:]]
    expect("22 leaves all as it was", state[2].replace("intervals 0", "intervals 2"),
           state[1].replace("intervals 0", "intervals 2"))
    expect("the rest as without", state[7].split("room intervals")[0],
           oracle(case4(), "--trace").split("call 5\n")[1].split("call 6")[0]
           .split("\n", 2)[2].split("room intervals")[0])


def main():
    for test in (test_starred, test_offcut, test_gap, test_case4_frames, test_frames, test_versions, test_reader_order,
                 test_refusal_order, test_rooms_exact, test_trace):
        test()
    withdraw_tests(expect)
    stack_tests(expect)
    layout_tests(expect)
    write_tests(expect)
    print(f"{tried} tests, {len(failed)} failed")
    sys.exit(len(failed) > 0)


main()
