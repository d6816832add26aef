"""Tests of written jobs (document 02, W9), for tests.py: case 4's bits put together on paper, the examples read and written again, minus zeros,
versions, the fixed tables whose answers are known, and both writers on drawn ones."""
import os
import subprocess

from jobs import write_cases, write_sizes
from jobs.bits import answer, pack
from jobs.cases import case4, job, part, rect, starred
from jobs.draws import Draws
from jobs.frame_cases import frame_cases
from jobs.frames import FRAMES, LOWER_LEFT
from jobs.oracle import ORACLE, ROOT, answers
from jobs.random_tables import drawn_job, edited
from jobs.write_records import Given, header, number, one, places, read_again, record, told, with_slot
from jobs.writer import MINUS_ZERO, NAN, Tables, given, plus_zeros, tables_of, value, written

# Case 4's fields on paper: doubles in hex, all else in bits.
ZERO, ONE, THREE, FOUR, SIX, TEN, TWELVE = ("0000000000000000", "3ff0000000000000", "4008000000000000", "4010000000000000", "4018000000000000",
                                            "4024000000000000", "4028000000000000")
PLATE = ["0000001", "0000000100", ZERO, ZERO, FOUR, ZERO, FOUR, THREE, ZERO, THREE]
CASE4 = ["0001", "0000001", "000000000000", ZERO, ONE,
         "0000001", "0000000100", ZERO, ZERO, TEN, ZERO, TEN, SIX, ZERO, SIX,
         "000000000101", "0", "0" * 32, TWELVE, "00001", *PLATE, *PLATE]


def on_paper(list_):
    text = "".join("".join(f"{int(digit, 16):04b}" for digit in field) if len(field) == 16 else field for field in list_)
    text += "0" * (-len(text) % 8)
    return bytes(int(text[i:i + 8], 2) for i in range(0, len(text), 8))


def written_by(list_):
    """What the writer in Rust answers."""
    return answers([(o.label, record(o)) for o in list_], "--write")


def test_case4(expect):
    data, t = on_paper(CASE4), given(case4())
    expect("case 4 on paper", (len(data), data[:4].hex(), data[-2:].hex()), (232, "10200000", "0000"))
    expect("case 4's tables", t, Tables([1, 0, 1, 1, 0, 0, int(ONE, 16)], [5, 0, 0, 1], [int(TWELVE, 16)], [1, 4, 1, 4, 1, 4],
                                        [int(field, 16) for field in CASE4 if len(field) == 16 and field != TWELVE][2:]))
    expect("case 4 written", written(t), (0, data))
    expect("case 4 in Rust", written_by([one("", t)]), [told(one("", t))])
    expect("case 4 read", tables_of(data), t)
    turned = ["0010", "11", "0", *CASE4[1:]]
    expect("case 4 from the upper right along x", written(given(dict(case4(), frame=(3, 0)))), (0, on_paper(turned)))
    kept = on_paper(["0010", "00", "1", *CASE4[1:]])
    expect("version 2 of the frame of version 1 keeps its version", written(given(dict(case4(), frame=LOWER_LEFT))), (0, kept))
    signed = job([part([rect(4, 3)], 4095, 12, True, -2)], rounds=4095, seed=2**64 - 1)
    fields = CASE4[:2] + ["1" * 12, "f" * 16] + CASE4[4:15] + ["1" * 12, "1", "1" * 31 + "0"] + CASE4[18:]
    expect("fill, priority -2 and all ones", written(given(signed)), (0, on_paper(fields)))


def test_examples(expect):
    folder = os.path.join(ROOT, "examples")
    jobs = [(name, open(os.path.join(folder, name), "rb").read()) for name in sorted(os.listdir(folder)) if name.endswith(".job")]
    jobs += [(label, pack(j)) for label, j in starred() + frame_cases()]
    taken = [(label, data) for label, data in jobs if answer(data) == "ok"]
    refused = [(label, told(read_again(label, data)).split()[:4]) for label, data in jobs if answer(data) != "ok" and label.endswith(".job")]
    expect("examples that are refused", refused, [("nan-corner.job", ["read", "4", "0", "0"])])
    zeros = {label for label, data in taken if plus_zeros(data) != data}
    expect("jobs with minus zeros", all(label.startswith(("minus zeros", "order of edges")) for label in zeros) and len(zeros) > 7, True)
    back = [label for label, data in taken if written(tables_of(data)) != (0, plus_zeros(data))]
    expect("read and written again", back, [])
    same = [label for label, data in taken if label not in zeros and written(tables_of(data)) != (0, data)]
    expect("identical but for minus zeros", same, [])
    list_ = [read_again(label, data) for label, data in jobs]
    expect("the same in Rust", [o.label for o, text in zip(list_, written_by(list_)) if text != told(o)], [])
    expect("the reader takes what is written", set(answers([(label, plus_zeros(data)) for label, data in taken], "--answer")), {"ok\n"})
    tables = [str(tables_of(data)) for _, data in taken]
    expect("jobs are equal where their bytes are", len(set(tables)), len({plus_zeros(data) for _, data in taken}))


def test_minus_zeros(expect):
    t = given(case4())
    minus = t._replace(areas=[MINUS_ZERO], coordinates=[n or MINUS_ZERO for n in t.coordinates])
    plain = t._replace(areas=[0])
    expect("minus zeros are written as plus zeros", written(minus), written(plain))
    zeros = [o for o in map(lambda a: one("", a), (minus, plain))]
    expect("in Rust too", len(set(written_by(zeros))), 1)
    expect("a resolution of minus zero", written(header(t, resolution=-0.0))[0], 5)


def test_versions(expect):
    t = given(case4())
    for version in (0, 1, 2, 3, 15, 16, 17, 2**64 - 1):
        for frame in (*FRAMES, (9, 1), (0, 2)):
            data = header(t, version=version, corner=frame[0], axis=frame[1])
            want = (0 if frame == LOWER_LEFT else 3) if version == 1 else (0 if frame in FRAMES else 6) if version == 2 else 3
            expect(f"version {version} in frame {frame}", (written(data)[0], number(told(one("", data)))), (want, want))


def test_known(expect):
    """Records with answers on paper, by both writers."""
    list_ = [o for make in write_cases.CASES + write_sizes.CASES for o in make()]
    texts = written_by(list_)
    expect("both writers", [o.label for o, text in zip(list_, texts) if text != told(o)], [])
    expect("records with known answers", [o.label for o, text in zip(list_, texts) if o.want is not None and number(text) != o.want], [])
    expect("numbers of the records", sorted({o.want for o in list_ if o.want is not None}), [0, 1, 2, 3, 4, 5, 6, 7, 8, 28])


def test_each_place(expect):
    """Every field of a job, its number one too large for it or not a number: 6 or 4 there, whatever stands behind."""
    t, widths = given(write_cases.two()), {"version": 4, "corner": 2, "axis": 1, **{name: w for name, (w, _, _) in write_cases.COUNTS.items()}}
    list_ = []
    for name, table, i in places(t):
        width = widths.get(write_cases.short(name))
        want = 3 if name == "version" else 0 if name == "seed" else 4 if width is None else 6
        list_.append(one(f"{name} {i}", with_slot(t, table, i, NAN if width is None else 1 << width), want))
    expect("a fault at each place", [o.label for o in list_ if written(o.tables)[0] != o.want], [])
    expect("the same in Rust", [o.label for o, text in zip(list_, written_by(list_)) if number(text) != o.want], [])


def test_numbers(expect):
    expect("values", [value(n) for n in (0, MINUS_ZERO, int(TEN, 16), int(TEN, 16) | MINUS_ZERO, 1)], [0, 0, 10, -10, 5e-324])
    t = given(case4())
    texts = [told(Given("", t, n)).split()[1:3] for n in (232, 231, 0, 233)]
    expect("rooms of case 4", texts, [["0", "232"], ["28", "0"], ["28", "0"], ["0", "232"]])
    done = subprocess.run([ORACLE, "--write"], input=b"\0" * 23, capture_output=True)
    expect("no record", (done.returncode, done.stdout), (1, b""))


def test_drawn(expect):
    r = Draws(6)
    list_ = [edited(r, f"{i}", drawn_job(r, 1500)) for i in range(800)]
    texts = written_by(list_)
    expect("drawn tables", [o.label for o, text in zip(list_, texts) if text != told(o)], [])
    expect("numbers of drawn tables", sorted({number(text) for text in texts}), [0, 3, 4, 5, 6, 7, 8, 28])


def write_tests(expect):
    for test in (test_case4, test_examples, test_minus_zeros, test_versions, test_known, test_each_place, test_numbers, test_drawn):
        test(expect)
