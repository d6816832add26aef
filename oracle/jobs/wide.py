"""Jobs with more strips than entries of 16 bits can number, and the rooms that the program wide_test
lends for them; fillings that it asks for. All fixed."""
import subprocess

from jobs.bits import pack, pack_fields, set_fields
from jobs.cases import case4, grid, job, part, rect
from jobs.examples import nan_corner, second_table
from jobs.oracle import ORACLE
from jobs.script import PLAN, POSITIONS, Script, answers

STRIPS = 65_536   # that entries can number
WIDE = 400_000    # slots: 66,666 strips
NARROW = 8190
ENTRIES = 132_000
POSITION_SLOTS = 48   # of a filling: eight positions
POSITION_ROOM = "6"   # the number that wide_test prints with the position room
ROOMS = ["shapes", "sheet", "placed"]


def zigzag(n):
    """One loop that goes up in a zigzag, each end at an x of its own: of 511 points 65,790 strips as a
    sheet and 65,280 as a part, of 509 points 65,278 as a sheet."""
    return [[(float(i) if i % 2 == 0 else 1023.0 - i, float(i)) for i in range(n)]]


def strip_count(loops):
    """How many strips the lifted Rust makes of a sheet."""
    data = pack_fields(set_fields(loops, "sheet"))
    done = subprocess.run([ORACLE, "--strips", "sheet"], input=data, capture_output=True, check=True)
    return done.stdout.count(b"strip ")


def wide_sheet(strips):
    """A zigzag of 509 points, and a triangle above it over so many slabs that the strips come out."""
    loops = zigzag(509)
    slabs = strips - 65_278
    ends = sorted(x for x, _ in loops[0])
    if slabs:
        loops.append([(0.0, 600.0), (ends[slabs], 600.0), (0.0, 601.0)])
    if strip_count(loops) != strips:
        raise SystemExit(f"a sheet of {strip_count(loops)} strips for {strips}")
    return loops


def on_sheet(sheet):
    return job([part([rect(0.5, 0.25)], 3)], sheet, 32.0)


def copies(n, strips, across, more=0):
    """n copies of so many strips each, in rows of `across`; the last is of a kind of its own, with `more`
    strips more."""
    width, height = 512.0 / across, float(n // across)
    one = lambda k: (grid(1, k, width, 2.0), rect(width, 1))
    parts = [part([one(strips)], n - 1, 2), part([one(strips + more)], 1, 1)]
    return job(parts, rect(512, height), width)


def shapes():
    """A part of 65,280 apart and 257 inset strips, too wide for its sheet."""
    return job([part([(zigzag(511), grid(1, 257, 20.0, 2.0))])])


def cases():
    """Label, which room is the wide one, its slots, the slots of each entry room, the job."""
    exact, over = wide_sheet(STRIPS), wide_sheet(STRIPS + 1)
    all_copies = copies(4096, 16, 64)
    return [
        ("sheet of 65278 strips, room exact", "sheet", 6 * 65_278, ENTRIES, on_sheet(wide_sheet(65_278))),
        ("sheet of 65278 strips, room one short", "sheet", 6 * 65_278 - 1, ENTRIES, on_sheet(wide_sheet(65_278))),
        ("sheet of 65536 strips", "sheet", WIDE, ENTRIES, on_sheet(exact)),
        ("sheet of 65536 strips, room exact", "sheet", 6 * STRIPS, ENTRIES, on_sheet(exact)),
        ("sheet of 65536 strips, room one short", "sheet", 6 * STRIPS - 1, ENTRIES, on_sheet(exact)),
        ("sheet of 65536 strips, few entries", "sheet", WIDE, 1000, on_sheet(exact)),
        ("sheet of 65537 strips", "sheet", WIDE, ENTRIES, on_sheet(over)),
        ("sheet of 65537 strips, few entries", "sheet", WIDE, 1000, on_sheet(over)),
        ("sheet of 65790 strips", "sheet", WIDE, ENTRIES, on_sheet(zigzag(511))),
        ("4096 copies of 16 strips", "placed", WIDE, ENTRIES, all_copies),
        ("4096 copies of 16 strips, room one short", "placed", 6 * STRIPS - 1, ENTRIES, all_copies),
        ("4095 copies of 16 strips and one of 17", "placed", WIDE, ENTRIES, copies(4096, 16, 64, 1)),
        ("256 copies of 256 strips, room exact", "placed", 6 * STRIPS, ENTRIES, copies(256, 256, 16)),
        ("shapes of 65537 strips, room exact", "shapes", 6 * (STRIPS + 1), ENTRIES, shapes()),
        ("shapes of 65537 strips, room one short", "shapes", 6 * (STRIPS + 1) - 1, ENTRIES, shapes()),
    ]


def record(room, slots, entries, j):
    """A job as wide_test reads it: the wide room's number, its slots, the entries, the job's bytes."""
    return bytes([ROOMS.index(room)]) + slots.to_bytes(4, "big") + entries.to_bytes(4, "big") + pack(j)


def answer(room, slots, entries, j, program=ORACLE, options=()):
    """What the oracle prints in those rooms."""
    strips = [slots if name == room else NARROW for name in ROOMS]
    firsts = [n // 6 for n in strips[1:]]
    lengths = ",".join(map(str, strips + [entries, entries, *firsts, *PLAN[-2:]]))
    done = subprocess.run([program, *options, "--rooms", lengths], input=pack(j), capture_output=True)
    if done.returncode:
        raise SystemExit(done.stderr.decode())
    return done.stdout


def fillings():
    """Label, how many copies of kind 0 the order has, the slots of each entry room, the job."""
    return [
        ("filling of five plates", 5, 1000, case4()),
        ("filling of six plates where there are five", 6, 1000, case4()),
        ("filling of nine plates in room for eight", 8, 1000, job([part([rect(4, 3)], 9, 12)])),
        ("filling of five plates without entries", 5, 0, case4()),
        ("filling of a hatch with a corner not a number", 1, 1000, nan_corner()),
        ("filling of five plates on the second table", 5, 2000, second_table()),
        ("filling of five plates, upper right along y", 5, 2000, dict(case4(), frame=(3, 1))),
    ]


def fill_record(copies, entries, j):
    """A filling as wide_test reads it: 3, the copies, the entries, the job's bytes."""
    return bytes([len(ROOMS)]) + copies.to_bytes(4, "big") + entries.to_bytes(4, "big") + pack(j)


def fill_answer(copies, entries, j):
    """The oracle's number of the filling, and the positions that it leaves."""
    s = Script()
    s.job(j)
    s.order([0] * copies)
    firsts = NARROW // 6
    s.rooms([NARROW, NARROW, NARROW, entries, entries, firsts, firsts, PLAN[-2], POSITION_SLOTS])
    s.fill()
    s.show(POSITIONS)
    text, (call,) = answers(s)
    word, _, *slots = text.splitlines()[-1].split(" ")
    return " ".join(call.split(" ")[:2]) + "\n" + " ".join([word, POSITION_ROOM, *slots]) + "\n"
