"""Fixed tables for `write_job` (document 02, W9) at the limits of sizes, with the numbers that they answer: copies (7), columns of the framed
sheet (8), points, loops, orientations and kinds; and jobs that are read and written again."""
from jobs.bits import pack
from jobs.cases import case4, flat, job, part, rect
from jobs.frame_cases import mixed
from jobs.frames import FRAMES, name
from jobs.write_records import changed, header, one, read_again
from jobs.writer import NAN, given, tables_of

TRIANGLE = [[(0.0, 0.0), (4.0, 0.0), (0.0, 3.0)]]


def copies():
    """7, alone and with a room that is short."""
    for want, quantities in ((0, [4095, 1]), (7, [4095, 2]), (0, [2048, 2048]), (7, [2048, 2049]), (0, [1, 4095]), (7, [2, 4095]), (7, [4095] * 3),
                             (0, [1365] * 3), (7, [1366] * 3), (7, [1365, 1366, 1366]), (0, [4000, 96]), (7, [4000, 97])):
        t = given(job([part([TRIANGLE], q) for q in quantities]))
        label = "quantities " + " ".join(map(str, quantities))
        yield one(label, t, want)
        yield one(label + ", room one short", t, want or 28, -1)
        yield one(label + ", last y not a number", changed(t, "inset y", NAN, -1), 4)


def columns():
    """8 by the width along y and by the height along x, in every frame and in version 1; a million columns are accepted."""
    for long, more in ((62500.0, 0), (62500.0625, 1)):
        for word, sheet in (("width", rect(long, 6)), ("height", rect(6, long))):
            for frame in FRAMES:
                want = 8 if more and (word == "width") == (frame[1] == 1) else 0
                yield one(f"{word} {long}, {name(frame)}", given(dict(job([part([TRIANGLE])], sheet, 0.0625), frame=frame)), want)
            yield one(f"{word} {long}, version 1", given(job([part([TRIANGLE])], sheet, 0.0625)), 8 if more and word == "width" else 0)
    for width, resolution in ((1000.0, 0.001), (1000.001, 0.001), (999.9990000000001, 0.001), (2000.0, 0.001), (100000.0, 0.1),
                              (100000.0, 0.09999999999999999), (50000.0, 0.05), (50000.00000000001, 0.05), (3.0, 0.001)):
        for x in (0.0, -width / 2, -width):
            for frame in ((0, 1), (3, 0)):
                sheet = rect(width, 6, x, 2) if frame[1] else rect(6, width, 2, x)
                t = given(dict(job([part([TRIANGLE])], sheet, resolution), frame=frame))
                yield one(f"{width} from {x} by {resolution}, {name(frame)}", t)
                yield one(f"{width} from {x} by {resolution}, {name(frame)}, room one short", t, more=-1)
    hole = [[(1.0, 1.0), (1.0, 2.0), (2.0, 1.0)]]
    yield one("the second loop is wide", given(job([part([TRIANGLE])], hole + rect(62500.0625, 6), 0.0625)), 8)
    yield one("the second loop goes left", given(job([part([TRIANGLE])], rect(62500, 6) + [[(-0.0625, 0.0), (1.0, 0.0), (1.0, 1.0)]], 0.0625)), 8)
    yield one("the outlines are wide, the sheet is not", given(job([part([rect(62500.0625, 6)])], rect(6, 6), 0.0625)), 0)


def points():
    """3 to 512 in a loop, at most 512 in a set, and each set for itself."""
    loop = lambda n: flat(n)[0]
    for want, sizes in ((0, [512]), (6, [513]), (0, [509, 3]), (6, [510, 3]), (6, [3, 510]), (0, [256, 256]), (6, [256, 257]), (6, [512, 3]),
                        (0, [3, 3, 506]), (6, [3, 3, 507])):
        t = given(job([part([(TRIANGLE, [loop(n) for n in sizes])])]))
        yield one("inset loops of " + " ".join(map(str, sizes)), t, want)
    yield one("sheet loops of 512", given(job([part([TRIANGLE])], [loop(512)])), 0)
    yield one("sheet loops of 510 and 3", given(job([part([TRIANGLE])], [loop(510), loop(3)])), 6)
    yield one("300 points in each of two sets", given(job([part([([loop(300)], [loop(300)])])])), 0)
    yield one("512 points, last y not a number", changed(given(job([part([(TRIANGLE, [loop(512)])])])), "inset y", NAN, -1), 4)


def loops():
    for want, n, each in ((0, 64, 3), (0, 64, 8), (6, 65, 3), (0, 63, 8), (6, 64, 9)):
        t = given(job([part([(TRIANGLE, [flat(each)[0]] * n)])]))
        yield one(f"{n} loops of {each} points", t, want)
    last = [flat(8)[0]] * 63 + [flat(9)[0]]
    yield one("63 loops of 8 points and one of 9", given(job([part([(TRIANGLE, last)])])), 6)
    yield one("127 loops of 3 points", given(job([part([(TRIANGLE, [flat(3)[0]] * 127)])])), 6)


def kinds():
    """Up to 64 kinds and 16 orientations."""
    for want, n in ((0, 16), (6, 17), (6, 31), (0, 15)):
        yield one(f"{n} orientations", given(job([part([TRIANGLE] * n)])), want)
        yield one(f"{n} orientations of the second kind", given(job([part([TRIANGLE]), part([TRIANGLE] * n, 2, 3, True, -1)])), want)
    for want, n in ((0, 64), (6, 65), (0, 63)):
        j = job([part([TRIANGLE], 1 + k % 60, k, k % 3 == 0, k - 32) for k in range(n)])
        yield one(f"{n} kinds", given(j), want)
        if n == 64:
            yield one("64 kinds, room one short", given(j), 28, -1)
            yield one("64 kinds, the last area not a number", changed(given(j), "area", NAN, -1), 4)
            yield one("64 kinds, version 2", given(dict(j, frame=(2, 0))), 0)
            yield one("64 kinds of 64 copies", given(job([part([TRIANGLE], 64) for _ in range(64)])), 0)
            yield one("64 kinds of 64 copies and one more", given(job([part([TRIANGLE], 64 + (k == 63)) for k in range(64)])), 7)


def all_slots():
    """64 kinds of 16 orientations."""
    return job([part([TRIANGLE] * 16, 1 + k % 64, k / 4, k % 2 == 0, -k) for k in range(64)])


def long_jobs():
    """Read and written again: every slot used, and more bytes than the program `plan` takes."""
    yield read_again("64 kinds of 16 orientations", pack(all_slots()), want=0)


def rooms_for_tables():
    """Each room exact, longer, one short, empty; short ones of a refused job, which is refused."""
    data = pack(dict(mixed(), frame=(1, 0)))
    yield read_again("rooms exact", data, want=0)
    for i, room in enumerate(("rows", "areas", "counts", "coordinates")):
        more = lambda by: tuple(by * (j == i) for j in range(4))
        for by, want in ((1, 0), (2, 0), (9, 0), (-1, 28), (-2, 28), (-1000, 28)):
            yield read_again(f"{room} longer by {by}", data, more=more(by), want=want)
        yield read_again(f"{room} one short, no output room", data, 0, more(-1), 28)
        yield read_again(f"{room} empty, refused job", data[:-1], more=more(-9), want=1)
    yield read_again("rooms longer", data, more=(7, 3, 11, 6), want=0)
    yield read_again("rooms one short", data, more=(-1,) * 4, want=28)
    yield read_again("rooms empty", data, more=(-1000,) * 4, want=28)
    yield read_again("rooms empty, refused job", data + b"\0", more=(-1000,) * 4, want=2)


def edited():
    """What the office does: a number of a job that was read is changed, and it is written."""
    t = tables_of(pack(case4()))
    for label, field, n, want in (("six copies", "quantity", 6, 0), ("half the resolution", "resolution", 0.5, 0), ("priority -1", "priority", 2**32 - 1, 0),
                                  ("a corner moved", "sheet x", 12.5, 0), ("4,096 copies of a kind", "quantity", 4096, 6),
                                  ("five points", "sheet points", 5, None)):
        yield one(f"edited: {label}", changed(t, field, n), want)
    yield one("edited: version 2", header(t, version=2), 0)
    yield one("edited: version 2 from the lower right", header(t, version=2, corner=1), 0)
    yield one("edited: from the lower right", header(t, corner=1), 3)


CASES = (copies, columns, points, loops, kinds, long_jobs, rooms_for_tables, edited)
