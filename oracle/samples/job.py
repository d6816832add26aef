"""The stored jobs of the crate job_test, a container as oracle/README.md says, and the oracle's
answers: a line `ok` or `no N` for each."""
from gen import TURNED, generated
from jobs.bits import fields, pack, pack_fields
from jobs.cases import case4, cut_jobs, gap_cases, job, offcut_cases, one_bit_changes, part, rect
from jobs.damage import damaged, every_fault
from jobs.draws import Draws
from jobs.frame_cases import version_jobs, widths
from jobs.frames import FRAMES, frame_draws, name
from jobs.oracle import answers
from samples.stored import files_of, some

SEED = 5
GENERATED = 12000
LONGEST = 1200
OF_EACH = 70
# In version 2.
DAMAGED = 900
OF_EACH_DAMAGED = 6


def case4_changes():
    """Case 4's job, cut by a byte, with one more byte, with each filling bit set."""
    data = pack(case4())
    width = sum(w for _, w, _ in fields(case4()))
    yield "case4", data
    yield "case4 cut by one byte", data[:-1]
    yield "case4 and one more byte", data + b"\0"
    for bit in range(-width % 8):
        yield f"case4 filling bit {bit}", data[:-1] + bytes([data[-1] | 1 << bit])


def limits():
    """7 and 8 at their limits and beyond, alone and with another fault."""
    plate = rect(4, 3)
    for quantities in ([4095, 1], [4095, 2], [2048, 2048], [2048, 2049], [4095, 4095],
                       [1, 4095], [2, 4095], [4000, 97], [64] * 64, [64] * 63 + [65],
                       [4095] * 3, [1366] * 3, [1365] * 3, [2731, 1366], [100, 3997]):
        whole = job([part([plate], q, 12) for q in quantities])
        name = "quantities " + " ".join(map(str, quantities[:3]))
        yield name, pack(whole)
        yield name + " and a byte more", pack(whole) + b"\0"
        yield name + " and resolution 0.001", pack(dict(whole, resolution=0.001))
        yield name + " and both", pack(dict(whole, resolution=0.001, sheet=rect(2000, 6)))
    for width, resolution in ((62500.0, 0.0625), (62500.0625, 0.0625), (1000.0, 0.001),
                              (1000.001, 0.001), (999.9990000000001, 0.001), (2000.0, 0.001),
                              (100000.0, 0.1), (100000.0, 0.09999999999999999),
                              (50000.0, 0.05), (50000.00000000001, 0.05), (3.0, 0.001)):
        whole = job([part([plate], 5, 12)], sheet=rect(width, 6), resolution=resolution)
        name = f"width {width} resolution {resolution}"
        yield name, pack(whole)
        yield name + " cut", pack(whole)[:-1]
        yield name + " and a set filling bit", pack(whole)[:-1] + bytes([pack(whole)[-1] | 1])
        moved = job([part([plate], 5, 12)], sheet=rect(width, 6, -width / 2, 2), resolution=resolution)
        yield name + " about zero", pack(moved)


def minus_zeros():
    """Minus zeros in every double field."""
    for name in ("x", "y", "area", "resolution"):
        list_ = [(n, w, 1 << 63 if n.split()[-1] == name else v) for n, w, v in fields(case4())]
        yield f"minus zero {name}", pack_fields(list_)


def version_2():
    """Case 4 in every frame, all versions, the framed sheet's width; case 4 cut at every eighth byte, with each bit of its
    first four bytes and every 61st after them changed, and with a third of the strange values."""
    yield from ((f"case4, {name(frame)}", pack(dict(case4(), frame=frame))) for frame in FRAMES)
    yield from version_jobs()
    yield from ((label, pack(j)) for label, j in widths())
    cuts = cut_jobs(TURNED, "turned case4")
    yield from cuts[:-5:8] + cuts[-5:]
    changes = list(one_bit_changes(TURNED, "turned case4"))
    yield from changes[:32] + changes[32::61]
    yield from ((f"turned case4 {label}", data) for label, data in list(every_fault(TURNED))[::3])


def damaged_2():
    """Random damaged jobs, those of version 2."""
    r, f = Draws(SEED), frame_draws(SEED)
    for _ in range(DAMAGED):
        label, data = damaged(r, f)
        if data[:1] and data[0] >> 4 == 2 and len(data) <= LONGEST:
            yield label, data


def judged(list_):
    """Each job with the oracle's answer."""
    return list(zip(list_, [text.strip() for text in answers(list_, "--answer")]))


def sample():
    """The first jobs above, then of each answer so many generated ones, without those of offcut and gap, which are no matter
    of reading; then those of version 2."""
    first = list(case4_changes()) + list(limits()) + list(minus_zeros())
    first = [(label, data) for label, data in first if len(data) <= 20000]
    others = {label for label, _ in offcut_cases() + gap_cases()}
    rest = [one for one in generated(GENERATED, SEED, frames=False) if len(one[1]) <= LONGEST and one[0] not in others]
    out = judged(first) + list(some(judged(rest), str, OF_EACH))
    return out + judged(list(version_2())) + list(some(judged(list(damaged_2())), str, OF_EACH_DAMAGED))


def made():
    return files_of(sample(), lambda label, text: text + "\n", lambda text: text)
