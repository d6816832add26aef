#!/usr/bin/env python3
"""Makes jobs into one container file. The same N and SEED give the same jobs
everywhere.

gen.py OUT N SEED            N jobs: fixed, random, damaged
gen.py --large OUT N SEED    N jobs for timing; with CORNER AXIS the same in that frame, in version 2
gen.py --sets OUT N SEED     N sets alone, for --strips
gen.py --short OUT           every job of 0 to 2 bytes
gen.py --split IN DIR        writes the jobs of a container as files
gen.py --check IN ANSWERS    holds the answers of the oracle's reader (its option
                             --answer, its --out) against the reader of jobs/bits.py
"""
import os
import re
import sys

from jobs.bits import answer, pack, pack_fields, read_container, set_fields, write_container
from jobs.cases import case4, cut_jobs, fixed, one_bit_changes
from jobs.damage import damaged, every_fault
from jobs.draws import Draws
from jobs.frame_cases import frame_jobs
from jobs.frames import frame_draws, framed, unframed
from jobs.large import large
from jobs.random_jobs import random_job, random_set


# Case 4 of version 2 that is cut and changed: upper right along x, every bit of both fields but one set.
TURNED = dict(case4(), frame=(3, 0))


def version_1():
    """The fixed jobs of version 1, and case 4's one-bit changes."""
    return fixed() + list(every_fault(case4())), list(one_bit_changes(case4()))


def both_versions():
    """The same with those of version 2."""
    (out, changes), label = version_1(), "turned case4"
    faults = [(f"{label} {name}", data) for name, data in every_fault(TURNED)]
    out += frame_jobs() + cut_jobs(TURNED, label) + faults
    return out, changes + list(one_bit_changes(TURNED, label))


def generated(n, seed, frames=True):
    """The fixed jobs, case 4's one-bit changes (all where they are at most
    two fifths), then random and damaged ones, three to two. One in three of
    these is of version 2; without frames all are the same in version 1."""
    r, f = Draws(seed), frame_draws(seed) if frames else None
    out, changes = both_versions() if frames else version_1()
    if 5 * len(changes) > 2 * n:
        changes = r.sample(changes, 2 * n // 5)
    out = (out + changes)[:n]
    while len(out) < n:
        if r.random() < 0.6:
            out.append(("random", pack(framed(random_job(r), f))))
        else:
            label, data = damaged(r, f)
            out.append((label, data))
    return out


def large_jobs(n, seed, frame=None):
    """With a frame, jobs of version 2 whose sets there are those of the others: as much work in the same rooms."""
    r = Draws(seed)
    jobs = [large(r, i) for i in range(n)]
    return [(f"large {i}", pack(unframed(j, frame) if frame else j)) for i, j in enumerate(jobs)]


def sets(n, seed):
    r = Draws(seed)
    return [("set", pack_fields(set_fields(random_set(r), "set"))) for _ in range(n)]


def short_jobs():
    yield "short", b""
    for a in range(256):
        yield "short", bytes([a])
    for a in range(65536):
        yield "short", a.to_bytes(2, "big")


def split(container, folder):
    os.makedirs(folder, exist_ok=True)
    for i, (label, data) in enumerate(read_container(container)):
        name = re.sub(r"[^a-z0-9]+", "-", label.lower()).strip("-")[:60]
        with open(os.path.join(folder, f"{i:05d}-{name}.job"), "wb") as f:
            f.write(data)


def check(container, answers):
    n = differ = 0
    for (label, data), (_, text) in zip(read_container(container), read_container(answers)):
        n += 1
        if text.decode() != answer(data) + "\n":
            differ += 1
            print(f"reader: {label}: {text.decode().strip()}, bits.py {answer(data)}")
    print(f"{n} readings, {differ} disagreements")
    sys.exit(differ > 0)


def main():
    args = sys.argv[1:]
    if len(args) == 3 and args[0] == "--split":
        split(args[1], args[2])
    elif len(args) == 2 and args[0] == "--short":
        write_container(args[1], short_jobs())
    elif len(args) == 3 and args[0] == "--check":
        check(args[1], args[2])
    elif len(args) in (4, 6) and args[0] == "--large":
        n, seed, *frame = map(int, args[2:])
        write_container(args[1], large_jobs(n, seed, tuple(frame)))
    elif len(args) == 4 and args[0] == "--sets":
        write_container(args[1], sets(int(args[2]), int(args[3])))
    elif len(args) == 3:
        write_container(args[0], generated(int(args[1]), int(args[2])))
    else:
        sys.exit(__doc__)


if __name__ == "__main__":
    main()
