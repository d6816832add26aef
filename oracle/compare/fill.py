"""Fillings of N random jobs in random orders: the program filling_test beside the oracle, whose
answers are compared with the lifted fill. compare.fill PROGRAM N SEED; see fill.sh."""
import collections
import os
import subprocess
import sys

from jobs.bits import answer, pack, write_container
from jobs.draws import Draws
from jobs.frames import frame_draws, framed
from jobs.oracle import BUILD, ORACLE
from jobs.random_jobs import random_job
from jobs.script import PLAN, Script

BATCH = 500


def jobs(n, seed):
    """n accepted jobs, one in three of version 2, each with an order of its copies."""
    r, f = Draws(seed), frame_draws(seed)
    made = 0
    while made < n:
        j = framed(random_job(r), f)
        data = pack(j)
        if len(data) > 65536 or answer(data) != "ok":
            continue
        made += 1
        copies = [k for k, p in enumerate(j["parts"]) for _ in range(p["quantity"])]
        yield data, r.sample(copies, len(copies))


def batches(n, seed):
    """Scripts of a filling for each job: each begins with garbage in all rooms."""
    list_ = []
    for one in jobs(n, seed):
        list_.append(one)
        if len(list_) == BATCH:
            yield list_
            list_ = []
    if list_:
        yield list_


def run(command, data):
    done = subprocess.run(command, input=data, capture_output=True)
    if done.returncode:
        sys.exit(f"{command[0]}: {done.stderr.decode()}")
    return done.stdout.decode().splitlines()


def paired(lines):
    """Each filling's answer with its rooms."""
    return [f"{a} {b}" for a, b in zip(lines[::2], lines[1::2])]


def ended(name, counts, wrong, done, differ):
    """The counts by answer, what differs kept under build/compare, and the last line."""
    print(", ".join(f"{answer}: {k}" for answer, k in sorted(counts.items())))
    if wrong:
        os.makedirs(os.path.join(BUILD, "compare"), exist_ok=True)
        write_container(os.path.join(BUILD, "compare", name), wrong)
    print(f"{done}, {differ} mismatches")
    sys.exit(differ > 0)


def main():
    program, n, seed = sys.argv[1], int(sys.argv[2]), int(sys.argv[3])
    counts, differ, done, wrong = collections.Counter(), 0, 0, []
    for list_ in batches(n, seed):
        s = Script(seed + done)
        s.rooms(PLAN)
        for data, order in list_:
            s.job(data)
            s.order(order)
            s.fill()
        told, mine = run([ORACLE, "--script"], bytes(s.data)), run([program], bytes(s.data))
        told, mine = paired(told), paired(mine)
        differ += abs(len(told) - len(mine))
        for i, (a, b) in enumerate(zip(told, mine)):
            counts["answer " + a.split(" ")[1]] += 1
            if a != b:
                differ += 1
                wrong.append((f"job {done + i} {list_[i][1]}", list_[i][0]))
                print(f"job {done + i}\n  oracle {a}\n  proved {b}")
        done += len(list_)
    ended("fill", counts, wrong, f"{done} jobs", differ)


if __name__ == "__main__":
    main()
