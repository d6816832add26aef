"""N random lists of placed panels: the program layout_test beside the oracle. compare.layout PROGRAM N SEED; where PROGRAM is - the oracle
alone. See layout.sh."""
import collections
import subprocess
import sys

from compare.fill import ended
from jobs.bits import answer, pack
from jobs.draws import Draws
from jobs.frames import frame_draws, framed
from jobs.lists import asked, judged, plans, stored
from jobs.random_jobs import random_job
from jobs.random_lists import drawn

BATCH = 500   # jobs
EACH = 4      # lists of a job
LONGEST = 20000


def jobs(r, f, n):
    """n accepted jobs, one in three of version 2."""
    out = []
    while len(out) < n:
        data = pack(framed(random_job(r), f))
        if len(data) <= LONGEST and answer(data) == "ok":
            out.append(("", data))
    return out


def batches(n, seed):
    """Lists of a few jobs' plans at a time."""
    r, f, made = Draws(seed), frame_draws(seed), 0
    while made < n:
        list_ = []
        for plan in plans(jobs(r, f, min(BATCH, n - made))):
            for _ in range(EACH):
                list_.append(drawn(r, f"list {made + len(list_)}", *plan[1:]))
        list_ = list_[:n - made]
        made += len(list_)
        yield list_


def replayed(program, list_):
    """What the program prints for each list."""
    done = subprocess.run([program], input=stored(list_), capture_output=True)
    texts = done.stdout.decode().split("job list ")[1:]
    return [text.split("\n", 1)[1] for text in texts] + ["nothing\n"] * (len(list_) - len(texts))


def main():
    program, n, seed = sys.argv[1], int(sys.argv[2]), int(sys.argv[3])
    counts, differ, done, wrong = collections.Counter(), 0, 0, []
    for list_ in batches(n, seed):
        told = judged(list_)
        mine = told if program == "-" else replayed(program, list_)
        counts.update("answer " + text.split()[1] for text in told)
        for one, a, b in zip(list_, told, mine):
            if a != b:
                differ += 1
                wrong.append((one.label, asked(one)))
                print(f"{one.label}\n  oracle {a}  proved {b}", end="")
        done += len(list_)
    ended("layout", counts, wrong, f"{done} lists", differ)


if __name__ == "__main__":
    main()
