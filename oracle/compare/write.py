"""N random jobs that are written: the program write_test beside both writers of the oracle. compare.write PROGRAM N SEED; where PROGRAM is -
the oracle alone. See write.sh."""
import collections
import subprocess
import sys

from compare.fill import ended
from jobs.draws import Draws
from jobs.oracle import answers
from jobs.random_tables import again, drawn_job, edited
from jobs.write_records import record, stored, told

BATCH = 1000
LONGEST = 20000


def batches(n, seed):
    """Two jobs in three as tables, one as bytes."""
    r, made = Draws(seed), 0
    while made < n:
        list_ = []
        for i in range(made, min(n, made + BATCH)):
            make = again if i % 3 == 2 else edited
            list_.append(make(r, f"record {i}", drawn_job(r, LONGEST)))
        made += len(list_)
        yield list_


def replayed(program, list_):
    """What the program prints for each record."""
    done = subprocess.run([program], input=stored(list_), capture_output=True)
    texts = done.stdout.decode().split("job record ")[1:]
    return [text.split("\n", 1)[1] for text in texts] + ["nothing\n"] * (len(list_) - len(texts))


def main():
    program, n, seed = sys.argv[1], int(sys.argv[2]), int(sys.argv[3])
    counts, differ, done, wrong = collections.Counter(), 0, 0, []
    for list_ in batches(n, seed):
        rust = answers([(one.label, record(one)) for one in list_], "--write")
        mine = rust if program == "-" else replayed(program, list_)
        for one, a, b in zip(list_, rust, mine):
            for line in a.splitlines():
                counts[" ".join(line.split()[:2])] += 1
            python = told(one)
            if not a == b == python:
                differ += 1
                wrong.append((one.label, record(one)))
                print(f"{one.label}\n  in Rust {a}  in Python {python}  proved {b}", end="")
        done += len(list_)
    ended("write", counts, wrong, f"{done} jobs", differ)


if __name__ == "__main__":
    main()
