"""compare.jobs PROGRAM N SEED: the answers of job_test and of the oracle's reader; see jobs.sh."""
import collections
import subprocess
import sys

from gen import generated
from jobs.bits import container
from jobs.oracle import answers


def main():
    program, n, seed = sys.argv[1], int(sys.argv[2]), int(sys.argv[3])
    list_ = generated(n, seed)
    told = [text.strip() for text in answers(list_, "--answer")]
    done = subprocess.run([program], input=container(list_), capture_output=True, check=True)
    mine = done.stdout.decode().splitlines()
    differ = abs(len(mine) - len(list_)) + abs(len(told) - len(list_))
    for (label, _), a, b in zip(list_, told, mine):
        if a != b:
            differ += 1
            print(f"{label}: oracle {a}, job_test {b}")
    counts = collections.Counter(told)
    print(", ".join(f"{name}: {k}" for name, k in sorted(counts.items())))
    print(f"{len(list_)} jobs, {differ} mismatches")
    sys.exit(differ > 0)


main()
