"""compare.swaps PROGRAM N SEED: what swaps_test and the oracle say of N generated jobs; see swaps.sh."""
import collections
import re
import subprocess
import sys

from gen import generated
from jobs.bits import container
from samples.stored import with_label
from samples.swaps import outcome, told


def main():
    program, n, seed = sys.argv[1], int(sys.argv[2]), int(sys.argv[3])
    # 11 is of the program `plan` alone.
    list_ = [one for one in generated(n, seed) if len(one[1]) <= 65536]
    done = subprocess.run([program], input=container(list_), capture_output=True, check=True)
    mine = re.split("^job ", done.stdout.decode(), flags=re.M)[1:]
    counts, differ = collections.Counter(), abs(len(list_) - len(mine))
    for ((label, _), text), b in zip(told(list_), mine):
        counts[outcome(text)] += 1
        if with_label(label, text) != "job " + b:
            differ += 1
            print(f"oracle {label}\n{text}swaps_test {b}")
    print(", ".join(f"{name}: {k}" for name, k in sorted(counts.items())))
    print(f"{len(list_)} jobs, {differ} mismatches")
    sys.exit(differ > 0)


main()
