"""Times of the program `plan` and of the lifted Rust (`oracle --lifted-only`: no rooms, no looks counted, no gaps) on
the same jobs. plan.py PLAN JOBS RUNS, with a container of jobs as oracle/README.md says; see plan.sh."""
import math
import os
import subprocess
import sys
import time

HERE = os.path.dirname(os.path.abspath(__file__))
ORACLE = os.path.join(HERE, "..", "oracle")
sys.path.insert(0, ORACLE)
from jobs.bits import read_container  # noqa: E402
from jobs.oracle import without_gaps  # noqa: E402

LIFTED = [os.path.join(ORACLE, "build", "oracle"), "--lifted-only"]
JOB = os.path.join(HERE, "build", "job")


def printed(command):
    """What a command prints for the job, without the looks and the gaps, which the Rust does not have."""
    with open(JOB, "rb") as f:
        text = subprocess.run(command, stdin=f, capture_output=True, check=True).stdout.decode()
    return [line for line in without_gaps(text).splitlines() if not line.startswith("look ")]


def seconds(command):
    with open(JOB, "rb") as f:
        start = time.perf_counter()
        subprocess.run(command, stdin=f, stdout=subprocess.DEVNULL, check=True)
        return time.perf_counter() - start


def kilobytes(command):
    """The most memory that a run takes, by GNU time."""
    with open(JOB, "rb") as f:
        done = subprocess.run(["/usr/bin/time", "-f", "%M"] + command, stdin=f, capture_output=True, check=True)
    return int(done.stderr.decode().split()[-1])


def main():
    plan, jobs, runs = [sys.argv[1]], sys.argv[2], int(sys.argv[3])
    logs, worst = [], 0.0
    print("job          placed   lifted ms     plan ms  ratio   lifted KB   plan KB")
    for label, data in read_container(jobs):
        with open(JOB, "wb") as f:
            f.write(data)
        told = printed(LIFTED)
        if printed(plan) != told:
            sys.exit(f"{label}: the plans differ")
        least = [math.inf, math.inf]
        for _ in range(runs):
            for i, command in enumerate((LIFTED, plan)):
                least[i] = min(least[i], seconds(command))
        ratio = least[1] / least[0]
        logs.append(math.log(ratio))
        worst = max(worst, ratio)
        print(f"{label:12} {told[0].split()[1]:>6} {least[0] * 1e3:11.2f} {least[1] * 1e3:11.2f} {ratio:6.2f}"
              f" {kilobytes(LIFTED):11} {kilobytes(plan):9}", flush=True)
    mean = math.exp(sum(logs) / len(logs))
    print(f"{len(logs)} jobs, geometric mean {mean:.2f}, worst {worst:.2f}")


main()
