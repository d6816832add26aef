"""Single steps and stacks by differences of runs of filling_test. steps.py PROGRAM RUNS [stacks]; see steps.sh."""
import os
import re
import subprocess
import sys
import time

from jobs.cases import job, part, rect
from jobs.script import PLAN, Script

CALLS = 100
# The strips that the rooms of `plan` hold.
MOST = PLAN[2] // 6


def plates(n):
    """n plates on a sheet that has room for them: as many standing strips."""
    return job([part([rect(20, 40)], n, 800)], rect(1000, 640 if n <= 800 else 1120), 1.0)


def begun(n):
    s = Script()
    s.job(plates(n))
    s.order([0] * n)
    s.rooms(PLAN, garbage=False)
    return s


def script(n, taken, more):
    s = begun(n)
    s.start()
    for _ in range(taken):
        s.next()
    more(s)
    return bytes(s.data)


def plain(n, *calls):
    """Calls by letter and number, one after another, without the rooms' hashes."""
    s = begun(n)
    for letter, number in calls:
        s.call(letter, None, False, n=number)
    return bytes(s.data)


def nothing(s):
    pass


def refused(s):
    s.job(b"")
    for _ in range(CALLS):
        s.next()


def used_up(s):
    for _ in range(CALLS):
        s.next()


def back(s):
    for i in range(CALLS):
        s.withdraw(i)
        s.next()


def counted(program, data):
    said = subprocess.run(["valgrind", "--tool=callgrind", "--callgrind-out-file=/dev/null", program], input=data,
                          capture_output=True, check=True).stderr.decode()
    return int(re.search(r"Collected : (\d+)", said)[1])


def timed(program, scripts, runs):
    """The least microseconds of each, run by turns."""
    least = [float("inf")] * len(scripts)
    for _ in range(runs):
        for i, data in enumerate(scripts):
            begin = time.perf_counter()
            subprocess.run([program], input=data, stdout=subprocess.DEVNULL, check=True)
            least[i] = min(least[i], time.perf_counter() - begin)
    return [1e6 * seconds for seconds in least]


def stacks(costs):
    """All n copies by single calls, by one stack and as a filling, which begins as a start does. What a call that is refused
    at once costs, hashing and printing the state, is taken off."""
    start, refused_stack = ("S", 0), ("M", 4097)
    print("copies      start  n next copies  one stack of n    filling")
    for n in (100, 300, 600, MOST):
        lists = [], [refused_stack] * CALLS, [start], [start, *[("N", 0)] * n], [start, ("M", n)], [("F", 0)]
        none, refused_, started, singly, at_once, filled = costs([plain(n, *calls) for calls in lists])
        told = (refused_ - none) / CALLS
        print(f"{n:6} {started - none - told:10.0f} {singly - started - n * told:14.0f} {at_once - started - told:15.0f} {filled - none:10.0f}")


def main():
    program, runs = sys.argv[1], int(sys.argv[2])
    costs = (lambda list_: [counted(program, d) for d in list_]) if os.environ.get("COUNT") else (lambda list_: timed(program, list_, runs))
    if sys.argv[3:] == ["stacks"]:
        return stacks(costs)
    cost = lambda d: costs([d])[0]
    print("standing  refused at once  31's test  next copy, mean  withdrawal and next copy")
    for n in (100, 300, 600):
        none, all_ = cost(script(n, 0, nothing)), cost(script(n, n, nothing))
        at_once = (cost(script(n, n, refused)) - all_) / CALLS
        tests = (cost(script(n, n, used_up)) - all_) / CALLS - at_once
        taken = (all_ - none) / n - at_once
        pair = (cost(script(n, n, back)) - all_) / CALLS - 2 * at_once if os.environ.get("BACK") != "0" else 0
        print(f"{n:8} {at_once:16.1f} {tests:10.1f} {taken:16.1f} {pair:25.1f}")


main()
