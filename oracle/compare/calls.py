"""N random scripts of next copies, withdrawals and stacks: the program filling_test beside the oracle, whose planner
with rooms is compared with the plain planner and with the lifted look. compare.calls PROGRAM N SEED; where PROGRAM is -
the oracle alone. See fill.sh."""
import collections
import subprocess
import sys

from compare.fill import batches, ended
from jobs.draws import Draws
from jobs.oracle import ORACLE
from jobs.random_calls import script
from jobs.script import Script


def answered(command, scripts):
    """The answers to each script, run in one go; where that fails, each alone, with what it says."""
    done = subprocess.run(command, input=b"".join(scripts), capture_output=True)
    texts = done.stdout.decode().split("job \n")[1:]
    if done.returncode == 0 and len(texts) == len(scripts):
        return texts
    if len(scripts) > 1:
        return [text for one in scripts for text in answered(command, [one])]
    return ["differ " + done.stderr.decode()]


def scripts(list_, seed):
    for i, (data, order) in enumerate(list_):
        s = Script(seed + 1000 * i)
        s.title("job ")
        script(s, Draws(seed + i), data, order)
        yield bytes(s.data), s.calls


def main():
    program, n, seed = sys.argv[1], int(sys.argv[2]), int(sys.argv[3])
    counts, differ, done, wrong = collections.Counter(), 0, 0, []
    for list_ in batches(n, seed):
        list_, names = zip(*scripts(list_, seed * 1_000_003 + done))
        told = answered([ORACLE, "--script"], list_)
        mine = told if program == "-" else answered([program], list_)
        for i, (a, b) in enumerate(zip(told, mine)):
            lines = [line.split(" ") for line in a.splitlines() if line.startswith(("start", "next", "stack"))]
            counts.update(f"{name} {line[1]}" for name, line in zip(names[i], lines))
            took = [int(line[2]) for line in lines if line[0] == "stack"]
            counts.update({"stacks": len(took), "copies taken by stacks": sum(took)})
            if a != b or a.startswith("differ"):
                differ += 1
                wrong.append((f"job {done + i}", list_[i]))
                print(f"job {done + i}\n  oracle {a}\n  proved {b}" if a != b else f"job {done + i} {a}")
        done += len(list_)
    ended("calls", counts, wrong, f"{done} scripts", differ)


if __name__ == "__main__":
    main()
