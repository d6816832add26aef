"""The stored jobs of the crate swaps_test, a container as oracle/README.md says, and for each a line
`job` with its label, then the final order, the improvements and the draws' state that the oracle
prints, or its refusal."""
import os

from jobs.bits import pack, read_container
from jobs.cases import job, late_refusal, part, rect, starred
from jobs.oracle import ROOT, answers
from samples.stored import files_of, with_label

PLANS = os.path.join(ROOT, "crates", "plan_test", "stdin")
FROM_PLANS = 24
LABELS = ("case4", "case11")


def stored():
    """A few jobs: with draws and without, kinds that may not be swapped, improvements, a refusal in a round; one
    in every frame."""
    yield from ((label, pack(j)) for label, j in starred() if label in LABELS)
    yield "one copy", pack(job([part([rect(4, 3)], 1, 12)], rounds=9, seed=5))
    mixed = [part([rect(4, 3)], 2, 12), part([rect(3, 5)], 2, 15, fill=True), part([rect(2, 2)], 3, 4, priority=1)]
    yield "fill and priority", pack(job(mixed, rounds=50, seed=11))
    yield "refused in a swap round", pack(late_refusal())
    yield "nothing", b""
    with open(os.path.join(ROOT, "examples", "swaps.job"), "rb") as f:
        yield "improved", f.read()
    plans = list(read_container(PLANS))
    yield from [one for one in plans if one[0].startswith("swaps ")][:FROM_PLANS]
    yield from (one for one in plans if one[0].startswith("rounds, "))


def last_lines(text):
    """The last three lines of a plan with `--draws`, or the refusal."""
    lines = text.splitlines(True)
    return "".join(lines[-3:]) if len(lines) > 1 else text


def told(jobs):
    """Each job with what the oracle says of its draws."""
    return list(zip(jobs, map(last_lines, answers(jobs, "--draws"))))


def outcome(text):
    """A refusal, or whether there is an improvement."""
    lines = text.splitlines()
    if len(lines) == 1:
        return lines[0]
    return "no improvement" if lines[1] == "improvements 0" else "improved"


def made():
    return files_of(told(list(stored())), with_label, outcome)
