"""The stored lists of the crate layout_test (document 02, W6), in a container as oracle/README.md says, and for each a line `job` with its
label, then what the oracle judges."""
import collections
import os

from jobs import layouts, plan_lists
from jobs.bits import read_container
from jobs.draws import Draws
from jobs.lists import One, judged, plans, stored
from jobs.oracle import ROOT

SEED = 21
SAMPLED = 14   # one plan in so many is changed
FIXED = (layouts.first_lists, layouts.remainders, layouts.ends, layouts.past_the_end, layouts.columns_past, layouts.reversed_ranges,
         layouts.not_finite, layouts.minus_zeros, layouts.missing, layouts.quantities, layouts.sheet_and_copies, layouts.several_strips, layouts.rooms,
         layouts.refused_jobs, layouts.two_faults, layouts.before_the_lines, plan_lists.in_frames, plan_lists.printed, plan_lists.at_the_limit)


def stored_plans():
    """The plans of plan_test's jobs."""
    return plans(read_container(os.path.join(ROOT, "crates", "plan_test", "stdin")))


def of_plans(r):
    """Every plan in filling order, and changes of some."""
    for n, plan in enumerate(stored_plans()):
        yield plan_lists.own(plan)
        if n % SAMPLED == 0 and plan[3]:
            yield from plan_lists.drawn(r, plan)


def sample():
    """With the number of each list in its label, so that no two are alike."""
    list_ = [one for make in FIXED for one in make()] + list(of_plans(Draws(SEED)))
    return [One(f"{i} {one.label}"[:120], *one[1:]) for i, one in enumerate(list_)]


def made():
    list_ = sample()
    told = judged(list_)
    count = collections.Counter(int(text.split()[1]) for text in told)
    files = {
        "stdin": stored(list_),
        "stdout": "".join(f"job {o.label}\n{text}" for o, text in zip(list_, told)).encode(),
    }
    return files, ", ".join(f"{number}: {n}" for number, n in sorted(count.items())) + f"; {len(list_)} lists"
