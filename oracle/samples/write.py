"""The stored records of the crate write_test (document 02, W9), in a container as oracle/README.md says: jobs as tables, and jobs' bytes to be
read into tables and written again; for each a line `job` with its label, then what both writers of the oracle answer."""
import collections
import os

from jobs import write_cases, write_sizes
from jobs.bits import answer, read_container
from jobs.draws import Draws
from jobs.oracle import ROOT
from jobs.random_tables import drawn_job, edited
from jobs.write_records import both, number, read_again, stored
from samples.stored import some

SEED = 33
SAMPLED = 20   # one stored job in so many is also written into other rooms
REFUSED = 6    # of each number, read and refused
DRAWN = 200    # tables of random jobs, changed
LONGEST = 900  # bytes of such a job


def of_crate(crate):
    return [(f"{crate}: {label}", data) for label, data in read_container(os.path.join(ROOT, "crates", crate, "stdin"))]


def of_examples():
    folder = os.path.join(ROOT, "examples")
    for name in sorted(os.listdir(folder)):
        if name.endswith(".job"):
            with open(os.path.join(folder, name), "rb") as f:
                yield f"example {name}", f.read()


def stored_jobs():
    """The jobs of plan_test, job_test and examples/, each once, by their answers."""
    seen, out = set(), []
    for label, data in [*of_crate("plan_test"), *of_crate("job_test"), *of_examples()]:
        if data not in seen:
            seen.add(data)
            out.append(((label, data), answer(data)))
    return out


def again():
    """Every accepted one, a sample in other rooms, and some that are refused."""
    jobs = stored_jobs()
    taken = [one for one, told in jobs if told == "ok"]
    for i, (label, data) in enumerate(taken):
        yield read_again(label, data, want=0)
        if i % SAMPLED == 0:
            n = len(data)
            yield read_again(label + ", rooms longer", data, n + i % 17 + 1, (5, 2, 3, 8), 0)
            yield read_again(label + ", room one short", data, n - 1, want=28)
            yield read_again(label + ", no room", data, 0, want=28)
    for (label, data), told in some([pair for pair in jobs if pair[1] != "ok" and len(pair[0][1]) <= LONGEST], str, REFUSED):
        yield read_again(f"{label}, refused", data, want=int(told.split()[1]))


def drawn():
    """Random jobs, their tables changed at one or two places."""
    r = Draws(SEED)
    for n in range(DRAWN):
        yield edited(r, f"drawn {n}", drawn_job(r, LONGEST))


def sample():
    """With the number of each record in its label, so that no two are alike."""
    list_ = [one for make in write_cases.CASES + write_sizes.CASES for one in make()] + list(again()) + list(drawn())
    return [one._replace(label=f"{i} {one.label}"[:120]) for i, one in enumerate(list_)]


def made():
    list_ = sample()
    told = both(list_)
    count = collections.Counter(number(text) for text in told)
    read = sum(text.startswith("read 0") for text in told)
    files = {
        "stdin": stored(list_),
        "stdout": "".join(f"job {one.label}\n{text}" for one, text in zip(list_, told)).encode(),
    }
    return files, ", ".join(f"{n}: {k}" for n, k in sorted(count.items())) + f"; {len(list_)} records, {read} read and written again"
