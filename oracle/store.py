#!/usr/bin/env python3
"""Makes what is stored of the oracle's answers, always the same: the files stdin and stdout of the
crates filling_test, job_test, layout_test, long_job_test, look_test, plan_test, strips_test,
swaps_test, wide_test, write_test and of the program judge, by the modules of samples/, and the
jobs, plans and lists of examples/.

store.py [NAME..]            writes the files of each NAME (job for job_test, ..; examples), or all
store.py --check [NAME..]    writes nothing; the last line is 'N files, D differ'
"""
import importlib
import os
import sys

from jobs.oracle import ROOT

# The swaps are made of stored plans and an example, the lists of layout_test of stored plans, what is written of stored jobs and the examples.
NAMES = ["strips", "look", "job", "filling", "plan", "examples", "swaps", "wide", "long_job", "layout", "judge", "write"]


def folder(name):
    if name == "examples":
        return os.path.join(ROOT, "examples")
    return os.path.join(ROOT, "crates", name if name == "judge" else name + "_test")


def same(path, data):
    with open(path, "rb") as f:
        return f.read() == data


def main():
    names = sys.argv[1:]
    check = names[:1] == ["--check"]
    names = names[1:] if check else names
    if not set(names) <= set(NAMES):
        sys.exit(__doc__)
    made = differ = 0
    for name in names or NAMES:
        files, told = importlib.import_module("samples." + name).made()
        print(f"{name}: {told}", flush=True)
        for file, data in files.items():
            path = os.path.join(folder(name), file)
            made += 1
            if check:
                if not same(path, data):
                    differ += 1
                    print(f"{path} differs")
            else:
                with open(path, "wb") as f:
                    f.write(data)
    print(f"{made} files, {differ} differ" if check else f"{made} files written")
    sys.exit(differ > 0)


if __name__ == "__main__":
    main()
