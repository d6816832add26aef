#!/usr/bin/env python3
"""Which job of the sample of samples/plan.py catches each wrong planner.

Each wrong planner is the planner by hand (rust/, option --by-hand) with a few
words changed. It is built, run on the jobs that the crate plan_test replays
and its texts are held against the stored ones; those of WIDE on the jobs and
rooms of wide_test, those of SCRIPT on the script of filling_test, those of LAYOUTS on
the lists of layout_test, those of WRITERS on the records of write_test. They stand in wrong/.

mutants.py [NAME..]          a line for each: how many jobs catch it, the first's label
mutants.py --table           the same as a table in Markdown
mutants.py --on JOBS ANSWERS against containers instead of the stored files
The last line is 'N wrong planners, S survived'.
"""
import os
import shutil
import subprocess
import sys

from jobs import wide
from jobs.bits import read_container, write_container
from jobs.lists import read_stored
from jobs.oracle import BUILD, HERE, ROOT
from jobs.script import CALLS
from wrong import changes, frames, layouts, planner, stacks, withdrawals
from wrong.changes import WIDE
from wrong.writers import WRITERS

WORK = os.path.join(BUILD, "mutants")
CRATES = os.path.join(ROOT, "crates")
# First words of a script's answers; no title begins so.
ANSWERS = [*CALLS, "room", "rooms"]
MUTANTS = planner.MUTANTS + changes.MUTANTS + frames.MUTANTS
SCRIPT = changes.SCRIPT + frames.SCRIPT + withdrawals.SCRIPT + stacks.SCRIPT
LAYOUTS = layouts.LAYOUTS + layouts.EQUAL
EQUAL = planner.EQUAL + changes.EQUAL + layouts.EQUAL


def changed(name, edits):
    """A copy of rust/ with the edits, for rustc."""
    folder = os.path.join(WORK, "rust")
    shutil.rmtree(WORK, ignore_errors=True)
    shutil.copytree(os.path.join(HERE, "rust"), folder)
    os.makedirs(os.path.join(WORK, "build"))
    shutil.copy(os.path.join(BUILD, "lifted.rs"), os.path.join(WORK, "build"))
    for file, old, new in edits:
        path = os.path.join(folder, file + ".rs")
        text = open(path).read()
        if text.count(old) != 1:
            sys.exit(f"{name}: {file}.rs has {text.count(old)} times {old!r}")
        with open(path, "w") as f:
            f.write(text.replace(old, new))
    return folder


def build(name, edits):
    folder = changed(name, edits)
    program = os.path.join(WORK, "oracle")
    subprocess.run(["rustc", "--edition", "2021", "--cap-lints", "allow", "-C", "debug-assertions=off",
                    "-C", "overflow-checks=off", "-o", program, os.path.join(folder, "main.rs")], check=True)
    return program


def caught(program, jobs, told, *options):
    """Labels of the jobs whose text differs."""
    out = os.path.join(WORK, "answers")
    done = subprocess.run([program, *options, "--by-hand", "--batch", jobs, "--out", out],
                          stdout=subprocess.DEVNULL, stderr=subprocess.DEVNULL)
    if done.returncode:
        return ["(it stops)"]
    texts = [text for _, text in read_container(out)]
    return [label for (label, want), text in zip(told, texts) if want != text]


def caught_wide(program):
    """Labels of wide_test's jobs whose text differs."""
    texts = []
    for _, *rest in wide.cases():
        try:
            texts.append(wide.answer(*rest, program=program, options=["--by-hand"]))
        except SystemExit:
            texts.append(b"it stops")
    return [label for (label, want), text in zip(stored("wide_test")[1], texts) if want != text]


def caught_script(program):
    """Of filling_test's lines that differ, each with the title above it."""
    folder = os.path.join(CRATES, "filling_test")
    with open(os.path.join(folder, "stdin"), "rb") as script:
        done = subprocess.run([program, "--by-hand", "--script"], stdin=script, capture_output=True)
    if done.returncode:
        return ["(it stops)"]
    told = open(os.path.join(folder, "stdout")).read().splitlines()
    labels, title = [], ""
    for want, line in zip(told, done.stdout.decode().splitlines()):
        if line.split(" ")[0] not in ANSWERS:
            title = line
        elif line != want:
            labels.append(f"{title}: {want.split(' ')[0]}")
    return labels


def caught_layouts(program):
    """Labels of layout_test's lists that are judged otherwise."""
    folder, lists = os.path.join(CRATES, "layout_test"), os.path.join(WORK, "lists")
    write_container(lists, read_stored(read_container(os.path.join(folder, "stdin"))))
    lines = open(os.path.join(folder, "stdout")).read().splitlines()
    return caught(program, lists, list(zip(lines[::2], (f"{line}\n".encode() for line in lines[1::2]))), "--judge")


def caught_writers(program):
    """Labels of write_test's records that are answered otherwise."""
    return caught(program, *stored("write_test"), "--write")


def stored(crate):
    """A crate's stored jobs' file, and the stored text of each (lines from one label to the next)."""
    jobs = os.path.join(CRATES, crate, "stdin")
    lines = open(os.path.join(CRATES, crate, "stdout"), "rb").read().splitlines(True)
    told, at = [], 0
    for label, _ in read_container(jobs):
        assert lines[at] == b"job " + label.encode() + b"\n", label
        end = at + 1
        while end < len(lines) and not lines[end].startswith(b"job "):
            end += 1
        told.append((label, b"".join(lines[at + 1:end])))
        at = end
    return jobs, told


def main():
    args = sys.argv[1:]
    table = args[:1] == ["--table"]
    args = args[1:] if table else args
    if args[:1] == ["--on"]:
        jobs, told = args[1], list(read_container(args[2]))
        args = args[3:]
    else:
        jobs, told = stored("plan_test")
    names = set(args)
    n = survived = 0
    if table:
        print("| from | wrong planner | jobs that catch it | the first |\n|---|---|---|---|")
    for one in MUTANTS + WIDE + SCRIPT + layouts.LAYOUTS + WRITERS + EQUAL:
        group, name, edits = one
        if names and name not in names:
            continue
        program = build(name, edits)
        labels = (caught_wide(program) if one in WIDE else caught_script(program) if one in SCRIPT
                  else caught_layouts(program) if one in LAYOUTS else caught_writers(program) if one in WRITERS
                  else caught(program, jobs, told))
        equal = one in EQUAL
        n += 1
        survived += not labels and not equal
        first = labels[0] if labels else "no text can differ" if equal else "none"
        line = (group, name, str(len(labels)), first)
        print("| " + " | ".join(line) + " |" if table else ", ".join(line), flush=True)
    print(f"{n} wrong planners, {survived} survived")
    sys.exit(survived > 0)


if __name__ == "__main__":
    main()
