#!/usr/bin/env python3
"""limits.py: prints functions with a body of over 40 lines or with more than 16 lent slices (9 of them
`&mut`), files over 400 lines, lines of code, contracts and definitions over 160 characters,
definitions in specs/ over 25 lines and proof lines over 500 characters. A line is a place to look, not a verdict.
limits.py --widest N: the N functions with the most lent slices.
limits.py --requires: each `pub fn` with a `requires`."""
import pathlib
import re
import sys

ROOT = pathlib.Path(__file__).resolve().parent.parent


def functions(lines):
    """Each function's name, first and last line number, and header."""
    at = 0
    while at < len(lines):
        found = re.match(r"(\s*)(pub )?(extern \"C\" )?fn (\w+)", lines[at])
        if found:
            end = at
            while end < len(lines) and lines[end] != found[1] + "}":
                end += 1
            body = next((i for i in range(at, end) if lines[i].endswith("{") and not re.search(r"(requires|ensures)\*?( \w+)? \{$", lines[i])), at)
            yield found[4], bool(found[2]), at, end - body - 1, end, "\n".join(lines[at:body])
            at = end
        at += 1


def required():
    """The public functions with a `requires`."""
    for path in sorted((ROOT / "crates").glob("*/src/*.rt")):
        for fn, public, a, _, _, head in functions(path.read_text().split("\n")):
            if public and "requires" in head:
                print(f"{path.relative_to(ROOT)}:{a + 1}: pub fn {fn} has a requires")


def definitions(lines):
    """Each declaration of a specs file: its name, first and last line number."""
    starts = [i for i, l in enumerate(lines) if re.match(r"[^\s-][^=]* : |(unfoldable |abbrev )?pub ", l)]
    for a, b in zip(starts, starts[1:] + [len(lines)]):
        last = max((i for i in range(a, b) if lines[i].strip() and not lines[i].startswith("--")), default=a)
        yield lines[a].split(" : ")[0], a, last


def slices(head):
    """How many lent slices a function has, and how many of them are `&mut`."""
    lent = re.findall(r"\w+: &(?:'\w+ )?(mut )?\[", head.split(" requires ")[0].split(" ensures ")[0])
    return len(lent), len([x for x in lent if x])


def widest(count):
    """The functions with the most lent slices, as rows of a table."""
    rows = []
    for path in (ROOT / "crates").glob("*/src/*.rt"):
        for fn, _, _, _, _, head in functions(path.read_text().split("\n")):
            rows.append((*slices(head), path.parts[-3], fn))
    rows.sort(key=lambda r: (-r[0], -r[1], r[2:]))
    for total, mutable, crate, fn in rows[:count]:
        print(f"| `{crate}::{fn}` | {total} ({mutable}) |")


if len(sys.argv) == 3 and sys.argv[1] == "--widest":
    widest(int(sys.argv[2]))
    sys.exit()
if sys.argv[1:] == ["--requires"]:
    required()
    sys.exit()

for path in sorted((ROOT / "crates").rglob("*")):
    if path.suffix not in (".rt", ".antt") or "out" in path.relative_to(ROOT).parts:
        continue
    name = path.relative_to(ROOT)
    lines = path.read_text().split("\n")
    if len(lines) - 1 > 400:
        print(f"{name}: {len(lines) - 1} lines")
    if "proofs" not in path.parts:
        for i, line in enumerate(lines):
            if len(line) > 160:
                print(f"{name}:{i + 1}: {len(line)} characters")
    if path.suffix == ".rt":
        for fn, _, a, body, _, head in functions(lines):
            if body > 40:
                print(f"{name}:{a + 1}: {fn} has a body of {body} lines")
            total, mutable = slices(head)
            if total > 16 or mutable > 9:
                print(f"{name}:{a + 1}: {fn} has {total} lent slices, {mutable} of them &mut")
    elif "proofs" in path.parts:
        for i, line in enumerate(lines):
            if len(line) > 500:
                print(f"{name}:{i + 1}: {len(line)} characters")
    elif "specs" in path.parts:
        for what, a, b in definitions(lines):
            if b - a + 1 > 25:
                print(f"{name}:{a + 1}: {what} has {b - a + 1} lines")
