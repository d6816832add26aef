#!/usr/bin/env python3
"""wrap.py: breaks the contracts and the `ghost use` lines of crates/*/src that are over 160 characters
long, a contract before the outermost × or → that is near, else before an argument; `rt fmt` then
indents them. No word of a contract changes, and a second run changes nothing. Prints how many
lines are longer still, and each must-fail edit whose `old:` text is not in its file exactly once (then
the exit status is 1)."""
import pathlib
import re
import subprocess
import sys

ROOT = pathlib.Path(__file__).resolve().parent.parent
WIDTH = 160
NEAR = 40  # a break leaves at least so many characters on its line, if it can
# What speaks for or against a break, in characters that it comes earlier or later:
BEFORE = {"×": 50, "→": 50, "||": 35, "&&": 30, "≡": 15, "≤": 5, "<": 5, "++": 0}
DEEP = 40  # for each bracket around it
HEAD = 40  # between a function and its first argument
FIELDS = 1000  # in a record: fmt then gives each field a line
OPEN, SHUT = "([{", ")]}"
ENDS = re.compile(r"[)»\w]$")  # what an argument ends with


def step(opened, c):
    """The open brackets after one more character."""
    if c in OPEN:
        opened.append(c)
    elif c in SHUT:
        opened.pop()


def places(line, around):
    """Where a line of a contract may be broken: what speaks for it, and its place; `around` are the brackets open before the line."""
    opened = list(around)
    records = max(1, opened.count("{"))  # one is the contract's own
    for at, c in enumerate(line[: WIDTH + 1]):
        step(opened, c)
        records = max(1, min(records, opened.count("{")))
        if c != " " or not line[:at].strip() or "{" not in opened:
            continue
        before, last, after = (["", *line[:at].split()])[-2:] + [line[at:].split()[0]]
        deep = DEEP * (len(opened) - opened.index("{") - 1)
        if opened.count("{") > records:
            if last == "{" and opened.count("{") == records + 1:
                yield at - FIELDS, at
        elif after in BEFORE:
            yield at + BEFORE[after] - deep, at
        elif re.match(r"[(«\w]", after) and ENDS.search(last):
            head = last[-1] not in ")»" and (last[0] == "(" or not ENDS.search(before))
            yield at - deep - HEAD * head, at


def broken(line, around):
    """A line of a contract with one break, if it is too long."""
    first = len(line) - len(line.lstrip())
    all_places = list(places(line, around)) if len(line) > WIDTH else []
    if not all_places:
        return line
    near = [p for p in all_places if p[1] >= first + NEAR and p[0] > NEAR - FIELDS]
    at = max(near or all_places)[1]
    return line[:at] + "\n" + " " * first + line[at + 1 :]


def parted(line):
    """A `ghost use` line as two, if it is too long."""
    if len(line) <= WIDTH:
        return line
    at = line.rindex(", ", 0, WIDTH)
    return line[:at] + "};\n" + line.split("{")[0] + "{" + line[at + 2 :]


def wrapped(text):
    """A file's text with one more break in each contract line and `ghost use` line that is too long."""
    lines, opened = text.split("\n"), []
    for i, line in enumerate(lines):
        if opened or re.match(r"\s*(requires|ensures)\*?( \w+)? \{", line):
            lines[i] = broken(line, opened)
            for c in line:
                step(opened, c)
        elif re.match(r"ghost use .*\{", line):
            lines[i] = parted(line)
    return "\n".join(lines)


def lost_edits():
    """The must-fail edits whose old text is not in its file exactly once."""
    for path in sorted((ROOT / "crates").glob("*/must-fail/*.edit")):
        file, old, texts = None, "", {}  # a replacement is made in what the one before left
        for line in path.read_text().split("\n"):
            if line.startswith("file: "):
                file = path.parent.parent / line[6:].strip()
                texts.setdefault(file, file.read_text())
            elif line.startswith("old: "):
                old = line[5:]
                if (found := texts[file].count(old)) != 1:
                    yield f"{path.relative_to(ROOT)}: {found} times in {file.relative_to(ROOT)}: {old}"
            elif line.startswith("new:"):
                texts[file] = texts[file].replace(old, line[4:].removeprefix(" "))


def main():
    again = {True}
    while again:
        again = set()
        for path in (ROOT / "crates").glob("*/src/**/*.rt"):
            text = path.read_text()
            new = wrapped(text)
            if new != text:
                path.write_text(new)
                again.add(ROOT / "crates" / path.relative_to(ROOT / "crates").parts[0])
        for crate in sorted(again):
            subprocess.run(["rt", "fmt"], cwd=crate, check=True)
    for folder, note, suffix in [("src", "//", "rt"), ("specs", "--", "antt"), ("proofs", "--", "antt")]:
        texts = [p.read_text() for p in (ROOT / "crates").glob(f"*/{folder}/**/*.{suffix}")]
        long = [l for t in texts for l in t.split("\n") if len(l) > WIDTH]
        notes = len([l for l in long if l.lstrip().startswith(note)])
        print(f"{folder}: {len(long) - notes} lines and {notes} comments over {WIDTH} characters")
    lost = list(lost_edits())
    print("\n".join(lost + [f"{len(lost)} edits whose old text is not there once"]))
    sys.exit(bool(lost))


main()
