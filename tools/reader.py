#!/usr/bin/env python3
"""reader.py: prints docs/READER.md: every definition that the public contracts and the claims reach, in document 01's order.
reader.py --check: exit 1 if docs/READER.md is another text.
reader.py --files: each file of specs/: `reader`, `inner` (no public contract reaches it), or `mixed` with its inner names."""
import re
import sys
import textwrap

from definitions import OPERATIONS, ROOT, Definition, contracts, die, is_comment, reach, specs

WIDTH, MARGIN = 158, 72
# The parts of the text, and the files (by name) whose definitions stand in each.
PARTS = [
    ("Numbers", "Numbers"),
    ("Draws", "SplitMix64"),
    ("Strips", "Strip Slab Strips"),
    ("Index", "Buckets Intervals"),
    ("Other corners", "Frames"),
    ("The job's bits", "Bits Reading Fields Sets Kinds Jobs Meaning"),
    ("A job as tables, and written out", "JobTables Tabled Given Packed JobBits Written JobFields JobTold"),
    ("Filling: shapes and copies", "Shapes"),
    ("Filling: columns, looks, searches, the choice", "Columns Smallest Looking Search Choice"),
    ("Filling: rooms, state, refusals", "Rooms State Refusals Order Consistent"),
    ("The leaf", "Leaf"),
    ("The start", "Start Answered"),
    ("The next copy", "NextCopy Reply"),
    ("The next copies at once", "NextCopies Answer"),
    ("Taking a copy back", "Withdraw Replied"),
    ("The filling in a given order", "Accounts Fill Lent"),
    ("The plain planner, and calls", "Plain Calls BatchCalls"),
    ("Order and swaps", "CopyOrder Rounds"),
    ("The whole plan", "Nest"),
    ("Layouts from elsewhere", "Layouts Legal PlanLayout"),
    ("Other corners: one argument for all eight frames", "FramedJobs"),
    ("The printed plan", "Text Printed Told"),
    ("The program", "Program"),
    ("A judged layout: its reply, its text", "PutLines Judging"),
    ("Sheets tried by hand", "Case4 Sheets Cases BatchCases LayoutCases"),
]
HEAD = """# What a reader must believe

Written by `tools/reader.py` from `crates/*/specs`; `tools/reader.py --check` says whether it is stale. It has every definition that the
contracts of the public operations and the claims reach, and no other. Words in quotes are document 01's (or 02's, where it says so).

`f : T` gives a name's type, what follows its meaning, case by case (`;` between two in one line). `List ℕ` are bytes, entries or counts,
`List Float` a room of doubles.
`a.f` is the field f of a, `a ∷ l` a list with its first element, `l ++ m` one list after another; `elim t [ c ↦ v | .. ]` is the value for the
case that t is, `cond t a b` is a where t holds, else b. Lines with `struct` and `enum` are the code's own types; `Why.C` is the case C of a call's
`Refusal`. A name that two files define is in each of them its own. The names of the last list are the kit's. In a contract `x.old` is what
lies in x when the call begins, `x.new` what it leaves there, `x.now` what lies in an x that is only read, and `result` is its answer."""


def wrapped(line, indent="    "):
    held = re.sub(r" : |: | }$|&(mut|'a) \[", lambda m: m[0].replace(" ", "\0"), line)
    return [l.replace("\0", " ") for l in textwrap.wrap(held, WIDTH, subsequent_indent=indent, break_long_words=False, break_on_hyphens=False)]


def lines_of(d):
    """The definition as it is printed: a type in one line, what lies in braces in few, a comment of one line in the margin."""
    lines = [re.sub(r"^((unfoldable|abbrev|pub) )+", "", l) for l in d.lines]
    at = next(i for i, l in enumerate(lines) if not is_comment(l) and not l.startswith("infix"))
    if d.code_type:
        return margins(lines[:at] + wrapped(lines[at]))
    if d.is_type:
        fields = "; ".join(re.sub(r"^\s*(pub )?", "", l) for l in lines[at + 1:])
        lines[at:] = wrapped(f"{lines[at][:-6].removesuffix(' : Type 0')} {{ {fields} }}")
    out, depth = lines[:at], 0
    for line in lines[at:]:
        joins = depth > 0 or (out and out[-1].endswith(" =") and len(lines) == at + 3)
        if joins and not is_comment(line) and len(out[-1]) + len(line.strip()) < WIDTH:
            out[-1] += " " + line.strip()
        elif len(out) == at + 1 and len(lines) == at + 2 and len(out[-1] + line) < WIDTH and (at == 0 or line.startswith(d.name + " = ")):
            out[-1] += line[len(d.name):] if line.startswith(d.name + " = ") else ";  " + line
        else:
            out.append(line)
        depth += sum(line.count(c) for c in "{[") - sum(line.count(c) for c in "}]")
    return margins(out[:at + 1] + beside([l.replace("; }", " }").replace("[ | ", "[ ") for l in out[at + 1:]]))


def beside(lines):
    """Short cases that follow each other stand in one line."""
    out = []
    for line, after in zip(lines, lines[1:] + [""]):
        alone = out and not any(l.startswith((" ", "--")) for l in (out[-1], line, after)) and not out[-1].endswith("=")
        if alone and len(out[-1] + line) < 116:
            out[-1] += ";  " + line
        else:
            out.append(line)
    return out


def margins(lines):
    """A comment of one line goes beside the line after it, if both are short enough."""
    out = []
    for line in lines:
        if out and is_comment(out[-1]) and not is_comment(line) and not any(is_comment(l) for l in out[-2:-1]):
            note = out[-1].strip()
            if len(line) + len(note) + 2 <= WIDTH:
                out.pop()
                line += " " * max(2, min(MARGIN, WIDTH - len(note)) - len(line)) + note
        out.append(line)
    return out


def shown(d, printed):
    """A definition's lines, after those of the code's own types that it is the first to name."""
    printed.add(d)
    before = sorted((e for e in reach[d] if e not in printed and isinstance(e, Definition) and e.code_type), key=lambda e: e.name)
    return [l for e in before if e not in printed for l in shown(e, printed)] + lines_of(d)


def part(title, files, printed):
    """One part of the text: for each file its head's words, then its definitions."""
    out = ["", f"## {title}", "```"]
    for module in files:
        out += wrapped(f"-- {module.path.relative_to(ROOT)}: {module.words}", "-- ")
        section = ""
        for d in (d for d in module.definitions if d in reach):
            out += [d.section] if d.section != section else []
            section = d.section
            out += shown(d, printed)
    return out + ["```"]


def text():
    mine = [m for m in specs.values() if any(d in reach for d in m.definitions)]
    stems = [(title, names.split()) for title, names in PARTS]
    stems.append(("Words of the claims", sorted({m.path.stem for m in mine} - {s for _, names in stems for s in names})))
    out, printed = [HEAD], set()
    for title, names in stems:
        files = [m for s in names for m in mine if m.path.stem == s]
        out += part(title, files, printed) if files else []
    out += ["", "## The public operations", "```"]
    for module, head in contracts(OPERATIONS):
        head, ensures = (" ".join(h.split()).replace("( ", "(").replace(", )", ")") for h in re.split(r"\n    (?=ensures)", head))
        out += [f"-- {module.path.relative_to(ROOT)}", *wrapped(head), *wrapped("    " + ensures, " " * 8)]
    out += ["```", "", "## Names of the kit"]
    kit = sorted(e for e in reach if isinstance(e, tuple))
    for name in sorted({m for m, _ in kit}):
        out += wrapped(f"- `{name.removeprefix('kit.')}`: " + ", ".join(f"`{n}`" for m, n in kit if m == name))
    return "\n".join(out) + "\n"


def kinds_of_files():
    for module in specs.values():
        mine = [d for d in module.definitions if not d.hint]
        inner = [d.name for d in mine if d not in reach]
        kind = "reader" if not inner else "inner" if len(inner) == len(mine) else "mixed: " + " ".join(inner)
        if mine:
            print(module.path.relative_to(ROOT), kind)


if sys.argv[1:] == ["--files"]:
    kinds_of_files()
elif sys.argv[1:] == ["--check"]:
    (ROOT / "docs/READER.md").read_text() == text() or die("docs/READER.md is stale: tools/reader.py > docs/READER.md")
elif sys.argv[1:]:
    die("usage: reader.py [--check | --files]")
else:
    sys.stdout.write(text())
