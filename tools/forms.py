#!/usr/bin/env python3
"""forms.py [--list POINT] [ROOT]: counts the places of older forms in crates/*/src and, for point 8, in crates/*/proofs.

1 own enums, arms that pass an error on, flags beside values, codes for "more than fit"
2 functions whose bodies are equal up to names, types and numbers
3 loops that are written with `while` or `loop`
4 equality, choice, conversion and initialisation written out
5 a fact of a `requires` in three or more contracts of a crate; four or more parameters that three or more functions share in a row
6 a table with a count of what it holds beside it; 7 a number that says which step to run; 8 chains of names for one record in answers
--list prints the places of one point."""
import collections
import pathlib
import re
import sys

WORDS = set("fn let mut if else while for in return match loop break continue as pub struct enum impl const true false self Self ref move".split())
TYPES = "f64|u64|u32|u16|u8|usize|i64|bool|Entry|Bucket"


def functions(text):
    """name, signature, contract and body of each function of a file"""
    lines = text.split("\n")
    i = 0
    while i < len(lines):
        m = re.match(r"^(\s*)(?:pub(?:\(\w+\))? )?(?:const )?fn (\w+)", lines[i])
        if m is None:
            i += 1
            continue
        end = i
        while lines[end] != m[1] + "}":
            end += 1
        part, parts = 0, [[], [], []]
        for line in lines[i : end + 1]:
            if part < 2 and re.match(r"\s*(requires|ensures)\b", line):
                part = 1
            if part == 1 and line == m[1] + "{":
                part = 2
                continue
            parts[part].append(line)
            if part == 0 and line.rstrip().endswith("{"):
                part = 2
        yield m[2], i + 1, *("\n".join(p) for p in parts)
        i = end + 1


def shape(body):
    names = {}

    def word(m):
        w = m[0]
        return w if w in WORDS else "T" if re.fullmatch(TYPES, w) else names.setdefault(w, f"v{len(names)}")

    body = re.sub(r"\b[0-9][\w.]*", "N", re.sub(r"\b[A-Za-z_]\w*\b", word, re.sub(r"//.*", "", body)))
    return re.sub(r"\s+", " ", body)


def conjuncts(contract):
    """the facts of the requires clauses, receivers' .now and .old dropped"""
    for m in re.finditer(r"requires(?: \w+)? \{(.*?)\}\n?(?=\s*(?:requires|ensures|$))", contract, re.S):
        depth, fact = 0, ""
        for c in m[1] + "×":
            depth += (c in "([{") - (c in ")]}")
            if c == "×" and depth == 0:
                fact = re.sub(r"\.(now|old|entry)\b", "", re.sub(r"\s+", " ", fact).strip())
                if fact:
                    yield fact.removeprefix("(").removesuffix(")") if fact.startswith("(") and fact.endswith(")") else fact
                fact = ""
            else:
                fact += c


def main():
    args = sys.argv[1:]
    which = args.pop(args.index("--list") + 1) if "--list" in args else ""
    args = [a for a in args if a != "--list"]
    root = pathlib.Path(args[0] if args else ".")
    found = collections.defaultdict(list)
    groups = collections.defaultdict(list)
    facts = collections.defaultdict(set)
    rows = collections.defaultdict(set)
    for path in sorted(root.glob("crates/*/src/*.rt")):
        text = path.read_text()
        crate = path.parts[-3]
        at = f"{crate}/{path.name}"
        for n, line in enumerate(text.split("\n"), 1):
            code = line.split("//")[0]
            place = f"{at}:{n}: {line.strip()}"
            if re.match(r"\s*(?:pub )?enum \w", code):
                found["1 own enums"].append(place)
            if re.search(r"(?:\w+::)*\w+\((\w+)\) => (?:return )?(?:\w+::)*(?:No\w+|Err|Refused|Failed|Stopped|Bad|Not)\(\1\)", code):
                found["1 arms that pass an error on"].append(place)
            if re.match(r"\s*pub \w+: bool,|\s*\w+: bool,$", code) and not code.rstrip().endswith(") -> bool"):
                found["1 fields or parameters that are flags"].append(place)
            if re.fullmatch(r"\s*(?:return )?(?:cap|count) \+ 1;?", code):
                found["1 codes for more than fit"].append(place)
            if re.search(r"\b(while|loop)\b", code) and "{" in code and not code.lstrip().startswith(("requires", "ensures", "ghost", "×", "≡")):
                found["3 while and loop"].append(place)
            if re.match(r"\s*(\w+): \1,$", code):
                found["4 fields set from a variable of their name"].append(place)
            if re.match(r"\s*return (true|false);", code):
                found["4 return true or false"].append(place)
            if re.search(r"(\w+(?:\[[^\]]*\])?) = \1 [-+*] ", code):
                found["4 x = x + .."].append(place)
            if re.search(r"\bas (?:u64|usize|f64|u32)\b", code) and "use " not in code:
                found["4 conversions by `as`"].append(place)
            if re.match(r"\s*#\[derive\(Clone, Copy\)\]$", code):
                found["4 types with no derive beside Clone and Copy"].append(place)
        for name, n, head, contract, body in functions(text):
            if len(body.strip().split("\n")) >= 3:
                groups[shape(body)].append(f"{at}:{name}")
            for fact in set(conjuncts(contract)):
                facts[crate, fact].add(f"{at}:{name}")
            params = re.findall(r"(\w+): (&(?:'\w+ )?(?:mut )?\[\w+\]|[\w:]+)", head.split("(", 1)[-1])
            for i in range(len(params) - 3):
                rows[crate, tuple(p for p, _ in params[i : i + 4])].add(f"{at}:{name}")
    for names in groups.values():
        if len(names) > 1:
            found["2 functions of equal shape"] += [f"{len(names)}: {' '.join(names)}"] + [""] * (len(names) - 1)
    for (crate, fact), names in sorted(facts.items()):
        if len(names) >= 3:
            found["5 facts of three or more requires"].append(f"{crate} ({len(names)}): {fact}")
    seen = set()
    for (crate, four), names in sorted(rows.items(), key=lambda r: -len(r[1])):
        if len(names) >= 3 and not (crate, frozenset(names)) in seen:
            seen.add((crate, frozenset(names)))
            found["5 four parameters in a row of three or more functions"].append(f"{crate} ({len(names)}): {', '.join(four)}")
    for path in sorted(root.glob("crates/*/proofs/**/Answers.antt")):
        for n, line in enumerate(path.read_text().split("\n"), 1):
            if re.search(r"\blet c\d+ = c\d* in", line):
                found["8 names for one record"].append(f"{path.relative_to(root)}:{n}")
    for key in sorted(found):
        if key.startswith(which):
            print(f"{len(found[key]):6} {key}")
            if which:
                print("\n".join("       " + p for p in found[key] if p))


main()
