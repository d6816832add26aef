#!/usr/bin/env python3
"""twice.py [ROOT]: lists laws that stand twice: statements that are equal up to bound names, in different files.

Looked at are the declarations of every file of crates/*/proofs and crates/*/specs, in `module _` too (after those of its
parameters that they need); answers to goals and local functions are not.
A law that is one of the kit's is listed as well. Exit 1 where one stands twice that is not in ALLOWED."""
import collections
import pathlib
import re
import sys

# a statement as this script prints it: why it may stand in more than one file
ALLOWED = {}
# the files that state each claim once more, beside a citation of its proof
CLAIMS = ["crates/claims/proofs/Claims.antt", "crates/claims/proofs/WriterClaims.antt"]

# Rattle.std.proofs.lemmas.Bool of the kit
KIT = {
    "ltb-true": "(a b : ℕ) → ltb a b ≡ true → a < b",
    "ltb-false": "(a b : ℕ) → ltb a b ≡ false → b ≤ a",
    "leb-true": "(a b : ℕ) → leb a b ≡ true → a ≤ b",
    "leb-false": "(a b : ℕ) → leb a b ≡ false → b < a",
    "eqb-true": "(a b : ℕ) → eqb a b ≡ true → a ≡ b",
    "eqb-false": "(a b : ℕ) → eqb a b ≡ false → a ≡ b → ⊥",
    "not-true": "(t : Bool) → not t ≡ true → t ≡ false",
    "not-false": "(t : Bool) → not t ≡ false → t ≡ true",
    "lt-ltb": "(a b : ℕ) → a < b → ltb a b ≡ true",
    "le-ltb": "(a b : ℕ) → b ≤ a → ltb a b ≡ false",
    "le-leb": "(a b : ℕ) → a ≤ b → leb a b ≡ true",
    "lt-leb": "(a b : ℕ) → b < a → leb a b ≡ false",
    "eq-eqb": "(a b : ℕ) → a ≡ b → eqb a b ≡ true",
    "ne_eqb": "(a b : ℕ) → (a ≡ b → ⊥) → eqb a b ≡ false",
}

WORDS = r"(?:(?:pub|unfoldable|abbrev) )*"
DECLARATION = re.compile(r"( *)" + WORDS + r"([^\s:{}()]+)((?: [{(].*?[)}])?) : (.*)")
MODULE = re.compile(r"( *)module _ (.*) where$")
NO_LAW = ("record", "data", "use", "module", "where", "let", "λ", "|", "--")
GENERATED = re.compile(r"(^|: )goal\.")
RELATION = re.compile(r"[≡≤<⊎⊥]|Memᴰ|(?:^|[ (])T [(\w]")
ALIAS = re.compile(r"^use \S+ as (\w+)$", re.M)
QUALIFIED = re.compile(r"(?<![\w.])(\w+)\.(?:\w+\.)*(?=[\w◌<≤])")
BINDER = re.compile(r"[({]([^(){}:]+?) : ")
TOKEN = re.compile(r"([\s(){}\[\],.;])")


def indented(lines, start, indent):
    """The lines from start on that are indented further than indent, joined."""
    found = []
    for line in lines[start:]:
        if not line.strip() or len(line) - len(line.lstrip()) <= indent:
            break
        found.append(line.strip())
    return " ".join(found)


def declarations(lines):
    """Each declaration that is no local function: line number, name, modules' parameters, statement."""
    modules = []  # of those that are open: their indentation and parameters
    for i, line in enumerate(lines):
        indent = len(line) - len(line.lstrip())
        if not line.strip() or line.lstrip().startswith("--"):
            continue
        while modules and indent <= modules[-1][0]:
            modules.pop()
        head = line
        if line.lstrip().startswith("module _") and not line.endswith("where"):
            head = line + " " + indented(lines, i + 1, indent).split(" where")[0] + " where"
        if found := MODULE.match(head):
            modules.append((indent, found[2]))
        elif (found := DECLARATION.match(line)) and found[2] not in NO_LAW and indent == (modules[-1][0] + 2 if modules else 0):
            statement = " ".join((found[3] + " " + found[4] + " " + indented(lines, i + 1, indent)).split())
            yield i + 1, found[2], [parameters for _, parameters in modules], statement


def groups(text):
    """The brackets that bind names: where each begins and ends, the names, and their type."""
    at = 0
    while at < len(text):
        if not (found := BINDER.match(text, at)):
            at += 1
            continue
        depth, end = 1, at + 1
        while depth:
            depth += (text[end] in "({") - (text[end] in ")}")
            end += 1
        yield at, end, found[1].split(), binders(text[found.end():end - 1])
        at = end


def binders(text):
    """The text with one binder for each name, all in parentheses, and → between them."""
    out, last = "", 0
    for start, end, names, kind in groups(text):
        between = text[last:start]
        out += (" → " if last and between == " " else between) + " → ".join("(%s : %s)" % (name, kind) for name in names)
        last = end
    return out + text[last:]


def parameters_of(modules, text):
    """The modules' parameters that the text names, with those that say something of them."""
    given = [(name, kind) for parameters in modules for _, _, names, kind in groups(parameters) for name in names]
    names = {name for name, _ in given}
    needed, before = set(TOKEN.split(text)) & names, None
    while needed != before:
        before = set(needed)
        for name, kind in given:
            mentioned = {name} | set(TOKEN.split(kind)) & names
            if mentioned & needed:
                needed |= mentioned
    return ["(%s : %s)" % (name, kind) for name, kind in given if name in needed]


def unqualified(text, aliases):
    """The text, its names without their modules; `a.f` of a bound a stays."""
    return QUALIFIED.sub(lambda found: "" if found[1] in aliases or found[1][0].isupper() else found[0], text)


def canonical(modules, statement, aliases=()):
    """The statement after the parameters that it needs, its bound names numbered, its names without their modules."""
    text = binders(unqualified(statement, aliases))
    text = " → ".join(parameters_of([unqualified(m, aliases) for m in modules], text) + [text])
    bound = {}
    for found in re.finditer(r"\(([^\s()]+) : |λ ([^.]+?)\. ", text):
        for name in re.sub(r"[():]", " ", found[1] or found[2]).split():
            bound.setdefault(name, "$%d" % len(bound))
    return "".join(bound.get(token, token) for token in TOKEN.split(text))


def find(root):
    """Where each law stands."""
    places = collections.defaultdict(list)
    for name, statement in KIT.items():
        places[canonical([], statement)].append("the kit's Rattle.std.proofs.lemmas.Bool: " + name)
    for path in sorted(root.glob("crates/*/proofs/**/*.antt")) + sorted(root.glob("crates/*/specs/**/*.antt")):
        if str(path.relative_to(root)) in CLAIMS:
            continue
        own, text = {}, path.read_text()
        aliases = set(ALIAS.findall(text))
        for line, name, parameters, statement in declarations(text.split("\n")):
            if len(statement) > 11 and RELATION.search(statement) and not GENERATED.search(statement):
                own.setdefault(canonical(parameters, statement, aliases), "%s:%d %s" % (path.relative_to(root), line, name))
        for law, place in own.items():
            places[law].append(place)
    return places


def main():
    root = pathlib.Path(sys.argv[1]) if len(sys.argv) > 1 else pathlib.Path(__file__).resolve().parent.parent
    twice = {law: where for law, where in find(root).items() if len(where) > 1}
    wrong = sorted(set(twice) - set(ALLOWED), key=lambda law: (-len(twice[law]), law))
    for law in wrong:
        print(law, *twice[law], sep="\n    ")
    print("%d laws stand twice, %d of them allowed" % (len(twice), len(twice) - len(wrong)))
    return 1 if wrong else 0


if __name__ == "__main__":
    sys.exit(main())
