"""definitions.py: reads the definitions of specs/ and the types of src/, and says which of them the public contracts and the claims reach."""
import pathlib
import re
import sys
import textwrap

ROOT = pathlib.Path(__file__).resolve().parent.parent
# The public operations, methods first: each is one public function with an `ensures` and no `requires`; the last may lack. Then their exports for C.
METHODS = "to from".split()
OPERATIONS = METHODS + "judge strips_by_kind shape_verdict start next_copy next_copies withdraw fill nest judge_layout".split()
OPERATIONS += "read_tables write_job plan_text judge_text program_text".split()
EXPORTS = "panel_nest panel_fill panel_layout panel_tables panel_write".split()
# What the claims speak of beside that: file and definition. The names that the files ..Claims.antt of proofs/ use count too.
CLAIMED = [("Calls", n) for n in "after_calls refusals state_outcome plain_after".split()] + [("Cases", "starred")]
DECLARES = re.compile(r"(?:unfoldable |abbrev |pub )+(record |data )?(?!mod )(\S+)")


CRATES = {p.name for p in (ROOT / "crates").iterdir()}


def die(why):
    sys.exit(f"reader.py: {why}")


def tokens(text):
    found = re.findall(r"\|\||\[\]|[^\s(){}\[\];,|]+", text)
    return {*found, *(t.split(".")[0] for t in found)}  # `a.f` is a too


def is_comment(line):
    return line.lstrip().startswith("--")


class Definition:
    """A definition of specs/ or a type of src/: its lines with their comments, and the names of its cases."""

    def __init__(self, module, name, lines, cases=(), is_type=False, code_type=False):
        self.module, self.name, self.lines, self.cases, self.section = module, name, lines, cases, module.section
        self.is_type, self.code_type, self.hint = is_type, code_type, name.endswith(("-compute", "-computes"))


class Module:
    """A file of specs/, src/ or proofs/: the names that it uses, and its definitions in their order (of src/: its types)."""

    def __init__(self, path):
        self.path, self.source = path, path.read_text()
        self.crate, kind, *rest = path.relative_to(ROOT / "crates").with_suffix("").parts
        rest = ["declared", *(r for r in rest if r != "lib")] if kind == "src" else rest
        self.name = ".".join([self.crate, kind.replace("src", "specs"), *rest])
        self.names, self.aliases, self.definitions, self.section = {}, {}, [], ""
        for module, names, alias in re.findall(r"^(?:ghost )?use ([^\s{;]+?)(?:\.\{([^}]*)\}| as (\w+))?;?$", self.source, re.M):
            own = module.startswith("Rattle.") and module.split(".")[1] in CRATES
            module = module.removeprefix("Rattle.") if own else "kit." + module
            self.names |= {n.split(" as ")[-1]: (module, n.split(" as ")[0]) for n in re.split(r",\s*", names) if n}
            self.aliases |= {alias: module} if alias else {}
        self.read_types() if kind == "src" else self.read_definitions()

    def read_types(self):
        for notes, what, name, body in re.findall(r"((?:^//[^\n]*\n)*)(?:^#\[[^\n]*\n)*^pub (struct|enum) (\w+)\b[^{;]*\{(.*?)^\}", self.source, re.M | re.S):
            fields = " ".join(re.sub(r"//.*", "", body).replace("pub ", "").split()).rstrip(",")
            lines = [l.replace("//", "--", 1) for l in notes.split("\n") if l] + [f"{what} {name} {{ {fields} }}"]
            cases = re.findall(r"(\w+)(?:\([^)]*\))?(?:,|$)", fields) if what == "enum" else []
            self.definitions.append(Definition(self, name, lines, cases, code_type=True))
        for path in re.findall(r"^use ((?:[a-z]\w*::)+[A-Z]\w+);", self.source, re.M) + re.findall(r"\b(?:[a-z]\w*::)+[A-Z]\w+", self.source):
            crate, *inner, name = path.replace("crate::", self.crate + "::").split("::")
            for n in (name, path):
                self.names.setdefault(n, (".".join([crate, "specs", "declared", *inner, name]), name))

    def read_definitions(self):
        head = re.match(r"(?:--.*\n)*", self.source)[0]
        self.words = re.sub(r"\s*(Definitions only.*|Assumes nothing\.)", "", " ".join(l[3:] for l in head.split("\n")))
        rest = re.sub(r"^(use|pub mod) .*\n", "", self.source[len(head):], flags=re.M)
        for chunk in re.split(r"\n\n", rest):
            lines = [l for l in chunk.split("\n") if l]
            while lines and lines[0].startswith("-- ----"):
                self.section = lines.pop(0)
            heads = [i for i, l in enumerate(lines) if DECLARES.match(l)]
            for a, b in zip([0] + heads[1:], heads[1:] + [len(lines)] if heads else []):
                is_type, name = next((bool(h[1]), h[2]) for l in lines[a:b] if (h := DECLARES.match(l)))
                cases = [c[1] for l in lines[a:b] if is_type and (c := re.match(r"  (?!pub )(\S+) :", l))]
                self.definitions.append(Definition(self, name, lines[a:b], cases, is_type))
            if "specs" in self.name and not heads and any(not is_comment(l) for l in lines):
                die(f"{self.path}: what is this? {lines[0]}")


def modules(pattern):
    return {m.name: m for m in (Module(p) for p in sorted((ROOT / "crates").glob(pattern)))}


specs, types = modules("*/specs/**/*.antt"), modules("*/src/**/*.rt")
where = {(m.name, n): d for m in specs.values() for d in m.definitions for n in [d.name, *d.cases]}
where |= {(f"{m.name}.{d.name}", d.name): d for m in types.values() for d in m.definitions}
where |= {(f"{m.name}.{d.name}.TheVariants", c): d for m in types.values() for d in m.definitions for c in d.cases}


def found(module, text):
    """What a text in a module names: definitions, and the names (module, name) of proofs/ and the kit."""
    for token in tokens(text) | ({">>=", ">>"} if "do" in tokens(text) else set()):
        alias, _, rest = token.partition(".")
        keys = [(module.name, token), (module.name, f"◌{token}◌"), (f"{module.name}.{token}", token)]
        used = [module.names.get(token), module.names.get(f"◌{token}◌"), rest and alias in module.aliases and (module.aliases[alias], rest)]
        key = next((k for k in keys + used if k in where), None) or next(filter(None, used), None)
        if key:
            yield where.get(key, key)


def contracts(names):
    """The public functions of these names with their contracts: module and text up to the body."""
    for name in names:
        inner = " {4}" if name in METHODS else ""
        pattern = rf'^{inner}pub (?:extern "C" )?fn {name}\b.*?(?=\n{inner}\{{)'
        heads = [(m, textwrap.dedent(h)) for m in types.values() for h in re.findall(pattern, m.source, re.M | re.S)]
        heads = [(m, h) for m, h in heads if "ensures" in h and "requires" not in h]
        heads = list({h: (m, h) for m, h in reversed(heads)}.values())  # a static library states the clauses of its library again
        if len(heads) > 1 or (name in OPERATIONS[:-1] and not heads):
            die(f"{len(heads)} public functions `{name}` with an `ensures` and no `requires`")
        yield from heads


def closure():
    """Each definition that is reached from the public contracts and the claims, with what it names."""
    todo = [d for m, head in contracts(OPERATIONS + EXPORTS) for d in found(m, head[head.index("ensures"):])]
    for stem, name in CLAIMED:
        met = [d for (m, n), d in where.items() if n == name and m.split(".")[-1] == stem]
        todo += met if len(met) == 1 else die(f"{len(met)} definitions `{name}` in files {stem}.antt")
    for claims in modules("*/proofs/**/*Claims.antt").values():
        todo += [d for d in found(claims, claims.source) if isinstance(d, Definition)]
    seen = {}
    while todo:
        d = todo.pop()
        if isinstance(d, tuple) and not re.match(r"kit\.|\w+\.proofs\.", d[0]):
            die(f"no definition {d[1]} in {d[0]}")
        if d not in seen and not getattr(d, "hint", False):
            code = isinstance(d, Definition) and "\n".join(l for l in d.lines if not is_comment(l))
            seen[d] = [e for e in found(d.module, code) if e is not d] if code else []
            todo += seen[d]
    return seen


reach = closure()
