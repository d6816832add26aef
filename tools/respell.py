"""respell.py: brings this repository's own names to the spelling of today's Rattle, once, right after the kit's port.py.

usage: python3 tools/respell.py [TABLE]      at the top of the repository, with nothing loose

TABLE (respelled.tsv beside this file) has a line for each name: old, tab, new. Words with humps are turned everywhere, names with dashes
only in .antt files, in .rt files behind a dot and, between backticks or stars, in documents. The crate slab, whose name a library of the kit has, becomes slabs.
"""
import pathlib
import re
import subprocess
import sys

ROOT = pathlib.Path.cwd()
TABLE = pathlib.Path(sys.argv[1]) if len(sys.argv) > 1 else pathlib.Path(__file__).with_name("respelled.tsv")
NAMES = dict(line.split("\t") for line in TABLE.read_text(encoding="utf-8").splitlines())
HUMPS = {old: new for old, new in NAMES.items() if "-" not in old}
WORD = re.compile(r"[^\s(){}.;:,@\"«»\[\]\\`*]+")
CODE = re.compile(r"`[^`\n]*`|\*\*[^*\n]*\*\*")


def by(names):
    return lambda text: WORD.sub(lambda it: names.get(it.group(0), it.group(0)), text)


def antt(line):
    """A line of antt: all names, but in its comment those with humps alone."""
    at = 0 if line.lstrip().startswith("--") else len(line)
    return by(NAMES)(line[:at]) + by(HUMPS)(line[at:])


def slabs(text):
    text = re.sub(r"\bslab::", "slabs::", text)
    return re.sub(r"(Rattle[.·])slab(?=[.·])", r"\1slabs", text)


def turn(path, text):
    if path.suffix == ".antt":
        return slabs("".join(antt(line) for line in text.splitlines(keepends=True)))
    if path.suffix == ".edit":
        return slabs(by(NAMES if re.search(r"(?m)^file: (specs|proofs)/", text) else HUMPS)(text))
    if path.suffix == ".rt":
        fields = re.sub(r"(?<=[\w)]\.)[a-z0-9_]+(?:-[a-z0-9_]+)+", lambda it: NAMES.get(it.group(0), it.group(0)), text)
        return slabs(by(HUMPS)(fields))
    if path.suffix == ".md":
        return CODE.sub(lambda it: by(NAMES)(it.group(0)), text)
    if path.name == "crates.txt":
        return re.sub(r"(?m)^slab:", "slabs:", re.sub(r"(?m)(?<=[: ])slab(?= |$)", "slabs", text))
    return text


def main():
    listed = subprocess.run(["git", "ls-files"], cwd=ROOT, capture_output=True, text=True, check=True).stdout.split("\n")
    for name in listed:
        path = ROOT / name
        if path.suffix in (".antt", ".rt", ".edit", ".md") or name == "crates.txt":
            old = path.read_text(encoding="utf-8")
            new = turn(path, old)
            if new != old:
                path.write_text(new, encoding="utf-8")
    if (ROOT / "crates/slab").is_dir():
        subprocess.run(["git", "mv", "crates/slab", "crates/slabs"], cwd=ROOT, check=True)


if __name__ == "__main__":
    main()
