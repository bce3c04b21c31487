#!/usr/bin/env python3
"""What the documents say of files is true: README.md, CONTRIBUTING.md, docs/ and each crate's README.md.

A crate that is named is there. So is each file `src/..`, `specs/..` or `proofs/..`: in a crate's README.md of that crate, in the recipes
of CONTRIBUTING.md of the crate named before it, and elsewhere of some crate. So is each definition that a theorem of docs/PROOFS.md
rests on. A script of checks/ or bench/ that is named is there. A
line outside tables and blocks has at most 104 columns. Where a page says that no command uses its crate, `zk_cli` does not use it.

usage: documents.py
"""
import re
import sys
from pathlib import Path

ROOT = Path(__file__).resolve().parent.parent
CRATES = {line.partition(":")[0].split()[0] for line in (ROOT / "crates.txt").read_text(encoding="utf-8").splitlines() if line and line[0] != "#"}
COLUMNS = 104
# A crate, or a file, which may be one of the crate before it.
NAME = re.compile(r"`(?:crates/)?(zk_[a-z0-9_]*[a-z0-9]|zab_[a-z0-9_]*[a-z0-9])?/?((?:(?:src|specs|proofs)/)?[\w/]+\.(?:rt|antt))?`")
SCRIPT = re.compile(r"`(?:python3 |bash )?((?:checks|bench|release)/[\w.]+\.(?:py|sh|java))\b")
UNUSED = re.compile(r"[Nn]o\s+command\s+uses\s+it|which\s+no\s+command\s+shows")


def below(crate: str) -> set[str]:
    """The crates that a crate uses, by any number of steps."""
    lines = (ROOT / "crates.txt").read_text(encoding="utf-8").splitlines()
    needs = {line.split(":")[0].split()[0]: line.partition(":")[2].split() for line in lines if line and line[0] != "#"}
    found, left = set(), [crate]
    while left:
        new = {it for it in needs.get(left.pop(), []) if it in CRATES} - found
        found |= new
        left += new
    return found


def files_of(crate: str) -> set[str]:
    """The files of a crate by their paths, and by their names alone."""
    found = set()
    for part in ("src", "specs", "proofs"):
        for file in (ROOT / "crates" / crate / part).rglob("*"):
            if file.is_file():
                found |= {str(file.relative_to(ROOT / "crates" / crate)), file.name}
    return found


def definitions_lacking(text: str, files: dict[str, set[str]]):
    """The definitions of the theorems' rows, `CRATE` `NAME`, .. in the second column, that no file specs/NAME.antt has."""
    for row in re.findall(r"(?m)^\|(?:[^|]*)\|([^|]*)\|", text):
        crate = None
        for word in re.findall(r"`(\w+)`", row):
            if word in CRATES:
                crate = word
            elif crate and word[0].isupper() and f"{word}.antt" not in files[crate]:
                yield f"there is no specs/{word}.antt in {crate}"


def faults_in(page: Path, own: str | None, files: dict[str, set[str]]):
    """What a page says that is not so."""
    text = page.read_text(encoding="utf-8")
    every = set().union(*files.values())
    before = None
    for it in NAME.finditer(text):
        crate, file = it.groups()
        if crate and crate not in CRATES:
            yield f"there is no crate {crate}"
            continue
        before = crate or before
        if file and "/" not in file:
            where = every
        elif file and own:
            where = files[own] | (files[before] if before else set())
        elif file and before and page.name == "CONTRIBUTING.md" and not text.startswith(" of `", it.end()):
            where = files[before]
        else:
            where = every
        if file and file not in where:
            yield f"there is no {file} in {own or before}"
    if page.name == "PROOFS.md":
        yield from definitions_lacking(text, files)
    for it in SCRIPT.finditer(text):
        if not (ROOT / it[1]).exists():
            yield f"there is no {it[1]}"
    if own and UNUSED.search(text) and own in below("zk_cli"):
        yield "zk_cli uses it"
    in_block = False
    for number, line in enumerate(text.splitlines(), 1):
        in_block ^= line.lstrip().startswith("```")
        if len(line) > COLUMNS and not in_block and not line.startswith(("|", "```")) and "](" not in line:
            yield f"line {number} has {len(line)} columns"


def main() -> int:
    files = {crate: files_of(crate) for crate in CRATES}
    pages = [(ROOT / "README.md", None), (ROOT / "CONTRIBUTING.md", None)]
    pages += [(page, None) for page in sorted((ROOT / "docs").rglob("*.md"))]
    pages += [(ROOT / "crates" / crate / "README.md", crate) for crate in sorted(CRATES)]
    faults = [f"{page.relative_to(ROOT)}: {fault}" for page, own in pages for fault in faults_in(page, own, files)]
    print("".join(f"{it}\n" for it in faults), end="")
    print(f"documents: {len(faults)} faults in {len(pages)} pages")
    return 1 if faults else 0


if __name__ == "__main__":
    sys.exit(main())
