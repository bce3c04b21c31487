#!/usr/bin/env python3
"""Whether each line of crates.txt names exactly the crates that the crate's own files name, and whether the picture of the
layers in docs/ARCHITECTURE.md has each crate once, above the crates that it names.

`rt` reads a crate's sources once for every path that leads to it through crates.txt. A line that also names what lies
below the crates that it needs doubles that work with every layer, so a line has what the crate's files name, and no more.

usage: check_layers.py            prints each line that is wrong, with what is too many and what is lacking, and each crate that
                                 the picture lacks, has twice or has too low
       check_layers.py --write    writes crates.txt anew: comments and orders stay, a line that is right stays as it is
"""
import re
import sys
from pathlib import Path

ROOT = Path(__file__).resolve().parent.parent
LINES = ROOT / "crates.txt"
PAGE = ROOT / "docs" / "ARCHITECTURE.md"

# In Rust: `name::`, `use name`. In a clause or a definition: `Rattle.name.`
RUST_NAMES = re.compile(r"(?<![\w:.])(?:::\s*)?(\w+)\s*::|\buse\s+(?:::\s*)?(\w+)")
CLAUSE_NAMES = re.compile(r"\bRattle\s*\.\s*(\w+)")
RUST_COMMENTS = re.compile(r"//[^\n]*|/\*.*?\*/", re.DOTALL)
DEFINITION_COMMENTS = re.compile(r"(?m)(?:^|(?<=\s))--.*$")


def names_in(file: Path) -> set[str]:
    """Every word of a file that may be the name of a crate."""
    text = file.read_text(encoding="utf-8")
    if file.suffix == ".antt":
        return set(CLAUSE_NAMES.findall(DEFINITION_COMMENTS.sub(" ", text)))
    text = RUST_COMMENTS.sub(" ", text)
    found = {name for pair in RUST_NAMES.findall(text) for name in pair}
    return found | set(CLAUSE_NAMES.findall(text))


def named_by(crate: str) -> set[str]:
    """What the files of a crate name, in its code, its definitions and its proofs."""
    folder = ROOT / "crates" / crate
    files = [
        file
        for part in ("src", "specs", "proofs")
        for file in (folder / part).rglob("*")
        if file.suffix in (".rt", ".antt")
    ]
    return set().union(*map(names_in, files)) - {crate}


def checked(line: str, ours: set[str]) -> tuple[str, str | None]:
    """A line as it should be, and what is wrong with it, if anything is."""
    if not line or line.startswith("#"):
        return line, None
    head, _, rest = line.partition(":")
    listed = rest.split()
    named = named_by(head.split()[0])
    # A library of the kit that is lacking is found by every build. Some have the names of std's modules.
    lacking = sorted((named & ours) - set(listed))
    surplus = [name for name in listed if name not in named]
    if not lacking and not surplus:
        return line, None
    right = [name for name in listed if name in named] + lacking
    wrong = f"{head}: too many: {' '.join(surplus) or '-'}; lacking: {' '.join(lacking) or '-'}"
    return f"{head}: {' '.join(right)}".rstrip(" "), wrong


def picture_faults(lines: list[str]) -> list[str]:
    """What is wrong with the first block of docs/ARCHITECTURE.md. A crate of tests may share a row with what it tests."""
    needs = {
        line.partition(":")[0].split()[0]: line.partition(":")[2].split()
        for line in lines
        if line and not line.startswith("#")
    }
    block = PAGE.read_text(encoding="utf-8").split("```\n")[1].splitlines()
    places: dict[str, list[int]] = {crate: [] for crate in needs}
    for row, line in enumerate(block):
        for word in re.findall(r"\w+", line):
            if word in places:
                places[word].append(row)
    faults = [f"{crate} stands there {len(rows)} times" for crate, rows in places.items() if len(rows) != 1]
    for crate, lower in needs.items():
        for other in lower:
            if other not in places or not places[crate] or not places[other]:
                continue
            above = places[crate][0] < places[other][0]
            beside = places[crate][0] == places[other][0] and crate.endswith("_tests")
            if not above and not beside:
                faults.append(f"{crate} stands on {other}, and not above it")
    return faults


def main() -> int:
    lines = LINES.read_text(encoding="utf-8").splitlines()
    ours = {line.partition(":")[0].split()[0] for line in lines if line and not line.startswith("#")}
    results = [checked(line, ours) for line in lines]
    wrong = [fault for _, fault in results if fault]
    if sys.argv[1:] == ["--write"]:
        LINES.write_text("".join(f"{line}\n" for line, _ in results), encoding="utf-8")
        return 0
    misplaced = picture_faults(lines)
    for fault in wrong:
        print(f"crates.txt: {fault}")
    for fault in misplaced:
        print(f"docs/ARCHITECTURE.md, the layers: {fault}")
    print(f"check_layers: {len(ours) - len(wrong)} of {len(ours)} lines name what the crate's files name")
    return 1 if wrong or misplaced else 0


if __name__ == "__main__":
    sys.exit(main())
