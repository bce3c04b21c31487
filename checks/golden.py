#!/usr/bin/env python3
"""Golden tests: the output and the errors of the proved program, byte for byte, by the files of checks/golden. Each file is
played in a folder of its own. Its lines, where `#` begins a comment:

    file NAME               a file of the lines below
    bytes NAME b'..'        a file of these bytes, as Python writes them
    hex NAME                a file of the bytes of the hexadecimal digits below
    join NAME NAME ..       a file of these files' bytes, one after the other
    times NAME NAME N       a file of N copies of another file's bytes
    cut NAME NAME N         a file of another file's first N bytes
    patch NAME NAME AT HEX  a file of another file's bytes, but with these from AT on, in hexadecimal digits
    size NAME N             the file has N bytes
    same NAME NAME          both files have the same bytes
    zk WORD ..              a run of the program, by a shell's words; a last word `<NAME` is its standard input. Below stand
                            `> LINE`, a line of its standard input, `! LINE`, a line of its standard error, and the lines
                            of its standard output, `~ LINE` the last one where it has no newline. The status is 1 if there
                            is an error, and else 0
    cuts NAME N M WORD ..   for each number from N to M, such a run with as many of the file's first bytes as its standard input;
                            each has the output and the error below
    usage WORD ..           a run with status 2 and no output; below stands the first line of its standard error
    malformed NAME WORD ..  runs of the program with the lines of a file on standard input, each after these with one of the
                            lines below, which are quoted as Python quotes: the error is the number of that line

What belongs to a line is below it, after two spaces. `golden.py NAME ..` plays the tables of these names alone.
"""
import ast
import os
import shlex
import subprocess
import sys
import tempfile
from collections import Counter
from dataclasses import dataclass, field
from pathlib import Path

ROOT = Path(__file__).resolve().parent.parent
PROGRAM = Path(os.environ.get("ZK", ROOT / "crates" / "zk_cli" / "out" / "zk_cli"))
TABLES = ROOT / "checks" / "golden"
# marks of lines that are no line of the standard output: of the input, of the errors, and a last one without a newline
MARKS = ("> ", "! ", "~ ")


class Wrong(Exception):
    """A row that is not so."""


@dataclass
class Entry:
    """A line of a table, and what belongs to it."""

    number: int
    words: list[str]
    below: list[str] = field(default_factory=list)

    def bytes_below(self) -> bytes:
        return as_lines(self.below)


def as_lines(lines: list[str]) -> bytes:
    return "".join(line + "\n" for line in lines).encode()


def entries_of(table: Path) -> list[Entry]:
    """The lines of a table, with what belongs to each."""
    entries: list[Entry] = []
    for number, line in enumerate(table.read_text(encoding="utf-8").split("\n"), 1):
        if line.startswith("  "):
            entries[-1].below.append(line[2:])
        elif line and not line.startswith("#"):
            words = line.split(" ", 2) if line.startswith("bytes ") else shlex.split(line)
            entries.append(Entry(number, words))
    return entries


def marked(lines: list[str], mark: str) -> list[str]:
    """The lines that begin with a mark, without it."""
    return [line[len(mark) :] for line in lines if line.startswith(mark)]


def run(words: list[str], given: bytes, room: Path) -> tuple[int, bytes, bytes]:
    """The program's status, output and errors."""
    ran = subprocess.run([PROGRAM, *words], cwd=room, input=given, capture_output=True, check=False, timeout=600)
    return ran.returncode, ran.stdout, ran.stderr


def status_with(told: bytes) -> int:
    """The status of a run with these errors, or with a notice."""
    return 1 if told and not told.startswith(b"zk: begins ") else 0


def want(ran: tuple[int, bytes, bytes], wanted: tuple[int, bytes, bytes]) -> None:
    for name, is_so, should in zip(("status", "output", "errors"), ran, wanted):
        if is_so != should:
            raise Wrong(f"{name}: {is_so!r}\nin place of {should!r}")


def check_run(room: Path, words: list[str], below: list[str]) -> None:
    """A run with the output and the errors below it."""
    given = as_lines(marked(below, "> "))
    if words[-1].startswith("<"):
        given = (room / words.pop()[1:]).read_bytes()
    told = as_lines(marked(below, "! "))
    written = as_lines([line for line in below if line[:2] not in MARKS]) + "".join(marked(below, "~ ")).encode()
    want(run(words, given, room), (status_with(told), written, told))


def check_cuts(room: Path, name: str, first: int, last: int, words: list[str], below: list[str]) -> None:
    """Runs over a file's first bytes, in growing number, which all come to the same."""
    whole = (room / name).read_bytes()
    told = as_lines(marked(below, "! "))
    written = as_lines([line for line in below if line[:2] not in MARKS])
    for length in range(first, last + 1):
        try:
            want(run(words, whole[:length], room), (status_with(told), written, told))
        except Wrong as wrong:
            raise Wrong(f"{length} bytes: {wrong}") from wrong


def patched(whole: bytes, at: int, part: bytes) -> bytes:
    """The bytes with a part of their own length put over them, which may reach beyond their end."""
    return whole[:at] + part + whole[at + len(part) :]


def check_usage(room: Path, words: list[str], below: list[str]) -> None:
    """A command line that is rejected."""
    status, output, errors = run(words, b"", room)
    want((status, output, errors.split(b"\n")[0]), (2, b"", below[0].encode()))


def check_malformed(room: Path, start: str, words: list[str], below: list[str]) -> None:
    """Malformed lines after a start."""
    front = (room / start).read_bytes()
    number = front.count(b"\n") + 1
    for line in below:
        script = front + ast.literal_eval(line).encode() + b"\n" + front
        status, _, errors = run(words, script, room)
        if (status, errors) != (1, f"zk: script {number}\n".encode()):
            raise Wrong(f"{line}: status {status}, {errors!r}")


def play(room: Path, entry: Entry, counts: Counter) -> None:
    """Does what a line of a table says."""
    match entry.words:
        case ["file", name]:
            (room / name).write_bytes(entry.bytes_below())
        case ["bytes", name, literal]:
            (room / name).write_bytes(ast.literal_eval(literal))
        case ["hex", name]:
            (room / name).write_bytes(bytes.fromhex("".join(entry.below)))
        case ["join", name, *parts]:
            (room / name).write_bytes(b"".join((room / part).read_bytes() for part in parts))
        case ["times", name, part, number]:
            (room / name).write_bytes((room / part).read_bytes() * int(number))
        case ["cut", name, whole, length]:
            (room / name).write_bytes((room / whole).read_bytes()[: int(length)])
        case ["patch", name, whole, at, digits]:
            (room / name).write_bytes(patched((room / whole).read_bytes(), int(at), bytes.fromhex(digits)))
        case ["size", name, size]:
            if (room / name).stat().st_size != int(size):
                raise Wrong(f"{name} has another size")
        case ["same", one, other]:
            if (room / one).read_bytes() != (room / other).read_bytes():
                raise Wrong(f"{one} is not {other}")
        case ["zk", *words]:
            check_run(room, words, entry.below)
            counts["runs"] += 1
        case ["cuts", name, first, last, *words]:
            check_cuts(room, name, int(first), int(last), words, entry.below)
            counts["runs"] += int(last) - int(first) + 1
        case ["usage", *words]:
            check_usage(room, words, entry.below)
            counts["usages"] += 1
        case ["malformed", start, *words]:
            check_malformed(room, start, words, entry.below)
            counts["malformed lines"] += len(entry.below)
        case _:
            raise Wrong("no line of a table")


def main() -> int:
    counts: Counter = Counter()
    wrong = 0
    for table in [TABLES / f"{name}.golden" for name in sys.argv[1:]] or sorted(TABLES.glob("*.golden")):
        with tempfile.TemporaryDirectory() as room:
            for entry in entries_of(table):
                try:
                    play(Path(room), entry, counts)
                except (Wrong, OSError, ValueError, subprocess.TimeoutExpired) as error:
                    wrong += 1
                    print(f"{table.name}:{entry.number}: {error}", file=sys.stderr)
    print("golden:", ", ".join(f"{count} {name}" for name, count in sorted(counts.items())))
    return 1 if wrong or not counts else 0


if __name__ == "__main__":
    sys.exit(main())
