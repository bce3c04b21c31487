#!/usr/bin/env python3
"""Whether `zk files` accepts and rejects edited snapshots as the format says, which a reader in Python states here.

The small snapshots of examples/, which real servers wrote, are edited by a fixed rule: fields and bytes are changed, ranges are
cut out or repeated, and the file is cut off or extended. Mostly the checksums are made right again, so that other errors show.
Each line of `zk files` must have the snapshot's number of nodes and sessions and the zxid from which a replay is exact, or the
error of the first field from the left that cannot be read.
"""
import lzma
import os
import random
import struct
import subprocess
import sys
import tempfile
import zlib
from collections import Counter
from collections.abc import Callable
from dataclasses import dataclass, field
from pathlib import Path

ROOT = Path(__file__).resolve().parent.parent
PROGRAM = Path(os.environ.get("ZK", ROOT / "crates" / "zk_cli" / "out" / "zk_cli"))

# how many edited snapshots, how many a folder holds, and the size of the largest that is edited
SNAPSHOTS = 600
EACH = 60
LARGEST = 20_000

# what must come out at least three times
OUTCOMES = ("nodes", "S1", "S2", "S3", "S4", "S5", "S6")

GZIP = b"\x1f\x8b"
SNAPPY = b"\x82SNAPPY\0"
HEADER = b"ZKSN\0\0\0\x02"

# the fields of `StatPersisted` between the mzxid and the pzxid: times, versions and the owner
STAT = ("!q", "!q", "!i", "!i", "!i", "!q")


class Fault(Exception):
    """Why bytes are no snapshot."""


def is_bad(char: str) -> bool:
    """Whether no path has this character."""
    code = ord(char)
    return code < 0x20 or 0x7F <= code < 0xA0 or 0xE000 <= code < 0xF900 or code >= 0xFFF0


def is_path(text: str) -> bool:
    """Whether a node's path is stored so: the root is the empty text."""
    if text == "":
        return True
    names = text.split("/")
    return names[0] == "" and all(name not in ("", ".", "..") and not any(map(is_bad, name)) for name in names[1:])


@dataclass
class Reader:
    """Reads from the left. It records the offset of each number and of each length, and where each node begins and ends."""

    data: bytes
    at: int = 0
    numbers: list[tuple[int, str]] = field(default_factory=list)
    lengths: list[int] = field(default_factory=list)
    nodes: list[tuple[int, int]] = field(default_factory=list)
    sessions: int = 0
    latest: int = 0

    def take(self, size: int) -> bytes:
        if len(self.data) - self.at < size:
            raise Fault("S2")
        self.at += size
        return self.data[self.at - size : self.at]

    def number(self, kind: str) -> int:
        self.numbers.append((self.at, kind))
        return struct.unpack(kind, self.take(struct.calcsize(kind)))[0]

    def int32(self) -> int:
        return self.number("!i")

    def int64(self) -> int:
        return self.number("!q")

    def length(self, least: int = 0) -> int:
        self.lengths.append(self.at)
        length = self.int32()
        if length < least:
            raise Fault("S3")
        return length

    def content(self) -> None:
        length = self.length(least=-1)
        if length > 0:
            self.take(length)

    def text(self) -> str:
        try:
            return self.take(self.length()).decode()
        except UnicodeDecodeError:
            raise Fault("S3") from None

    def zxid(self) -> None:
        self.latest = max(self.latest, self.int64())

    def node(self) -> bool:
        """Reads a node, or the end of the nodes."""
        start = self.at
        path = self.text()
        if path == "/":
            return False
        if not is_path(path):
            raise Fault("S3")
        self.content()
        self.int64()
        self.zxid()
        self.zxid()
        for kind in STAT:
            self.number(kind)
        self.zxid()
        self.nodes.append((start, self.at))
        return True

    def seal(self) -> None:
        """Reads the checksum of all bytes before it, and its end."""
        before = self.data[: self.at]
        if self.int64() != zlib.adler32(before):
            raise Fault("S4")
        if self.text() != "/":
            raise Fault("S3")

    def body(self) -> None:
        """Reads all before the first checksum."""
        if len(self.data) < 16:
            raise Fault("S1")
        if not self.data.startswith(HEADER):
            raise Fault("S6" if self.data.startswith((GZIP, SNAPPY)) else "S1")
        self.take(16)
        self.sessions = self.length()
        for _ in range(self.sessions):
            self.int64()
            self.int32()
        for _ in range(self.length()):
            self.int64()
            for _ in range(self.length()):
                self.int32()
                self.text()
                self.text()
        while self.node():
            pass

    def claim(self) -> int | None:
        """Reads the digest after the first checksum, if there is one, up to the end. Returns its zxid."""
        if self.at == len(self.data):
            return None
        zxid = self.int64()
        self.int32()
        self.int64()
        self.seal()
        if self.at < len(self.data):
            raise Fault("S5")
        return zxid


def expected(data: bytes, name: int) -> str:
    """The line of a snapshot, without its name."""
    reader = Reader(data, latest=name)
    try:
        reader.body()
        reader.seal()
        claim = reader.claim()
    except Fault as fault:
        return str(fault)
    exact, later = (reader.latest, " or later") if claim is None or claim < name else (max(reader.latest, claim), "")
    return f"nodes {len(reader.nodes)} sessions {reader.sessions} exact {exact % 2**64:016x}{later}"


def sealed(data: bytes) -> bytes:
    return data + struct.pack("!qi", zlib.adler32(data), 1) + b"/"


@dataclass
class Parts:
    """A snapshot to be edited: the bytes before the first checksum, and the digest's 20 bytes."""

    body: bytes
    claim: bytes
    reader: Reader

    @staticmethod
    def of(data: bytes) -> "Parts":
        reader = Reader(data)
        reader.body()
        return Parts(data[: reader.at], data[reader.at + 13 : reader.at + 33], reader)

    def file(self, body: bytes) -> bytes:
        """A file with another body and right checksums."""
        first = sealed(body)
        return sealed(first + self.claim) if self.claim else first


# changes a snapshot, by a source of random numbers
Edit = Callable[[Parts, random.Random], bytes]


def put(data: bytes, at: int, new: bytes) -> bytes:
    return data[:at] + new + data[at + len(new) :]


def other_length(parts: Parts, chance: random.Random) -> bytes:
    at = chance.choice([it for it in parts.reader.lengths if it < len(parts.body)])
    old = struct.unpack_from("!i", parts.body, at)[0]
    new = chance.choice((-1, -2, 0, old + 1, old - 1, 2**31 - 1, -(2**31)))
    return parts.file(put(parts.body, at, struct.pack("!i", max(-(2**31), new))))


def other_number(parts: Parts, chance: random.Random) -> bytes:
    lengths = set(parts.reader.lengths)
    at, kind = chance.choice([it for it in parts.reader.numbers if it[0] not in lengths and it[0] < len(parts.body)])
    bits = 8 * struct.calcsize(kind) - 1
    new = chance.choice((-1, 0, 1, 2**bits - 1, -(2**bits), chance.randrange(2**bits)))
    return parts.file(put(parts.body, at, struct.pack(kind, new)))


def other_text(parts: Parts, chance: random.Random) -> bytes:
    start = chance.choice(parts.reader.nodes)[0]
    length = struct.unpack_from("!i", parts.body, start)[0]
    at = start + 4 + chance.randrange(max(1, length))
    return parts.file(put(parts.body, at, chance.choice((b"/", b".", b"\0", b"\x7f", b"\xff", b"\xc3", b"a"))))


def other_byte(parts: Parts, chance: random.Random) -> bytes:
    return parts.file(put(parts.body, chance.randrange(len(parts.body)), chance.randbytes(1)))


def cut_out(parts: Parts, chance: random.Random) -> bytes:
    at = chance.randrange(len(parts.body))
    return parts.file(parts.body[:at] + parts.body[at + chance.randrange(1, 40) :])


def repeated(parts: Parts, chance: random.Random) -> bytes:
    at = chance.randrange(len(parts.body))
    end = at + chance.randrange(1, 40)
    return parts.file(parts.body[:end] + parts.body[at:])


def other_nodes(parts: Parts, chance: random.Random) -> bytes:
    start, end = chance.choice(parts.reader.nodes)
    nodes = chance.choice((b"", 2 * parts.body[start:end]))
    return parts.file(parts.body[:start] + nodes + parts.body[end:])


def other_claim(parts: Parts, chance: random.Random) -> bytes:
    claim = chance.choice((b"", chance.randbytes(20), struct.pack("!qiq", chance.choice((-1, 0, 2**63 - 1)), 2, 0)))
    return Parts(parts.body, claim, parts.reader).file(parts.body)


def other_end(parts: Parts, chance: random.Random) -> bytes:
    """The text after a checksum is another one."""
    first = sealed(parts.body)[:-1] + chance.choice((b"a", b"\xff"))
    return sealed(first + parts.claim) if parts.claim else first


def other_byte_unsealed(parts: Parts, chance: random.Random) -> bytes:
    data = parts.file(parts.body)
    return put(data, chance.randrange(len(data)), chance.randbytes(1))


def cut_off(parts: Parts, chance: random.Random) -> bytes:
    data = parts.file(parts.body)
    return data[: chance.choice((chance.randrange(len(data)), chance.randrange(40), len(data) - chance.randrange(1, 60)))]


def extended(parts: Parts, chance: random.Random) -> bytes:
    return parts.file(parts.body) + chance.randbytes(chance.choice((1, 7, 8, 20, 33)))


def other_head(parts: Parts, chance: random.Random) -> bytes:
    return put(parts.file(parts.body), 0, chance.choice((GZIP, SNAPPY, b"ZKLG", HEADER[:-1] + b"\x03")))


def unchanged(parts: Parts, chance: random.Random) -> bytes:
    return parts.file(parts.body)


EDITS: tuple[Edit, ...] = (
    *(2 * (other_length, other_number, other_text, other_byte, cut_out, repeated, other_nodes, other_claim)),
    *(other_end, other_byte_unsealed, cut_off, extended, other_head, unchanged),
)


def examples() -> list[Parts]:
    """The snapshots of examples/, also those that xz packed."""
    found = []
    for path in sorted((ROOT / "examples").rglob("snapshot.*")):
        data = lzma.decompress(path.read_bytes()) if path.suffix == ".xz" else path.read_bytes()
        if len(data) <= LARGEST:
            found.append(Parts.of(data))
    if not found:
        sys.exit("examples/ has no small snapshot")
    return found


def names(chance: random.Random, count: int) -> list[int]:
    """The zxids in the names of a folder's snapshots, each once."""
    found: set[int] = set()
    while len(found) < count:
        found.add(chance.choice((chance.randrange(2**10), 2**32 + chance.randrange(2**12), chance.randrange(2**63))))
    return sorted(found)


def told(folder: Path) -> dict[str, str]:
    """The line of each file, by its name."""
    run = subprocess.run([PROGRAM, "files", folder], capture_output=True, text=True, timeout=600)
    if run.returncode != 0 or run.stderr:
        sys.exit(f"zk files {folder}: status {run.returncode}: {run.stderr.strip()}")
    return {name: rest for name, _, rest in (line.partition(" ") for line in run.stdout.splitlines())}


def compare(folder: Path, parts: list[Parts], chance: random.Random, outcomes: Counter) -> int:
    """Compares the lines of a folder of edited snapshots. Returns how many differ."""
    wanted = {}
    for zxid in names(chance, EACH):
        edit = chance.choice(EDITS)
        data = edit(chance.choice(parts), chance)
        (folder / f"snapshot.{zxid:x}").write_bytes(data)
        wanted[f"snapshot.{zxid:x}"] = (expected(data, zxid), edit.__name__)
    lines, wrong = told(folder), 0
    for name, (line, edit_name) in wanted.items():
        outcomes[line.split()[0]] += 1
        if lines.get(name) != line:
            print(f"{edit_name}: {name} {lines.get(name)}\n  expected {line}")
            wrong += 1
    return wrong + len(lines.keys() - wanted.keys())


def main() -> int:
    chance, parts = random.Random(20261127), examples()
    outcomes, wrong = Counter(), 0
    for _ in range(SNAPSHOTS // EACH):
        with tempfile.TemporaryDirectory() as folder:
            wrong += compare(Path(folder), parts, chance, outcomes)
    seldom = [it for it in OUTCOMES if outcomes[it] < 3]
    print(f"{SNAPSHOTS} edited snapshots of {len(parts)}, {wrong} differ: " + ", ".join(f"{outcomes[it]} {it}" for it in OUTCOMES))
    if seldom:
        print(f"too seldom: {', '.join(seldom)}")
    return 1 if wrong or seldom else 0


if __name__ == "__main__":
    sys.exit(main())
