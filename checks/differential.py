#!/usr/bin/env python3
"""Whether the tables that `zk` runs are that of docs/SEMANTICS.md, which stands in Python here: over the listings of
checks/golden/machine.golden, and over others that are drawn by a fixed rule.

`zk debug` runs a table with undo records. It shows the tree at each place on the way up, where each step is taken back and made
again, and on the way down, and the answer that leads there; what its `diff` shows is against a table that never goes back.
`zk show` runs a third one, which keeps no more than going forward takes: it shows each list at its end, and the listings of
machine.golden and one drawn list in EACH at every transaction.
"""
import os
import random
import subprocess
import sys
import tempfile
from collections import Counter
from concurrent.futures import ThreadPoolExecutor
from dataclasses import dataclass
from pathlib import Path

ROOT = Path(__file__).resolve().parent.parent
PROGRAM = Path(os.environ.get("ZK", ROOT / "crates" / "zk_cli" / "out" / "zk_cli"))
LISTINGS = ROOT / "checks" / "golden" / "machine.golden"

LISTS = 240
EACH = 8

NONE = "0" * 16
OPEN = '1 31 "world" "anyone"'

PATHS = ("/a", "/a", "/a/b", "/a/b/c", "/d", "/d/e", "/", "/zookeeper/quota")
SESSIONS = ("0000000000000007", "0000000000000008", "ffffffffffffffff", NONE)

# the words before a path and after it; the last two are in no multi
PARTS = (
    ("create", f" x6869 {OPEN} p -1"),
    ("create", f" x6869 {OPEN} p -1"),
    ("create", " - 0 p 5"),
    ("create", ' x 1 1 "world" "anyone" e 2147483647'),
    ("create", " x00 0 e -1"),
    ("delete", ""),
    ("delete", ""),
    ("setData", " x6f6b 2"),
    ("setData", " - -1"),
    ("setACL", ' 1 7 "world" "anyone" 3'),
    ("create0", f" x33 {OPEN} e"),
)
OTHERS = ("createSession 4000", "createSession 5000", "closeSession", "closeSession", "error -110")
LAST_PARTS = ("", "", ' ; check "/a" 0', " ; error -2")

# the expected result somewhere
CODES = {0, -110, -101, -108, -8, -111, -2}

# the code, the path and the stat that an operation answers, a part of a multi too
Answer = tuple[int, str, str]


class Wrong(Exception):
    """What the program does not write as the table says."""


def wrapped(number: int) -> int:
    """A number as 32 bits hold it."""
    return (number + 2**31) % 2**32 - 2**31


def parent_of(path: str) -> str:
    return path.rpartition("/")[0] or "/"


@dataclass
class Txn:
    zxid: str
    session: str
    time: str


@dataclass
class Node:
    """What a report shows of a node, and how many children were ever created below it."""

    made: Txn
    content: str
    acl: str
    owner: str
    mzxid: str
    mtime: str
    pzxid: str
    version: str = "0"
    aversion: str = "0"
    creates: int = 0


class Table:
    """The table: nodes by their paths, and timeouts of open sessions."""

    def __init__(self) -> None:
        first = Txn(NONE, NONE, "0")
        self.nodes = {path: self.node_of(first, "x", OPEN, NONE) for path in ("/", "/zookeeper", "/zookeeper/quota")}
        self.sessions: dict[str, str] = {}
        self.last = NONE

    @staticmethod
    def node_of(txn: Txn, content: str, acl: str, owner: str) -> Node:
        return Node(txn, content, acl, owner, txn.zxid, txn.time, txn.zxid)

    def children(self, path: str) -> int:
        return sum(other != "/" and parent_of(other) == path for other in self.nodes)

    def stat(self, path: str) -> str:
        node, children = self.nodes[path], self.children(path)
        cversion = wrapped(2 * node.creates - children)
        numbers = f"{node.made.time} {node.mtime} {node.version} {cversion} {node.aversion}"
        return f"{node.made.zxid} {node.mzxid} {numbers} {node.owner} {len(node.content) // 2} {children} {node.pzxid}"

    def lines(self) -> dict[str, str]:
        """The line of each node, in the order of their paths."""
        return {path: f'"{path}" {node.content} {node.acl} {self.stat(path)}' for path, node in sorted(self.nodes.items())}

    def tree(self) -> list[str]:
        """The report of the tree."""
        sessions = [f"session {session} {timeout}" for session, timeout in sorted(self.sessions.items())]
        return [f"zxid {self.last}", *sessions, *self.lines().values()]

    def create(self, txn: Txn, path: str, node: Node, count: int) -> int:
        above = self.nodes.get(parent_of(path))
        if path in self.nodes:
            return -110
        if above is None:
            return -101
        if above.owner != NONE:
            return -108
        above.creates = wrapped(above.creates + 1) if count == -1 else count
        above.pzxid = txn.zxid
        self.nodes[path] = node
        return 0

    def delete(self, txn: Txn, path: str) -> int:
        if path == "/":
            return -8
        if path not in self.nodes:
            return -101
        if self.children(path):
            return -111
        del self.nodes[path]
        self.nodes[parent_of(path)].pzxid = txn.zxid
        return 0

    def change(self, txn: Txn, path: str, words: list[str]) -> int:
        """setData, or setACL."""
        node = self.nodes.get(path)
        if node is None:
            return -101
        if words[0] == "setData":
            node.content, node.version = words[2:]
            node.mzxid, node.mtime = txn.zxid, txn.time
        else:
            node.acl, node.aversion = " ".join(words[2:-1]), words[-1]
        return 0

    def operate(self, txn: Txn, words: list[str]) -> Answer:
        """What is no multi and is not about a session."""
        if words[0] == "error":
            return int(words[1]), "-", "-"
        path, stat = words[1].strip('"'), "-"
        match words:
            case ["create", _, content, *acl, kept, count]:
                node = self.node_of(txn, content, " ".join(acl), txn.session if kept == "e" else NONE)
                code = self.create(txn, path, node, int(count))
            case ["create0", *rest]:
                return self.operate(txn, ["create", *rest, "-1"])
            case ["delete", _]:
                code = self.delete(txn, path)
            case ["check", *_]:
                code = 0
            case _:
                code = self.change(txn, path, words)
                stat = "-" if code else self.stat(path)
        return code, words[1], stat

    def multi(self, txn: Txn, parts: list[list[str]]) -> list[Answer]:
        errors = [at for at, words in enumerate(parts) if words[0] == "error"]
        if not errors:
            return [self.operate(txn, words) for words in parts]
        return [
            self.operate(txn, words) if at in errors else (0 if at < errors[0] else -2, words[1], "-")
            for at, words in enumerate(parts)
        ]

    def close(self, txn: Txn) -> None:
        for path in [path for path, node in self.nodes.items() if node.owner == txn.session != NONE]:
            del self.nodes[path]
            self.nodes[parent_of(path)].pzxid = txn.zxid
        self.sessions.pop(txn.session, None)

    def apply(self, line: str) -> list[Answer]:
        """What a listing's line answers, and each part of it."""
        whole, *parts = line.split(" ; ")
        zxid, session, _, time, *words = whole.split(" ")
        txn = Txn(zxid, session, time)
        self.last = zxid
        match words:
            case ["createSession", timeout]:
                self.sessions[session] = timeout
            case ["closeSession"]:
                self.close(txn)
            case ["multi"]:
                answers = self.multi(txn, [part.split(" ") for part in parts])
                return [(next((code for code, _, _ in answers if code), 0), "-", "-"), *answers]
            case _:
                return [self.operate(txn, words)]
        return [(0, "-", "-")]


def difference(old: dict[str, str], new: dict[str, str]) -> list[str]:
    """What `diff` prints for two trees, by the lines of their nodes."""
    told = [f"- {line}" for path, line in old.items() if path not in new]
    for path, line in new.items():
        if path not in old:
            told.append(f"+ {line}")
        elif old[path] != line:
            told += [f"< {old[path]}", f"> {line}"]
    return told or ["none"]


@dataclass
class Expected:
    """What the table comes to over a listing: at each place the zxid, the answer, the nodes and the whole tree."""

    zxids: list[str]
    told: list[str]
    nodes: list[dict[str, str]]
    trees: list[list[str]]
    codes: Counter

    def place(self, at: int) -> str:
        return f"place {at} {self.zxids[at]}"

    def session(self) -> list[tuple[str, list[str]]]:
        """The lines of a session with the debugger, up and down, and the answer to each."""
        talk = [("last", ["none"]), ("tree", self.trees[0])]
        for at in range(1, len(self.zxids)):
            step = ("step", [self.place(at)])
            talk += [step, ("last", [self.told[at]]), ("diff", difference(self.nodes[at - 1], self.nodes[at]))]
            talk += [("back", [self.place(at - 1)]), ("tree", self.trees[at - 1]), step, ("tree", self.trees[at])]
        for at in reversed(range(len(self.zxids) - 1)):
            talk += [("back", [self.place(at)]), ("last", [self.told[at]]), ("tree", self.trees[at])]
        talk += [(f"goto {self.zxids[-1]}", [self.place(len(self.zxids) - 1)]), ("tree", self.trees[-1])]
        return [*talk, ("runback", [self.place(0)]), ("tree", self.trees[0])]


def expected_of(listing: list[str]) -> Expected:
    table = Table()
    it = Expected([NONE], ["none"], [table.lines()], [table.tree()], Counter())
    for line in listing:
        answers = table.apply(line)
        it.codes.update(code for code, _, _ in answers)
        it.zxids.append(table.last)
        it.told.append(f"result {table.last} " + " ; ".join(f"{code} {path} {stat}" for code, path, stat in answers))
        it.nodes.append(table.lines())
        it.trees.append(table.tree())
    return it


def want(what: str, words: list[str], given: list[str], should: list[str], room: str) -> None:
    """A run of the program that prints these lines."""
    script = "".join(line + "\n" for line in given).encode()
    ran = subprocess.run([PROGRAM, *words], cwd=room, input=script, capture_output=True, check=False, timeout=600)
    if (ran.returncode, ran.stderr) != (0, b""):
        raise Wrong(f"{what}: status {ran.returncode}, {ran.stderr!r}")
    lines, wanted = ran.stdout.decode().split("\n"), [*should, ""]
    if lines == wanted:
        return
    at = next((at for at, pair in enumerate(zip(lines, wanted)) if pair[0] != pair[1]), min(len(lines), len(wanted)))
    raise Wrong(f"{what}: line {at + 1} is {lines[at : at + 1]}\nin place of {wanted[at : at + 1]}")


@dataclass
class Played:
    """A listing, and whether it is shown at every transaction."""

    name: str
    listing: list[str]
    each: bool

    def play(self) -> tuple[Counter, int]:
        """The codes of its results, and how often it was shown."""
        it = expected_of(self.listing)
        talk = it.session()
        places = range(len(it.zxids)) if self.each else ()
        with tempfile.TemporaryDirectory() as room:
            want(f"{self.name}: asm", ["asm", "@", "log"], self.listing, [], room)
            answers = [line for _, told in talk for line in told]
            want(f"{self.name}: debug", ["debug", "log"], [command for command, _ in talk], answers, room)
            want(f"{self.name}: show", ["show", "log", "last"], [], [*it.trees[-1], "end whole"], room)
            for at in places:
                zxid = it.zxids[at]
                want(f"{self.name}: show {zxid}", ["show", "log", zxid], [], [*it.trees[at], "end whole"], room)
        return it.codes, 1 + len(places)


def fixed() -> list[Played]:
    """The listings of machine.golden: its files."""
    found: list[Played] = []
    is_file = False
    for line in LISTINGS.read_text(encoding="utf-8").split("\n"):
        if line.startswith("file "):
            found.append(Played(line.split(" ")[1], [], True))
            is_file = True
        elif is_file and line.startswith("  "):
            found[-1].listing.append(line[2:])
        else:
            is_file = False
    return found


def part(draws: random.Random, kinds: int) -> str:
    """An operation on a path, of the first `kinds` kinds."""
    word, rest = draws.choice(PARTS[:kinds])
    return f'{word} "{draws.choice(PATHS)}"{rest}'


def operation(draws: random.Random) -> str:
    match draws.randrange(8):
        case 0:
            return f"multi ; {part(draws, 9)} ; {part(draws, 9)}{draws.choice(LAST_PARTS)}"
        case 1:
            return draws.choice(OTHERS)
        case _:
            return part(draws, len(PARTS))


def drawn(number: int) -> Played:
    """A listing that is drawn by its number, of 12 to 47 transactions."""
    draws = random.Random(number)
    zxids = range(1, 13 + number % 36)
    listing = [f"{zxid:016x} {draws.choice(SESSIONS)} 0 {zxid} {operation(draws)}" for zxid in zxids]
    return Played(f"list {number}", listing, number % EACH == 0)


def main() -> int:
    lists = [*fixed(), *map(drawn, range(LISTS))]
    try:
        with ThreadPoolExecutor(max_workers=os.cpu_count()) as workers:
            played = list(workers.map(Played.play, lists))
    except Wrong as why:
        print(f"differential: {why}")
        return 1
    transactions = sum(len(it.listing) for it in lists)
    shown = sum(times for _, times in played)
    print(f"differential: {len(lists)} lists, {transactions} transactions there and back, {shown} trees shown")
    lacking = CODES - set(sum((codes for codes, _ in played), Counter()))
    if lacking:
        print(f"differential: never answered: {', '.join(map(str, sorted(lacking)))}")
        return 1
    return 0


if __name__ == "__main__":
    sys.exit(main())
