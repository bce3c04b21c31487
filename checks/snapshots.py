#!/usr/bin/env python3
"""`zk snapshot` over the real directories of examples/directories, as of some of their transactions and times. `zk show` of a
directory that has only the snapshot prints the tree that it prints of the directory, and a server of ZooKeeper 3.8.0 (Debian's
`zookeeper`) that starts on it serves the same nodes to kazoo, and computes the digest that the snapshot states. With the logs that
continue it the server finds the digest of each of their records. As of a snapshot of a server's, the written one has the same contents:
sessions, nodes with their lists, owners that no client sees, and the digest. Where `zk show` has a fault, so has `zk snapshot`, and
writes nothing.

usage: snapshots.py"""
import re
import shutil
import socket
import struct
import subprocess
import tarfile
import tempfile
from contextlib import contextmanager
from pathlib import Path
from random import randrange

from lib import PROGRAM, ROOT, client, until

DIRECTORIES = ROOT / "examples" / "directories"
JAVA = "/usr/share/java"
CLASSES = f"{JAVA}/zookeeper.jar:{JAVA}/slf4j-simple.jar"

# Sessions expire at multiples of a tick, and none is to expire while its nodes are read.
CONFIGURATION = """tickTime=600000
minSessionTimeout=4000
dataDir={data}
clientPort={port}
clientPortAddress=127.0.0.1
admin.enableServer=false
4lw.commands.whitelist=mntr
"""

# a directory, the last transactions of its snapshots, and the last one of those that logs continue
POINTS = [
    ("follower", ["last", "00000002000000d6", "0x2000000b6", "2026-11-27T14:56:48.220", "000000020000013d"], "00000002000000e7"),
    ("lone", ["last", "0x31d", "0x330", "0x3c0"], "0x330"),
    ("epochs", ["last"], None),
    ("upper", ["last"], None),
]

# a directory, and snapshots in it that are exact as of their own zxids
EXACT = [("follower", 0x20000004E), ("follower", 0x2000000D6), ("lone", 0x31D)]

# a directory and a transaction or time that it does not prove
FAULTS = [
    ("follower", "000000020000004d"),
    ("follower", "2026-11-28T00:00"),
    ("follower", "0x200000140"),
    ("servers/one", "last"),
    ("servers", "last"),
    ("none", "last"),
]


def run(*words):
    done = subprocess.run([PROGRAM, *map(str, words)], capture_output=True, check=False)
    return done.returncode, done.stdout, done.stderr.decode()


def report(directory, at):
    """The lines of `zk show`, and its notices."""
    status, printed, notices = run("show", directory, at)
    assert status == 0, (directory, at, notices)
    return printed.decode().splitlines(), notices


def tree_of(lines):
    return [line for line in lines if line.startswith(("zxid ", "session ", '"'))]


def last_of(lines):
    return int(lines[0].removeprefix("zxid "), 16)


# ---- servers


def quoted(text):
    return '"' + text.replace("\\", "\\\\").replace('"', '\\"') + '"'


def node_line(path, content, acls, stat):
    """A node that a server has, as `zk show` prints it."""
    content = "-" if content is None else f"x{content.hex()}"
    acl = "".join(f" {it.perms} {quoted(it.id.scheme)} {quoted(it.id.id)}" for it in acls)
    czxid, mzxid, owner, pzxid = (f"{number & (2**64 - 1):016x}" for number in (stat.czxid, stat.mzxid, stat.ephemeralOwner, stat.pzxid))
    return (
        f"{quoted(path)} {content} {len(acls)}{acl} {czxid} {mzxid} {stat.ctime} {stat.mtime} {stat.version} {stat.cversion} {stat.aversion}"
        f" {owner} {stat.dataLength} {stat.numChildren} {pzxid}"
    )


def lines_at(zk, path="/"):
    content, stat = zk.get(path)
    lines = [node_line(path, content, zk.get_acls(path)[0], stat)]
    for name in zk.get_children(path):
        lines += lines_at(zk, path.rstrip("/") + "/" + name)
    return lines


def word(port, text):
    """What a server says to a word of four letters."""
    with socket.create_connection(("127.0.0.1", port), 10) as connection:
        connection.sendall(text)
        return b"".join(iter(lambda: connection.recv(4096), b"")).decode()


@contextmanager
def server(data):
    """A server on a data directory: its port, and the file of its messages. A port may be taken: three are tried."""
    for _ in range(3):
        port = randrange(20000, 60000)
        configuration, messages = data / "zoo.cfg", data / "messages"
        configuration.write_text(CONFIGURATION.format(data=data, port=port))
        words = ["java", "-Dzookeeper.skipACL=yes", "-Dzookeeper.extendedTypesEnabled=true", "-cp", CLASSES, "org.apache.zookeeper.server.ZooKeeperServerMain", configuration]
        with open(messages, "w", encoding="utf-8") as output:
            process = subprocess.Popen(words, stdin=subprocess.DEVNULL, stdout=output, stderr=subprocess.STDOUT)
        try:
            until(lambda: process.poll() is not None or "zk_version" in word(port, b"mntr"), f"a server of {data}")
            if process.poll() is None:
                yield port, messages
                return
        finally:
            process.kill()
            process.wait()
    raise AssertionError(f"no server starts on {data}: {messages.read_text()[-2000:]}")


def served(data):
    """What a server that starts on a data directory has: its zxid, the digest of its tree, that of its snapshot, and its nodes."""
    with server(data) as (port, messages):
        with client(f"127.0.0.1:{port}") as zk:
            nodes = lines_at(zk)
        counted = re.search(r"zk_digest_mismatches_count\t(\d+)", word(port, b"mntr"))
        assert counted[1] == "0", counted[0]
        text = messages.read_text()
    loaded = re.search(r"highest zxid is 0x([0-9a-f]+), digest is (\d+)", text)
    stated = re.search(r"The digest in the snapshot has digest version of 2, with zxid as 0x([0-9a-f]+), and digest value as (\d+)", text)
    assert "Digests are not matching" not in text and "digest mismatch" not in text, text[-2000:]
    return int(loaded[1], 16), int(loaded[2]), (int(stated[1], 16), int(stated[2])), sorted(nodes)


# ---- snapshots


class Reader:
    """The fields of a snapshot's bytes, from the left."""

    def __init__(self, data):
        self.data, self.at = data, 0

    def take(self, form):
        values = struct.unpack_from(">" + form, self.data, self.at)
        self.at += struct.calcsize(">" + form)
        return values if len(values) > 1 else values[0]

    def buffer(self):
        length = self.take("i")
        if length < 0:
            return None
        self.at += length
        return self.data[self.at - length : self.at]

    def acl(self):
        return [(self.take("i"), self.buffer(), self.buffer()) for _ in range(self.take("i"))]


def contents_of(data):
    """What a snapshot holds, in any order of its nodes and with any numbers of its lists."""
    reader = Reader(data)
    header = reader.take("4siq")
    sessions = {reader.take("q"): reader.take("i") for _ in range(reader.take("i"))}
    lists = {reader.take("q"): reader.acl() for _ in range(reader.take("i"))}
    lists[-1] = [(31, b"world", b"anyone")]
    nodes = {}
    while (path := reader.buffer()) != b"/":
        content, acl = reader.buffer(), reader.take("q")
        nodes[path] = (content, lists[acl], reader.take("qqqqiiiqq"))
    seal, claim, end = reader.take("q5s"), reader.take("qiq"), reader.take("q5s")
    assert reader.at == len(data) and seal[1] == end[1] == b"\0\0\0\1/"
    return header, sessions, nodes, claim


def check_contents(directory, zxid):
    """The snapshot as of a server's own has what that one has."""
    real = (directory / f"snapshot.{zxid:x}").read_bytes()
    status, snapshot, _ = run("snapshot", directory, "@", "--at", hex(zxid))
    assert status == 0, (directory, hex(zxid))
    ours, theirs = contents_of(snapshot), contents_of(real)
    assert ours == theirs, [(path, ours[2].get(path), theirs[2].get(path)) for path in ours[2] | theirs[2] if ours[2].get(path) != theirs[2].get(path)] or (ours, theirs)


def written(directory, at, room):
    """A data directory that has only the snapshot of a state; with the report of the state."""
    lines, notices = report(directory, at)
    inner = room / "version-2"
    inner.mkdir(parents=True)
    snapshot = inner / f"snapshot.{last_of(lines):x}"
    words = ["snapshot", directory, snapshot] if at == "last" else ["snapshot", directory, snapshot, "--at", at]
    assert run(*words) == (0, b"", notices), (words, notices)
    assert run("snapshot", "--at", at, directory, "@") == (0, snapshot.read_bytes(), notices)
    return lines, snapshot


def check_point(directory, at, room):
    lines, snapshot = written(directory, at, room)
    last = last_of(lines)
    shown, notices = report(room, "last")
    expected = [*tree_of(lines), f"base {snapshot.name} {last:016x}", "end none"]
    assert (shown, notices) == (expected, f"zk: ends {last:016x}\n"), (directory, at, shown, notices)
    # its own snapshot is the same
    assert run("snapshot", room, "@")[:2] == (0, snapshot.read_bytes()), (directory, at)
    zxid, digest, stated, nodes = served(room)
    assert (zxid, stated) == (last, (last, digest)), (directory, at, zxid, digest, stated)
    found = sorted(line for line in lines if line.startswith('"'))
    assert nodes == found, (directory, at, [line for line in nodes if line not in found], [line for line in found if line not in nodes])
    return len(nodes)


def check_continued(directory, at, room):
    """A snapshot and the logs that continue it lead a server to its last state."""
    _, snapshot = written(directory, at, room)
    for log in directory.glob("log.*"):
        shutil.copy(log, snapshot.parent)
    lines, _ = report(directory, "last")
    shown, _ = report(room, "last")
    assert tree_of(shown) == tree_of(lines), (directory, at)
    zxid, _, _, nodes = served(room)
    assert (zxid, nodes) == (last_of(lines), sorted(line for line in lines if line.startswith('"'))), (directory, at)


def check_fault(directory, at, room):
    """The fault of `zk show`. The output is not created, or stays as it was."""
    status, _, line = run("show", directory, at)
    assert status == 1 and line.startswith("zk: "), (directory, at, status, line)
    new, old = room / "new", room / "old"
    old.write_text("kept")
    for out in (new, old):
        assert run("snapshot", directory, out, "--at", at) == (1, b"", line), (directory, at, line)
    assert not new.exists() and old.read_text() == "kept", (directory, at)


def check_output(room):
    """An output that cannot be written, or is there already."""
    real = DIRECTORIES / "follower"
    for out in (room / "none" / "out", room, "/dev/full"):
        assert run("snapshot", real, out) == (1, b"", "zk: write\n"), out
    out = room / "out"
    out.write_bytes(bytes(100_000))
    assert run("snapshot", real, out)[0] == 0
    assert run("snapshot", real, "@")[:2] == (0, out.read_bytes())


def main():
    with tempfile.TemporaryDirectory() as work:
        room = Path(work)
        places = {name: DIRECTORIES / name for name in ("follower", "lone", "servers", "servers/one", "none")}
        places["epochs"] = room / "epochs"
        shutil.copytree(DIRECTORIES / "epochs", places["epochs"])
        for log in places["follower"].glob("log.*"):
            shutil.copy(log, places["epochs"])
        with tarfile.open(DIRECTORIES / "upper.tar.xz") as archive:
            archive.extractall(room / "archive")
        places["upper"] = next((room / "archive").rglob("log.*")).parent
        points = nodes = 0
        for name, zxids, continued in POINTS:
            for at in zxids:
                nodes += check_point(places[name], at, room / f"{name}-{points}")
                points += 1
            if continued:
                check_continued(places[name], continued, room / f"{name}-continued")
        for name, zxid in EXACT:
            check_contents(places[name], zxid)
        for name, at in FAULTS:
            check_fault(places[name], at, room)
        check_output(room)
    print(f"snapshots: {points} of {len(POINTS)} directories, on which servers of ZooKeeper's have {nodes} nodes; {len(EXACT)} as servers wrote them; {len(FAULTS)} faults")


main()
