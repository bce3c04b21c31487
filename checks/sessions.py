#!/usr/bin/env python3
"""`zk sessions` and `zk session` over real directories, compared with a reader of logs and snapshots in Python: the records are
those of ZooKeeper's jute files, as checks/incidents.py reads them. And over the log of a server that returned its open sessions and its
nodes at eight zxids: examples/real.

usage: sessions.py [--print] [DIR ..]"""
import json
import subprocess
import sys
import tempfile
from collections import Counter
from pathlib import Path

from incidents import CLOSE, CREATES, MULTI, OTHERS, PROGRAM, ROOT, Reader, moment, printed, quoted, range_line, records_in, same, writes_of

OPEN = -10
WORDS = {**CREATES, **OTHERS, MULTI: "multi", OPEN: "createSession", CLOSE: "closeSession"}


def first_snapshot(directory):
    """The sessions of the first snapshot with their timeouts, and its ephemeral nodes: path, session, czxid and ctime."""
    snapshots = sorted(directory.glob("snapshot.*"), key=lambda file: int(file.name[9:], 16))
    if not snapshots:
        return {}, []
    body = Reader(snapshots[0].read_bytes())
    body.at = 16
    leases = {session & (2**64 - 1): timeout for session, timeout in ((body.take("q"), body.take("i")) for _ in range(body.take("i")))}
    for _ in range(body.take("i")):
        body.take("q")
        for _ in range(body.take("i")):
            body.take("i")
            body.text()
            body.text()
    nodes = []
    while (path := body.text()) != "/":
        body.buffer()
        body.take("q")
        czxid, _, ctime, _, *_, owner, _ = (body.take(form) for form in "qqqqiiiqq")
        if owner and owner != -(2**63) and not -(2**56) <= owner < 0:
            nodes.append((path, owner & (2**64 - 1), czxid, ctime))
    return leases, nodes


class Session:
    def __init__(self):
        self.opened = self.timeout = self.ended = None
        self.writes = self.created = self.deleted = self.left = 0

    def facts(self):
        opened = f"{moment(self.opened[1])} {self.opened[0]:016x}" if self.opened else "unknown"
        ended = f"{'expired' if self.ended[2] else 'closed'} {moment(self.ended[1])} {self.ended[0]:016x}" if self.ended else "open"
        timeout = "unknown" if self.timeout is None else self.timeout
        return f"opened {opened} timeout {timeout} writes {self.writes} created {self.created} deleted {self.deleted} left {self.left} {ended}"


class Known:
    """The sessions and the ephemeral nodes so far."""

    def __init__(self, directory):
        self.sessions, self.owners = {}, {}
        leases, nodes = first_snapshot(directory)
        first = min(int(file.name[4:], 16) for file in directory.glob("log.*"))
        for session, timeout in leases.items():
            self.session(session).timeout = timeout
        for path, session, czxid, _ in nodes:
            if czxid < first:
                self.owners[path] = session
                self.session(session).left += 1

    def session(self, number):
        return self.sessions.setdefault(number, Session())

    def lose(self, path):
        if path in self.owners:
            owner = self.session(self.owners.pop(path))
            owner.deleted += 1
            owner.left -= 1

    def follow(self, number, cxid, zxid, time, kind, body):
        """The paths that the record creates, changes or deletes."""
        session = self.session(number)
        if kind == OPEN:
            session.opened, session.timeout, session.ended = (zxid, time), body.take("i"), None
            return []
        if kind == CLOSE:
            owned = sorted((path for path, owner in self.owners.items() if owner == number), key=str.encode)
            paths = [body.text() for _ in range(body.take("i"))] if len(body.data) - body.at > 12 else owned
            for path in paths:
                self.lose(path)
            session.ended = (zxid, time, cxid == 0)
            return paths
        writes = writes_of(kind, body)
        session.writes += len(writes)
        for path, what, ends in writes:
            if what.startswith(("create", "delete")):
                self.lose(path)
            if ends:
                self.owners[path] = number
                session.created += 1
                session.left += 1
        return [path for path, _, _ in writes]


def lives(directory):
    """What is known at the end, and of each session the lines of its transactions."""
    known, lines = Known(directory), {}
    for session, cxid, zxid, time, kind, body in records_in(directory):
        word = WORDS.get(kind, "error")
        paths = known.follow(session, cxid, zxid, time, kind, body)
        expired = " expired" if kind == CLOSE and cxid == 0 else ""
        line = f"{moment(time)} {zxid:016x} {word} {session:016x}{expired}" + "".join(" " + quoted(path) for path in paths)
        lines.setdefault(session, []).append(line)
    return known, lines


def object_of(number, session):
    """The JSON object of a session."""
    opened, ended = session.opened or (None, None), session.ended or (None, None, None)
    return {
        "session": f"0x{number:x}",
        "openedZxid": opened[0] and f"0x{opened[0]:x}",
        "openedTime": opened[1] and moment(opened[1]),
        "timeout": session.timeout,
        **{name: getattr(session, name) for name in ("writes", "created", "deleted", "left")},
        "end": "open" if not session.ended else "expired" if ended[2] else "closed",
        "endZxid": ended[0] and f"0x{ended[0]:x}",
        "endTime": ended[1] and moment(ended[1]),
    }


def signed(number):
    """The order of sessions is that of their signed numbers."""
    return number - 2**64 if number >= 2**63 else number


def check(directory):
    known, lines = lives(directory)
    numbers = sorted(known.sessions, key=signed)
    rows = {number: f"{number:016x} {known.sessions[number].facts()}" for number in numbers}
    same("sessions", printed("sessions", directory), [rows[number] for number in numbers])
    objects = [json.loads(line) for line in printed("sessions", directory, "--json")]
    same("sessions --json", objects, [object_of(number, known.sessions[number]) for number in numbers])
    for number in numbers:
        own = lines.get(number, [])
        same(f"session {number:x}", printed("session", f"0x{number:x}", directory), [rows[number], *own])
        told = [json.loads(line) for line in printed("session", f"{number:016x}", directory, "--json")]
        same(f"session {number:x} --json", told[:1], [object_of(number, known.sessions[number])])
        if len(told) != 1 + len(own):
            sys.exit(f"session {number:x} --json: {len(told)} lines, {1 + len(own)} expected")
    noticed = subprocess.run([PROGRAM, "sessions", str(directory)], capture_output=True, check=True)
    same("notices", noticed.stderr.decode().splitlines(), range_line(directory))
    absent = subprocess.run([PROGRAM, "session", "0x7", str(directory)], capture_output=True)
    if (absent.returncode, absent.stdout) != (1, b""):
        sys.exit(f"an unknown session: {absent}")
    writes = sum(session.writes for session in known.sessions.values())
    ended = sum(session.ended is not None and session.ended[2] for session in known.sessions.values())
    print(f"{directory}: {len(numbers)} sessions, {ended} expired, {writes} writes, {sum(map(len, lines.values()))} lines of transactions")


def returned_by_server(zxid):
    """The open sessions with their timeouts, and how many ephemeral nodes each owns, as the server returned them at a zxid."""
    page = ROOT / "examples" / "real" / f"{zxid:016x}"
    nodes, lines = ([line.split(" ") for line in page.with_suffix(kind).read_text(encoding="utf-8").split("\n")[:-1]] for kind in (".nodes", ".sessions"))
    owners = Counter(fields[-4] for fields in nodes)
    return {session: (timeout, str(owners[session])) for _, session, timeout in lines}


def check_real():
    """The log of examples/real, cut after each zxid at which its server returned its sessions."""
    real = ROOT / "examples" / "real"
    data = (real / "log.1").read_bytes()
    ends, at = {}, 16
    while data[at : at + 12] and (length := int.from_bytes(data[at + 8 : at + 12], "big")):
        ends[int.from_bytes(data[at + 24 : at + 32], "big")] = at = at + 13 + length
    zxids = sorted(int(file.stem, 16) for file in real.glob("*.sessions"))
    for zxid in zxids:
        with tempfile.TemporaryDirectory() as room:
            (Path(room) / "log.1").write_bytes(data[: ends[zxid]])
            rows = [line.split(" ") for line in printed("sessions", room)]
        facts = {row[0]: (row[row.index("timeout") + 1], row[row.index("left") + 1]) for row in rows}
        opened = {row[0] for row in rows if row[-1] == "open"}
        same(f"open sessions at {zxid:x}", {session: facts[session] for session in opened}, returned_by_server(zxid))
        same(f"nodes of closed sessions at {zxid:x}", {left for session, (_, left) in facts.items() if session not in opened} - {"0"}, set())
    print(f"{real}: the sessions that a server returned at {len(zxids)} zxids")


if __name__ == "__main__":
    directories = ROOT / "examples" / "directories"
    words = sys.argv[1:]
    if words[:1] == ["--print"]:
        for name in words[1:]:
            known, lines = lives(Path(name))
            for number in sorted(known.sessions, key=signed):
                print(f"{number:016x} {known.sessions[number].facts()}")
        sys.exit()
    for name in words or [directories / "follower", directories / "lone"]:
        check(Path(name))
    if not words:
        check_real()
