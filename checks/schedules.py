#!/usr/bin/env python3
"""Drawn schedules of four clients at `zk ensemble`: they send many requests at once, move to other servers before the replies come, and
break off, while servers crash and restart, links are cut, and leaders change. Of each connection, the first frame is the response to
its connect request, and no other frame is one; a reply comes for each request, in order, or the connection closes; no header's zxid
falls, or is below what the client had seen when it connected. Afterwards `zk run` of the record gives each server the tree that a
client reads there, and each write, once, the result and the path that its client was sent.

Before these, two schedules that are not drawn: a session that two connections ask for at once, and syncs after writes.

usage: schedules.py [SEED [COUNT]]     the first seed, and the number of schedules: 1 and 3 if none is given
"""
import shlex
import socket
import struct
import sys
import time
from pathlib import Path
from random import Random
from tempfile import TemporaryDirectory

from lib import Ensemble, KazooClient, PATIENCE, nodes_in, run_of, tree_lines

CREATE, DELETE, GET, SET, SYNC, MULTI, CLOSE = 1, 2, 4, 5, 9, 14, -11
WRITES = (CREATE, DELETE, SET, MULTI)
TIMEOUT = 30_000
CLIENTS, STEPS = 4, 40
EVENT, ERROR = -1, -1


class Wrong(Exception):
    """Something else than a client may get."""


def text(words: bytes) -> bytes:
    return struct.pack(">i", len(words)) + words


OPEN_ACL = struct.pack(">ii", 1, 31) + text(b"world") + text(b"anyone")


def created(path: bytes, flags: int) -> bytes:
    return text(path) + text(b"x") + OPEN_ACL + struct.pack(">i", flags)


def changed(path: bytes) -> bytes:
    return text(path) + text(b"y") + struct.pack(">i", -1)


def multi(path: bytes, other: bytes) -> bytes:
    parts = [(CREATE, created(path, 0)), (SET, changed(other))]
    return b"".join(struct.pack(">i?i", kind, False, -1) + body for kind, body in parts) + struct.pack(">i?i", -1, True, -1)


class Session:
    """What a client knows."""

    def __init__(self) -> None:
        self.number, self.password, self.seen, self.xid = 0, bytes(16), 0, 0
        # the results of its writes: the error, the path if it created one, and the header's zxid
        self.results: dict[int, tuple[int, str, int]] = {}

    def request(self, kind: int, body: bytes) -> tuple[int, int, bytes]:
        self.xid += 1
        return self.xid, kind, text(struct.pack(">ii", self.xid, kind) + body)


class Connection:
    """A connection that asks for a session, and sends requests without a pause."""

    def __init__(self, it: Ensemble, server: int, session: Session, requests: list[tuple[int, int, bytes]]) -> None:
        self.session, self.awaited = session, [(xid, kind) for xid, kind, _ in requests]
        self.data, self.has_response, self.is_open, self.seen = b"", False, True, session.seen
        connect = struct.pack(">iqiq", 0, session.seen, TIMEOUT, session.number) + text(session.password) + b"\0"
        self.stream = socket.socket()
        self.stream.settimeout(PATIENCE)
        try:
            self.stream.connect(("127.0.0.1", it.port + server - 1))
            self.stream.sendall(text(connect) + b"".join(frame for _, _, frame in requests))
        except OSError:
            self.close()

    def send(self, requests: list[tuple[int, int, bytes]]) -> None:
        if self.is_open:
            self.awaited += [(xid, kind) for xid, kind, _ in requests]
            try:
                self.stream.sendall(b"".join(frame for _, _, frame in requests))
            except OSError:
                self.close()

    def close(self) -> None:
        self.stream.close()
        self.is_open = False

    def is_done(self) -> bool:
        return not self.is_open or (self.has_response and not self.awaited)

    def read(self, seconds: float) -> None:
        """Takes what comes within this time."""
        if not self.is_open:
            return
        self.stream.settimeout(seconds)
        try:
            data = self.stream.recv(1 << 16)
        except TimeoutError:
            return
        except OSError:
            data = b""
        if not data:
            self.close()
        self.data += data
        while len(self.data) >= 4 and len(self.data) >= 4 + struct.unpack(">i", self.data[:4])[0]:
            end = 4 + struct.unpack(">i", self.data[:4])[0]
            frame, self.data = self.data[4:end], self.data[end:]
            if self.has_response:
                self.take_reply(frame)
            else:
                self.take_response(frame)

    def take_response(self, frame: bytes) -> None:
        if len(frame) != 37 or frame[:4] != bytes(4):
            raise Wrong(f"the first frame is no response to the connect request: {frame.hex()}")
        number = struct.unpack(">q", frame[8:16])[0]
        if number == 0 or self.session.number not in (0, number):
            raise Wrong(f"session {self.session.number:x} became {number:x}")
        self.session.number, self.session.password, self.has_response = number, frame[20:36], True

    def take_reply(self, frame: bytes) -> None:
        xid, zxid, error = struct.unpack(">iqi", frame[:16])
        if xid == EVENT:
            return
        if not self.awaited or self.awaited[0][0] != xid:
            raise Wrong(f"a reply to {xid}, where one to {self.awaited[:1]} is next")
        if zxid < self.seen:
            raise Wrong(f"the header of {xid} falls from {self.seen:x} to {zxid:x}")
        self.seen, self.session.seen = zxid, max(self.session.seen, zxid)
        _, kind = self.awaited.pop(0)
        if kind in WRITES:
            path = frame[20:].decode() if kind == CREATE and error == 0 else ""
            # each part of a multi that failed is an error
            failed = kind == MULTI and error == 0 and frame[16:20] == struct.pack(">i", ERROR)
            self.session.results[xid] = (ERROR if failed else error, path, zxid)


# ---- drawn requests


def drawn(random: Random, session: Session) -> tuple[int, int, bytes]:
    path = f"/n{random.randrange(8)}".encode()
    kind = random.choice((CREATE, CREATE, CREATE, SET, SET, DELETE, MULTI, SYNC, SYNC, SYNC, GET, GET))
    if kind == CREATE:
        return session.request(kind, created(*random.choice(((path, 0), (b"/s-", 2), (b"/e-", 3)))))
    if kind == SET:
        return session.request(kind, changed(path))
    if kind == DELETE:
        return session.request(kind, text(path) + struct.pack(">i", -1))
    if kind == MULTI:
        return session.request(kind, multi(path, f"/n{random.randrange(8)}".encode()))
    if kind == SYNC:
        return session.request(kind, text(path))
    return session.request(kind, text(path) + bytes([random.randrange(2)]))


def command(random: Random, it: Ensemble) -> str:
    """A line of the operator; at most one server is down or cut off at a time."""
    states = [line.split()[2] for line in it.says("status")]
    if "down" in states:
        return f"restart {states.index('down') + 1}"
    if "looking" in states:
        return "heal"
    one, other = random.sample((1, 2, 3), 2)
    return random.choice((f"crash {one}", f"lead {one}", f"lead {one}", f"cut {one} {other}"))


def run(random: Random, it: Ensemble) -> list[Session]:
    sessions = [Session() for _ in range(CLIENTS)]
    connections: list[Connection] = []
    last: dict[int, Connection] = {}
    for _ in range(STEPS):
        choice = random.randrange(10)
        which = random.randrange(CLIENTS)
        session, server = sessions[which], random.randrange(3) + 1
        requests = [drawn(random, session) for _ in range(random.randrange(12))]
        if choice == 0:
            it.says(command(random, it))
        elif choice == 1 and session.number:
            # one that asks for the session, and closes
            Connection(it, server, session, []).close()
        elif choice < 6 or which not in last or not last[which].is_open:
            if which in last and last[which].is_open and random.randrange(2):
                last[which].close()
            # a client that has no session yet waits for its own
            if which in last and session.number == 0:
                settle([last[which]])
            connection = Connection(it, server, session, requests)
            last[which] = connection
            connections.append(connection)
        else:
            last[which].send(requests)
        for connection in connections[-CLIENTS:]:
            connection.read(random.choice((0.0001, 0.001, 0.01)))
    for line in ("restart 1", "restart 2", "restart 3", "heal"):
        it.says(line)
    settle(connections)
    for connection in connections:
        connection.close()
    return sessions


def settle(connections: list[Connection]) -> None:
    end = time.time() + PATIENCE
    for connection in connections:
        while not connection.is_done():
            if time.time() > end:
                what = "a reply" if connection.has_response else "a response to a connect request"
                raise Wrong(f"{what} does not come, and the connection stays open")
            connection.read(0.1)


# ---- the record


def compare(record: Path, it: Ensemble, sessions: list[Session]) -> int:
    """Compares the run of the record with what clients saw. Returns the number of write replies."""
    seen = {}
    for server in (1, 2, 3):
        zk = KazooClient(it.hosts(server), timeout=30)
        zk.start(PATIENCE)
        zk.sync("/")
        seen[server] = zk
    trees = {server: sorted(line for line in tree_lines(zk) if not line.startswith('"/zookeeper')) for server, zk in seen.items()}
    it.end()
    for zk in seen.values():
        zk.stop()
        zk.close()
    told = run_of(record, 3, "tree", "delivered", "answers")
    for server, lines in trees.items():
        if sorted(nodes_in(told[f"tree {server}"])) != lines:
            raise Wrong(f"server {server} has another tree than the run of the record")
    results: dict[tuple[int, int], tuple[int, str, int]] = {}
    for entry, answer in zip(told["delivered 1"], told["answers 1"], strict=True):
        fields = shlex.split(entry)
        key = int(fields[1], 16), int(fields[2])
        if key[1] > 0 and key in results:
            raise Wrong(f"request {key} has two transactions")
        words = shlex.split(answer)
        results[key] = (int(words[3]), words[4] if words[4] != "-" else "", int(words[2], 16))
    count = 0
    for session in sessions:
        for xid, (error, path, zxid) in session.results.items():
            result = results.get((session.number, xid))
            if result is None:
                raise Wrong(f"a write was acknowledged, and is in no transaction: {session.number:x} {xid}")
            if (error == 0) != (result[0] == 0) or (path and path != result[1]) or zxid < result[2]:
                raise Wrong(f"{session.number:x} {xid}: {(error, path, zxid)} was sent, and the record has {result}")
            count += 1
    return count


def schedule(seed: int) -> int:
    random = Random(seed)
    with TemporaryDirectory() as folder:
        record = Path(folder) / "record"
        flags = ["--data", str(Path(folder) / "data")] if seed % 2 else []
        it = Ensemble(3, "--record", str(record), *flags)
        try:
            return compare(record, it, run(random, it))
        finally:
            it.end()


# ---- two schedules that are not drawn


def one_session_twice(it: Ensemble) -> None:
    """A connection asks for a session and closes; another asks for it, and has sent two creates."""
    for _ in range(5):
        session = Session()
        settle([Connection(it, 3, session, [])])
        Connection(it, 1, session, []).close()
        settle([Connection(it, 3, session, [session.request(CREATE, created(b"/s-", 2)) for _ in range(2)])])


def syncs_after_writes(it: Ensemble) -> None:
    for server in (1, 2, 3):
        session = Session()
        requests = [session.request(kind, body) for _ in range(50) for kind, body in ((CREATE, created(b"/s-", 2)), (SYNC, text(b"/")))]
        settle([Connection(it, server, session, requests)])


def main() -> None:
    words = [int(word) for word in sys.argv[1:]]
    seed, count = words[0] if words else 1, words[1] if len(words) > 1 else 3
    it = Ensemble(3)
    try:
        one_session_twice(it)
        syncs_after_writes(it)
    finally:
        it.end()
    replies = 0
    for number in range(seed, seed + count):
        try:
            replies += schedule(number)
        except Wrong as wrong:
            raise Wrong(f"seed {number}: {wrong}") from None
    print(f"schedules: {count} drawn, {replies} replies to writes, as in the records")


if __name__ == "__main__":
    try:
        main()
    except Wrong as wrong:
        sys.exit(f"schedules: {wrong}")
