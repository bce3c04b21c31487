#!/usr/bin/env python3
"""Fails allocations in turn while `zk ensemble` serves a client of ZooKeeper's protocol.

The client opens a session, creates a node, reads it, writes it and reads it again. When its connection is closed it connects to the
next server. In each run the client gets all its replies, a create or a write that was acknowledged is read, and the program ends with
status 0 after the end of standard input; standard error has lines on servers that ran out of memory, and run again. Or the program
ends with status 1 and `zk: memory`, or `zk: listen`.

usage: alloc_failure_ensemble.py [N ..]     the allocations with these numbers; all of them if none is named
"""
import os
import random
import re
import socket
import struct
import subprocess
import sys
import tempfile
import time
from concurrent.futures import ThreadPoolExecutor
from pathlib import Path

ROOT = Path(__file__).resolve().parent.parent
PROGRAM = Path(os.environ.get("ZK", ROOT / "crates" / "zk_cli" / "out" / "zk_cli"))

# The servers of an ensemble.
SERVERS = 3
# More allocations than a run makes.
ENOUGH = 1_000_000
# The number of runs side by side: most of them wait for a new leader.
LANES = 32
# Seconds in which a reply comes, or the connection is closed.
LIMIT = 120
# How often a client connects again, and the seconds between: a lost leader is replaced within two seconds.
TRIES = 600
PAUSE = 0.1

# The lines on a server that ran out of memory.
NOTICES = re.compile(rb"zk: server [1-3] (has stopped: out of memory|runs again)\n")

OPEN_ACL = struct.pack(">ii", 1, 31) + struct.pack(">i", 5) + b"world" + struct.pack(">i", 6) + b"anyone"
CREATE, GET, SET = 1, 4, 5
OK, NODE_EXISTS, NO_NODE, BAD_VERSION = 0, -110, -101, -103


class Wrong(Exception):
    """A run that ended otherwise than it may."""


class Closed(Exception):
    """A connection that the server closed."""


def text(words: bytes) -> bytes:
    return struct.pack(">i", len(words)) + words


def framed(body: bytes) -> bytes:
    return struct.pack(">i", len(body)) + body


class Client:
    def __init__(self, ports: list[int], has_ended) -> None:
        self.ports, self.has_ended, self.at, self.stream = ports, has_ended, 0, None
        self.session, self.password, self.xid = 0, bytes(16), 0

    def connect(self) -> None:
        self.at += 1
        try:
            self.stream = socket.create_connection(("127.0.0.1", self.ports[self.at % len(self.ports)]), timeout=LIMIT)
            self.stream.sendall(framed(struct.pack(">iqiq", 0, 0, 10_000, self.session) + text(self.password)))
            answer = self.receive()
        except ConnectionError:
            raise Closed from None
        _, _, session = struct.unpack_from(">iiq", answer)
        # a session that has ended is opened anew
        self.session, self.password = session, answer[20:36] if session else bytes(16)
        if not session:
            raise Closed

    def receive(self) -> bytes:
        def some(count: int) -> bytes:
            taken = b""
            while len(taken) < count:
                more = self.stream.recv(count - len(taken))
                if not more:
                    raise Closed
                taken += more
            return taken

        try:
            return some(struct.unpack(">i", some(4))[0])
        except TimeoutError:
            raise Wrong("no reply comes, and the connection stays open") from None
        except ConnectionError:
            raise Closed from None

    def ask(self, kind: int, body: bytes) -> tuple[int, bytes]:
        """The error and the body of a reply, from whichever server replies."""
        for _ in range(TRIES):
            try:
                if self.stream is None:
                    self.connect()
                self.xid += 1
                self.stream.sendall(framed(struct.pack(">ii", self.xid, kind) + body))
                answer = self.receive()
                xid, _, error = struct.unpack_from(">iqi", answer)
                if xid != self.xid:
                    raise Wrong(f"the reply to request {self.xid} is that to {xid}")
                return error, answer[16:]
            except (Closed, ConnectionError):
                self.stream = None
                if self.has_ended():
                    raise Wrong("the program has ended") from None
                time.sleep(PAUSE)
        raise Wrong("no server replies")


def content_of(client: Client, path: bytes) -> bytes:
    error, body = client.ask(GET, text(path) + b"\0")
    if error != OK:
        raise Wrong(f"the node that was created is not found: {error}")
    return body[4:4 + struct.unpack_from(">i", body)[0]]


def talk(ports: list[int], has_ended) -> None:
    client = Client(ports, has_ended)
    path = b"/node"
    error, _ = client.ask(CREATE, text(path) + text(b"one") + OPEN_ACL + struct.pack(">i", 0))
    # a create whose reply was lost is found by the next one
    if error not in (OK, NODE_EXISTS):
        raise Wrong(f"create: {error}")
    if content_of(client, path) != b"one":
        raise Wrong("another content was created")
    error, _ = client.ask(SET, text(path) + text(b"two") + struct.pack(">i", 0))
    if error not in (OK, BAD_VERSION):
        raise Wrong(f"setData: {error}")
    if content_of(client, path) != b"two":
        raise Wrong("the write is not read")


def free_ports() -> list[int]:
    while True:
        first = random.randrange(20_000, 60_000)
        try:
            for port in range(first, first + SERVERS):
                with socket.socket() as it:
                    it.bind(("127.0.0.1", port))
            return list(range(first, first + SERVERS))
        except OSError:
            continue


def run(number: int, library: Path, room: Path) -> bool:
    """Whether an allocation failed in a run."""
    met, ports = room / f"{number}.met", free_ports()
    env = {**os.environ, "LD_PRELOAD": str(library), "REFUSE": str(number), "REFUSE_MET": str(met)}
    words = [str(PROGRAM), "ensemble", str(ports[0]), str(SERVERS), "--until-eof"]
    pipe = subprocess.PIPE
    wrong = None
    with subprocess.Popen(words, env=env, stdin=pipe, stdout=pipe, stderr=pipe) as running:
        try:
            if running.stdout.readline():
                try:
                    talk(ports, lambda: running.poll() is not None)
                except Wrong as why:
                    wrong = why
            _, told = running.communicate(timeout=LIMIT)
        except subprocess.TimeoutExpired:
            raise Wrong(f"allocation {number}: the program does not end") from None
        finally:
            running.kill()
    told = NOTICES.sub(b"", told)
    ended = (told, running.returncode)
    if ended in ((b"zk: memory\n", 1), (b"zk: listen\n", 1)):
        return True
    if wrong:
        raise Wrong(f"allocation {number}: {wrong}")
    if ended != (b"", 0):
        raise Wrong(f"allocation {number}: it ends with {ended}")
    return met.read_text(encoding="utf-8") == "met\n"


def main() -> int:
    with tempfile.TemporaryDirectory() as work:
        room = Path(work)
        library = room / "fail_alloc.so"
        subprocess.run(["gcc", "-shared", "-fPIC", "-O2", "-o", library, ROOT / "checks" / "fail_alloc.c", "-ldl"], check=True)
        failed, rest = 0, iter([int(it) for it in sys.argv[1:]] or range(1, ENOUGH))
        with ThreadPoolExecutor(max_workers=LANES) as lanes:
            while True:
                block = [it for _, it in zip(range(LANES * 2), rest)]
                if not block:
                    break
                results = list(lanes.map(lambda it: run(it, library, room), block))
                failed += sum(results)
                if not all(results):
                    break
        print(f"alloc_failure_ensemble: {failed} allocations failed in turn, and each reply came")
    return 0


if __name__ == "__main__":
    try:
        sys.exit(main())
    except Wrong as wrong:
        sys.exit(f"alloc_failure_ensemble: {wrong}")
