#!/usr/bin/env python3
"""Sends broken frames to `zk ensemble`: each closes its own connection alone, or is replied to.

While one client writes and never reconnects, others send 10,000 frames: requests of real clients with bytes changed, removed or
added, random bytes, and lengths that no frame has. A frame that has a header gets a reply, and its connection goes on; a connection
whose length or header is wrong is closed. In the end the first client still has its connection, and each write that was
acknowledged is there.

usage: broken_frames.py [--frames N] [--seed N] [--port PORT..]    with ports: at servers that run already
"""
import argparse
import os
import random
import socket
import struct
import subprocess
import sys
import threading
from pathlib import Path

ROOT = Path(__file__).resolve().parent.parent
PROGRAM = Path(os.environ.get("ZK", ROOT / "crates" / "zk_cli" / "out" / "zk_cli"))

# How long a reply, or the end of a connection, is waited for, in seconds.
PATIENCE = 300

# The most bytes of a frame.
MOST_BYTES = 1_048_575

CREATE, DELETE, SET_DATA, PING, AUTH, CLOSE = 1, 2, 5, 11, 100, -11

WORLD = bytes.fromhex("000000010000001f00000005776f726c6400000006616e796f6e65")


def text(value: bytes) -> bytes:
    return struct.pack(">i", len(value)) + value


def multi(*parts: tuple[int, bytes]) -> bytes:
    return b"".join(struct.pack(">ibi", kind, 0, -1) + body for kind, body in parts) + struct.pack(">ibi", -1, 1, -1)


# A type, and a body that a real client sends.
REQUESTS = [
    (CREATE, text(b"/j") + text(b"abc") + WORLD + struct.pack(">i", 0)),
    (CREATE, text(b"/j/q-") + text(b"") + WORLD + struct.pack(">i", 3)),
    (DELETE, text(b"/j") + struct.pack(">i", -1)),
    (3, text(b"/none") + b"\1"),
    (4, text(b"/j") + b"\0"),
    (SET_DATA, text(b"/j") + text(b"new") + struct.pack(">i", -1)),
    (6, text(b"/j")),
    (7, text(b"/j") + WORLD + struct.pack(">i", -1)),
    (8, text(b"/") + b"\1"),
    (9, text(b"/j")),
    (PING, b""),
    (12, text(b"/j") + b"\1"),
    (14, multi((CREATE, text(b"/m") + text(b"1") + WORLD + struct.pack(">i", 0)), (DELETE, text(b"/m") + struct.pack(">i", -1)))),
    (15, text(b"/k") + text(b"x") + WORLD + struct.pack(">i", 1)),
    (18, text(b"/") + struct.pack(">i", 1)),
    (101, struct.pack(">qi", 0, 1) + text(b"/j") + struct.pack(">i", 0) + struct.pack(">i", 1) + text(b"/")),
    (103, text(b"/")),
    (104, text(b"/")),
    (107, b""),
]


class Ended(Exception):
    """The connection ended."""


class Connection:
    """A connection of a client, with its session."""

    def __init__(self, port: int):
        self.socket = socket.create_connection(("127.0.0.1", port), timeout=PATIENCE)
        self.socket.setsockopt(socket.IPPROTO_TCP, socket.TCP_NODELAY, 1)
        self.input = b""

    def connect(self, timeout: int = 30_000, session: int = 0, password: bytes = bytes(16)) -> None:
        self.send(struct.pack(">iqiq", 0, 0, timeout, session) + text(password) + b"\0")
        frame = self.receive()
        self.timeout, self.session = struct.unpack_from(">iq", frame, 4)
        self.password = frame[20:36]

    def send(self, frame: bytes) -> None:
        self.send_bytes(struct.pack(">i", len(frame)) + frame)

    def send_bytes(self, data: bytes) -> None:
        try:
            self.socket.sendall(data)
        except OSError as error:
            raise Ended from error

    def read(self, length: int) -> bytes:
        while len(self.input) < length:
            try:
                more = self.socket.recv(65536)
            except ConnectionError as error:
                raise Ended from error
            if not more:
                raise Ended
            self.input += more
        taken, self.input = self.input[:length], self.input[length:]
        return taken

    def receive(self) -> bytes:
        (length,) = struct.unpack(">i", self.read(4))
        return self.read(length)

    def reply(self, *xids: int) -> tuple[int, bytes]:
        """The error and the body of the reply with one of these numbers; events before it are passed over."""
        while True:
            frame = self.receive()
            number, _zxid, error = struct.unpack_from(">iqi", frame)
            if number in xids:
                return error, frame[16:]
            if number != -1:
                sys.exit(f"reply {number} in place of {xids}")

    def request(self, xid: int, kind: int, body: bytes) -> tuple[int, bytes]:
        self.send(struct.pack(">ii", xid, kind) + body)
        return self.reply(xid)

    def close(self) -> None:
        self.socket.close()


class Writer(threading.Thread):
    """A client that writes over one connection, until it is stopped."""

    def __init__(self, port: int):
        super().__init__(daemon=True)
        self.connection = Connection(port)
        self.connection.connect()
        self.writes = 0
        self.failure = ""
        self.stopping = threading.Event()
        error, _ = self.connection.request(1, CREATE, text(b"/writer") + text(b"0") + WORLD + struct.pack(">i", 0))
        if error:
            sys.exit(f"create /writer: {error}")

    def run(self) -> None:
        try:
            while not self.stopping.is_set():
                body = text(b"/writer") + text(b"%d" % (self.writes + 1)) + struct.pack(">i", self.writes)
                error, _ = self.connection.request(self.writes + 2, SET_DATA, body)
                if error:
                    self.failure = f"write {self.writes + 1}: {error}"
                    return
                self.writes += 1
        except (Ended, OSError) as error:
            self.failure = f"the writer's connection ended after {self.writes} writes: {error!r}"

    def finish(self) -> None:
        self.stopping.set()
        self.join(PATIENCE)
        if self.failure:
            sys.exit(self.failure)
        error, body = self.connection.request(self.writes + 2, 4, text(b"/writer") + b"\0")
        if error or not body.startswith(text(b"%d" % self.writes)):
            sys.exit(f"/writer after {self.writes} acknowledged writes: {error} {body!r}")


def changed(draw: random.Random, body: bytes) -> bytes:
    """The body with bytes changed, removed or added."""
    data = bytearray(body)
    for _ in range(draw.randrange(1, 4)):
        way = draw.randrange(4)
        if way == 0 and data:
            data[draw.randrange(len(data))] = draw.choice((0, 1, 0x7F, 0x80, 0xFF, draw.randrange(256)))
        elif way == 1:
            del data[draw.randrange(len(data) + 1) :]
        elif way == 2:
            data += draw.randbytes(draw.randrange(1, 9))
        elif data:
            place = draw.randrange(len(data))
            data[place : place + 4] = struct.pack(">i", draw.choice((-1, -2, 2**31 - 1, -(2**31), draw.randrange(2**16))))
    return bytes(data)


class Breaker:
    """Sends broken frames, each over the connection that the one before it left, or over a new one."""

    def __init__(self, ports: list[int], draw: random.Random):
        self.ports, self.draw = ports, draw
        self.connection: Connection | None = None
        self.session, self.password = 0, bytes(16)
        self.replied = self.closed = 0

    def attached(self) -> Connection:
        if self.connection is None:
            self.connection = Connection(self.draw.choice(self.ports))
            self.connection.connect(session=self.session, password=self.password)
            if self.connection.session == 0:
                self.connection.close()
                self.connection = Connection(self.draw.choice(self.ports))
                self.connection.connect()
            self.session, self.password = self.connection.session, self.connection.password
        return self.connection

    def ends(self, connection: Connection, what: str) -> None:
        """The connection ends, after any bytes."""
        try:
            while True:
                connection.read(1)
        except Ended:
            self.closed += 1
        except TimeoutError:
            sys.exit(f"a connection goes on after {what}")
        connection.close()

    def before_connecting(self) -> None:
        """The first frame is broken."""
        connection = Connection(self.draw.choice(self.ports))
        first = struct.pack(">iqiq", 0, 0, 30_000, 0) + text(bytes(16)) + b"\0"
        frame = self.draw.choice((first[: self.draw.randrange(44)], b"", b"\0" * 8))
        connection.send(frame)
        self.ends(connection, f"the first frame {frame!r}")

    def no_frame(self) -> None:
        """A length that no frame has, or a header that is not whole."""
        connection = self.attached()
        self.connection = None
        length = self.draw.choice((-1, -(2**31), MOST_BYTES + 1, 2**31 - 1, self.draw.randrange(8)))
        rest = self.draw.randbytes(length if 0 <= length < 8 else 16)
        try:
            connection.send_bytes(struct.pack(">i", length) + rest)
        except Ended:
            pass
        self.ends(connection, f"a frame of length {length}")

    def unfinished(self) -> None:
        """A frame whose sender closes in its middle."""
        connection = self.attached()
        self.connection = None
        connection.send_bytes(struct.pack(">i", 100) + self.draw.randbytes(50))
        connection.close()
        self.closed += 1

    def request(self) -> None:
        """A frame with a header: it has a reply, and the connection goes on."""
        connection = self.attached()
        kind, body = self.draw.choice(REQUESTS)
        if self.draw.randrange(10) == 0:
            kind = self.draw.choice((0, -1, 10, 13, 16, 23, 106, 2**31 - 1, self.draw.randrange(2**15)))
            kind += kind in (AUTH, CLOSE)
        xid = self.draw.randrange(1, 2**31)
        frame = struct.pack(">ii", xid, kind) + changed(self.draw, body)
        try:
            connection.send(frame)
            connection.send(struct.pack(">ii", -2, PING))
            connection.reply(*((xid, -2) if kind == PING else (xid,)))
            connection.reply(-2)
            self.replied += 1
        except Ended:
            sys.exit(f"the connection ended after {frame.hex()}")
        except TimeoutError:
            sys.exit(f"no reply to {frame.hex()}")

    def step(self) -> None:
        way = self.draw.randrange(20)
        if way == 0:
            self.before_connecting()
        elif way == 1:
            self.no_frame()
        elif way == 2:
            self.unfinished()
        else:
            self.request()


def judge(ports: list[int], frames: int, seed: int) -> None:
    writer = Writer(ports[0])
    writer.start()
    breaker = Breaker(ports, random.Random(seed))
    for _ in range(frames):
        breaker.step()
        if writer.failure:
            sys.exit(writer.failure)
    writer.finish()
    print(f"broken_frames: {frames} frames, {breaker.replied} with a reply, {breaker.closed} connections closed; {writer.writes} writes")


def free_ports(count: int) -> int:
    """The first of consecutive free ports."""
    while True:
        first = random.randrange(20_000, 60_000)
        sockets = []
        try:
            for port in range(first, first + count):
                sockets.append(socket.socket())
                sockets[-1].bind(("127.0.0.1", port))
            return first
        except OSError:
            continue
        finally:
            for it in sockets:
                it.close()


def main() -> None:
    parser = argparse.ArgumentParser()
    parser.add_argument("--frames", type=int, default=10_000)
    parser.add_argument("--seed", type=int, default=1)
    parser.add_argument("--port", type=int, nargs="+", default=[])
    given = parser.parse_args()
    if given.port:
        judge(given.port, given.frames, given.seed)
        return
    first = free_ports(3)
    command = [PROGRAM, "ensemble", str(first), "3", "--until-eof"]
    with subprocess.Popen(command, stdin=subprocess.PIPE, stdout=subprocess.PIPE, text=True) as servers:
        line = servers.stdout.readline()
        if not line.startswith("serving "):
            sys.exit(f"zk ensemble: {line!r}")
        judge([first, first + 1, first + 2], given.frames, given.seed)
        servers.stdin.close()
        if servers.wait(PATIENCE):
            sys.exit(f"zk ensemble ended with {servers.returncode}")


main()
