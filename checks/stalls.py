#!/usr/bin/env python3
"""Clients of `zk ensemble` that would stall others, or be lost themselves: what the others get.

- pause: the program is stopped for 9 seconds while a client of 6 seconds' timeout pings: its session, and its ephemeral node, live on.
- silent: sockets that send nothing fill all connections; after some seconds they are closed, and a client is served.
- full: sockets that wait while the process may have no more descriptors are accepted once it may.
- addresses: an address has all connections but a sixteenth, and another address has those.
- unread: a client that pings and leaves 5.4 MB unread for 20 seconds keeps its session of 8 seconds.
- headers: no reply names a transaction before the event of the client's watch.
- disk: a server without clients writes nothing to its files, and reads write nothing either.
- writer: while one client has 20,000 writes in flight, another makes a read for every 200 of them.
- idle: 1,000 idle connections cost a read less than four times the CPU seconds that 100 do.
- watches: a setWatches of 240 kB with 26,000 watches costs less than 5 CPU seconds.
- resumed: while a setWatches of 1 MB is worked, another makes a read for every 2,048 of its watches.
- counts: while a client counts all nodes 200 times, another makes a read for every two of these.
- unreadable: a setWatches sets a watch on the children of a node that the client may not read.
- identities: a connection has at most 100 identities; the next proof is rejected, and it closes.

usage: stalls.py [NAME ..]     the parts with these names; if none is named, all but writer, idle, watches, resumed and counts, which
                               measure and want a machine of their own
"""
import os
import random
import resource
import signal
import socket
import struct
import subprocess
import sys
import tempfile
import threading
import time
from pathlib import Path

ROOT = Path(__file__).resolve().parent.parent
PROGRAM = os.environ.get("ZK", str(ROOT / "crates" / "zk_cli" / "out" / "zk_cli"))

# Seconds in which a reply comes, and in which a connection that waited is accepted.
LIMIT = 120
PATIENCE = 120
CREATE, EXISTS, GET, SET, PING, AUTH, SET_WATCHES, COUNT = 1, 3, 4, 5, 11, 100, 101, 104
# `jute.maxbuffer`
MOST_BYTES = 1_048_575
NO_NODE, AUTH_FAILED = -101, -115
EPHEMERAL = 1
EVENT = -1


class Wrong(Exception):
    """Something else than a client may get."""


def text(words: bytes) -> bytes:
    return struct.pack(">i", len(words)) + words


def framed(body: bytes) -> bytes:
    return struct.pack(">i", len(body)) + body


OPEN_ACL = struct.pack(">ii", 1, 31) + text(b"world") + text(b"anyone")


class Client:
    def __init__(self, port: int, timeout: int = 30_000, buffer: int = 0) -> None:
        self.stream, self.xid = socket.socket(), 0
        self.stream.settimeout(LIMIT)
        if buffer:
            self.stream.setsockopt(socket.SOL_SOCKET, socket.SO_RCVBUF, buffer)
        self.stream.connect(("127.0.0.1", port))
        self.stream.setsockopt(socket.IPPROTO_TCP, socket.TCP_NODELAY, 1)
        self.stream.sendall(framed(struct.pack(">iqiq", 0, 0, timeout, 0) + text(bytes(16)) + b"\0"))
        if struct.unpack_from(">iiq", self.frame())[2] == 0:
            raise Wrong("no session")

    def bytes(self, count: int) -> bytes:
        data = b""
        while len(data) < count:
            more = self.stream.recv(min(count - len(data), 1 << 20))
            if not more:
                raise EOFError
            data += more
        return data

    def frame(self) -> bytes:
        return self.bytes(struct.unpack(">i", self.bytes(4))[0])

    def send(self, kind: int, body: bytes, xid: int = 0) -> None:
        self.xid += 1
        self.stream.sendall(framed(struct.pack(">ii", xid or self.xid, kind) + body))

    def reply(self) -> tuple[int, int, int]:
        """The number, the zxid and the error of the next reply or event."""
        return struct.unpack_from(">iqi", self.frame())

    def ask(self, kind: int, body: bytes, xid: int = 0) -> int:
        self.send(kind, body, xid)
        return self.reply()[2]

    def create(self, path: bytes, content: bytes = b"x", flags: int = 0) -> None:
        if error := self.ask(CREATE, text(path) + text(content) + OPEN_ACL + struct.pack(">i", flags)):
            raise Wrong(f"create: {error}")

    def get(self, path: bytes, watch: bool = False) -> int:
        return self.ask(GET, text(path) + bytes([watch]))

    def ping(self) -> None:
        self.stream.sendall(framed(struct.pack(">ii", -2, PING)))


def write(path: bytes, content: bytes = b"y") -> bytes:
    return text(path) + text(content) + struct.pack(">i", -1)


def free_port() -> int:
    with socket.socket() as it:
        it.bind(("127.0.0.1", 0))
        return it.getsockname()[1]


class Server:
    def __init__(self, *words: str, limits: tuple[str, ...] = ()) -> None:
        self.port = free_port()
        self.words = [*limits, PROGRAM, "ensemble", str(self.port), "1", *words]

    def __enter__(self) -> "Server":
        self.child = subprocess.Popen(self.words, stdin=subprocess.PIPE, stdout=subprocess.PIPE)
        self.child.stdout.readline()
        return self

    def __exit__(self, *_) -> None:
        self.child.kill()
        self.child.wait()

    def cpu_seconds(self) -> float:
        return int(Path(f"/proc/{self.child.pid}/schedstat").read_text(encoding="utf-8").split()[0]) / 1e9

    def writes(self) -> int:
        """The write calls of the program, to files and sockets."""
        counted = Path(f"/proc/{self.child.pid}/io").read_text(encoding="utf-8")
        return int(next(line for line in counted.splitlines() if line.startswith("syscw: ")).split()[1])

    def stop(self) -> None:
        os.kill(self.child.pid, signal.SIGSTOP)

    def go_on(self) -> None:
        os.kill(self.child.pid, signal.SIGCONT)

    def opened(self, address: str = "127.0.0.1") -> socket.socket:
        it = socket.socket()
        it.settimeout(PATIENCE)
        it.bind((address, 0))
        it.connect(("127.0.0.1", self.port))
        return it

    def is_open(self, it: socket.socket) -> bool:
        """Whether the server keeps a connection: it replies to a word."""
        try:
            it.sendall(b"ruok")
            return it.recv(4) == b"imok"
        except OSError:
            return False


def pause() -> None:
    with Server() as server:
        client = Client(server.port, 6_000)
        client.create(b"/e", flags=EPHEMERAL)
        server.stop()
        for _ in range(9):
            time.sleep(1)
            client.ping()
        client.send(EXISTS, text(b"/e") + b"\0")
        server.go_on()
        for _ in range(9):
            client.reply()
        if client.reply()[2]:
            raise Wrong("a session that had pinged has expired")


def silent() -> None:
    with Server("--max-connections", "50") as server:
        held = [server.opened(f"127.0.0.{2 + it // 25}") for it in range(50)]
        if server.is_open(server.opened()):
            raise Wrong("more connections than all")
        for _ in range(60):
            time.sleep(1)
            try:
                Client(server.port)
                break
            except (EOFError, OSError):
                pass
        else:
            raise Wrong("sockets that send nothing keep all connections")
        for it in held:
            it.close()


def full() -> None:
    with Server(limits=("prlimit", "--nofile=40")) as server:
        held = [server.opened() for _ in range(50)]
        time.sleep(1)
        for it in held[:30]:
            it.close()
        if not server.is_open(held[49]):
            raise Wrong("a connection that waited is not accepted")


def addresses() -> None:
    with Server("--max-connections", "32") as server:
        held = [server.opened("127.0.0.2") for _ in range(30)]
        if not server.is_open(server.opened("127.0.0.3")) or server.is_open(server.opened("127.0.0.2")):
            raise Wrong("the connections of an address are not counted apart")
        if not server.is_open(held[29]):
            raise Wrong("an address has fewer than 30 connections")


def unread() -> None:
    with Server() as server:
        client = Client(server.port, 8_000, 4_096)
        client.create(b"/big", b"x" * 900_000)
        for _ in range(6):
            client.send(GET, text(b"/big") + b"\0")
        # more than the system holds and than 1 MB wait, and no frame is taken
        for _ in range(20):
            time.sleep(1)
            client.ping()
        for _ in range(26):
            client.reply()
        if client.get(b"/big"):
            raise Wrong("a client that pings has lost its session")


def headers() -> None:
    with Server() as server:
        client, other = Client(server.port), Client(server.port)
        client.create(b"/a")
        client.create(b"/x")
        client.get(b"/x", True)
        server.stop()
        client.send(SET, write(b"/a"))
        client.send(EXISTS, text(b"/bad//path") + b"\0")
        other.send(SET, write(b"/x"))
        time.sleep(0.5)
        server.go_on()
        changed = other.reply()[1]
        seen = [client.reply() for _ in range(3)]
        before = [zxid for xid, zxid, _ in seen[: [xid for xid, _, _ in seen].index(EVENT)]]
        if any(zxid >= changed for zxid in before) or seen[-1][2] not in (0, NO_NODE):
            raise Wrong(f"a reply names {changed} before its event: {seen}")


def disk() -> None:
    with tempfile.TemporaryDirectory() as room, Server("--data", room) as server:
        # what it writes when it starts may last on a busy machine
        for _ in range(PATIENCE // 3):
            before = server.writes()
            time.sleep(3)
            if server.writes() == before:
                break
        else:
            raise Wrong("it writes without clients")
        client = Client(server.port)
        client.create(b"/a")
        before, began = server.writes(), time.monotonic()
        for _ in range(200):
            client.get(b"/a")
        # a reply each, and one more turn a second
        most = 250 + int(time.monotonic() - began)
        if server.writes() - before > most:
            raise Wrong(f"{server.writes() - before} writes for 200 reads")


def writer() -> None:
    with Server() as server:
        client, other, writes = Client(server.port), Client(server.port), 20_000
        client.create(b"/p")
        frames = b"".join(framed(struct.pack(">ii", 10 + it, SET) + write(b"/p", b"z" * 100)) for it in range(writes))
        sender = threading.Thread(target=client.stream.sendall, args=(frames,), daemon=True)
        replies: list[int] = []
        receiver = threading.Thread(target=lambda: replies.extend(client.reply()[2] for _ in range(writes)), daemon=True)
        sender.start()
        receiver.start()
        reads = 0
        while receiver.is_alive():
            other.get(b"/")
            reads += 1
        if any(replies) or reads < writes // 200:
            raise Wrong(f"{reads} reads in the time of {writes} writes")


def cost_of_read(idle: int) -> float:
    """The CPU seconds of 300 reads beside idle connections."""
    with Server("--max-connections", "5000") as server:
        held = [Client(server.port, 40_000) for _ in range(idle)]
        client = Client(server.port)
        # those that have just connected have been served
        time.sleep(1)
        before = server.cpu_seconds()
        for _ in range(300):
            client.get(b"/")
        cost = server.cpu_seconds() - before
        for it in held:
            it.stream.close()
        return cost


def idle() -> None:
    soft, hard = resource.getrlimit(resource.RLIMIT_NOFILE)
    resource.setrlimit(resource.RLIMIT_NOFILE, (max(soft, min(hard, 5_000)), hard))
    few, many = cost_of_read(100), cost_of_read(1_000)
    if many > 4 * few + 0.1:
        raise Wrong(f"300 reads cost {few:.3f} s with 100 connections, and {many:.3f} s with 1,000")
    resource.setrlimit(resource.RLIMIT_NOFILE, (soft, hard))


def watches() -> None:
    with Server() as server:
        client = Client(server.port)
        paths = b"".join(text(b"/%x" % (0x1000 + it)) for it in range(26_000))
        before = server.cpu_seconds()
        none = struct.pack(">i", 0)
        if error := client.ask(SET_WATCHES, struct.pack(">q", 1 << 60) + none + struct.pack(">i", 26_000) + paths + none, -8):
            raise Wrong(f"setWatches: {error}")
        if (cost := server.cpu_seconds() - before) > 5:
            raise Wrong(f"26,000 watches cost {cost:.1f} s")
        client.create(b"/1fff")
        if client.reply()[0] not in (EVENT, client.xid):
            raise Wrong("a watch is not set")


def reads_beside(server: Server, busy: Client, frames: bytes, replies: int) -> int:
    """The reads of another client from when the frames of one are sent until it has these replies."""
    other, errors = Client(server.port), []
    receiver = threading.Thread(target=lambda: errors.extend(busy.reply()[2] for _ in range(replies)), daemon=True)
    busy.stream.sendall(frames)
    receiver.start()
    reads = 0
    while receiver.is_alive():
        other.get(b"/")
        reads += 1
    if len(errors) < replies or any(errors):
        raise Wrong(f"replies: {errors}")
    return reads


def resumed() -> None:
    with Server() as server:
        client, watches, none = Client(server.port), 104_000, struct.pack(">i", 0)
        numbers = list(range(0x10000, 0x10000 + watches))
        random.Random(1).shuffle(numbers)
        paths = b"".join(text(b"/%x" % it) for it in numbers)
        body = struct.pack(">iiq", -8, SET_WATCHES, 1 << 60) + none + struct.pack(">i", watches) + paths + none
        if len(body) > MOST_BYTES:
            raise Wrong(f"a frame of {len(body)} bytes")
        reads = reads_beside(server, client, framed(body), 1)
        if reads < watches // 2048:
            raise Wrong(f"{reads} reads beside {watches} watches")


def counts() -> None:
    with Server() as server:
        client = Client(server.port)
        for it in range(1_000):
            client.send(CREATE, text(b"/%d" % it) + text(b"x") + OPEN_ACL + struct.pack(">i", 0))
        for it in range(1_000):
            client.reply()
        frames = b"".join(framed(struct.pack(">ii", 10 + it, COUNT) + text(b"/")) for it in range(200))
        reads = reads_beside(server, client, frames, 200)
        if reads < 100:
            raise Wrong(f"{reads} reads beside 200 counts")


def unreadable() -> None:
    with Server() as server:
        owner, client, none = Client(server.port), Client(server.port), struct.pack(">i", 0)
        if owner.ask(AUTH, struct.pack(">i", 0) + text(b"digest") + text(b"u:p"), -4):
            raise Wrong("no identity")
        own_acl = struct.pack(">ii", 1, 31) + text(b"auth") + text(b"")
        if error := owner.ask(CREATE, text(b"/own") + text(b"x") + own_acl + struct.pack(">i", 0)):
            raise Wrong(f"create: {error}")
        body = struct.pack(">q", 1 << 60) + none + none + struct.pack(">i", 1) + text(b"/own")
        if error := client.ask(SET_WATCHES, body, -8):
            raise Wrong(f"setWatches: {error}")
        owner.create(b"/own/child")
        client.ping()
        if client.reply()[0] != EVENT:
            raise Wrong("the watch is not set")


def identities() -> None:
    with Server() as server:
        client = Client(server.port)
        proof = [struct.pack(">i", 0) + text(b"digest") + text(b"u%d:p" % it) for it in range(101)]
        errors = [client.ask(AUTH, it, -4) for it in proof]
        if any(errors[:100]) or errors[100] != AUTH_FAILED:
            raise Wrong(f"the errors of 101 proofs: {errors}")
        try:
            client.get(b"/")
        except (EOFError, OSError):
            return
        raise Wrong("the connection goes on")


PARTS = [pause, silent, full, addresses, unread, headers, identities, unreadable, disk]
# They measure, and want a machine of their own.
MEASURED = [writer, idle, watches, resumed, counts]


def main() -> None:
    names = sys.argv[1:]
    for part in PARTS + MEASURED:
        if part.__name__ in names or not names and part in PARTS:
            try:
                part()
            except Wrong as wrong:
                sys.exit(f"stalls: {part.__name__}: {wrong}")
            except (EOFError, OSError) as error:
                sys.exit(f"stalls: {part.__name__}: {error!r}")
    print(f"stalls: {len(names) or len(PARTS)} kinds of clients stall no others")


if __name__ == "__main__":
    main()
