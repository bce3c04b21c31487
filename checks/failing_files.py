#!/usr/bin/env python3
"""Fails the calls on the files of `zk ensemble PORT 1 --data DIR` in turn, while a kazoo client writes, and starts it again on DIR.

Each write, sync, read and change of length fails once, at the first start, on a new directory or on one that has data. Then the
server stops with one line, or the program ends with one; the client gets no reply to what was not stored. After a start in which all
calls succeed, a client finds each node whose creation was acknowledged.

usage: failing_files.py [--every N] [KIND ..]     the kinds of calls that fail: write, sync, read, length; all of them if none is
                                                  named. Of each kind each Nth call fails, from the first one on; each if N is not given
"""
import errno
import os
import random
import re
import shutil
import subprocess
import sys
import tempfile
import threading
import time
from concurrent.futures import ThreadPoolExecutor
from pathlib import Path

try:
    from kazoo.client import KazooClient
    from kazoo.exceptions import KazooException
    from kazoo.handlers.threading import KazooTimeoutError
    from kazoo.retry import KazooRetry
except ImportError:
    if sys.executable == "/usr/bin/python3":
        sys.exit("failing_files: kazoo is not installed: apt-get install python3-kazoo")
    os.execv("/usr/bin/python3", ["/usr/bin/python3", *sys.argv])

ROOT = Path(__file__).resolve().parent.parent
PROGRAM = Path(os.environ.get("ZK", ROOT / "crates" / "zk_cli" / "out" / "zk_cli"))

# The calls that fail, with their errors. A disk is full where a file grows.
KINDS = {"write": errno.ENOSPC, "sync": errno.EIO, "read": errno.EIO, "length": errno.ENOSPC}
# The nodes that a client creates.
NODES = 3
# More calls of one kind than a run makes.
ENOUGH = 10_000
# The number of runs side by side.
LANES = 8
# Seconds in which the program serves or ends, and in which a client gets a reply.
PATIENCE = 300
# Seconds in which a reply that is on its way arrives, after the server has stopped.
GRACE = 1

# What the program may print on a failure: a server has stopped, or the directory is not opened.
STOPS = re.compile(
    r"(zk: server 1 has stopped: its store has failed\n"
    r"|zk: data: the files of server 1 have failed\n"
    r"|zk: data: (Input/output error|No space left on device)[^\n]*\n"
    r"|zk: servers\n)"
)


class Wrong(Exception):
    """A run that ended otherwise than it may."""


class Server:
    """A running program on a directory."""

    def __init__(self, directory: Path, env: dict[str, str]):
        self.port = random.randrange(20_000, 60_000)
        words = [PROGRAM, "ensemble", str(self.port), "1", "--data", str(directory), "--until-eof"]
        pipe = subprocess.PIPE
        self.running = subprocess.Popen(words, env={**os.environ, **env}, stdin=pipe, stdout=pipe, stderr=pipe, text=True)
        self.told = ""
        self.has_stopped = threading.Event()
        self.listener = threading.Thread(target=self.listen, daemon=True)
        self.listener.start()
        self.serves = self.running.stdout.readline().startswith("serving")

    def listen(self):
        """Reads standard error. A line on it, or its end, says that the server has stopped."""
        for line in self.running.stderr:
            self.told += line
            self.has_stopped.set()
        self.has_stopped.set()

    def end(self) -> tuple[str, int]:
        """What it printed to standard error, and its status."""
        self.running.stdin.close()
        try:
            self.running.wait(PATIENCE)
        except subprocess.TimeoutExpired:
            self.running.kill()
            raise Wrong("the program does not end") from None
        self.listener.join(PATIENCE)
        self.running.stdout.close()
        return self.told, self.running.returncode

    def comes(self, event) -> bool:
        """Whether an event comes, before the server has stopped or soon after that."""
        end = time.time() + PATIENCE
        while time.time() < end and not self.has_stopped.is_set():
            if event.wait(0.01):
                return True
        return event.wait(GRACE)


def start(directory: Path, env: dict[str, str]) -> Server:
    """A program whose port was free."""
    while True:
        server = Server(directory, env)
        if server.serves:
            return server
        told, server.status = server.end()
        if "listen" not in told:
            return server


def client_of(server: Server) -> KazooClient:
    once = KazooRetry(max_tries=0)
    return KazooClient(f"127.0.0.1:{server.port}", timeout=30.0, connection_retry=once, command_retry=once)


def write(server: Server, first: int) -> list[str]:
    """The nodes whose creation a server acknowledges, until it stops."""
    created = []
    zk = client_of(server)
    try:
        if not server.comes(zk.start_async()):
            return created
        for number in range(first, first + NODES):
            reply = zk.create_async(f"/node{number}", str(number).encode())
            if not server.comes(reply):
                return created
            created.append(reply.get())
    except (KazooException, KazooTimeoutError):
        pass
    finally:
        zk.stop()
        zk.close()
    return created


def check(directory: Path, created: list[str]) -> None:
    """A start in which all calls succeed serves what was acknowledged."""
    server = start(directory, {})
    if not server.serves:
        raise Wrong(f"the next start fails: {server.told}")
    zk = client_of(server)
    try:
        zk.start(PATIENCE)
        for path in created:
            if zk.exists(path) is None or zk.get(path)[0].decode() != path.removeprefix("/node"):
                raise Wrong(f"lost: {path}")
        zk.create("/after", b"")
    except (KazooException, KazooTimeoutError) as why:
        raise Wrong(f"the next start does not serve: {why!r}") from None
    finally:
        zk.stop()
        zk.close()
    told, status = server.end()
    if (told, status) != ("", 0):
        raise Wrong(f"the next start ends with {told!r}, {status}")


def run(kind: str, at: int, base: Path | None, before: list[str], room: Path, library: Path) -> bool:
    """Whether a call failed in a run on a new directory, or on a copy of one."""
    name = f"{kind}{at}{'old' if base else 'new'}"
    directory, met = room / name, room / f"{name}.met"
    if base:
        shutil.copytree(base, directory)
    env = {"LD_PRELOAD": str(library), "FAIL_KIND": kind, "FAIL_AT": str(at), "FAIL_ERRNO": str(KINDS[kind]), "FAIL_DIR": f"{directory}/", "FAIL_MET": str(met)}
    try:
        server = start(directory, env)
        created = write(server, len(before)) if server.serves else []
        told, status = server.end() if server.serves else (server.told, server.status)
        has_failed = met.read_text() == "met\n"
        if has_failed and not STOPS.fullmatch(told):
            # a change of the epochs' files, which only other tools read, may fail unnoticed
            if (told, status) != ("", 0) or len(created) != NODES:
                raise Wrong(f"it prints {told!r} and ends with {status}; {len(created)} nodes were acknowledged")
        if not has_failed and ((told, status) != ("", 0) or len(created) != NODES):
            raise Wrong(f"without a failure it prints {told!r} and ends with {status}; {len(created)} nodes were acknowledged")
        check(directory, before + created)
    except Wrong as why:
        raise Wrong(f"{kind} {at} {'with' if base else 'without'} data: {why}") from None
    finally:
        shutil.rmtree(directory, ignore_errors=True)
    return has_failed


def run_all(kind: str, every: int, base: Path | None, before: list[str], room: Path, library: Path) -> int:
    """The number of calls of a kind that failed in turn."""
    failed = 0
    with ThreadPoolExecutor(max_workers=LANES) as lanes:
        for first in range(1, ENOUGH, LANES * every):
            group = range(first, first + LANES * every, every)
            results = list(lanes.map(lambda at: run(kind, at, base, before, room, library), group))
            failed += sum(results)
            if not all(results):
                return failed
    raise Wrong(f"more than {ENOUGH} calls of the kind {kind}")


def check_damage(base: Path, room: Path) -> None:
    """A log without the entries that are stored is no failure of the disk."""
    directory = room / "damaged"
    shutil.copytree(base, directory)
    os.truncate(directory / "1" / "version-2" / "log.1", 20)
    server = start(directory, {})
    told, status = server.end() if server.serves else (server.told, server.status)
    if (told, status) != ("zk: data: the log of server 1 is damaged\n", 1):
        raise Wrong(f"a damaged log: it prints {told!r} and ends with {status}")


def main() -> int:
    words, every = sys.argv[1:], 1
    if words[:1] == ["--every"]:
        every, words = int(words[1]), words[2:]
    kinds = words or list(KINDS)
    began = time.time()
    with tempfile.TemporaryDirectory() as work:
        room = Path(work).resolve()
        library = room / "fail_files.so"
        subprocess.run(["gcc", "-shared", "-fPIC", "-O2", "-o", library, ROOT / "checks" / "fail_files.c"], check=True)
        base = room / "base"
        server = start(base, {})
        before = write(server, 0)
        if len(before) != NODES or server.end() != ("", 0):
            raise Wrong("a directory with data is not written")
        check_damage(base, room)
        for kind in kinds:
            fresh = run_all(kind, every, None, [], room, library)
            old = run_all(kind, every, base, before, room, library)
            print(f"failing_files: {fresh} calls of the kind {kind} failed in turn on a new directory, and {old} on one with data")
        if not (base / "1" / "version-2" / "acceptedEpoch").read_text().isdecimal():
            raise Wrong("acceptedEpoch is no decimal")
    print(f"failing_files: nothing that was acknowledged is lost ({time.time() - began:.0f} s)")
    return 0


if __name__ == "__main__":
    try:
        sys.exit(main())
    except Wrong as wrong:
        sys.exit(f"failing_files: {wrong}")
