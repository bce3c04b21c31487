#!/usr/bin/env python3
"""Fails each allocation in turn, from the first on until a run meets none, while the proved program
serves. There are three servers without connections, and three servers with one client, which opens
a session and creates a node.

Each run must end within a time limit: the servers' threads end even if an allocation failed while
they started, ran or ended. The program prints `listening PORT` or nothing, and ends with status 0,
or with status 1 and `zk: memory`. Without a port it may end with `zk: listen`, if that persists over
several ports. A client gets the reply that it gets without the failure, or `err server`, or the
connection ends. A run without a failed allocation ends with status 0.

usage: alloc_failure_serve.py [N ..]     the allocations with these numbers; all of them if none is named
"""
import os
import socket
import subprocess
import sys
import tempfile
from concurrent.futures import ThreadPoolExecutor
from pathlib import Path

ROOT = Path(__file__).resolve().parent.parent
PROGRAM = Path(os.environ.get("ZK", ROOT / "crates" / "zk_cli" / "out" / "zk_cli"))

# The number of allocations that are tried before the end is looked for: most often all.
BLOCK = 512

# More allocations than a run makes.
ENOUGH = 200 * BLOCK

# The number of runs side by side. Some fifty of those with a client wait for a minute, without much to compute.
LANES = 64

# The number of ports that a run tries: another process may take one before the program opens it.
PORTS = 5

# Seconds that a run may take: one write whose messages were lost waits for some sixty, and longer on a busy machine.
LIMIT = 600

TURNS = (
    (b"ruok\n", b"imok\n"),
    (b"open 30000\n", b"ok 0000000100000001 30000\n"),
    (b'create "/a" x6869 1 31 "world" "anyone"\n', b'ok "/a"\n'),
)


# Standard output, standard error and status.
Ended = tuple[str, str, int]

# If an allocation fails while the system opens the port, the port cannot be opened.
UNOPENED = ("", "zk: listen\n", 1)


class Wrong(Exception):
    """A run that ended otherwise than it may."""


def free_port() -> int:
    with socket.socket() as it:
        it.bind(("127.0.0.1", 0))
        return it.getsockname()[1]


def talk(port: int) -> None:
    """Asks, up to the first answer that is another."""
    with socket.create_connection(("127.0.0.1", port), timeout=LIMIT) as client:
        answers = client.makefile("rb")
        for line, wanted in TURNS:
            client.sendall(line)
            answer = answers.readline()
            if answer != wanted:
                if answer not in (b"", b"err server\n"):
                    raise Wrong(f"{line!r} is answered {answer!r}")
                return


def run_once(words: list[str], env: dict[str, str], port: int, clients: int) -> Ended:
    """Runs the program to its end, with a client if it serves one."""
    pipe = subprocess.PIPE
    with subprocess.Popen(words, env=env, stdin=subprocess.DEVNULL, stdout=pipe, stderr=pipe, text=True) as running:
        try:
            line = running.stdout.readline()
            if line and clients:
                try:
                    talk(port)
                except OSError:
                    # the servers have ended
                    pass
            told, why = running.communicate(timeout=LIMIT)
        finally:
            running.kill()
    return line + told, why, running.returncode


def run(growth: int, clients: int, library: Path, room: Path) -> bool:
    """Whether an allocation failed in a run."""
    met = room / f"{clients}.{growth}.met"
    env = {**os.environ, "LD_PRELOAD": str(library), "REFUSE": str(growth), "REFUSE_MET": str(met)}
    name = f"allocation {growth} with {clients} clients"
    for _ in range(PORTS):
        port = free_port()
        try:
            ended = run_once([str(PROGRAM), "serve", str(port), "3", "--conns", str(clients)], env, port, clients)
        except subprocess.TimeoutExpired:
            raise Wrong(f"{name}: it does not end") from None
        if ended != UNOPENED:
            break
    listening = f"listening {port}\n"
    failed = met.read_text(encoding="utf-8") == "met\n"
    allowed = {(listening, "", 0)}
    if failed:
        allowed |= {(listening, "zk: memory\n", 1), ("", "zk: memory\n", 1), UNOPENED}
    if ended not in allowed:
        raise Wrong(f"{name}: it ends with {ended}")
    return failed


def run_all(clients: int, library: Path, room: Path) -> int:
    """How many allocations a run makes."""
    with ThreadPoolExecutor(max_workers=LANES) as lanes:
        for first in range(1, ENOUGH, BLOCK):
            met = list(lanes.map(lambda it: run(it, clients, library, room), range(first, first + BLOCK)))
            if not any(met[-LANES:]):
                return first + max((at for at, it in enumerate(met) if it), default=-1)
    raise Wrong("allocations without end")


def main() -> int:
    with tempfile.TemporaryDirectory() as name:
        room = Path(name)
        library = room / "fail_alloc.so"
        subprocess.run(["cc", "-shared", "-fPIC", "-O2", "-o", library, ROOT / "checks" / "fail_alloc.c", "-ldl"], check=True)
        try:
            for clients in (0, 1):
                if sys.argv[1:]:
                    for growth in sys.argv[1:]:
                        run(int(growth), clients, library, room)
                    continue
                count = run_all(clients, library, room)
                print(f"alloc_failure_serve: {clients} clients, at most {count} allocations failed in turn")
        except Wrong as why:
            print(f"alloc_failure_serve: {why}", file=sys.stderr)
            return 1
    return 0


if __name__ == "__main__":
    sys.exit(main())
