"""What the checks of `zk ensemble` share: the proved program, kazoo, an ensemble with its operator, how to wait for a condition, and
the run of a record.

kazoo is looked for in this Python and in /usr/bin/python3; where neither has it, a check cannot run, and fails.
"""
import logging
import os
import re
import socket
import subprocess
import sys
import time
from contextlib import contextmanager
from pathlib import Path
from random import randrange

try:
    from kazoo.client import KazooClient
except ImportError:
    if sys.executable == "/usr/bin/python3":
        sys.exit(f"{Path(sys.argv[0]).stem}: kazoo is not installed: apt-get install python3-kazoo")
    os.execv("/usr/bin/python3", ["/usr/bin/python3", *sys.argv])

ROOT = Path(__file__).resolve().parent.parent
PROGRAM = Path(os.environ.get("ZK", ROOT / "crates" / "zk_cli" / "out" / "zk_cli"))

# How long a condition is waited for, in seconds.
PATIENCE = 300

# kazoo reports each lost connection, and the checks lose many.
logging.disable(logging.CRITICAL)


class Ensemble:
    """An ensemble that runs, and its operator."""

    def __init__(self, servers: int, *flags: str):
        self.servers = servers
        for _ in range(50):
            self.port = randrange(20000, 60000)
            self.process = subprocess.Popen(
                [PROGRAM, "ensemble", str(self.port), str(servers), *flags],
                stdin=subprocess.PIPE, stdout=subprocess.PIPE, stderr=subprocess.PIPE, text=True, bufsize=1,
            )
            line = self.process.stdout.readline()
            if line:
                expected = "serving" + "".join(f" {self.port + place}" for place in range(servers)) + "\n"
                assert line == expected, line
                return
        raise AssertionError(self.process.stderr.read())

    def hosts(self, *servers: int) -> str:
        return ",".join(f"127.0.0.1:{self.port + server - 1}" for server in servers or range(1, self.servers + 1))

    def says(self, command: str) -> list[str]:
        """What a command prints: a line for each server, or an error."""
        self.process.stdin.write(command + "\n")
        self.process.stdin.flush()
        first = self.process.stdout.readline().rstrip("\n")
        if first.startswith("error"):
            return [first]
        return [first] + [self.process.stdout.readline().rstrip("\n") for _ in range(self.servers - 1)]

    def states(self, command: str = "status") -> list[str]:
        """What each server does."""
        lines = self.says(command)
        for place, line in enumerate(lines):
            assert re.fullmatch(rf"server {place + 1} \w+ zxid [0-9a-f]{{16}} connections \d+", line), line
        return [line.split()[2] for line in lines]

    def leader(self) -> int:
        return self.states().index("leading") + 1

    def word(self, server: int, word: str) -> str:
        with socket.create_connection(("127.0.0.1", self.port + server - 1), PATIENCE) as connection:
            connection.sendall(word.encode())
            return b"".join(iter(lambda: connection.recv(4096), b"")).decode()

    def end(self) -> str:
        """Ends it at once. What it has written on standard error."""
        self.process.kill()
        self.process.wait()
        return self.process.stderr.read()


@contextmanager
def client(hosts: str, timeout: float = 10.0):
    zk = KazooClient(hosts, timeout=timeout, randomize_hosts=False)
    zk.start(PATIENCE)
    try:
        yield zk
    finally:
        zk.stop()
        zk.close()


def until(condition, what: str):
    """Waits for a condition; one that raises an error does not hold yet."""
    end = time.time() + PATIENCE
    while time.time() < end:
        try:
            if condition():
                return
        except Exception:
            pass
        time.sleep(0.05)
    raise AssertionError(f"not within {PATIENCE} s: {what}")


# ---- texts of reports, from what a client reads


def quoted(text: str) -> str:
    def escaped(character: str) -> str:
        if character in '"\\':
            return "\\" + character
        if ord(character) < 32 or ord(character) == 127:
            return f"\\u{{{ord(character):x}}}"
        return character

    return '"' + "".join(map(escaped, text)) + '"'


def node_line(path: str, content: bytes, acls, stat) -> str:
    acl = "".join(f" {it.perms} {quoted(it.id.scheme)} {quoted(it.id.id)}" for it in acls)
    digits = [f"{number & (2**64 - 1):016x}" for number in (stat.czxid, stat.mzxid, stat.ephemeralOwner, stat.pzxid)]
    return (
        f"{quoted(path)} x{content.hex()} {len(acls)}{acl} {digits[0]} {digits[1]} {stat.ctime} {stat.mtime} {stat.version}"
        f" {stat.cversion} {stat.aversion} {digits[2]} {stat.dataLength} {stat.numChildren} {digits[3]}"
    )


def tree_lines(zk, path: str = "/") -> list[str]:
    """The nodes below a path, and its own, as a tree report has them."""
    content, stat = zk.get(path)
    lines = [node_line(path, content, zk.get_acls(path)[0], stat)]
    for name in zk.get_children(path):
        lines += tree_lines(zk, path.rstrip("/") + "/" + name)
    return lines


# ---- the run of a record


def run_of(record: Path, servers: int, *reports: str) -> dict[str, list[str]]:
    """The reports `WORD P` at the end of the run of a record, which has no malformed line."""
    asked = [f"{report} {server}" for server in range(1, servers + 1) for report in reports]
    text = record.read_text(encoding="utf-8")
    assert text.startswith(f"servers {servers}\n") and text.endswith("\n"), text[:100]
    done = subprocess.run([PROGRAM, "run", "@"], input=text + "\n".join(asked) + "\n", capture_output=True, text=True)
    assert (done.returncode, done.stderr) == (0, ""), (done.returncode, done.stderr)
    replies = done.stdout.split("\n")
    events = text.count("\n")
    refused = [reply for reply in replies[:events] if reply.startswith("E")]
    # E6: the server served no client then, and rejected the request
    assert set(refused) <= {"E6"}, refused[:5]
    told = {}
    at = events
    for report in asked:
        word, count = replies[at].split()
        assert word == "lines", replies[at]
        told[report] = replies[at + 1 : at + 1 + int(count)]
        at += 1 + int(count)
    return told


def nodes_in(lines: list[str]) -> list[str]:
    return [line for line in lines if line.startswith('"') and not line.startswith('"/zookeeper')]
