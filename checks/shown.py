#!/usr/bin/env python3
"""README.md and docs/CLI.md show what the proved program prints: each `console` block is run, and its output compared.

A block is one shell, in a folder of its own with a link to `examples`. A line `$ COMMAND` is a command, which lines `> ..` continue;
the lines below are what it prints, on standard output and standard error. A command that ends with `&` goes on in the background:
the next one waits until the lines below it are there. In a block with `zk serve` or `zk ensemble`, ports are replaced by free ones;
in one with `zk serve` a time, which has thirteen digits, stands for any. What a block leaves in the background ends with it.

usage: shown.py [PAGE..]
"""
import contextlib
import os
import random
import re
import select
import signal
import socket
import subprocess
import sys
import tempfile
import time
from pathlib import Path

ROOT = Path(__file__).resolve().parent.parent
PROGRAM = Path(os.environ.get("ZK", ROOT / "crates" / "zk_cli" / "out" / "zk_cli"))
PAGES = ["README.md", "docs/CLI.md"]
# The first port of a block, and those after it.
PORT = r"\b218[12](\d)\b"
PORTS = 10
SECONDS = 60


def blocks(text: str):
    """Each `console` block: the line of its first command, and its commands with their output."""
    lines = text.split("\n")
    at = 0
    while at < len(lines):
        if lines[at].strip() != "```console":
            at += 1
            continue
        at += 1
        start, steps = at + 1, []
        while lines[at].strip() != "```":
            line = lines[at]
            if line.startswith("$ "):
                steps.append((at + 1, [line[2:]], []))
            elif line.startswith("> ") and steps and not steps[-1][2]:
                steps[-1][1].append(line[2:])
            elif steps:
                steps[-1][2].append(line)
            else:
                sys.exit(f"shown: line {at + 1}: output before a command")
            at += 1
        yield start, steps


def free_ports() -> int:
    """The first of consecutive free ports."""
    while True:
        first = random.randrange(20_000, 60_000)
        sockets = []
        try:
            for port in range(first, first + PORTS):
                sockets.append(socket.socket())
                sockets[-1].bind(("127.0.0.1", port))
            return first
        except OSError:
            continue
        finally:
            for it in sockets:
                it.close()


class Shell:
    """A bash that runs commands one by one, and whose output is read up to a mark."""

    def __init__(self, folder: str):
        path = f"{folder}/bin:{os.environ['PATH']}"
        self.process = subprocess.Popen(
            ["bash", "--noprofile", "--norc"],
            cwd=f"{folder}/work",
            env={**os.environ, "PATH": path, "TZ": "UTC", "LC_ALL": "C.UTF-8"},
            stdin=subprocess.PIPE,
            stdout=subprocess.PIPE,
            stderr=subprocess.STDOUT,
            start_new_session=True,
        )
        self.buffer = b""

    def more(self, deadline: float) -> bool:
        left = deadline - time.monotonic()
        if left <= 0 or not select.select([self.process.stdout], [], [], left)[0]:
            return False
        chunk = os.read(self.process.stdout.fileno(), 65536)
        self.buffer += chunk
        return bool(chunk)

    def run(self, number: int, command: str, lines: int) -> list[str]:
        """What a command prints; of one in the background at least `lines` lines."""
        mark = f"--shown {number}--\n".encode()
        self.process.stdin.write(f"{command}\nprintf '%s\\n' '{mark.decode().strip()}'\n".encode())
        self.process.stdin.flush()
        deadline = time.monotonic() + SECONDS
        while mark not in self.buffer and self.more(deadline):
            pass
        before, _, self.buffer = self.buffer.partition(mark)
        if command.endswith("&"):
            while (before + self.buffer).count(b"\n") < lines and self.more(deadline):
                pass
            before, self.buffer = before + self.buffer, b""
        return before.decode("utf-8", "replace").splitlines()

    def end(self):
        self.process.stdin.close()
        try:
            self.process.wait(10)
        except subprocess.TimeoutExpired:
            self.process.kill()
        with contextlib.suppress(ProcessLookupError):
            os.killpg(self.process.pid, signal.SIGTERM)
        self.process.stdout.close()


def same(shown: list[str], printed: list[str], any_time: bool) -> bool:
    if any_time:
        shown, printed = ([re.sub(r"\b1\d{12}\b", "TIME", it) for it in lines] for lines in (shown, printed))
    return shown == printed


def played(page: str, start: int, steps) -> list[str]:
    """The differences of one block."""
    serves = any("zk serve" in line for _, command, _ in steps for line in command)
    first = free_ports() if serves or any("zk ensemble" in line for _, command, _ in steps for line in command) else None

    def ported(text: str) -> str:
        return text if first is None else re.sub(PORT, lambda it: str(first + int(it[1])), text)

    faults = []
    with tempfile.TemporaryDirectory() as folder:
        os.makedirs(f"{folder}/bin")
        os.makedirs(f"{folder}/work")
        os.symlink(ROOT / "examples", f"{folder}/work/examples")
        with open(f"{folder}/bin/zk", "w", encoding="utf-8") as it:
            it.write(f'#!/bin/sh\nexec "{PROGRAM.resolve()}" "$@"\n')
        os.chmod(f"{folder}/bin/zk", 0o755)
        shell = Shell(folder)
        for number, command, shown in steps:
            shown = [ported(line) for line in shown]
            printed = shell.run(number, ported("\n".join(command)), len(shown))
            if not same(shown, printed, serves):
                faults.append(f"{page}:{number}: $ {' '.join(command)}")
                faults += [f"  shown:   {line}" for line in shown] + [f"  printed: {line}" for line in printed]
        shell.end()
    return faults


def main() -> int:
    faults, count = [], 0
    for page in sys.argv[1:] or PAGES:
        for start, steps in blocks((ROOT / page).read_text(encoding="utf-8")):
            faults += played(page, start, steps)
            count += len(steps)
    for fault in faults:
        print(fault)
    if not count:
        print("shown: no command is shown")
    print(f"shown: {count} commands of the pages")
    return 1 if faults or not count else 0


if __name__ == "__main__":
    sys.exit(main())
