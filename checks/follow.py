#!/usr/bin/env python3
"""`zk list --follow` of a directory whose logs grow: the logs of examples/directories/follower are written into another, as a server does,
over zeros and in parts that end anywhere, with rolls. What is printed is `zk list` of the directory at the end, in each form; the program ends with the
interrupt, or when its output is closed. A torn entry is waited for; one after which something was written is an error.

usage: follow.py [SEED]"""
import os
import random
import shutil
import signal
import subprocess
import sys
import tempfile
import time
from pathlib import Path

ROOT = Path(__file__).resolve().parent.parent
PROGRAM = Path(os.environ.get("ZK", ROOT / "crates" / "zk_cli" / "out" / "zk_cli"))
LOGS = ROOT / "examples" / "directories" / "follower"
PADDING = 1 << 20
# in seconds, for what is bound to come
PATIENCE = 300


def follow(room, *form):
    return subprocess.Popen([PROGRAM, "list", room, "--follow", *form], stdout=open(room / "out", "wb"), stderr=subprocess.PIPE)


def listing(directory, *form):
    return subprocess.run([PROGRAM, "list", directory, *form], capture_output=True, check=True).stdout


def wait_for(room, wanted):
    """Waits until this was printed."""
    end = time.monotonic() + PATIENCE
    while time.monotonic() < end:
        if (room / "out").read_bytes() == wanted:
            return
        time.sleep(0.05)
    found = (room / "out").read_bytes()
    sys.exit(f"{len(found)} bytes printed, {len(wanted)} expected")


def grow(path, content, draw):
    """Writes a log over zeros, in parts."""
    with open(path, "wb", buffering=0) as log:
        log.truncate(PADDING)
        at = 0
        while at < len(content):
            part = content[at : at + draw.choice([1, 7, 100, 3000, 20000])]
            log.write(part)
            at += len(part)
            if draw.random() < 0.02:
                time.sleep(0.12)


def ends(program):
    program.send_signal(signal.SIGINT)
    program.wait(PATIENCE)
    if program.stderr.read():
        sys.exit("an error at the interrupt")


def check_growth(form, draw):
    with tempfile.TemporaryDirectory() as name:
        room = Path(name)
        program = follow(room, *form)
        for log in sorted(LOGS.glob("log.*"), key=lambda file: int(file.name[4:], 16)):
            content = log.read_bytes().rstrip(b"\0")
            grow(room / log.name, content, draw)
        wanted = listing(LOGS, *form)
        wait_for(room, wanted)
        ends(program)
        print(f"list --follow {' '.join(form)}: {wanted.count(10)} lines")


def check_torn():
    """An entry is torn, and then written whole; and one stays wrong, with a write after it."""
    with tempfile.TemporaryDirectory() as name:
        room = Path(name)
        first = min(LOGS.glob("log.*"), key=lambda file: int(file.name[4:], 16))
        content = first.read_bytes().rstrip(b"\0")
        wanted = subprocess.run([PROGRAM, "list", LOGS], capture_output=True, check=True).stdout.splitlines(keepends=True)
        path = room / first.name
        at = len(content) - 5
        path.write_bytes(content[:at] + bytes(1000))
        program = follow(room)
        count = 146
        wait_for(room, b"".join(wanted[:count]))
        time.sleep(0.5)
        if program.poll() is not None:
            sys.exit("a torn entry is an error")
        path.write_bytes(content + bytes(1000))
        wait_for(room, b"".join(wanted[: count + 1]))
        path.write_bytes(content + content[16:100] + b"\xff" * 100 + b"more" + bytes(1000))
        if program.wait(PATIENCE) != 1 or not program.stderr.read().startswith(b"zk: G"):
            sys.exit("a write after a wrong entry is no error")
        print("torn: waited for, and an error after a later write")


def check_closed():
    """The output is closed; the next write ends the program."""
    first, second, _ = sorted(LOGS.glob("log.*"), key=lambda file: int(file.name[4:], 16))
    with tempfile.TemporaryDirectory() as name:
        room = Path(name)
        shutil.copy(first, room)
        program = subprocess.Popen([PROGRAM, "list", room, "--follow"], stdout=subprocess.PIPE, stderr=subprocess.PIPE)
        program.stdout.readline()
        program.stdout.close()
        shutil.copy(second, room)
        if program.wait(PATIENCE) != 1 or program.stderr.read() != b"zk: write\n":
            sys.exit("a closed output is no end")
        print("closed: it ends")


if __name__ == "__main__":
    # a shell's background runs begin with the interrupt ignored, and would pass that on to the programs
    signal.signal(signal.SIGINT, signal.default_int_handler)
    seed = int(sys.argv[1]) if len(sys.argv) > 1 else 1
    for form in ([], ["--time", "iso"], ["--json"]):
        check_growth(form, random.Random(seed))
    check_torn()
    check_closed()
