#!/usr/bin/env python3
"""Clients of `zk ensemble` that ask for more than they take: one sends 600 reads of a megabyte at once and gets replies in order, until
it is closed at 4 MB of unsent bytes if it is slow; one sends 2,600 and reads nothing. Neither makes the program hold more than some of
the replies, and a third client is served.
"""
import struct
import subprocess
import sys
import time
from pathlib import Path

from alloc_failure_ensemble import CREATE, GET, OPEN_ACL, PROGRAM, SERVERS, Client, Closed, Wrong, framed, free_ports, text

PATH = b"/big"
READS, UNREAD = 600, 2600
# Bytes in kB: the node, at three servers and in the history, and 4 MB of each of two clients, are some 30 MB.
MOST = 100_000


def reads(count: int) -> bytes:
    return b"".join(framed(struct.pack(">ii", xid, GET) + text(PATH) + b"\0") for xid in range(1, count + 1))


def peak(process: int) -> int:
    status = Path(f"/proc/{process}/status").read_text(encoding="utf-8")
    return int(next(line for line in status.split("\n") if line.startswith("VmHWM")).split()[1])


def check(ports: list[int], running: subprocess.Popen) -> None:
    first, greedy, deaf = (Client(ports[at:] + ports[:at], lambda: running.poll() is not None) for at in range(3))
    error, _ = first.ask(CREATE, text(PATH) + text(b"x" * 1_000_000) + OPEN_ACL + struct.pack(">i", 0))
    if error:
        raise Wrong(f"create: {error}")
    for client in (greedy, deaf):
        client.connect()
    first.ask(GET, text(b"/") + b"\0")
    greedy.stream.sendall(reads(READS))
    try:
        for xid in range(1, READS + 1):
            if struct.unpack_from(">i", greedy.receive())[0] != xid:
                raise Wrong(f"read {xid} has another's reply")
    except Closed:
        pass
    deaf.stream.settimeout(5)
    try:
        deaf.stream.sendall(reads(UNREAD))
    except OSError:
        # it was closed, or its input waits
        pass
    time.sleep(1)
    if first.ask(GET, text(PATH) + b"\0")[0]:
        raise Wrong("another client is not served")
    if peak(running.pid) > MOST:
        raise Wrong(f"{peak(running.pid)} kB were held")


def main() -> None:
    ports = free_ports()
    words = [str(PROGRAM), "ensemble", str(ports[0]), str(SERVERS), "--until-eof"]
    with subprocess.Popen(words, stdin=subprocess.PIPE, stdout=subprocess.PIPE) as running:
        try:
            running.stdout.readline()
            check(ports, running)
        finally:
            running.kill()
    print("pipelined_reads: replies in order, a client that reads nothing, and a third that is served")


if __name__ == "__main__":
    try:
        main()
    except Wrong as wrong:
        sys.exit(f"pipelined_reads: {wrong}")
