#!/usr/bin/env python3
"""Measures `zk mend` beside `zk show last` of the log that it made: CPU seconds and peak memory.

usage: bench/mend.py     in a checkout where `rt ci`, or `rt run` in crates/zk_cli, has left the proved program

The log is that of a growing tree, as bench/measure.py has it, with a digest after each record but an error's, as a 3.8
server writes them. The sums are invented: each is compared with the table's and reported as mismatched.
"""
import os
import struct
import subprocess
import sys
import tempfile
import zlib

HERE = os.path.dirname(os.path.abspath(__file__))
ZK = os.path.join(HERE, "..", "crates", "zk_cli", "out", "zk_cli")
TURNS = 5
TOTAL = 205_000
HEADER = 16
ERROR = -1


def with_digests(log):
    """The same log with a digest of version 2 after each record but an error's."""
    made = bytearray(log[:HEADER])
    at = HEADER
    while at < len(log):
        _, length = struct.unpack_from(">QI", log, at)
        record = log[at + 12:at + 12 + length]
        (kind,) = struct.unpack_from(">i", record, 28)
        if kind != ERROR:
            record += struct.pack(">iQ", 2, at)
        made += struct.pack(">QI", zlib.adler32(record), len(record)) + record + b"B"
        at += 12 + length + 1
    return made


def run(words):
    """The CPU seconds of a run, and its peak memory in bytes."""
    child = subprocess.Popen(words, stdout=subprocess.DEVNULL)
    _, status, usage = os.wait4(child.pid, 0)
    if status:
        sys.exit("%s: status %d" % (" ".join(words), os.waitstatus_to_exitcode(status)))
    return usage.ru_utime + usage.ru_stime, usage.ru_maxrss * 1024


def main():
    with tempfile.TemporaryDirectory() as folder:
        old, newer, mended = (os.path.join(folder, name) for name in ("old", "newer", "mended"))
        subprocess.run([sys.executable, os.path.join(HERE, "make_log.py"), old, str(TOTAL), "tree"], check=True)
        with open(old, "rb") as log:
            made = with_digests(log.read())
        with open(newer, "wb") as log:
            log.write(made)
        mending, showing = [], []
        for _ in range(TURNS):
            mending.append(run([ZK, "mend", newer, mended]))
            showing.append(run([ZK, "show", mended, "last"]))
        subprocess.run(["cmp", old, mended], check=True)
        print("%d transactions, %.1f MB" % (TOTAL, len(made) / 1e6))
        for name, runs in (("zk mend", mending), ("zk show last", showing)):
            print("  %-14s %5.2f s CPU, %6.1f MB at most" % (name, min(runs)[0], runs[0][1] / 1e6))
        print("  %.2f times" % (min(mending)[0] / min(showing)[0]))


main()
