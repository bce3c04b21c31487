#!/usr/bin/env python3
"""Measures what a write of 100 bytes costs three hosts that are turned in one thread over stores in memory, and what of it they keep.

usage: bench/hosts.py     in a checkout; the first run proves its load, for an hour or so (bench/loads.py)

The load `hosting` is run with 200,000 writes and with 400,000, in groups of 10 and of 1,000. The rate is that of the second half:
the writes that the longer run has more, by the CPU seconds that it takes more; the least of several runs counts. What is kept is the
growth of the peak memory between the two runs; a read keeps nothing if a run with as many reads as writes has the same peak.
"""
import os
import subprocess
import sys

from loads import program

WRITES = 200000
GROUPS = (10, 1000)
TURNS = 3


def run(writes, group, reads=0):
    """The CPU seconds of a run, and its peak memory in bytes."""
    env = {**os.environ, "ZK_LOAD": "%d %d 3 %d" % (writes, group, reads)}
    child = subprocess.Popen([program(), "loads::hosting"], env=env, stdout=subprocess.DEVNULL, stderr=subprocess.PIPE)
    told = child.stderr.read().decode()
    _, status, usage = os.wait4(child.pid, 0)
    begin = "%d writes in groups of %d, " % (writes, group)
    if status or not told.startswith(begin):
        sys.exit("%d: status %d, %r" % (writes, os.waitstatus_to_exitcode(status), told))
    return usage.ru_utime + usage.ru_stime, usage.ru_maxrss * 1024


def main():
    for group in GROUPS:
        first = [run(WRITES, group) for _ in range(TURNS)]
        both = [run(2 * WRITES, group) for _ in range(TURNS)]
        seconds = min(it[0] for it in both) - min(it[0] for it in first)
        grown = min(it[1] for it in both) - min(it[1] for it in first)
        print("groups of %d: %.0f writes a second, %.0f bytes a write for each of three hosts"
              % (group, WRITES / seconds, grown / WRITES / 3))
    reading = run(WRITES, GROUPS[-1], WRITES)
    alone = run(WRITES, GROUPS[-1])
    print("%d reads: %.2f microseconds a read, %d bytes more" % (WRITES, (reading[0] - alone[0]) / WRITES * 1e6, reading[1] - alone[1]))


if __name__ == "__main__":
    main()
