#!/usr/bin/env python3
"""Measures what a request costs that a leader prepares and takes, while its tree grows.

usage: bench/prepare.py     in a checkout; the first run proves its load, for an hour or so (bench/loads.py)

The load `prepare` is run with 50,000 creates and as many sets, and with 100,000; the second half is what the longer run takes
beyond the shorter one. The least of several runs counts.
"""
import os
import subprocess
import sys

from loads import program

HALF = 50000
TURNS = 5


def seconds(count):
    """The CPU seconds of a run."""
    env = {**os.environ, "ZK_LOAD": str(count)}
    child = subprocess.Popen([program(), "loads::prepare"], env=env, stdout=subprocess.DEVNULL, stderr=subprocess.PIPE)
    told = child.stderr.read().decode()
    _, status, usage = os.wait4(child.pid, 0)
    if status or told != "%d creates and as many sets, 0 refused\n" % count:
        sys.exit("%d: status %d, %r" % (count, os.waitstatus_to_exitcode(status), told))
    return usage.ru_utime + usage.ru_stime


def main():
    first = min(seconds(HALF) for _ in range(TURNS))
    both = min(seconds(2 * HALF) for _ in range(TURNS))
    second = both - first
    print("first half  %.3f s, %.2f microseconds a request" % (first, first / HALF / 2 * 1e6))
    print("second half %.3f s, %.2f microseconds a request, %.2f times the first" % (second, second / HALF / 2 * 1e6, second / first))


if __name__ == "__main__":
    main()
