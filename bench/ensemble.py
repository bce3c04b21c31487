#!/usr/bin/env python3
"""Measures what an event of an ensemble costs, beside applying what its servers deliver; what ten times the calls cost; and
what a follower costs that joins its leader again and lacks ten entries of many.

usage: bench/ensemble.py     in a checkout; the first run proves its load, for an hour or so (bench/loads.py)

The load `ensemble` runs five servers under 2,000 calls, waits, and then applies what the last leader has delivered to a number
of machines. At its end it frees what the servers hold, which no server does while it runs. What the calls took is read while the
load waits. The least of several runs counts; what the machines cost is taken from a run with a hundred of them. What it costs to
join again is taken from runs in which that happens a thousand times, after 2,000 and 100,000 calls, each beside a run with as many
calls in which no server joins again.
"""
import os
import subprocess
import sys
import time

from loads import program

CALLS = 2000
SERVERS = 5
MACHINES = 100
TURNS = 40
MORE = 10
JOINS = 1000
LACKS = 10
MANY = 100000


def taken(pid):
    """The CPU seconds that a process has taken, which waits."""
    while open("/proc/%d/stat" % pid).read().rpartition(")")[2].split()[0] != "S":
        time.sleep(0.001)
    return int(open("/proc/%d/schedstat" % pid).read().split()[0]) / 1e9


def run(calls, machines=0, joins=0):
    """The CPU seconds up to the end of the calls, those of the whole run, its events, and its steps of machines."""
    words = "%d %d %d" % (calls, machines, joins)
    child = subprocess.Popen([program(), "loads::ensemble"], env={**os.environ, "ZK_LOAD": words},
                             stdin=subprocess.PIPE, stdout=subprocess.DEVNULL, stderr=subprocess.PIPE)
    told = [child.stderr.readline().decode().split()]
    seconds = taken(child.pid)
    child.stdin.close()
    told += [line.split() for line in child.stderr.read().decode().splitlines()]
    _, status, usage = os.wait4(child.pid, 0)
    # between the first line and the last, one for each server
    if status or len(told) != SERVERS + 2 or int(told[0][0]) != calls:
        sys.exit("%s: status %d, %r" % (words, os.waitstatus_to_exitcode(status), told))
    return seconds, usage.ru_utime + usage.ru_stime, int(told[0][2]), int(told[-1][2])


def join(calls, turns):
    """The CPU seconds of a follower that misses ten calls and joins again, after `calls` calls, beyond those of ten calls that all hear."""
    joined = min(run(calls, 0, JOINS) for _ in range(turns))[0]
    return (joined - min(run(calls + LACKS * JOINS) for _ in range(turns))[0]) / JOINS


def main():
    alone = [run(CALLS) for _ in range(TURNS)]
    with_machines = [run(CALLS, MACHINES) for _ in range(TURNS)]
    seconds, whole, events, _ = min(alone)
    steps = with_machines[0][3]
    applying = (min(it[1] for it in with_machines) - min(it[1] for it in alone)) / MACHINES * SERVERS
    print("%d calls, %d events: %.4f s, %.2f microseconds an event; with its end %.4f s"
          % (CALLS, events, seconds, seconds / events * 1e6, whole))
    print("%d steps of %d machines: %.4f s, %.2f microseconds a step"
          % (steps // MACHINES * SERVERS, SERVERS, applying, applying / (steps / MACHINES * SERVERS) * 1e6))
    print("the run takes %.1f times what its machines take" % (seconds / applying))
    more, more_whole, more_events, _ = min(run(CALLS * MORE) for _ in range(TURNS))
    print("%d calls, %d events: %.3f s, %.1f times as long; with its end %.3f s, %.1f times"
          % (CALLS * MORE, more_events, more, more / seconds, more_whole, more_whole / whole))
    for calls, turns in ((CALLS, TURNS), (MANY, 3)):
        print("after %d calls it costs %.3f ms more that a follower lacks ten entries and joins again than that it hears them"
              % (calls, join(calls, turns) * 1e3))


if __name__ == "__main__":
    main()
