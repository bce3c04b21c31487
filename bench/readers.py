#!/usr/bin/env python3
"""Measures how many reads a second the readers of one server's view make together, beside a thread that calls; and what a publish
costs beside applying its transactions.

usage: bench/readers.py     in a checkout; the first run proves its load, for an hour or so (bench/loads.py)

The seconds of reads are those of a clock on the wall, less those of a run without reads; so nothing else may run on the machine.
One core is the calling thread's, and as many others as there are readers are free, if the machine has them.

A publish is measured in a view whose tree has some nodes: transactions that set what these hold are published one by one, or several at
once as after a reconnect. The same transactions are applied to a machine with the same nodes, as a server does whose nodes are watched. Both are in CPU microseconds a
transaction: those of runs with many transactions, less those of runs with a few, so that what comes before and the first publish, which
creates the nodes in the second machine, count for neither. What the view's two lists take is a part of a publish; the lock, the chronicle and
the event are none. The least of several runs counts, and runs of each kind take turns, so that a busy minute strikes all alike.
"""
import os
import subprocess
import sys
import time

from loads import program

READERS = (1, 2, 4)
READS = 1_000_000
# nodes, transactions, how many times over
TREES = ((100, 20_000, 10), (1_000, 5_000, 4))
AT_ONCE = (1, 10)
TURNS = 5


def run(readers, reads, nodes=0, txns=0, at_once=1, views=0, machines=0):
    """The wall-clock seconds, and the CPU seconds."""
    words = " ".join(str(it) for it in (readers, reads, nodes, txns, at_once, views, machines))
    tests = program()
    before = time.monotonic()
    child = subprocess.Popen([tests, "loads::readers"], env={**os.environ, "ZK_LOAD": words},
                             stdin=subprocess.DEVNULL, stdout=subprocess.DEVNULL, stderr=subprocess.PIPE)
    told = child.stderr.read().decode().split()
    _, status, usage = os.wait4(child.pid, 0)
    seconds = time.monotonic() - before
    if status or int(told[2]) != readers * reads or int(told[6]) != (nodes + txns) * views:
        sys.exit("%s: status %d, %r" % (words, os.waitstatus_to_exitcode(status), told))
    return seconds, usage.ru_utime + usage.ru_stime


def publishing(nodes, txns, at_once, times):
    """What a publish and an application cost, in CPU seconds a transaction."""
    few = 2 * at_once
    kinds = {(count, views, machines): [] for count in (few, txns) for views, machines in ((0, 0), (times, 0), (0, times))}
    for _ in range(TURNS):
        for (count, views, machines), taken in kinds.items():
            taken.append(run(0, 0, nodes, count, at_once, views, machines)[1])

    def more(views, machines):
        def above(count):
            return min(kinds[count, views, machines]) - min(kinds[count, 0, 0])

        return (above(txns) - above(few)) / (txns - few) / times

    return more(times, 0), more(0, times)


def least(which, *words):
    return min(run(*words)[which] for _ in range(TURNS))


def main():
    cores = os.cpu_count()
    alone = None
    for readers in READERS:
        seconds = least(0, readers, READS) - least(0, readers, 0)
        rate = readers * READS / seconds
        alone = alone or rate
        free = max(1, min(readers, cores - 1))
        print("%d readers: %.2f million reads a second, %.2f times as many for each of %d free cores as one alone"
              % (readers, rate / 1e6, rate / alone / free, free))
    for nodes, txns, times in TREES:
        for at_once in AT_ONCE:
            publish, apply = publishing(nodes, txns, at_once, times)
            print("%d nodes, %d at once: a publish %.2f microseconds a transaction, applying it %.2f: %.2f times"
                  % (nodes, at_once, publish * 1e6, apply * 1e6, publish / apply))


if __name__ == "__main__":
    main()
