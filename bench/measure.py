#!/usr/bin/env python3
"""Measures `zk` beside `sha1sum`: CPU seconds and peak memory, on logs, and of a growing tree on one of twice its length.

usage: bench/measure.py     in a checkout where `rt ci`, or `rt run` in crates/zk_cli, has left the proved program

The runs of a log's commands take turns, and the least of each counts: so a machine that is busy for a while is no one
command's loss.
"""
import os
import subprocess
import sys
import tempfile

HERE = os.path.dirname(os.path.abspath(__file__))
ZK = os.path.join(HERE, "..", "crates", "zk_cli", "out", "zk_cli")
TURNS = 5


def run(words, output):
    """The CPU seconds of a run, and its peak memory in bytes."""
    with open(output, "w") as out:
        child = subprocess.Popen(words, stdout=out)
        _, status, usage = os.wait4(child.pid, 0)
    if status:
        sys.exit("%s: status %d" % (" ".join(words), os.waitstatus_to_exitcode(status)))
    return usage.ru_utime + usage.ru_stime, usage.ru_maxrss * 1024


def measured(commands):
    """For each command, a name, its words and its output: the least CPU seconds and the peak memory."""
    seconds = {name: [] for name, _, _ in commands}
    memory = {}
    for _ in range(TURNS):
        for name, words, output in commands:
            took, memory[name] = run(words, output)
            seconds[name].append(took)
    return {name: (min(took), memory[name]) for name, took in seconds.items()}


def report(size, results):
    yardstick, _ = results["sha1sum"]
    for name, (seconds, memory) in results.items():
        print("  %-28s %6.2f s CPU, %5.2f times sha1sum, %6.1f MB at most, %.1f times the log"
              % (name, seconds, seconds / yardstick, memory / 1e6, memory / size))


def make(folder, total, mix):
    log = os.path.join(folder, "log")
    subprocess.run([sys.executable, os.path.join(HERE, "make_log.py"), log, str(total), mix], check=True)
    print("%d transactions of the mix '%s', %.1f MB" % (total, mix, os.path.getsize(log) / 1e6))
    return log, os.path.getsize(log)


def there_back_and_there(folder):
    """A debug script: to the end, 1,000 steps back, and 1,000 forward."""
    script = os.path.join(folder, "script")
    with open(script, "w") as lines:
        lines.write("run\n" + "back\n" * 1_000 + "step\n" * 1_000)
    return script


def of_a_log(folder, total, mix):
    """`show` and `list` of a log, and `debug` where its tree grows. Returns what they took."""
    log, size = make(folder, total, mix)
    commands = [
        ("sha1sum", ["sha1sum", log], os.devnull),
        ("zk show of the start state", [ZK, "show", log, "0" * 16], os.devnull),
        ("zk show of the last state", [ZK, "show", log, "last"], os.devnull),
        ("zk list", [ZK, "list", log], os.devnull),
    ]
    if mix == "tree":
        commands.append(("zk debug", [ZK, "debug", log, there_back_and_there(folder)], os.devnull))
    results = measured(commands)
    report(size, results)
    return results


def there_and_back(folder, total):
    """`list` to a file, and `asm` of it."""
    log, size = make(folder, total, "all")
    listing, back = os.path.join(folder, "listing"), os.path.join(folder, "back")
    run([ZK, "list", log], listing)
    longer = os.path.getsize(listing)
    print("  the listing has %.1f MB" % (longer / 1e6))
    report(longer, measured([
        ("sha1sum", ["sha1sum", log], os.devnull),
        ("zk list to a file", [ZK, "list", log], listing),
        ("zk asm", [ZK, "asm", listing, back], os.devnull),
    ]))
    subprocess.run(["cmp", log, back], check=True)


def twice(name, once, again):
    print("twice the log: %-28s %.2f times" % (name, again[name][0] / once[name][0]))


def main():
    with tempfile.TemporaryDirectory() as folder:
        once = of_a_log(folder, 210_000, "tree")
        again = of_a_log(folder, 420_000, "tree")
        twice("zk show of the last state", once, again)
        twice("zk list", once, again)
        there_and_back(folder, 200_000)
        of_a_log(folder, 20_000, "colliding")


if __name__ == "__main__":
    main()
