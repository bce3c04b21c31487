#!/usr/bin/env python3
"""`zk list --time iso` of the real directory examples/directories/follower, of those named and of the log examples/first_log.log: it is
the listing with the times of Python's datetime. `--json` of that log: each line is read by Python's json module, and is that of a directory that
holds the log, or has the fields of the line in the text of `zk show`.

usage: forms.py [DIR ..]"""
import sys
import tempfile
from pathlib import Path

from incidents import ROOT, moment
from json_lines import objects, printed, same, shown

LOG = ROOT / "examples" / "first_log.log"


def timed(line):
    words = line.split(" ", 4)
    return " ".join([*words[:3], moment(int(words[3])), words[4]])


def check_times(target):
    wanted = [timed(line) for line in printed("list", target).splitlines()]
    found = printed("list", target, "--time", "iso").splitlines()
    if found != wanted or not found:
        sys.exit(f"{target}: {next(pair for pair in zip(found, wanted) if pair[0] != pair[1])}")
    return len(found)


def check_log(log):
    with tempfile.TemporaryDirectory() as room:
        Path(room, "log.100000001").write_bytes(log.read_bytes())
        records = [dict(fields) for fields in objects("list", "--json", room)]
    same("list of a log", objects("list", log, "--json"), records)
    lines = shown(printed("show", log, "last"))
    same("show of a log", objects("show", "--json", log, "last"), lines)
    print(f"{log}: {check_times(log)} transactions, {len(lines)} lines of its tree")


if __name__ == "__main__":
    check_log(LOG)
    for name in sys.argv[1:] or [ROOT / "examples" / "directories" / "follower"]:
        print(f"{name}: {check_times(Path(name))} transactions")
