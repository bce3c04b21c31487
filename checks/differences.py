#!/usr/bin/env python3
"""`zk diff` over the real directory examples/directories/follower: between two transactions of which live servers said all nodes but
/zookeeper/config, which each server of an ensemble sets by itself (examples/directories/README.md), in both directions, at each path,
and between a transaction and itself; where there is no such tree; and without the log between two snapshots. The transactions that
changed the nodes are those of a reader of logs in Python (checks/incidents.py)."""
import os
import shutil
import subprocess
import sys
import tempfile
from pathlib import Path

from incidents import CLOSE, closed_by, moment, records_in, writes_of

ROOT = Path(__file__).resolve().parent.parent
PROGRAM = Path(os.environ.get("ZK", ROOT / "crates" / "zk_cli" / "out" / "zk_cli"))
DIRECTORIES = ROOT / "examples" / "directories"
FOLLOWER = DIRECTORIES / "follower"
EARLY, LATE = "00000002000000b6", "000000020000013d"


def path_of(line):
    """The path of a node's line; no path of the directory has a space or an escape."""
    return line.split(" ", 1)[0].strip('"')


def nodes_at(zxid):
    """The lines of the nodes that a live server had, by path."""
    lines = (DIRECTORIES / f"follower.{zxid}.nodes").read_text().splitlines()
    return {path_of(line): line for line in lines}


def last_changes(first, last):
    """The time and the zxid of the last transaction, after the first one and up to the last, that changed each node or its children."""
    found = {}
    for session, _, zxid, time, kind, body in records_in(FOLLOWER):
        if not int(first, 16) < zxid <= int(last, 16):
            continue
        if kind == CLOSE:
            changes = [(path, "delete") for path in closed_by(session, body, {})]
        else:
            changes = [(path, what) for path, what, _ in writes_of(kind, body)]
        for path, what in changes:
            found[path] = f"{moment(time)} {zxid:016x}"
            if what in ("create", "delete"):
                found[path.rsplit("/", 1)[0] or "/"] = found[path]
    return found


def differences(old, new, root, changes):
    """The lines of what differs at a path and below it, in order of path."""
    for path in sorted(old.keys() | new.keys(), key=str.encode):
        before, after = old.get(path), new.get(path)
        if before == after or not (path == root or path.startswith(root.rstrip("/") + "/")):
            continue
        if before is None or after is None:
            yield f"- {changes[path]} {before}" if after is None else f"+ {changes[path]} {after}"
        else:
            yield f"< {changes[path]} {before}"
            yield f"> {changes[path]} {after}"


def node_of(line):
    """The node of a line, after its sign, time and zxid."""
    return line.split(" ", 3)[3]


def printed(*words):
    ran = subprocess.run([PROGRAM, "diff", *map(str, words)], capture_output=True, check=False)
    if (ran.returncode, ran.stderr) != (0, b""):
        sys.exit(f"{words}: {ran}")
    return [line for line in ran.stdout.decode().splitlines() if path_of(node_of(line)) != "/zookeeper/config"]


def same(what, lines, expected):
    if lines != expected:
        sys.exit(f"{what}: {lines}, and not {expected}")


def fails(line, *words):
    ran = subprocess.run([PROGRAM, "diff", *map(str, words)], capture_output=True, check=False)
    if (ran.returncode, ran.stdout, ran.stderr) != (1, b"", f"{line}\n".encode()):
        sys.exit(f"{words}: {ran}, and not {line}")


def latest_in(line):
    """The zxid of the last transaction that changed a node's content or children, by the stat that the server said."""
    fields = line.split()
    return max(fields[-10], fields[-1])


def without_log(zxid):
    """Between two snapshots without the log between them: the same nodes, and no transaction is known."""
    first, last = "000000020000004f", "00000002000000d6"
    whole = printed(FOLLOWER, first, last)
    with tempfile.TemporaryDirectory() as work:
        copy = Path(work) / "copy"
        shutil.copytree(FOLLOWER, copy)
        (copy / f"log.{zxid}").unlink()
        same("without a log", printed(copy, first, last), [f"{line[0]} - - {node_of(line)}" for line in whole])


def main():
    early, late = nodes_at(EARLY), nodes_at(LATE)
    changes = last_changes(EARLY, LATE)
    for root in ["/", *sorted(early.keys() | late.keys()), "/none"]:
        same(root, printed(FOLLOWER, EARLY, LATE, root), list(differences(early, late, root, changes)))
        same(f"back {root}", printed(FOLLOWER, LATE, EARLY, root), list(differences(late, early, root, changes)))
        same(f"none {root}", printed(FOLLOWER, LATE, LATE, root), [])
    whole = list(differences(early, late, "/", changes))
    same("without a path", printed(FOLLOWER, EARLY, LATE, "--logs", FOLLOWER), whole)
    if not {line[0] for line in whole} >= set("+<>"):
        sys.exit("too few kinds of lines")
    for line in whole:
        if line[0] in "+>" and line.split()[2] < latest_in(line):
            sys.exit(f"an earlier transaction than the node's: {line}")
    fails("zk: D2 000000010000022d", FOLLOWER, "000000020000004d", LATE)
    fails("zk: D2 000000010000022d", FOLLOWER, LATE, "000000020000004d")
    without_log("200000050")
    print(f"diff: {len(whole)} lines between two trees that live servers had, at each path")


if __name__ == "__main__":
    main()
