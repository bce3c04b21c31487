#!/usr/bin/env python3
"""Measures `zk show DIR last` beside `zk show` of one log: a snapshot of 100,000 nodes and three logs of 66.7 MB together, and one
log of that size. Prints CPU seconds, the least of five, and peak memory.

usage: bench/directory.py     in a checkout where `rt ci`, or `rt run` in crates/zk_cli, has left the proved program

The snapshot has the tree that `zk show` prints of the log of the first 200,000 transactions.
"""
import os
import struct
import subprocess
import sys
import tempfile
import zlib

from measure import HERE, ZK, measured, report

BEFORE = 200_000
AFTER = 210_000


def text(words):
    return struct.pack(">i", len(words)) + words


def entries_of(log):
    """The places of a log's entries: the zxid, the first byte and the one after the last."""
    at = 16
    while at + 12 <= len(log):
        size = struct.unpack_from(">I", log, at + 8)[0]
        yield struct.unpack_from(">q", log, at + 24)[0], at, at + 13 + size
        at += 13 + size


def list_of(entries):
    """A list of access rights, from the words of a report: permissions, scheme and id of each entry."""
    body = b"".join(struct.pack(">i", int(perms)) + text(scheme.strip('"').encode()) + text(who.strip('"').encode())
                    for perms, scheme, who in zip(entries[::3], entries[1::3], entries[2::3]))
    return struct.pack(">i", len(entries) // 3) + body


def node_of(line, lists):
    """The record of a node, from its line in a report; no word of this log has a space or an escape."""
    path, data, _, *words = line.split(" ")
    access, (czxid, mzxid, ctime, mtime, version, cversion, aversion, owner, _, children, pzxid) = words[:-11], words[-11:]
    number = lists.setdefault(list_of(access), len(lists) + 1)
    name = b"" if path == '"/"' else path.strip('"').encode()
    content = struct.pack(">i", -1) if data == "-" else text(bytes.fromhex(data[1:]))
    return text(name) + content + struct.pack(
        ">qqqqqiiiQq", number, int(czxid, 16), int(mzxid, 16), int(ctime), int(mtime), int(version),
        (int(cversion) + int(children)) // 2, int(aversion), int(owner, 16), int(pzxid, 16))


def snapshot_of(lines, zxid):
    """The bytes of a snapshot of a report."""
    sessions = [line.split(" ") for line in lines if line.startswith("session ")]
    out = bytearray(struct.pack(">iiq", 0x5A4B534E, 2, -1) + struct.pack(">i", len(sessions)))
    for _, session, timeout in sessions:
        out += struct.pack(">Qi", int(session, 16), int(timeout))
    lists = {}
    nodes = b"".join(node_of(line, lists) for line in lines if line.startswith('"'))
    out += struct.pack(">i", len(lists))
    for access, number in lists.items():
        out += struct.pack(">q", number) + access
    out += nodes + text(b"/")
    out += struct.pack(">q", zlib.adler32(bytes(out))) + text(b"/")
    out += struct.pack(">qiq", zxid, 2, 0)
    out += struct.pack(">q", zlib.adler32(bytes(out))) + text(b"/")
    return bytes(out)


def directory(folder, log):
    """A snapshot after some transactions of a log, and the others in three files."""
    data = open(log, "rb").read()
    entries = list(entries_of(data))
    last = entries[BEFORE - 1][0]
    shown = subprocess.run([ZK, "show", log, "%016x" % last], stdout=subprocess.PIPE, check=True).stdout.decode()
    os.mkdir(folder)
    with open(os.path.join(folder, "snapshot.%x" % last), "wb") as file:
        file.write(snapshot_of(shown.split("\n"), last))
    third = AFTER // 3
    for begin in range(BEFORE, BEFORE + AFTER, third):
        some = entries[begin:begin + third]
        with open(os.path.join(folder, "log.%x" % some[0][0]), "wb") as file:
            file.write(data[:16] + data[some[0][1]:some[-1][2]])
    return len([line for line in shown.split("\n") if line.startswith('"')])


def main():
    with tempfile.TemporaryDirectory() as work:
        one, all_of, folder = (os.path.join(work, name) for name in ("one", "all", "directory"))
        make = [sys.executable, os.path.join(HERE, "make_log.py")]
        subprocess.run(make + [one, str(AFTER), "tree"], check=True)
        subprocess.run(make + [all_of, str(BEFORE + AFTER), "tree"], check=True)
        nodes = directory(folder, all_of)
        sizes = {name: os.path.getsize(os.path.join(folder, name)) for name in sorted(os.listdir(folder))}
        print("%d nodes: %s" % (nodes, ", ".join("%s %.1f MB" % (name, size / 1e6) for name, size in sizes.items())))
        shown = subprocess.run([ZK, "show", folder, "last"], stdout=subprocess.PIPE, check=True).stdout.decode().split("\n")
        whole = subprocess.run([ZK, "show", all_of, "last"], stdout=subprocess.PIPE, check=True).stdout.decode().split("\n")
        if [line for line in shown if not line.startswith("base ")] != whole:
            sys.exit("the directory has another tree than the log of all transactions")
        results = measured([
            ("sha1sum", ["sha1sum", one], os.devnull),
            ("zk show FILE last", [ZK, "show", one, "last"], os.devnull),
            ("zk show DIR last", [ZK, "show", folder, "last"], os.devnull),
            ("zk list DIR", [ZK, "list", folder], os.devnull),
        ])
        report(os.path.getsize(one), results)


if __name__ == "__main__":
    main()
