#!/usr/bin/env python3
"""What `zk ensemble --record` writes, replayed by `zk run`: each server then has the tree that kazoo clients saw there last, the
transactions that its data directory has, and the results that clients got.

usage: recording.py [NAME..]
"""
import os
import subprocess
import sys
import time
from pathlib import Path
from random import Random
from tempfile import TemporaryDirectory

from lib import PATIENCE, PROGRAM, Ensemble, KazooClient, client, nodes_in, run_of, tree_lines, until

from kazoo.exceptions import KazooException, NodeExistsError
from kazoo.protocol.serialization import Create
from kazoo.security import make_digest_acl

CHECKS = []


def check(function):
    CHECKS.append(function)
    return function


# ---- clients


def tried(act):
    """The result of a call, made again while no server serves it; an error of ZooKeeper's as it is."""
    end = time.time() + PATIENCE
    while True:
        try:
            return act()
        except (NodeExistsError,):
            raise
        except KazooException:
            if time.time() > end:
                raise
            time.sleep(0.1)


# ---- trees


def same_trees(it: Ensemble, record: Path):
    """Ends an ensemble after clients have read the tree of each server, and compares the trees of the run."""
    seen = {}
    clients = []
    for server in range(1, it.servers + 1):
        zk = KazooClient(it.hosts(server), timeout=30)
        zk.start(PATIENCE)
        clients.append(zk)
    for server, zk in enumerate(clients, 1):
        zk.sync("/")
        zk.add_auth("digest", "user:secret")
        seen[server] = sorted(line for line in tree_lines(zk) if not line.startswith('"/zookeeper'))
    stderr = it.end()
    for zk in clients:
        zk.stop()
        zk.close()
    told = run_of(record, it.servers, "tree", "delivered", "answers")
    for server, lines in seen.items():
        assert sorted(nodes_in(told[f"tree {server}"])) == lines, (server, lines, told[f"tree {server}"])
    return told, stderr


def two_nodes(zk, random: Random):
    transaction = zk.transaction()
    transaction.create(f'/t"{random.randrange(10**9)}', b"one")
    transaction.create(f"/u{random.randrange(10**9)}\u00e9", b"two")
    transaction.commit()


def writes(zk, random: Random, count: int) -> int:
    """Writes of many kinds; the number of those that ended as an error that their transaction has."""
    refused = 0
    for number in range(count):
        kind = random.randrange(6)
        path = f"/n{random.randrange(12)}"
        if kind == 0:
            tried(lambda: zk.create("/s-", b"\x00\xff" * random.randrange(4), sequence=True))
        elif kind == 1:
            tried(lambda: zk.create("/e-", b"mine", ephemeral=True, sequence=True))
        elif kind == 2:
            tried(lambda: two_nodes(zk, random))
        else:
            try:
                tried(lambda: zk.create(path, path.encode()))
            except NodeExistsError:
                refused += 1
                tried(lambda: zk.set(path, str(number).encode()))
    return refused


# ---- checks


@check
def elections_and_crashes_replay():
    with TemporaryDirectory() as folder:
        record = Path(folder) / "record"
        it = Ensemble(3, "--record", str(record))
        random = Random(1)
        try:
            with client(it.hosts()) as one, client(it.hosts(3, 2, 1)) as other:
                writes(one, random, 30)
                other.add_auth("digest", "user:secret")
                tried(lambda: other.create("/kept", b"secret", acl=[make_digest_acl("user", "secret", all=True)]))
                tried(lambda: other.get("/kept", watch=lambda event: None))
                for command in ("crash 3", "restart 3", "lead 1", "crash 1", "restart 1", "cut 2 3", "lead 2", "heal", "lead 3"):
                    it.states(command)
                    writes(one, random, 8)
                    writes(other, random, 8)
            until(lambda: it.states("status").count("following") == 2, "all serve")
            told, stderr = same_trees(it, record)
            assert stderr == "", stderr
            # the delivered lists are prefixes of one list
            lists = sorted((told[f"delivered {server}"] for server in (1, 2, 3)), key=len)
            assert all(lists[2][: len(one)] == one for one in lists)
        finally:
            it.end()


@check
def sessions_that_expire_replay():
    with TemporaryDirectory() as folder:
        record = Path(folder) / "record"
        it = Ensemble(3, "--record", str(record))
        try:
            script = (
                "import os, sys; from kazoo.client import KazooClient; zk = KazooClient(sys.argv[1], timeout=4); zk.start(); "
                "zk.create('/gone', b'', ephemeral=True); os._exit(0)"
            )
            subprocess.run([sys.executable, "-c", script, it.hosts(1)], check=True)
            with client(it.hosts(2)) as zk:
                zk.sync("/")
                assert zk.exists("/gone")
                until(lambda: zk.exists("/gone") is None, "the session expires")
            told, _ = same_trees(it, record)
            assert not [line for line in nodes_in(told["tree 1"]) if line.startswith('"/gone"')]
        finally:
            it.end()


@check
def results_are_those_that_clients_got():
    with TemporaryDirectory() as folder:
        record = Path(folder) / "record"
        it = Ensemble(5, "--record", str(record))
        try:
            with client(it.hosts(4)) as zk:
                refused = writes(zk, Random(2), 60)
                _, stat = zk.get(zk.create("/last", b"1"))
            told, _ = same_trees(it, record)
            results = [line.split() for line in told["answers 4"]]
            # TAG result ZXID ERR ..; -110: the node exists
            assert sum(fields[3] == "-110" for fields in results) == refused, refused
            created = [fields[2] for fields in results if fields[3] == "0" and len(fields) > 4 and fields[4] == '"/last"']
            assert created == [f"{stat.czxid:016x}"], (created, stat)
        finally:
            it.end()


@check
def data_directories_have_the_histories():
    with TemporaryDirectory() as folder:
        record, data = Path(folder) / "record", Path(folder) / "data"
        it = Ensemble(3, "--data", str(data), "--record", str(record))
        try:
            with client(it.hosts()) as zk:
                for command in ("crash 2", "restart 2", "lead 2", "crash 2", "restart 2", "lead 1"):
                    writes(zk, Random(command), 10)
                    it.states(command)
                writes(zk, Random(3), 10)
            told, _ = same_trees(it, record)
            histories = run_of(record, 3, "history")
            for server in (1, 2, 3):
                listed = subprocess.run([PROGRAM, "list", str(data / str(server))], capture_output=True, text=True, check=True)
                assert histories[f"history {server}"] == listed.stdout.splitlines(), server
                shown = subprocess.run([PROGRAM, "show", str(data / str(server)), "last"], capture_output=True, text=True, check=True)
                assert nodes_in(told[f"tree {server}"]) == nodes_in(shown.stdout.splitlines()), server
            again = subprocess.run(
                [PROGRAM, "ensemble", "20001", "3", "--data", str(data), "--record", str(Path(folder) / "other")], capture_output=True, text=True
            )
            assert (again.returncode, again.stderr) == (1, "zk: data: --record needs a new directory\n"), again
            assert not (Path(folder) / "other").exists()
        finally:
            it.end()


@check
def a_request_that_no_script_has_ends_the_record():
    with TemporaryDirectory() as folder:
        record = Path(folder) / "record"
        it = Ensemble(3, "--record", str(record))
        try:
            with client(it.hosts(1)) as zk:
                zk.create("/before", b"")
                # flags 4: a container node, which these servers do not create
                result = zk.handler.async_result()
                zk._call(Create("/container", b"", zk.get_acls("/")[0], 4), result)
                try:
                    result.get()
                    raise AssertionError("a container was created")
                except KazooException:
                    pass
                assert zk.create("/after", b"") == "/after"
            stderr = it.end()
            assert stderr == "zk: record ends: a request that no script has\n", stderr
            told = run_of(record, 3, "tree")
            names = [line.split()[0] for line in nodes_in(told["tree 1"])]
            assert '"/after"' not in names, names
        finally:
            it.end()


@check
def a_file_that_cannot_be_written():
    it = Ensemble(3, "--record", "/dev/full")
    try:
        with client(it.hosts(1)) as zk:
            assert zk.create("/a", b"") == "/a"
        assert it.end() == "zk: record ends: write\n"
    finally:
        it.end()
    done = subprocess.run([PROGRAM, "ensemble", "20001", "3", "--record", "/missing/record"], capture_output=True, text=True)
    assert (done.returncode, done.stderr) == (1, "zk: write\n"), done


@check
def one_server_has_no_record():
    with TemporaryDirectory() as folder:
        done = subprocess.run([PROGRAM, "ensemble", "20001", "1", "--record", f"{folder}/record"], capture_output=True, text=True)
        assert done.returncode == 2 and "2 to 15 with --record" in done.stderr, done
        assert not Path(folder, "record").exists()


def main():
    names = sys.argv[1:]
    failed = 0
    passed = 0
    for function in CHECKS:
        if names and function.__name__ not in names:
            continue
        try:
            function()
            passed += 1
        except Exception as error:
            failed += 1
            print(f"FAILED {function.__name__}: {type(error).__name__} {str(error)[:2000]}")
    print(f"recording: {passed} passed, {failed} failed")
    sys.exit(1 if failed else 0)


main()
