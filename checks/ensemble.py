#!/usr/bin/env python3
"""Unmodified kazoo clients at `zk ensemble`: three servers in one process, which crash, change their leader and lose links.

Each check has an ensemble of its own. Expected values are those of ZooKeeper's guides, written out below; none comes from the
program.

usage: ensemble.py [NAME..]
"""
import re
import socket
import struct
import subprocess
import sys
import threading
import time
from contextlib import contextmanager

from lib import PATIENCE, PROGRAM, Ensemble, client, until

from kazoo.exceptions import BadVersionError, NodeExistsError, NoNodeError

CHECKS = []


def check(function):
    CHECKS.append(function)
    return function


@contextmanager
def ensemble(servers: int = 3, *flags: str):
    it = Ensemble(servers, *flags)
    try:
        yield it
    finally:
        it.end()


@check
def a_write_at_one_server_is_read_at_another():
    with ensemble() as it, client(it.hosts(1)) as one, client(it.hosts(3)) as other:
        assert one.create("/a", b"hi") == "/a"
        other.sync("/a")
        content, stat = other.get("/a")
        assert (content, stat.version, stat.numChildren) == (b"hi", 0, 0), (content, stat)
        other.set("/a", b"there")
        one.sync("/a")
        assert one.get("/a")[0] == b"there"
        for refused, act in [
            (NodeExistsError, lambda: one.create("/a")),
            (NoNodeError, lambda: one.get("/b")),
            (BadVersionError, lambda: one.set("/a", b"", version=7)),
        ]:
            try:
                act()
            except refused:
                continue
            raise AssertionError(refused)


@check
def a_watch_fires_before_the_new_data_is_read():
    with ensemble() as it, client(it.hosts(2)) as reader, client(it.hosts(1)) as writer:
        writer.create("/a", b"0")
        reader.sync("/a")
        seen = []
        for turn in range(1, 20):
            reader.get("/a", watch=lambda event: seen.append(event.type))
            writer.set("/a", str(turn).encode())
            until(lambda: reader.get("/a")[0] == str(turn).encode(), "the new content")
            until(lambda: len(seen) == turn, "the event")
        assert set(seen) == {"CHANGED"}, seen


@check
def a_crash_of_the_leader_loses_no_write():
    with ensemble() as it, client(it.hosts()) as zk:
        zk.ensure_path("/log")
        for number in range(20):
            zk.create(f"/log/{number:04}", b"")
        old = it.leader()
        states = it.states(f"crash {old}")
        assert states[old - 1] == "down" and states.count("leading") == 1, states
        until(lambda: len(zk.get_children("/log")) == 20, "the writes, at the new leader")
        zk.create("/log/after", b"")
        assert it.states(f"restart {old}")[old - 1] == "following"
        with client(it.hosts(old)) as again:
            again.sync("/log")
            assert len(again.get_children("/log")) == 21


@check
def a_session_moves_to_another_server():
    with ensemble() as it, client(it.hosts(2, 3)) as zk:
        session = zk.client_id[0]
        zk.create("/mine", b"", ephemeral=True)
        it.says("crash 2" if it.leader() != 2 else "lead 1")
        until(lambda: zk.exists("/mine") is not None, "the session at another server")
        assert zk.client_id[0] == session
        assert zk.exists("/mine").ephemeralOwner == session


@check
def an_expired_session_loses_its_nodes():
    with ensemble() as it, client(it.hosts(1)) as watcher:
        # On a busy machine its node lives long enough to be watched.
        began = time.time()
        with raw_session(it.port + 1, 10_000) as gone:
            # an ephemeral node that anyone may change
            acl = struct.pack(">ii", 1, 31) + text(b"world") + text(b"anyone")
            body = struct.pack(">ii", 1, 1) + text(b"/mine") + text(b"") + acl + struct.pack(">i", 1)
            gone.sendall(text(body))
            assert struct.unpack(">iiqi", received(gone, 20))[3] == 0
        watcher.sync("/")
        events = []
        assert watcher.exists("/mine", watch=lambda event: events.append(event.type))
        until(lambda: events == ["DELETED"], "the end of the session")
        took = time.time() - began
        assert took >= 10, took


@check
def a_wrong_password_gets_no_session():
    with ensemble() as it, client(it.hosts(1)) as zk:
        zk.create("/mine", b"", ephemeral=True)
        with socket.create_connection(("127.0.0.1", it.port), PATIENCE) as thief:
            body = struct.pack(">iqiqi16s?", 0, 0, 10000, zk.client_id[0], 16, b"x" * 16, False)
            thief.sendall(struct.pack(">i", len(body)) + body)
            reply = thief.recv(4096)
            length, protocol, timeout, session = struct.unpack(">iiiq", reply[:20])
            assert (length, protocol, timeout, session) == (37, 0, 0, 0), reply
            assert thief.recv(4096) == b""
        assert zk.connected and zk.exists("/mine")


@check
def a_server_cut_from_its_leader_serves_no_client():
    with ensemble() as it:
        leader = it.leader()
        follower = 1 if leader != 1 else 2
        with client(it.hosts(follower, leader)) as zk:
            zk.create("/a", b"0")
            states = it.states(f"cut {follower} {leader}")
            assert states[follower - 1] == "looking" and states[leader - 1] == "leading", states
            until(lambda: zk.set("/a", b"1"), "another server")
            assert it.states("heal")[follower - 1] == "following"
            with client(it.hosts(follower)) as behind:
                behind.sync("/a")
                assert behind.get("/a")[0] == b"1"


@check
def a_minority_serves_no_client():
    with ensemble() as it:
        it.says("crash 1")
        states = it.states("crash 2")
        assert states[:2] == ["down", "down"] and states[2] == "looking", states
        assert it.word(3, "ruok") == "imok"
        assert "not currently serving" in it.word(3, "srvr")
        assert it.states("restart 1").count("leading") == 1


@check
def four_letter_words():
    with ensemble() as it:
        leader = it.leader()
        for server in range(1, 4):
            assert it.word(server, "ruok") == "imok"
            assert it.word(server, "isro") == "rw"
            mode = "leader" if server == leader else "follower"
            assert f"\nMode: {mode}\n" in it.word(server, "srvr")
            assert f"zk_server_state\t{mode}\n" in it.word(server, "mntr")
            with client(it.hosts(server)) as zk:
                assert zk.server_version()[:2] == (3, 4)


def text(value: bytes) -> bytes:
    """A text, or a frame: its length before it."""
    return struct.pack(">i", len(value)) + value


def raw_session(port: int, timeout: int = 30000) -> socket.socket:
    """A connection with a session of its own, whose timeout is in milliseconds."""
    connection = socket.create_connection(("127.0.0.1", port), PATIENCE)
    connection.sendall(text(struct.pack(">iqiq", 0, 0, timeout, 0) + text(bytes(16)) + b"\0"))
    assert struct.unpack(">iiiq", received(connection, 41)[:20])[3] != 0
    return connection


def received(connection: socket.socket, length: int) -> bytes:
    data = b""
    while len(data) < length:
        more = connection.recv(length - len(data))
        assert more, "the connection ended"
        data += more
    return data


def connections(it: Ensemble) -> list[int]:
    """The number of connections of each server."""
    return [int(line.split()[-1]) for line in it.says("status")]


@check
def two_hundred_connections_at_each_server():
    with ensemble() as it:
        # none pings, and the last is opened late on a busy machine
        clients = [raw_session(it.port + server, 40_000) for server in range(3) for _ in range(200)]
        assert connections(it) == [200, 200, 200], connections(it)
        # exists "/", whose reply has a header of 16 bytes and a stat of 68
        for number, connection in enumerate(clients):
            connection.sendall(text(struct.pack(">ii", number + 1, 3) + text(b"/") + b"\0"))
        for number, connection in enumerate(clients):
            length, xid, _, error = struct.unpack(">iiqi", received(connection, 88)[:20])
            assert (length, xid, error) == (84, number + 1, 0), (length, xid, error)
        for connection in clients:
            connection.close()
        until(lambda: connections(it) == [0, 0, 0], "the end of the connections")


@check
def a_client_that_moves_reads_nothing_older():
    """Its session moves a hundred times to another server while another client writes."""
    with ensemble() as it, client(it.hosts(1)) as writer:
        writer.create("/a", b"")
        goes_on = threading.Event()
        goes_on.set()

        def write():
            while goes_on.is_set():
                writer.set("/a", b"")

        others = threading.Thread(target=write)
        others.start()
        try:
            session, password, seen, version, refused = 0, bytes(16), 0, -1, 0
            for move in range(100):
                while True:
                    # a server that has not seen as much as the client closes without a reply
                    with socket.create_connection(("127.0.0.1", it.port + move % 3), PATIENCE) as connection:
                        connection.sendall(text(struct.pack(">iqiq", 0, seen, 30000, session) + text(password) + b"\0"))
                        try:
                            greeting = received(connection, 41)
                        except (AssertionError, ConnectionResetError):
                            refused += 1
                            assert refused < 1000
                            continue
                        owner = struct.unpack(">q", greeting[12:20])[0]
                        assert owner != 0 and session in (0, owner), (session, owner)
                        session, password = owner, greeting[24:40]
                        # getData "/a": a header of 16 bytes, no content, a stat of 68
                        for xid in range(1, 4):
                            connection.sendall(text(struct.pack(">ii", xid, 4) + text(b"/a") + b"\0"))
                            reply = received(connection, 4 + 16 + 4 + 68)
                            _, answered, zxid, error = struct.unpack(">iiqi", reply[:20])
                            assert (answered, error) == (xid, 0), (answered, error)
                            now = struct.unpack(">i", reply[24 + 32:24 + 36])[0]
                            assert now >= version and zxid >= seen, (now, version, zxid, seen)
                            version, seen = now, zxid
                    break
            assert version > 0
        finally:
            goes_on.clear()
            others.join()


@check
def a_client_that_does_not_read_is_closed():
    """Its requests wait, so that its session ends, and its connection soon after."""
    with ensemble(2) as it, client(it.hosts(1)) as zk:
        zk.create("/big", bytes(1_000_000))
        with raw_session(it.port, 4000) as deaf:
            deaf.sendall(text(struct.pack(">ii", 1, 4) + text(b"/big") + b"\0") * 50)
            until(lambda: connections(it)[0] == 1, "the end of the connection")
        assert zk.connected and len(zk.get("/big")[0]) == 1_000_000


@check
def words_that_list_clients():
    """As a 3.8 server's and follower's, without their counts of packets and times of expiry."""
    with ensemble() as it, client(it.hosts(2), 6.0) as one, client(it.hosts(1)) as other:
        one.create("/b", b"", ephemeral=True)
        one.create("/a", b"", ephemeral=True)
        other.sync("/")
        session, idle = f"0x{one.client_id[0]:x}", f"0x{other.client_id[0]:x}"
        own = r" /127\.0\.0\.1:\d+"
        listed = it.word(2, "cons")
        assert re.fullmatch(rf"{own}\[1\]\(sid={session}\)\n{own}\[0\]\(\)\n\n", listed), listed
        first, second = sorted([f"{session}\t6000ms", f"{idle}\t10000ms"], key=lambda line: int(line.split()[0], 16))
        dumped = it.word(1, "dump")
        head = f"SessionTracker dump:\nGlobal Sessions(2):\n{first}\n{second}\nephemeral nodes dump:\n"
        owned = f"Sessions with Ephemerals (1):\n{session}:\n\t/a\n\t/b\nConnections dump:\n"
        assert dumped.startswith(head + owned), dumped
        peer = r"\tip: /127\.0\.0\.1:\d+ sessionId: "
        assert re.fullmatch(rf"{peer}{idle}\n{peer}0x0\n", dumped[len(head + owned):]), dumped


@check
def the_nodes_of_a_new_tree_are_counted():
    with ensemble(2) as it:
        assert "\nNode count: 3\n" in it.word(1, "srvr")
        assert "zk_znode_count\t3\n" in it.word(2, "mntr")


@check
def an_address_that_is_none():
    why = subprocess.run([PROGRAM, "ensemble", "21990", "2", "--bind", "localhost"], capture_output=True, text=True, stdin=subprocess.DEVNULL)
    assert (why.returncode, why.stdout) == (1, ""), why
    assert why.stderr == "zk: listen: --bind takes an IPv4 address such as 127.0.0.1, not localhost\n", why.stderr


@check
def the_most_connections():
    with ensemble(2, "--max-connections", "2") as it:
        with raw_session(it.port), raw_session(it.port + 1):
            with socket.create_connection(("127.0.0.1", it.port), PATIENCE) as third:
                try:
                    assert third.recv(1) == b""
                except ConnectionResetError:
                    pass
            assert connections(it) == [1, 1]
        until(lambda: it.word(1, "ruok") == "imok", "room for a connection")


@check
def another_address():
    with ensemble(2, "--bind", "127.0.0.2") as it:
        with socket.create_connection(("127.0.0.2", it.port), PATIENCE) as connection:
            connection.sendall(b"ruok")
            assert received(connection, 4) == b"imok"
        try:
            socket.create_connection(("127.0.0.1", it.port), PATIENCE).close()
        except ConnectionRefusedError:
            return
        raise AssertionError("it also listens on 127.0.0.1")


@check
def commands_and_their_errors():
    with ensemble(2) as it:
        assert it.says("fly") == ["error: no such command"]
        assert it.says("crash 3") == ["error: no such server"]
        assert it.says("restart 1") == ["error: the server is not down"]
        assert it.states("lead 1") == ["leading", "following"]


@check
def the_end_of_standard_input():
    with ensemble(2, "--until-eof") as it:
        it.process.stdin.close()
        assert it.process.wait(PATIENCE) == 0


def main():
    names = sys.argv[1:]
    failed = 0
    passed = 0
    for function in CHECKS:
        if names and function.__name__ not in names:
            continue
        try:
            function()
            passed += 1
        except Exception as error:
            failed += 1
            print(f"FAILED {function.__name__}: {type(error).__name__} {error}")
    print(f"ensemble: {passed} passed, {failed} failed")
    sys.exit(1 if failed else 0)


main()
