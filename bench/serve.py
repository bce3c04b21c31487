#!/usr/bin/env python3
"""Measures what a line costs over one connection to `zk serve` with three servers: creates, sets, gets, and nine gets to one set, with
1, 16 and 128 lines in flight; what 100,000 creates cost beside 50,000; how many bytes of memory each line leaves, which the servers
keep until they end: each event with its answer, its call and its receipt, and of a write the entries and messages of all servers; and
after how many lines they end with `zk: memory` in 1,024 MB of address space.

usage: bench/serve.py [LINES [PORT]] | memory     in a checkout where `rt ci`, or `rt run` in crates/zk_cli, has left the proved program;
with a PORT the servers that listen there are measured, over one connection, and no program is started; `memory` measures memory alone,
for which the machine need not be idle

The client is this script, over a raw socket of the loopback: the bytes of all lines are packed before the clock starts. The
lines in flight are sent at once, and the next ones once all their replies have come. Beside it an echo, which replies to each such
chunk with as many bytes, shows what the client and the system cost alone: the floor. Microseconds are wall-clock, so nothing else may
run on the machine; the load before and after is printed. CPU microseconds are those of the process that replies. The least of several
runs counts, in each.
"""
import os
import resource
import socket
import subprocess
import sys
import time

HERE = os.path.dirname(os.path.abspath(__file__))
ZK = os.environ.get("ZK", os.path.join(HERE, "..", "crates", "zk_cli", "out", "zk_cli"))
OPEN = b'1 31 "world" "anyone"'
CONTENT = b"x" + b"61" * 100
NODES = 100
DEPTHS = (1, 16, 128)
TURNS = 3
SERVERS = "3"
TICK = os.sysconf("SC_CLK_TCK")
ROOM = 1 << 30


def creates(count):
    return [b'create "/n%d" %s %s\n' % (it, CONTENT, OPEN) for it in range(NODES, NODES + count)]


def sets(count):
    return [b'set "/n%d" %s -1\n' % (it % NODES, CONTENT) for it in range(count)]


def gets(count):
    return [b'get "/n%d"\n' % (it % NODES) for it in range(count)]


def mixed(count):
    """Nine gets, and then a set."""
    return [both[it % 10 == 9] for it, both in enumerate(zip(gets(count), sets(count)))]


KINDS = {"creates": creates, "sets": sets, "gets": gets, "nine gets to a set": mixed}


def connected(port):
    stream = socket.create_connection(("127.0.0.1", port))
    stream.setsockopt(socket.IPPROTO_TCP, socket.TCP_NODELAY, 1)
    return stream


def pieces_of(lines, depth):
    """The lines in chunks of `depth`, each with its number of replies."""
    return [(b"".join(lines[at:at + depth]), len(lines[at:at + depth])) for at in range(0, len(lines), depth)]


def answered(stream, pieces):
    """Sends each chunk once the replies to the one before have come. The bytes of each chunk's replies."""
    lengths = []
    for piece, lines in pieces:
        stream.sendall(piece)
        left, length = lines, 0
        while left > 0:
            told = stream.recv(1 << 20)
            if not told:
                sys.exit("the connection ended")
            if b"err" in told:
                sys.exit("refused: %r" % told[:200])
            left -= told.count(b"\n")
            length += len(told)
        lengths.append(length)
    return lengths


def processor_seconds(pid):
    fields = open("/proc/%d/stat" % pid).read().rpartition(")")[2].split()
    return (int(fields[11]) + int(fields[12])) / TICK


def measured(pid, stream, lines, depth):
    """Wall-clock seconds, CPU seconds of the process that replies, and the lengths of replies."""
    pieces = pieces_of(lines, depth)
    busy, start = processor_seconds(pid), time.monotonic()
    lengths = answered(stream, pieces)
    return time.monotonic() - start, processor_seconds(pid) - busy, lengths


def resident_bytes(pid):
    for line in open("/proc/%d/status" % pid):
        if line.startswith("VmRSS:"):
            return int(line.split()[1]) * 1024
    sys.exit("no resident set is told")


def kept(lines):
    """Returns the resident bytes that each line of the second half adds."""
    child, port = started()
    stream = prepared(port)
    half = len(lines) // 2
    answered(stream, pieces_of(lines[:half], 128))
    before = resident_bytes(child.pid)
    answered(stream, pieces_of(lines[half:], 128))
    grown = resident_bytes(child.pid) - before
    stream.close()
    child.wait()
    return grown / (len(lines) - half)


def limited():
    resource.setrlimit(resource.RLIMIT_AS, (ROOM, ROOM))


def ended_at(lines):
    """Returns how many lines are replied to, over and over, until the servers end out of memory."""
    child, port = started(limit=limited)
    stream = prepared(port)
    piece, count = b"".join(lines), 0
    try:
        while True:
            stream.sendall(piece)
            left = len(lines)
            while left > 0:
                told = stream.recv(1 << 20)
                if not told:
                    raise ConnectionError
                left -= told.count(b"\n")
            count += len(lines)
    except ConnectionError:
        stream.close()
    why = child.communicate()[1]
    if (child.returncode, why) != (1, b"zk: memory\n"):
        sys.exit("they end with %d and %r" % (child.returncode, why))
    return count


def free_port():
    with socket.socket() as it:
        it.bind(("127.0.0.1", 0))
        return it.getsockname()[1]


def started(connections=1, limit=None):
    """Servers, and their port. `limit` is called in their process first."""
    port = free_port()
    words = [ZK, "serve", str(port), SERVERS, "--conns", str(connections)]
    pipe = subprocess.PIPE
    child = subprocess.Popen(words, stdin=subprocess.DEVNULL, stdout=pipe, stderr=pipe, preexec_fn=limit)
    if child.stdout.readline() != b"listening %d\n" % port:
        sys.exit("%s does not listen" % words)
    return child, port


def prepared(port):
    """A connection whose session has made the nodes."""
    stream = connected(port)
    nodes = [b'create "/n%d" %s %s\n' % (it, CONTENT, OPEN) for it in range(NODES)]
    answered(stream, pieces_of([b"open 40000\n"] + nodes, 1))
    return stream


def served(lines, depth):
    """The least seconds and CPU seconds of several runs, each against new servers."""
    runs = []
    for _ in range(TURNS):
        child, port = started()
        stream = prepared(port)
        runs.append(measured(child.pid, stream, lines, depth))
        stream.close()
        child.wait()
    return min(it[0] for it in runs), min(it[1] for it in runs), runs[0][2]


def echo(listener, pieces, lengths):
    """Replies to each chunk with as many bytes."""
    stream = listener.accept()[0]
    stream.setsockopt(socket.IPPROTO_TCP, socket.TCP_NODELAY, 1)
    for (piece, lines), length in zip(pieces, lengths):
        left = len(piece)
        while left > 0:
            left -= len(stream.recv(1 << 20))
        stream.sendall(b"x" * (length - lines) + b"\n" * lines)
    os._exit(0)


def echoed(lines, depth, lengths):
    """The same against an echo."""
    runs = []
    for _ in range(TURNS):
        listener = socket.create_server(("127.0.0.1", 0))
        pid = os.fork()
        if pid == 0:
            echo(listener, pieces_of(lines, depth), lengths)
        with connected(listener.getsockname()[1]) as stream:
            listener.close()
            start = time.monotonic()
            answered(stream, pieces_of(lines, depth))
            runs.append(time.monotonic() - start)
        os.waitpid(pid, 0)
    return min(runs)


def told(kind, depth, count, seconds, busy, floor):
    each = 1e6 / count
    floor = "" if floor is None else ", the echo %.1f" % (floor * each)
    print("%-18s %3d in flight: %6.1f microseconds a line, %6.1f of CPU%s" % (kind, depth, seconds * each, busy * each, floor), flush=True)


def of_a_port(count, port):
    """Against servers that run already, over one connection. Processor seconds are not known."""
    stream = prepared(port)
    made = 0
    for depth in DEPTHS:
        for kind, lines_of in KINDS.items():
            lines = lines_of(count)
            if kind == "creates":
                lines = [b'create "/m%d" %s %s\n' % (it, CONTENT, OPEN) for it in range(made, made + count)]
                made += count
            seconds, _, _ = measured(os.getpid(), stream, lines, depth)
            told(kind, depth, count, seconds, 0, None)
    stream.sendall(b"close\n")
    stream.recv(1 << 20)


def of_memory(count):
    for kind, lines_of in KINDS.items():
        print("%-18s keep %7.0f bytes a line, over %s servers" % (kind, kept(lines_of(4 * count)), SERVERS), flush=True)
    for kind in ("sets", "gets"):
        print("%-18s end after %d lines in %d MB" % (kind, ended_at(KINDS[kind](128)), ROOM >> 20), flush=True)


def main():
    if sys.argv[1:] == ["memory"]:
        return of_memory(20000)
    count = int(sys.argv[1]) if len(sys.argv) > 1 else 20000
    if len(sys.argv) > 2:
        return of_a_port(count, int(sys.argv[2]))
    print("load before: %.2f" % os.getloadavg()[0])
    for kind, lines_of in KINDS.items():
        lines = lines_of(count)
        for depth in DEPTHS:
            seconds, busy, lengths = served(lines, depth)
            told(kind, depth, count, seconds, busy, echoed(lines, depth, lengths))
    few, many = (served(creates(it), 128) for it in (50000, 100000))
    print("100,000 creates cost %.2f times what 50,000 cost in wall-clock time, %.2f times in CPU time" % (many[0] / few[0], many[1] / few[1]))
    of_memory(count)
    print("load after: %.2f" % os.getloadavg()[0])


if __name__ == "__main__":
    main()
