#!/usr/bin/env python3
"""Measures writes and reads of ZooKeeper's client protocol: `zk ensemble` with three servers, and beside it, in turns, three servers of
a stock ZooKeeper.

usage: bench/clients.py [stock]      in a checkout where `rt ci` has left the proved program; `stock` measures the stock ensemble beside it
                                     (Debian's package zookeeper)
       bench/clients.py HOST:PORT,.. measures servers that run
       bench/clients.py steady [SECONDS]  a thousand writes a second, for SECONDS, 600 if left out: the latencies
       bench/clients.py memory       resident memory after 1,000 and after 1,000,000 writes of 100 bytes to one node, and reads of it
       bench/clients.py idle [CONNECTIONS]   the latency of reads over 100 connections, alone and beside others that are idle, 10,000 in all if
                                     left out
       bench/clients.py durable [SERVERS] [WRITES]  on a new directory of the disk on which TMPDIR lies: writes a second with 100 in flight,
                                     resident memory after WRITES of them (1,000,000 if left out), and how long a start takes on them
                                     after kill -9, beside `zk show`

The clients are processes of this script, over raw sockets of the loopback: 8 connections, one after the other to the servers, with 16
requests in flight on each. Requests are packed before the clock starts. A write is a setData of 100 bytes to a node of the
connection's own, a read a getData of it; each reply's header is looked at, and an error ends the run. Microseconds are wall-clock, so
nothing else may run on the machine; the load before and after is printed. The least of several runs counts. The stock servers keep
their data in /dev/shm, so that neither side waits for a disk.
"""
import multiprocessing
import os
import resource
import selectors
import shutil
import socket
import struct
import subprocess
import sys
import tempfile
import time

HERE = os.path.dirname(os.path.abspath(__file__))
ZK = os.environ.get("ZK", os.path.join(HERE, "..", "crates", "zk_cli", "out", "zk_cli"))
CONNECTIONS, DEPTH, TURNS = 8, 16, 3
WRITES, READS = 20000, 100000
CONTENT = b"0123456789" * 10
CREATE, GET_DATA, SET_DATA, CLOSE = 1, 4, 5, -11


def buffer(data):
    return struct.pack(">i", len(data)) + data


def framed(body):
    return struct.pack(">i", len(body)) + body


def received(stream, size):
    data = b""
    while len(data) < size:
        more = stream.recv(size - len(data))
        if not more:
            sys.exit("the connection ended")
        data += more
    return data


def frame(stream):
    return received(stream, struct.unpack(">i", received(stream, 4))[0])


def connected(address):
    """A connection with a session."""
    host, _, port = address.rpartition(":")
    stream = socket.create_connection((host, int(port)))
    stream.setsockopt(socket.IPPROTO_TCP, socket.TCP_NODELAY, 1)
    stream.sendall(framed(struct.pack(">iqiq", 0, 0, 30000, 0) + buffer(bytes(16)) + b"\0"))
    if struct.unpack_from(">iiq", frame(stream))[2] == 0:
        sys.exit("no session")
    return stream


def asked(stream, xid, kind, body):
    stream.sendall(framed(struct.pack(">ii", xid, kind) + body))
    return struct.unpack_from(">iqi", frame(stream))[2]


def made(stream, path):
    acl = struct.pack(">ii", 1, 31) + buffer(b"world") + buffer(b"anyone")
    error = asked(stream, 1, CREATE, buffer(path) + buffer(CONTENT) + acl + struct.pack(">i", 0))
    if error not in (0, -110):
        sys.exit("create: %d" % error)


def requests(kind, path, count):
    body = buffer(path) + (buffer(CONTENT) + struct.pack(">i", -1) if kind == SET_DATA else b"\0")
    return [framed(struct.pack(">ii", 2 + number, kind) + body) for number in range(count)]


def replies_in(data, count):
    """The number of replies in the bytes, at most `count`, and the bytes after these."""
    at = seen = 0
    while seen < count and len(data) - at >= 4:
        size = struct.unpack_from(">i", data, at)[0]
        if len(data) - at - 4 < size:
            break
        if struct.unpack_from(">i", data, at + 16)[0] != 0:
            sys.exit("an error: %d" % struct.unpack_from(">i", data, at + 16)[0])
        at, seen = at + 4 + size, seen + 1
    return seen, data[at:]


def driven(address, number, kind, count, ready, begins):
    """One client: `count` requests, at most DEPTH in flight."""
    stream, path = connected(address), b"/bench%d" % number
    made(stream, path)
    packed = requests(kind, path, count)
    ready.release()
    begins.wait()
    sent, heard, data = min(DEPTH, count), 0, b""
    stream.sendall(b"".join(packed[:sent]))
    while heard < count:
        more = stream.recv(1 << 20)
        if not more:
            sys.exit("the connection ended")
        seen, data = replies_in(data + more, count - heard)
        heard += seen
        if seen and sent < count:
            stream.sendall(b"".join(packed[sent:sent + seen]))
            sent = min(sent + seen, count)
    stream.sendall(framed(struct.pack(">ii", 1, CLOSE)))


def seconds_of(addresses, kind, count):
    """The seconds that `count` requests take, over all connections."""
    ready, begins = multiprocessing.Semaphore(0), multiprocessing.Event()
    each = count // CONNECTIONS
    clients = [multiprocessing.Process(target=driven, args=(addresses[it % len(addresses)], it, kind, each, ready, begins)) for it in range(CONNECTIONS)]
    for client in clients:
        client.start()
    for _ in clients:
        ready.acquire()
    begun = time.perf_counter()
    begins.set()
    for client in clients:
        client.join()
        if client.exitcode:
            sys.exit("a client failed")
    return time.perf_counter() - begun


def free_ports(count):
    """The first of `count` consecutive free ports."""
    for first in range(21810, 32000, 20):
        try:
            for port in range(first, first + count):
                with socket.socket() as it:
                    it.setsockopt(socket.SOL_SOCKET, socket.SO_REUSEADDR, 1)
                    it.bind(("127.0.0.1", port))
            return first
        except OSError:
            continue
    sys.exit("no ports are free")


def until_serving(addresses):
    for address in addresses:
        host, _, port = address.rpartition(":")
        for _ in range(600):
            try:
                with socket.create_connection((host, int(port)), 1) as it:
                    it.sendall(b"srvr")
                    if b"Mode: " in it.recv(4096):
                        break
            except OSError:
                pass
            time.sleep(0.1)
        else:
            sys.exit("%s does not serve" % address)


class Ours:
    name = "zk ensemble"

    def __init__(self, servers=3, directory=None, words=()):
        self.servers, self.words = servers, [*(["--data", directory] if directory else []), *words]

    def __enter__(self):
        first = free_ports(self.servers)
        self.child = subprocess.Popen([ZK, "ensemble", str(first), str(self.servers), *self.words], stdin=subprocess.PIPE, stdout=subprocess.PIPE)
        self.addresses = ["127.0.0.1:%d" % (first + it) for it in range(self.servers)]
        until_serving(self.addresses)
        return self

    def __exit__(self, *_):
        self.child.kill()
        self.child.wait()

    def resident(self):
        with open("/proc/%d/status" % self.child.pid, encoding="utf-8") as it:
            return next(int(line.split()[1]) * 1024 for line in it if line.startswith("VmRSS:"))


class Stock:
    name = "stock ZooKeeper"

    def __enter__(self):
        first, self.room, self.children = free_ports(9), tempfile.mkdtemp(dir="/dev/shm"), []
        self.addresses = ["127.0.0.1:%d" % (first + it) for it in range(3)]
        peers = "".join("server.%d=127.0.0.1:%d:%d\n" % (it + 1, first + 3 + it, first + 6 + it) for it in range(3))
        for it in range(3):
            home = os.path.join(self.room, str(it + 1))
            os.makedirs(home)
            with open(os.path.join(home, "myid"), "w", encoding="utf-8") as file:
                file.write("%d\n" % (it + 1))
            with open(os.path.join(home, "zoo.cfg"), "w", encoding="utf-8") as file:
                file.write("tickTime=2000\ninitLimit=10\nsyncLimit=5\ndataDir=%s\nclientPort=%d\nmaxClientCnxns=0\nadmin.enableServer=false\n"
                           "4lw.commands.whitelist=*\n%s" % (home, first + it, peers))
            words = ["java", "-Xmx1g", "-cp", "/usr/share/java/*", "org.apache.zookeeper.server.quorum.QuorumPeerMain", os.path.join(home, "zoo.cfg")]
            self.children.append(subprocess.Popen(words, stdout=subprocess.DEVNULL, stderr=subprocess.DEVNULL))
        until_serving(self.addresses)
        return self

    def __exit__(self, *_):
        for child in self.children:
            child.kill()
            child.wait()
        shutil.rmtree(self.room)


def measured(services):
    """Microseconds of a write and of a read, the least of several turns, each service in turn."""
    least = {}
    for turn in range(TURNS + 1):
        for service in services:
            for kind, count in ((SET_DATA, WRITES), (GET_DATA, READS)):
                micros = seconds_of(service.addresses, kind, count) * 1e6 / count
                # (the first turn warms a virtual machine up)
                if turn:
                    least[service.name, kind] = min(micros, least.get((service.name, kind), micros))
    for service in services:
        print("%s: %.1f microseconds a write, %.1f a read" % (service.name, least[service.name, SET_DATA], least[service.name, GET_DATA]))
    if len(services) == 2:
        for kind, word in ((SET_DATA, "writes"), (GET_DATA, "reads")):
            print("%s: %.2f of the stock servers' time" % (word, least[services[0].name, kind] / least[services[1].name, kind]))


def steady(seconds):
    """A thousand writes a second over one connection, and how long each takes."""
    with Ours() as service:
        stream, path = connected(service.addresses[1]), b"/steady"
        made(stream, path)
        packed, times = requests(SET_DATA, path, 1000), []
        begun = time.perf_counter()
        for number in range(1000 * seconds):
            due = begun + number / 1000
            if (wait := due - time.perf_counter()) > 0:
                time.sleep(wait)
            sent = time.perf_counter()
            stream.sendall(packed[number % 1000])
            frame(stream)
            times.append(time.perf_counter() - sent)
        times.sort()
        print("%d writes in %.0f s; milliseconds: median %.2f, p99 %.2f, most %.2f"
              % (len(times), time.perf_counter() - begun, times[len(times) // 2] * 1e3, times[len(times) * 99 // 100] * 1e3, times[-1] * 1e3))


def memory():
    with Ours() as service:
        for kind, word in ((SET_DATA, "writes"), (GET_DATA, "reads")):
            seconds_of(service.addresses, kind, 1000)
            first = service.resident()
            seconds_of(service.addresses, kind, 1000000)
            grown = service.resident() - first
            print("1,000,000 %s: %d bytes more than after 1,000, %.0f each" % (word, grown, grown / 1e6))


def waits_of(address, number, seconds, ready, begins, found):
    """How long each read over 25 connections takes, one in flight on each."""
    streams, path = [connected(address) for _ in range(25)], b"/idle%d" % number
    made(streams[0], path)
    packed, chosen, sent, waits = requests(GET_DATA, path, 1)[0], selectors.DefaultSelector(), {}, []
    for stream in streams:
        chosen.register(stream, selectors.EVENT_READ, stream)
    ready.release()
    begins.wait()
    ends = time.perf_counter() + seconds
    for stream in streams:
        sent[stream] = time.perf_counter()
        stream.sendall(packed)
    while time.perf_counter() < ends:
        for key, _ in chosen.select(1):
            frame(key.data)
            waits.append(time.perf_counter() - sent[key.data])
            sent[key.data] = time.perf_counter()
            key.data.sendall(packed)
    found.put(waits)


def percentiles(address, seconds=10):
    """The median and the p99 of the reads of four such clients, in milliseconds."""
    ready, begins, found = multiprocessing.Semaphore(0), multiprocessing.Event(), multiprocessing.Queue()
    clients = [multiprocessing.Process(target=waits_of, args=(address, it, seconds, ready, begins, found)) for it in range(4)]
    for client in clients:
        client.start()
    for _ in clients:
        ready.acquire()
    begins.set()
    waits = sorted(wait for _ in clients for wait in found.get())
    for client in clients:
        client.join()
    return waits[len(waits) // 2] * 1e3, waits[len(waits) * 99 // 100] * 1e3, len(waits) / seconds


def idle(connections):
    hard = resource.getrlimit(resource.RLIMIT_NOFILE)[1]
    resource.setrlimit(resource.RLIMIT_NOFILE, (hard, hard))
    with Ours(1, words=("--max-connections", str(2 * connections))) as service:
        address, held = service.addresses[0], []
        for count in (100, connections):
            while len(held) + 100 < count:
                held.append(connected(address))
            time.sleep(2)
            print("%d connections, 100 of them reading: median %.2f ms, p99 %.2f ms, %.0f reads a second" % (count, *percentiles(address)))


def start_seconds(servers, directory):
    """The CPU seconds and the wall-clock seconds until a start has its data, and prints that it serves."""
    begun = time.perf_counter()
    service = Ours(servers, directory)
    with subprocess.Popen([ZK, "ensemble", str(free_ports(servers)), str(servers), *service.words], stdin=subprocess.PIPE, stdout=subprocess.PIPE) as child:
        child.stdout.readline()
        wall = time.perf_counter() - begun
        with open("/proc/%d/schedstat" % child.pid, encoding="utf-8") as it:
            cpu = int(it.read().split()[0]) / 1e9
        child.kill()
    return cpu, wall


def show_seconds(directory):
    begun, before = time.perf_counter(), resource.getrusage(resource.RUSAGE_CHILDREN)
    subprocess.run([ZK, "show", directory, "last"], stdout=subprocess.DEVNULL, check=True)
    after = resource.getrusage(resource.RUSAGE_CHILDREN)
    return after.ru_utime + after.ru_stime - before.ru_utime - before.ru_stime, time.perf_counter() - begun


def durable(servers, writes):
    """100 in flight, over ten connections, to one node."""
    global CONNECTIONS, DEPTH
    CONNECTIONS, DEPTH = 10, 10
    with tempfile.TemporaryDirectory() as room:
        directory = os.path.join(room, "data")
        with Ours(servers, directory) as service:
            seconds = min(seconds_of(service.addresses, SET_DATA, WRITES) for _ in range(TURNS))
            print("%d servers: %.0f durable writes a second" % (servers, WRITES / seconds))
            first = service.resident()
            seconds_of(service.addresses, SET_DATA, writes)
            print("resident after %d writes: %.0f MB, %.0f bytes a write" % (writes + TURNS * WRITES, service.resident() / 1e6, (service.resident() - first) / writes))
        starts = [start_seconds(servers, directory) for _ in range(TURNS)]
        shows = [show_seconds(os.path.join(directory, "1")) for _ in range(TURNS)]
        cpu, wall = (min(it) for it in zip(*starts))
        show_cpu, show_wall = (min(it) for it in zip(*shows))
        print("a start: %.2f s of CPU, %.2f s; `zk show` of one server's directory: %.2f s of CPU, %.2f s: %.2f times, by server"
              % (cpu, wall, show_cpu, show_wall, cpu / servers / show_cpu))


def main():
    words = sys.argv[1:]
    if words[:1] == ["durable"]:
        return durable(int(words[1]) if words[1:] else 3, int(words[2]) if words[2:] else 1000000)
    if words[:1] == ["steady"]:
        return steady(int(words[1]) if words[1:] else 600)
    if words == ["memory"]:
        return memory()
    if words[:1] == ["idle"]:
        return idle(int(words[1]) if words[1:] else 10000)
    print("load before: %s" % " ".join("%.2f" % it for it in os.getloadavg()))
    if words and words != ["stock"]:
        running = type("Running", (), {"name": words[0], "addresses": words[0].split(",")})
        measured([running])
    else:
        with Ours() as ours:
            if words:
                with Stock() as stock:
                    measured([ours, stock])
            else:
                measured([ours])
    print("load after: %s" % " ".join("%.2f" % it for it in os.getloadavg()))


if __name__ == "__main__":
    main()
