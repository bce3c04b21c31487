#!/usr/bin/env python3
"""Kills `zk ensemble --data DIR` at random moments while kazoo clients write, and starts it again on DIR.

Nothing that was acknowledged is lost: after each start a new client finds each node whose creation was acknowledged, and each
counter at least at the last version that was; a client that only waits keeps its session. After the last kill, `zk show` of some server's directory has what the
clients have seen, `zk debug` ends at the same place, and ZooKeeper's own TxnLogToolkit reads each log.

usage: kill9.py [KILLS] [SEED] [SERVERS]
"""
import os
import random
import shutil
import signal
import subprocess
import sys
import tempfile
import threading
import time
from pathlib import Path

try:
    from kazoo.client import KazooClient
    from kazoo.exceptions import KazooException, NodeExistsError
    from kazoo.handlers.threading import KazooTimeoutError
except ImportError:
    if sys.executable == "/usr/bin/python3":
        sys.exit("kill9: kazoo is not installed: apt-get install python3-kazoo")
    os.execv("/usr/bin/python3", ["/usr/bin/python3", *sys.argv])

ROOT = Path(__file__).resolve().parent.parent
PROGRAM = Path(os.environ.get("ZK", ROOT / "crates" / "zk_cli" / "out" / "zk_cli"))
SERVERS = int(sys.argv[3]) if len(sys.argv) > 3 else 3
WRITERS = 4
# Seconds in which a start serves, and in which a client connects.
PATIENCE = 300
# The classes that TxnLogToolkit needs.
JAVA = "/usr/share/java"


class Writer(threading.Thread):
    """A client that creates nodes and raises the version of one, and keeps what was acknowledged."""

    def __init__(self, number: int, hosts: str):
        super().__init__(daemon=True)
        self.number, self.hosts = number, hosts
        self.created, self.version = [], -1
        self.ends = threading.Event()

    def run(self):
        while not self.ends.is_set():
            zk = KazooClient(self.hosts, timeout=10.0)
            try:
                zk.start(PATIENCE)
                self.write(zk)
            except (KazooException, KazooTimeoutError):
                pass
            finally:
                try:
                    zk.stop()
                    zk.close()
                except Exception:
                    pass

    def write(self, zk):
        home = f"/writer{self.number}"
        try:
            zk.create(home, b"")
        except NodeExistsError:
            pass
        count = len(self.created)
        while not self.ends.is_set():
            path = zk.create(f"{home}/node-", f"{self.number} {count}".encode(), sequence=True)
            self.created.append((path, f"{self.number} {count}".encode()))
            count += 1
            self.version = zk.set(home, str(count).encode()).version


def start(port: int, directory: Path) -> subprocess.Popen:
    words = [PROGRAM, "ensemble", str(port), str(SERVERS), "--data", str(directory)]
    end = time.time() + PATIENCE
    while time.time() < end:
        running = subprocess.Popen(words, stdin=subprocess.PIPE, stdout=subprocess.PIPE, stderr=subprocess.PIPE, text=True)
        line = running.stdout.readline()
        if line.startswith("serving"):
            return running
        running.wait()
        why = running.stderr.read()
        assert "listen" in why, why
        time.sleep(0.1)
    raise AssertionError("the ensemble does not start")


def kill(running: subprocess.Popen):
    running.send_signal(signal.SIGKILL)
    running.wait()


def check_all(hosts: str, writers: list) -> int:
    """A new client finds what was acknowledged."""
    kept = [(list(writer.created), writer.version) for writer in writers]
    zk = KazooClient(hosts, timeout=10.0)
    zk.start(PATIENCE)
    try:
        zk.retry(zk.sync, "/")
        for writer, (created, version) in zip(writers, kept):
            home = f"/writer{writer.number}"
            if not created:
                continue
            children = set(zk.retry(zk.get_children, home))
            for path, _ in created:
                assert path.rsplit("/", 1)[1] in children, f"lost: {path}"
            for path, content in random.sample(created, min(20, len(created))):
                assert zk.retry(zk.get, path)[0] == content, path
            assert zk.retry(zk.get, home)[1].version >= version, f"{home} is at an older version than {version}"
        return sum(len(created) for created, _ in kept)
    finally:
        zk.stop()
        zk.close()


def lines_of(*words) -> list[str]:
    return subprocess.run([PROGRAM, *words], capture_output=True, text=True, check=True).stdout.splitlines()


def nodes_in(lines: list[str]) -> dict[str, str]:
    """The lines of nodes, by their paths."""
    return {line.split('"')[1]: line for line in lines if line.startswith('"/')}


def last_zxid(directory: Path) -> str:
    return lines_of("show", directory, "last")[0].split()[1]


def check_directories(directory: Path, writers: list):
    """Of the server with the last transaction, the directory has what was acknowledged."""
    last = max(range(1, SERVERS + 1), key=lambda server: last_zxid(directory / str(server)))
    nodes = nodes_in(lines_of("show", directory / str(last), "last"))
    for writer in writers:
        for path, content in writer.created:
            assert path in nodes, f"zk show {last} lacks {path}"
            assert f" x{content.hex()} " in nodes[path], nodes[path]
    script = directory / "script"
    script.write_text("run\ntree\n")
    assert nodes_in(lines_of("debug", directory / str(last), script)) == nodes, "zk debug has another tree"


def check_toolkit(directory: Path):
    """ZooKeeper's own tool reads each log whole."""
    if shutil.which("java") is None or not Path(JAVA, "zookeeper.jar").exists():
        print("kill9: no TxnLogToolkit here")
        return
    classes = ":".join(str(Path(JAVA, name)) for name in ["zookeeper.jar", "zookeeper-jute.jar", "slf4j-api.jar", "slf4j-nop.jar", "commons-cli.jar"])
    for server in range(1, SERVERS + 1):
        log = directory / str(server) / "version-2" / "log.1"
        words = ["java", "-cp", classes, "org.apache.zookeeper.server.persistence.TxnLogToolkit", "-d", log]
        dumped = subprocess.run(words, capture_output=True, text=True)
        assert dumped.returncode == 0, dumped.stderr
        assert "CRC ERROR" not in dumped.stdout, dumped.stdout
        zxids = [f"{int(line.split(' zxid 0x')[1].split()[0], 16):016x}" for line in dumped.stdout.splitlines() if " zxid 0x" in line]
        assert zxids == [line.split()[0] for line in lines_of("list", directory / str(server))], f"TxnLogToolkit reads others of {server}"


def main() -> int:
    kills = int(sys.argv[1]) if len(sys.argv) > 1 else 10
    random.seed(int(sys.argv[2]) if len(sys.argv) > 2 else None)
    port = random.randrange(20000, 60000)
    hosts = ",".join(f"127.0.0.1:{port + server}" for server in range(SERVERS))
    with tempfile.TemporaryDirectory() as work:
        directory = Path(work) / "data"
        running = start(port, directory)
        holder = KazooClient(hosts, timeout=30.0)
        holder.start(PATIENCE)
        session = holder.client_id[0]
        holder.create("/held", b"", ephemeral=True)
        writers = [Writer(number, hosts) for number in range(WRITERS)]
        for writer in writers:
            writer.start()
        found = 0
        for _ in range(kills):
            time.sleep(random.uniform(0.05, 2.0))
            kill(running)
            running = start(port, directory)
            found = check_all(hosts, writers)
        for writer in writers:
            writer.ends.set()
        for writer in writers:
            writer.join(PATIENCE)
        found = check_all(hosts, writers)
        assert holder.retry(holder.exists, "/held").ephemeralOwner == session == holder.client_id[0], "the session is lost"
        holder.stop()
        holder.close()
        kill(running)
        check_directories(directory, writers)
        check_toolkit(directory)
    print(f"kill9: {kills} kills, and none of {found} nodes is lost")
    return 0


if __name__ == "__main__":
    sys.exit(main())
