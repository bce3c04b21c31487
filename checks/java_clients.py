#!/usr/bin/env python3
"""The Java client at `zk ensemble`: zkCli's commands, watches over cut connections, and recipes of Curator.

checks/golden/zkcli.answers is what zkCli 3.8.0 printed for checks/golden/zkcli.script at a server of ZooKeeper 3.8.0 (Debian's
`zookeeper`), with times masked, zxids counted from the first node's, and lists of names sorted. Events are compared apart, as they may come at
any moment.

usage: java_clients.py [CUTS]
       java_clients.py --print PORT      what zkCli prints at the server at PORT
"""
import os
import re
import subprocess
import sys
from pathlib import Path
from random import randrange

ROOT = Path(__file__).resolve().parent.parent
PROGRAM = Path(os.environ.get("ZK", ROOT / "crates" / "zk_cli" / "out" / "zk_cli"))
GOLDEN = ROOT / "checks" / "golden"

# where Debian's packages put the client
JARS = ["zookeeper", "curator-recipes", "curator-framework", "curator-client", "guava", "failureaccess"]
CLASSES = ":".join(["/etc/zookeeper/conf", *[f"/usr/share/java/{it}.jar" for it in JARS]])

# how often the watching client loses its connection: once in about 3 seconds, since it waits before it connects again
CUTS = 5

# in seconds, for one run
PATIENCE = 600

NOISE = re.compile(r"SLF4J: |Connecting to |Welcome to ZooKeeper|JLine support|$")


def java(*words: str, stdin=subprocess.DEVNULL) -> str:
    ended = subprocess.run(["java", "-cp", CLASSES, *words], stdin=stdin, stdout=subprocess.PIPE, stderr=subprocess.STDOUT, text=True, timeout=PATIENCE)
    assert ended.returncode == 0, ended.stdout[-3000:]
    return ended.stdout


def zkcli(port: int) -> list[str]:
    """What zkCli prints for the script, then the events that it was sent, sorted."""
    with open(GOLDEN / "zkcli.script") as script:
        said = java("org.apache.zookeeper.ZooKeeperMain", "-server", f"127.0.0.1:{port}", stdin=script).splitlines()
    first = next(int(line.split()[-1], 16) for line in said if line.startswith("cZxid"))
    counted = lambda found: f"{found[1]} = first + {int(found[2], 16) - first}"
    lines, events = [], []
    for line in said:
        line = re.sub(r"(\w)time = .*", r"\1time = TIME", line)
        line = re.sub(r"(\wZxid) = (0x[0-9a-f]+)", counted, line)
        if re.fullmatch(r"\[.*\]", line):
            line = f"[{', '.join(sorted(line[1:-1].split(', ')))}]"
        if line.startswith("WatchedEvent"):
            events.append(line)
        elif not NOISE.match(line) and line != "WATCHER::":
            lines.append(line)
    return [*lines, *sorted(events)]


def ensemble() -> tuple[subprocess.Popen, int]:
    """An ensemble of three servers that serves, and its first port."""
    for _ in range(50):
        port = randrange(20000, 60000)
        process = subprocess.Popen([PROGRAM, "ensemble", str(port), "3"], stdin=subprocess.PIPE, stdout=subprocess.PIPE, stderr=subprocess.DEVNULL, text=True)
        if process.stdout.readline().startswith("serving"):
            return process, port
        process.wait()
    raise AssertionError("no ensemble serves")


def main() -> None:
    words = sys.argv[1:]
    if words[:1] == ["--print"]:
        print("\n".join(zkcli(int(words[1]))))
        return
    process, port = ensemble()
    try:
        said, wanted = zkcli(port + 1), (GOLDEN / "zkcli.answers").read_text().splitlines()
        for number, (line, other) in enumerate(zip(said, wanted), 1):
            assert line == other, f"zkCli, line {number}: {line!r}, where a server of ZooKeeper's had {other!r}"
        assert len(said) == len(wanted), f"zkCli: {len(said)} lines, not {len(wanted)}"
        cuts = words[0] if words else str(CUTS)
        said = java(str(ROOT / "checks" / "CutWatches.java"), cuts, *[str(port + place) for place in range(3)])
        recipes = java(str(ROOT / "checks" / "CuratorRecipes.java"), "plain", f"127.0.0.1:{port}", f"127.0.0.1:{port + 2}")
        print(f"java_clients: zkCli as at a server of ZooKeeper's; {said.splitlines()[-1]}; Curator: {recipes.splitlines()[-1]}")
    finally:
        process.kill()
        process.wait()


main()
