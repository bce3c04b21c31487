#!/usr/bin/env python3
"""`zk restore` over the real directory examples/directories/follower, of whose nodes live servers said all but /zookeeper/config
(examples/directories/README.md), at each path; and over a log with contents, paths and lists that zkCli.sh 3.8.0 reads or does not.
Where Debian's zookeeper is installed, zkCli.sh runs scripts against its server and against `zk ensemble`, and a script of each server's
directory is the same again."""
import os
import shutil
import socket
import subprocess
import sys
import tempfile
import time
from pathlib import Path

ROOT = Path(__file__).resolve().parent.parent
PROGRAM = Path(os.environ.get("ZK", ROOT / "crates" / "zk_cli" / "out" / "zk_cli"))
DIRECTORIES = ROOT / "examples" / "directories"
FOLLOWER = DIRECTORIES / "follower"
CLIENT = Path("/usr/share/zookeeper/bin/zkCli.sh")
JAR = "/usr/share/java/zookeeper.jar"
OWN = ("/zookeeper", "/zookeeper/config", "/zookeeper/quota")
CONTENT = "no word has its content, which is left out"
LIST = "no word has its access control list; the node is left out"
PATH = "no word has its path; the node is left out"

# what zkCli.sh 3.8.0 was seen to read back, and what it was seen not to: the listing of a node, and its lines
CASES = [
    ('"/a" x68656c6c6f20776f726c64 1 31 "world" "anyone" p', 'create -- "/a" "hello world" "world:anyone:cdrwa"'),
    ('"/b" x 1 1 "world" "anyone" p', 'create -- "/b" "" "world:anyone:r"'),
    ('"/c" - 1 29 "world" "anyone" p', 'create -- "/c"\nsetAcl -- "/c" "world:anyone:cdra"'),
    ('"/d" x7361792022686922 1 31 "world" "anyone" p', "create -- \"/d\" 'say \"hi\"' \"world:anyone:cdrwa\""),
    ('"/e" x69742773 1 31 "world" "anyone" p', 'create -- "/e" "it\'s" "world:anyone:cdrwa"'),
    ('"/f" x2d73 1 31 "world" "anyone" p', 'create -- "/f" "-s" "world:anyone:cdrwa"'),
    ('"/g" xc3bc20e282ac 1 31 "world" "anyone" p', 'create -- "/g" "ü €" "world:anyone:cdrwa"'),
    ('"/h" x2227 1 31 "world" "anyone" p', f'# "/h": {CONTENT}\ncreate -- "/h"\nsetAcl -- "/h" "world:anyone:cdrwa"'),
    ('"/i" x610a62 1 31 "world" "anyone" p', f'# "/i": {CONTENT}\ncreate -- "/i"\nsetAcl -- "/i" "world:anyone:cdrwa"'),
    ('"/j" xff 1 31 "world" "anyone" p', f'# "/j": {CONTENT}\ncreate -- "/j"\nsetAcl -- "/j" "world:anyone:cdrwa"'),
    ('"/k" xe280a8 1 31 "world" "anyone" p', f'# "/k": {CONTENT}\ncreate -- "/k"\nsetAcl -- "/k" "world:anyone:cdrwa"'),
    ('"/l" x61 1 31 "world" "anyone" e', '# "/l": ephemeral, of the session 0100000000000001; the node is left out'),
    ('"/m n" x61 1 31 "world" "anyone" p', 'create -- "/m n" "a" "world:anyone:cdrwa"'),
    (
        '"/o" x61 2 31 "digest" "u:abc=" 1 "ip" "10.0.0.0/8" p',
        'create -- "/o" "a" "digest:u:abc=:cdrwa,ip:10.0.0.0/8:r"',
    ),
    ('"/p" x61 1 31 "digest" "u,v:abc=" p', f'# "/p": {LIST}'),
    ('"/q\'\\"" x61 1 31 "world" "anyone" p', f'# "/q\'\\"": {PATH}'),
]


def run(*words):
    ran = subprocess.run([PROGRAM, *map(str, words)], capture_output=True, check=False)
    if (ran.returncode, ran.stderr) != (0, b""):
        sys.exit(f"{words}: {ran}")
    return ran.stdout.decode()


def head(root, zxid):
    quoted = root.replace("\\", "\\\\").replace('"', '\\"')
    return (
        f'# Node "{quoted}" and those below it, after transaction {zxid}.\n'
        "# For zkCli.sh in a UTF-8 locale: zkCli.sh -server HOST:PORT < SCRIPT. The client reports each of these comments.\n"
        "# The parent exists, and these nodes do not. Versions, times and zxids are not restored.\n"
    )


def same(what, printed, expected):
    if printed != expected:
        sys.exit(f"{what}:\n{printed}, and not\n{expected}")


def letters(perms):
    return "".join(letter for letter, bit in zip("cdrwa", (4, 8, 1, 2, 16)) if perms & bit)


def lines_of(line):
    """The script's lines for a node of the directory, whose paths and lists have neither spaces nor quotation marks."""
    fields = line.split(" ")
    path, content, number = fields[0].strip('"'), fields[1], int(fields[2])
    entries = [fields[3 + 3 * place : 6 + 3 * place] for place in range(number)]
    acl = ",".join(f'{scheme[1:-1]}:{who[1:-1]}:{letters(int(perms))}' for perms, scheme, who in entries)
    owner = fields[3 + 3 * number + 7]
    if path in OWN:
        return f'# "{path}": each server has it; the node is left out\n'
    if int(owner, 16):
        return f'# "{path}": ephemeral, of the session {owner}; the node is left out\n'
    if content == "-":
        return f'create -- "{path}"\nsetAcl -- "{path}" "{acl}"\n'
    text = bytes.fromhex(content[1:]).decode()
    if path == "/":
        return f'set -- "/" "{text}"\nsetAcl -- "/" "{acl}"\n'
    return f'create -- "{path}" "{text}" "{acl}"\n'


def script(zxid, root):
    """The script of the nodes that a live server had."""
    lines = (DIRECTORIES / f"follower.{zxid}.nodes").read_text().splitlines()
    nodes = {line.split(" ", 1)[0].strip('"'): lines_of(line) for line in lines}
    nodes["/zookeeper/config"] = '# "/zookeeper/config": each server has it; the node is left out\n'
    covered = [path for path in sorted(nodes, key=str.encode) if path == root or path.startswith(root.rstrip("/") + "/")]
    return head(root, zxid) + "".join(nodes[path] for path in covered)


def over_follower():
    checked = 0
    for zxid in ("00000002000000b6", "000000020000013d"):
        lines = (DIRECTORIES / f"follower.{zxid}.nodes").read_text().splitlines()
        for root in (line.split(" ", 1)[0].strip('"') for line in lines):
            same(f"{zxid} {root}", run("restore", FOLLOWER, root, "--at", zxid), script(zxid, root))
            checked += 1
        missing = subprocess.run([PROGRAM, "restore", FOLLOWER, "/none", "--at", zxid], capture_output=True, check=False)
        same(f"{zxid} /none", (missing.returncode, missing.stdout, missing.stderr), (1, b"", b'zk: no node "/none"\n'))
    return checked


def directory_of(cases, work, name):
    """A directory whose log creates the nodes of these cases."""
    listing = ["0000000100000001 0100000000000001 0 1000 createSession 30000"]
    for place, (node, _) in enumerate(cases):
        listing.append(f"{place + 0x100000002:016x} 0100000000000001 {place + 1} 2000 create {node} {place + 1}")
    (work / "listing").write_text("\n".join(listing) + "\n")
    directory = work / name
    directory.mkdir()
    run("asm", work / "listing", directory / "log.100000001")
    return directory


def bodies(text):
    """The lines that are no comment."""
    return [line for line in text.splitlines() if not line.startswith("#")]


def free_port():
    with socket.socket() as probe:
        probe.bind(("127.0.0.1", 0))
        return probe.getsockname()[1]


def waits_for(port):
    for _ in range(1200):
        with socket.socket() as probe:
            if probe.connect_ex(("127.0.0.1", port)) == 0:
                return
        time.sleep(0.1)
    sys.exit(f"no server at {port}")


def played(server, port, directory, text):
    """The script of a server's directory after zkCli.sh has run a script against it."""
    with subprocess.Popen(server, stdin=subprocess.PIPE, stdout=subprocess.DEVNULL, stderr=subprocess.DEVNULL) as running:
        try:
            waits_for(port)
            words = ["bash", CLIENT, "-server", f"127.0.0.1:{port}"]
            locale = {**os.environ, "LC_ALL": "C.UTF-8"}
            # its status is that of the last line, which may be a comment
            subprocess.run(words, input=text.encode(), env=locale, capture_output=True, check=False, timeout=600)
        finally:
            running.terminate()
    return bodies(run("restore", directory, "/"))


def over_servers(work, text):
    """Whether there was a client: its runs against two servers lead to nodes with the same script."""
    if not CLIENT.exists() or not Path(JAR).exists() or shutil.which("java") is None:
        return False
    port, data = free_port(), work / "server"
    (work / "zoo.cfg").write_text(f"dataDir={data}\nclientPort={port}\nadmin.enableServer=false\n")
    java = ["java", "-cp", JAR, "org.apache.zookeeper.server.ZooKeeperServerMain", str(work / "zoo.cfg")]
    same("a server of ZooKeeper", played(java, port, data, text), bodies(text))
    port = free_port()
    ensemble = [PROGRAM, "ensemble", str(port), "1", "--data", str(work / "ensemble")]
    same("zk ensemble", played(ensemble, port, work / "ensemble" / "1", text), bodies(text))
    return True


def main():
    checked = over_follower()
    with tempfile.TemporaryDirectory() as name:
        work = Path(name)
        cases = directory_of(CASES, work, "cases")
        for node, lines in CASES:
            path = node[1 : node.index('" ')].replace('\\"', '"')
            last = f"{0x100000001 + len(CASES):016x}"
            same(path, run("restore", cases, path), head(path, last) + lines + "\n")
        # `zk ensemble` takes no lists of scheme ip
        known = directory_of([case for case in CASES if '"ip"' not in case[0]], work, "known")
        has_client = over_servers(work, run("restore", known, "/"))
    print(f"restore: {checked} scripts of nodes that live servers had, {len(CASES)} nodes, zkCli.sh {'runs them' if has_client else 'is not here'}")


if __name__ == "__main__":
    main()
