#!/usr/bin/env python3
"""Clients of `zk serve`, and the replies to them. Each conversation has three servers of its own and is held twice: once each line is
sent after the reply to the one before it, and once all are sent together. Its lines:

    > LINE      a line that the client sends
    ~ LINE      the same without its newline; where more follows, that is sent a while later
    LINE        the reply to the line above: the events, and then the reply itself. T is a time while the check ran

After the last line the client's input ends. `checks/serve.sh` has connections in turn, and what takes time; run scripts with the
same requests and reads stand in `checks/golden`.
"""
import os
import re
import socket
import subprocess
import sys
import time
from collections.abc import Iterator
from concurrent.futures import ThreadPoolExecutor
from contextlib import contextmanager
from dataclasses import dataclass, field
from pathlib import Path
from random import randrange

ROOT = Path(__file__).resolve().parent.parent
PROGRAM = Path(os.environ.get("ZK", ROOT / "crates" / "zk_cli" / "out" / "zk_cli"))

# The number of conversations that are held side by side.
LANES = 4

# The pause between two chunks of a line, in seconds.
PAUSE = 0.02

# How long an answer is waited for, in seconds.
PATIENCE = 300

# Milliseconds since 1970, in any year of this check.
TIME = re.compile(r"\b\d{13}\b")

# front_lines_over_loopback: a session of a client. The first transaction is the opening.
SESSION = """
> open 30000
ok 0000000100000001 30000
> create "/a" x6869 1 31 "world" "anyone"
ok "/a"
> get "/a"
ok x6869 0000000100000002 0000000100000002 T T 0 0 0 0000000000000000 2 0 0000000100000002
> ruok
imok
> ls -w "/"
ok 2 "a" "zookeeper" 0000000000000000 0000000000000000 0 0 0 0 0 0000000000000000 0 2 0000000100000002
> create "/b" x 1 31 "world" "anyone"
event 4 "/"
ok "/b"
> sync "/a"
ok "/a"
> stat "/"
ok 0000000000000000 0000000000000000 0 0 0 1 0 0000000000000000 0 3 0000000100000003
> set "/a" "bye" 0
ok 0000000100000002 0000000100000004 T T 1 0 0 0000000000000000 3 0 0000000100000002
> set "/a" "bye" 0
err -103
> getacl "/b"
ok 1 31 "world" "anyone" 0000000100000003 0000000100000003 T T 0 0 0 0000000000000000 0 0 0000000100000003
> delete "/b" 0
ok
> get "/b"
err -101
> commit
err -8
> close
ok
> close
err -112
"""

# Multis: a bad part drops its multi, and so does a line that is none. Parts see what earlier ones changed.
MULTIS = """
> open 30000
ok 0000000100000001 30000
> multi
> create "/m" x 1 31 "world" "anyone"
> get "/"
err -8
> commit
err -8
> stat "/m"
err -101
> multi
> ruok
err -8
> commit
err -8
> multi
> create "/m" x 1 31 "world" "anyone"
> create "/m" x
err -8
> commit
err -8
> multi
> create "/m" x 1 31 "world" "anyone"
> create "/m/n" x 1 31 "world" "anyone"
> set "/m" x01 0
> check "/m" 1
> delete "/m/n" 0
> commit
ok ; 0 "/m" - ; 0 "/m/n" - ; 0 "/m" 0000000100000002 0000000100000002 T T 1 1 0 0000000000000000 1 1 0000000100000002 ; 0 "/m" - ; 0 "/m/n" -
> multi
> delete "/m" 5
> create "/o" x 1 31 "world" "anyone"
> commit
err -103 ; -103 - - ; -2 - -
> stat "/o"
err -101
> commit
err -8
> multi
> commit
ok
"""

# Inside a multi each line but a part and `commit` drops it, and does nothing else: no session opens or ends, nothing is proved, and
# nobody watches.
IN_A_MULTI = f"""
> open 30000
ok 0000000100000001 30000
> multi
> open 30000
err -8
> commit
err -8
> multi
> addauth digest "alice:secret"
err -8
> commit
err -8
> create "/p" x 1 31 "auth" ""
err -114
> multi
> close
err -8
> commit
err -8
> multi
> ls -w "/"
err -8
> commit
err -8
> multi
> get "/"
err -8
> commit
err -8
> multi
> stat "/"
err -8
> multi
> getacl "/"
err -8
> multi
> setacl "/" 1 31 "world" "anyone" -1
err -8
> multi
> sync "/"
err -8
> commit
err -8
> multi
> multi
err -8
> commit
err -8
> multi
> ruok
err -8
> commit
err -8
> multi
> commits
err -8
> commit
err -8
> multi
>
err -8
> multi
> multi ; check "/" 0
err -8
> multi
> \udcff
err -8
> commit
err -8
> multi
> {"y" * 70_000}
err -8
> commit
err -8
> create "/a" x 1 31 "world" "anyone"
ok "/a"
> multi
> check "/a" 0
> commit
ok ; 0 "/a" -
"""

# Without a session, and with two after one another on one connection.
SESSIONS = """
> ruok
imok
> create "/a" x 1 31 "world" "anyone"
err -112
> what
err -8
> multi
err -112
> commit
err -8
> open 1000
ok 0000000100000001 4000
> open 30000
err -8
> addauth digest "alice"
err -8
> addauth digest "alice:secret"
ok
> get "a"
err -8
> create -e "/e" x 1 31 "auth" ""
ok "/e"
> getacl "/e"
ok 1 31 "digest" "alice:aYXlLOpEooaV1cRAvUL1fp9Qt7E=" 0000000100000002 0000000100000002 T T 0 0 0 0000000100000001 0 0 0000000100000002
> close
ok
> get "/e"
err -112
> open 50000
ok 0000000100000004 40000
> get "/e"
err -101
~ ruok
imok
"""

# Each other line without a session, and in one those that are not in the table; reads and syncs of what is no path.
EACH_LINE = """
> addauth digest "alice:secret"
err -112
> delete "/a" 0
err -112
> set "/a" x 0
err -112
> setacl "/a" 1 31 "world" "anyone" 0
err -112
> get "/"
err -112
> stat -w "/"
err -112
> ls -w "/"
err -112
> getacl "/"
err -112
> sync "/"
err -112
> multi
err -112
> close
err -112
> check "/a" 1
err -8
> commits
err -8
> get "/a/"
err -8
> open 30000
ok 0000000100000001 30000
> check "/a" 1
err -8
> commits
err -8
> multi ; check "/" 0
err -8
> \udcff
err -8
> get "/a/"
err -8
> getacl ""
err -8
> sync "a"
err -8
> getacl -w "/"
err -8
> addauth world "anyone"
err -8
> ruok
imok
"""

# Lines that ask for requests: flags, contents in quotes and in hexadecimal digits, lists of access, versions.
REQUESTS = """
> open 30000
ok 0000000100000001 30000
> create "/a" x6869 1 31 "world" "anyone"
ok "/a"
> delete "/a" -1
ok
> create -e "/a" "" 0
err -114
> create -e "/a" "" 1 31 "world" "anyone"
ok "/a"
> get "/a"
ok x 0000000100000005 0000000100000005 T T 0 0 0 0000000100000001 0 0 0000000100000005
> delete "/a" 0
ok
> create "/a" "hi" 1 31 "world" "anyone"
ok "/a"
> get "/a"
ok x6869 0000000100000007 0000000100000007 T T 0 0 0 0000000000000000 2 0 0000000100000007
> create -s "/a/" x 0
err -114
> create -s "/a/" x 1 31 "world" "anyone"
ok "/a/0000000000"
> create -s -e "no path" - 0
err -8
> create -s -e "/no path" - 1 31 "world" "anyone"
ok "/no path0000000003"
> get "/no path0000000003"
ok - 000000010000000b 000000010000000b T T 0 0 0 0000000100000001 0 0 000000010000000b
> set "/a" - 2147483647
err -103
> set "/a" - 0
ok 0000000100000007 000000010000000d T T 1 1 0 0000000000000000 0 1 0000000100000009
> setacl "/a" 2 31 "world" "anyone" 1 "auth" "" 0
err -114
> addauth digest "alice:secret"
ok
> setacl "/a" 2 31 "world" "anyone" 1 "auth" "" 0
ok 0000000100000007 000000010000000d T T 1 1 1 0000000000000000 0 1 0000000100000009
> getacl "/a"
ok 2 31 "world" "anyone" 1 "digest" "alice:aYXlLOpEooaV1cRAvUL1fp9Qt7E=" 0000000100000007 000000010000000d T T 1 1 1 0000000000000000 0 1 0000000100000009
> multi
> check "/a" 7
> delete "/a" 0
> commit
err -103 ; -103 - - ; -2 - -
> multi
> check "/a" 3
> commit
err -103 ; -103 - -
> multi
> create -s -e "/s" "\\"" 0
> set "/b" x00 -1
> commit
err -114 ; -114 - - ; -2 - -
> create "/b" x 1 31 "world" "anyone"
ok "/b"
> multi
> create -s -e "/s" "\\"" 1 31 "world" "anyone"
> set "/b" x00 -1
> commit
ok ; 0 "/s0000000005" - ; 0 "/b" 0000000100000013 0000000100000014 T T 1 0 0 0000000000000000 1 0 0000000100000013
> get "/s0000000005"
ok x22 0000000100000014 0000000100000014 T T 0 0 0 0000000100000001 1 0 0000000100000014
> close
ok
"""

# Events of each kind, each sent once and before the reply, and none without `-w`.
EVENTS = """
> open 30000
ok 0000000100000001 30000
> stat -w "/a"
err -101
> create "/a" x 1 31 "world" "anyone"
event 1 "/a"
ok "/a"
> get "/a"
ok x 0000000100000002 0000000100000002 T T 0 0 0 0000000000000000 0 0 0000000100000002
> ls "/"
ok 2 "a" "zookeeper" 0000000000000000 0000000000000000 0 0 0 0 0 0000000000000000 0 2 0000000100000002
> set "/a" x01 0
ok 0000000100000002 0000000100000003 T T 1 0 0 0000000000000000 1 0 0000000100000002
> get -w "/a"
ok x01 0000000100000002 0000000100000003 T T 1 0 0 0000000000000000 1 0 0000000100000002
> set "/a" x 1
event 3 "/a"
ok 0000000100000002 0000000100000004 T T 2 0 0 0000000000000000 0 0 0000000100000002
> set "/a" x01 2
ok 0000000100000002 0000000100000005 T T 3 0 0 0000000000000000 1 0 0000000100000002
> ls -w "/a"
ok 0 0000000100000002 0000000100000005 T T 3 0 0 0000000000000000 1 0 0000000100000002
> create "/a/b" x 1 31 "world" "anyone"
event 4 "/a"
ok "/a/b"
> get -w "/a/b"
ok x 0000000100000006 0000000100000006 T T 0 0 0 0000000000000000 0 0 0000000100000006
> ls -w "/a"
ok 1 "b" 0000000100000002 0000000100000005 T T 3 1 0 0000000000000000 1 1 0000000100000006
> delete "/a/b" 0
event 4 "/a"
event 2 "/a/b"
ok
> delete "/a" -1
ok
"""

# Errors by the state of the tree: a node that only its access control list or its children protect,
# and one of a session.
PROTECTED = """
> open 30000
ok 0000000100000001 30000
> create -e "/e" x 1 31 "world" "anyone"
ok "/e"
> create "/e/c" x 1 31 "world" "anyone"
err -108
> create "/a" x 1 31 "world" "anyone"
ok "/a"
> create "/a/b" x 1 31 "world" "anyone"
ok "/a/b"
> delete "/a" -1
err -111
> create "/r" x 1 30 "world" "anyone"
ok "/r"
> get -w "/r"
err -102
> ls -w "/r"
err -102
> create "/n" x 1 1 "world" "anyone"
ok "/n"
> set "/n" x01 0
err -102
> create "/n/c" x 1 31 "world" "anyone"
err -102
> setacl "/n" 1 31 "world" "anyone" -1
err -102
> multi
> check "/r" 0
> delete "/a" -1
> commit
err -102 ; -102 - - ; -2 - -
> multi
> check "/n" 0
> delete "/a" -1
> commit
err -111 ; 0 "/n" - ; -111 - -
> set "/r" x01 0
ok 0000000100000007 000000010000000e T T 1 0 0 0000000000000000 1 0 0000000100000007
> get "/n"
ok x 0000000100000008 0000000100000008 T T 0 0 0 0000000000000000 0 0 0000000100000008
> close
ok
"""

# How bytes become lines: chunks of one, an empty line, one that is no text, one that is too long, and an end without a newline.
PIECES = f"""
> ruok
imok
> x
err -8
>
err -8
~ ru
> ok
imok
> \udcff
err -8
~ {"x" * 40_000}
> {"x" * 40_000}
err -8
> ruok
imok
~ r
~ u
~ o
~ k
imok
"""

CONVERSATIONS = (SESSION, MULTIS, IN_A_MULTI, SESSIONS, EACH_LINE, REQUESTS, EVENTS, PROTECTED, PIECES)


class Wrong(Exception):
    """A conversation that went otherwise."""


@dataclass
class Turn:
    """What a client sends, and the expected replies."""

    sent: bytes
    answers: list[str] = field(default_factory=list)


def turns_of(conversation: str) -> list[Turn]:
    """The turns of a conversation."""
    turns: list[Turn] = []
    for line in conversation.strip().split("\n"):
        if line[:1] in (">", "~"):
            sent = line[2:] + ("\n" if line[0] == ">" else "")
            turns.append(Turn(sent.encode(errors="surrogateescape")))
        else:
            turns[-1].answers.append(line)
    return turns


def now() -> int:
    """Milliseconds since 1970."""
    return time.time_ns() // 1_000_000


STARTED = now()


def masked(line: str) -> str:
    """The line with a T for each time that is one while the check ran."""
    return TIME.sub(lambda found: "T" if STARTED <= int(found[0]) <= now() else found[0], line)


def want(sent: bytes, told: list[str], wanted: list[str]) -> None:
    """Fails if the replies are others."""
    told = [masked(line) for line in told]
    if told != wanted:
        raise Wrong(f"{sent[-200:]!r}: {told}\nin place of {wanted}")


@contextmanager
def servers() -> Iterator[int]:
    """Three servers for one connection, and their port. They end by themselves, and print nothing but the port."""
    for _ in range(50):
        port = randrange(20_000, 40_000)
        words = [PROGRAM, "serve", str(port), "3", "--conns", "1"]
        pipe = subprocess.PIPE
        with subprocess.Popen(words, stdin=subprocess.DEVNULL, stdout=pipe, stderr=pipe, text=True) as running:
            try:
                if running.stdout.readline() != f"listening {port}\n":
                    continue
                yield port
                ended = (*running.communicate(timeout=PATIENCE), running.returncode)
                if ended != ("", "", 0):
                    raise Wrong(f"the servers ended with {ended}")
                return
            finally:
                running.kill()
    raise Wrong("no port is free")


def line_by_line(client: socket.socket, turns: list[Turn]) -> None:
    """Sends each line after the reply to the one before it."""
    answers = client.makefile(encoding="utf-8", newline="\n")
    for number, turn in enumerate(turns, 1):
        client.sendall(turn.sent)
        if number == len(turns):
            client.shutdown(socket.SHUT_WR)
        elif not turn.sent.endswith(b"\n"):
            time.sleep(PAUSE)
        want(turn.sent, [answers.readline().rstrip("\n") for _ in turn.answers], turn.answers)
    want(b"the end", answers.readlines(), [])


def at_once(client: socket.socket, turns: list[Turn]) -> None:
    """Sends all lines together."""
    client.sendall(b"".join(turn.sent for turn in turns))
    client.shutdown(socket.SHUT_WR)
    answers = client.makefile(encoding="utf-8", newline="\n").read().splitlines()
    want(b"all lines", answers, [answer for turn in turns for answer in turn.answers])


def hold(conversation: str) -> int:
    """Holds a conversation both ways, and returns the number of its lines."""
    turns = turns_of(conversation)
    for way in (line_by_line, at_once):
        with servers() as port, socket.create_connection(("127.0.0.1", port), timeout=PATIENCE) as client:
            way(client, turns)
    return len(turns)


def main() -> int:
    try:
        with ThreadPoolExecutor(max_workers=LANES) as lanes:
            lines = sum(lanes.map(hold, CONVERSATIONS))
    except (Wrong, OSError, subprocess.TimeoutExpired) as wrong:
        print(f"clients: {wrong}", file=sys.stderr)
        return 1
    print(f"clients: {len(CONVERSATIONS)} conversations of {lines} lines, each line by line and at once")
    return 0


if __name__ == "__main__":
    sys.exit(main())
