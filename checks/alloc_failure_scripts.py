#!/usr/bin/env python3
"""Lets each allocation fail in turn, from the first on until a run meets none, while the proved program plays the run scripts of
examples/runs. After each event come the lines that restart the servers that it may have stopped; for a running server such a line
is an error.

A run ends with `zk: memory`, status 1 and a prefix of the whole output, or with status 0 and the whole output, or with status 0 and
one line with an error. `E9`: nothing has happened at that line, and the rest is the output of the script without the line. `E10 P`:
server P stopped in place of the event, and the rest is the output of the script with `crash P` in its place.

usage: alloc_failure_scripts.py [NAME ..]     the scripts with these names; all of them where none is named
"""
import os
import subprocess
import sys
import tempfile
from collections import Counter
from concurrent.futures import ProcessPoolExecutor
from dataclasses import dataclass, field
from pathlib import Path

ROOT = Path(__file__).resolve().parent.parent
PROGRAM = ROOT / "crates" / "zk_cli" / "out" / "zk_cli"
SCRIPTS = ROOT / "examples" / "runs"

# What may make a server stop: the others allocate nothing after its step, or are no events.
DEADLY = {"follow", "arrive", "submit", "expire", "sync"}
EVENTS = DEADLY | {"lead", "crash", "restart"}

# More growths than any script meets.
ENOUGH = 100_000

# The number of processes that share a script's allocations.
LANES = 4


class Wrong(Exception):
    """A run that ended otherwise than it may."""


def with_restarts(lines: list[str]) -> list[str]:
    """The script, with lines after each event that restart the servers that it may have stopped: those that are up in the script,
    and may be the one that the event is about. The addressee of a message is in no line."""
    servers = set(range(1, int(lines[0].split()[1]) + 1))
    up = set(servers)
    longer = lines[:1]
    for line in lines[1:]:
        longer.append(line)
        kind, number = line.split()[:2]
        if kind == "crash":
            up.discard(int(number))
        if kind == "restart":
            up |= servers & {int(number)}
        if kind in DEADLY:
            about = up if kind == "arrive" else up & {int(number)}
            longer += [f"restart {server}" for server in sorted(about)]
    return longer


def by_line(output: bytes) -> list[list[bytes]]:
    """The output of each line of a script: one line, or `lines N` and N more."""
    left = output.split(b"\n")
    if left.pop():
        raise Wrong("the output's last line has no end")
    answers = []
    while left:
        words = left[0].split()
        count = 1 + int(words[1]) if words[:1] == [b"lines"] else 1
        answers.append(left[:count])
        left = left[count:]
    return answers


@dataclass
class Played:
    """A script that is played with failing allocations: every one of as many as there are lanes."""

    name: str
    lines: list[str]
    room: Path
    library: Path
    lane: int
    whole: list[list[bytes]] = field(default_factory=list)
    # the rest, by the line that failed and its error
    expected: dict[tuple[int, bytes], list[list[bytes]]] = field(default_factory=dict)
    seen: Counter = field(default_factory=Counter)

    def run(self, lines: list[str], refuse: int = 0) -> tuple[int, bytes, bytes]:
        """The program's status, output and errors."""
        file, met = self.room / f"{self.name}.script", self.room / f"{self.name}.met"
        if refuse <= 1 or lines is not self.lines:
            file = self.room / f"{self.name}.{'whole' if lines is self.lines else 'other'}"
            file.write_text("".join(line + "\n" for line in lines), encoding="utf-8")
        else:
            file = self.room / f"{self.name}.whole"
        more = {"LD_PRELOAD": str(self.library), "REFUSE": str(refuse), "REFUSE_MET": str(met)} if refuse else {}
        ran = subprocess.run([PROGRAM, "run", file], env={**os.environ, **more}, capture_output=True, check=False, timeout=600)
        return ran.returncode, ran.stdout, ran.stderr

    def answers(self, lines: list[str]) -> list[list[bytes]]:
        """The output of a script if no allocation fails."""
        status, output, errors = self.run(lines)
        if status or errors:
            raise Wrong(f"status {status}, {errors!r}, though nothing was refused")
        return by_line(output)

    def rest(self, at: int, told: bytes) -> list[list[bytes]]:
        """The expected output if the line at a place has this error."""
        if (at, told) not in self.expected:
            before, after = self.lines[:at], self.lines[at + 1 :]
            if told == b"E9":
                answers = self.answers(before + after)
                self.expected[at, told] = answers[:at] + [[told]] + answers[at:]
            else:
                answers = self.answers([*before, f"crash {int(told.split()[1])}", *after])
                if answers[at] != [b"ok"]:
                    raise Wrong(f"line {at + 1} tells {told!r} of a server that can't crash")
                self.expected[at, told] = answers[:at] + [[told]] + answers[at + 1 :]
        return self.expected[at, told]

    def judge(self, output: bytes) -> None:
        """Whether a run with status 0 has at most one such error, and goes on as expected."""
        answers = by_line(output)
        if answers == self.whole:
            self.seen["none"] += 1
            return
        if len(answers) != len(self.lines):
            raise Wrong(f"{len(answers)} answers to {len(self.lines)} lines")
        at = next(place for place, pair in enumerate(zip(self.whole, answers)) if pair[0] != pair[1])
        told, kind = b" ".join(answers[at]), self.lines[at].split()[0]
        is_death = told.startswith(b"E10 ") and kind in DEADLY
        if not is_death and (told != b"E9" or kind not in EVENTS | {"read"}):
            raise Wrong(f"line {at + 1}, {self.lines[at]!r}, is answered {told!r}")
        if answers != self.rest(at, told):
            raise Wrong(f"line {at + 1}, {self.lines[at]!r}, is answered {told!r}, and the rest is not as it should be")
        self.seen[f"{kind} {told.split()[0].decode()}"] += 1

    def growths(self) -> int:
        """Lets each allocation of the lane fail in turn, and returns their number."""
        self.whole = self.answers(self.lines)
        whole = b"".join(line + b"\n" for answer in self.whole for line in answer)
        for met, number in enumerate(range(self.lane, ENOUGH, LANES)):
            try:
                status, output, errors = self.run(self.lines, number)
                if status == 0 and not errors:
                    self.judge(output)
                elif (status, errors) == (1, b"zk: memory\n") and whole.startswith(output):
                    self.seen["ends"] += 1
                else:
                    raise Wrong(f"status {status}, {errors!r}, output {output[-200:]!r}")
            except Wrong as why:
                raise Wrong(f"{self.name}, growth {number}: {why}") from why
            if (self.room / f"{self.name}.met").read_text(encoding="utf-8") != "met\n":
                return met
        raise Wrong(f"{self.name}: growths without end")


def played_through(it: Played) -> tuple[int, Counter]:
    """The number of a script's allocations, and how their failures ended."""
    return it.growths(), it.seen


def main() -> int:
    names = sys.argv[1:] or sorted(file.stem for file in SCRIPTS.glob("*.script"))
    with tempfile.TemporaryDirectory() as room:
        library = Path(room) / "fail_alloc.so"
        subprocess.run(["cc", "-shared", "-fPIC", "-O2", "-o", library, ROOT / "checks" / "fail_alloc.c", "-ldl"], check=True)
        played = []
        for lane in range(1, LANES + 1):
            own = Path(room) / str(lane)
            own.mkdir()
            for name in names:
                lines = with_restarts((SCRIPTS / f"{name}.script").read_text(encoding="utf-8").splitlines())
                played.append(Played(name, lines, own, library, lane))
        # the longest first, so that no processor is left with it at the end
        played.sort(key=lambda it: -len(it.lines))
        try:
            # (processes, since starting a run takes longer here than the run)
            with ProcessPoolExecutor(max_workers=os.cpu_count()) as workers:
                results = list(workers.map(played_through, played))
        except Wrong as why:
            print(f"alloc_failure_scripts: {why}")
            return 1
    growths = sum(count for count, _ in results)
    seen = sum((seen for _, seen in results), Counter())
    told = ", ".join(f"{what} {count}" for what, count in sorted(seen.items()))
    print(f"alloc_failure_scripts: {len(names)} scripts, {growths} growths refused in turn: {told}")
    # what the scripts are to reach
    lacking = [it for it in ("arrive E9", "arrive E10", "follow E10", "submit E10", "sync E10", "read E9") if not seen[it]]
    if not sys.argv[1:] and lacking:
        print(f"alloc_failure_scripts: never told: {', '.join(lacking)}")
        return 1
    return 0


if __name__ == "__main__":
    sys.exit(main())
