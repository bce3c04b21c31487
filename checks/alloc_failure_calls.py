#!/usr/bin/env python3
"""Lets each allocation fail in turn, from the first on until a run meets none, in each case of `zk_alloc_failure_tests`: calls that run
scripts and debug scripts don't show. Each case is a test, which compares what such a call left with what its contract says.

usage: alloc_failure_calls.py [CASE ..]     these cases; all of them where none is named
"""
import os
import subprocess
import sys
import tempfile
from concurrent.futures import ThreadPoolExecutor
from pathlib import Path

ROOT = Path(__file__).resolve().parent.parent
CRATE = ROOT / "crates" / "zk_alloc_failure_tests"
TESTS = CRATE / "out" / "zk_alloc_failure_tests_tests"
CASES = ("apply", "undo", "make", "taken", "touch", "set", "fire", "put", "push", "step", "add", "serve")

# More growths than any case meets.
ENOUGH = 100_000


class Wrong(Exception):
    """A run that ended otherwise than it may."""


def how_it_ended(ran: subprocess.CompletedProcess) -> str | None:
    """Whether the case's call failed to allocate, or was done, or another one failed; None if the case ended otherwise."""
    told = ran.stderr.decode(errors="replace").splitlines()
    if ran.returncode == 0 and told in (["refused"], ["done"]):
        return told[0]
    # how a test ends that returns an error
    if ran.returncode == 101 and told[:1] == ["Error: NoMemory"]:
        return "elsewhere"
    return None


def growths(case: str, library: Path, room: Path) -> tuple[int, int]:
    """How many allocations a case has, and at how many of them its call failed."""
    refused = 0
    met = room / f"{case}.met"
    for number in range(1, ENOUGH):
        env = {**os.environ, "LD_PRELOAD": str(library), "REFUSE": str(number), "REFUSE_MET": str(met)}
        ran = subprocess.run([TESTS, f"cases::{case}"], env=env, capture_output=True, check=False, timeout=600)
        ended = how_it_ended(ran)
        if ended is None:
            raise Wrong(f"{case}, growth {number}: status {ran.returncode}, {ran.stderr!r}")
        refused += ended == "refused"
        if met.read_text(encoding="utf-8") != "met\n":
            if ended != "done":
                raise Wrong(f"{case}: {ended}, though nothing was refused")
            return number - 1, refused
    raise Wrong(f"{case}: growths without end")


def main() -> int:
    cases = sys.argv[1:] or CASES
    if not TESTS.exists():
        subprocess.run(["rt", "test"], cwd=CRATE, check=True, stdout=subprocess.DEVNULL)
    with tempfile.TemporaryDirectory() as room:
        library = Path(room) / "fail_alloc.so"
        subprocess.run(["cc", "-shared", "-fPIC", "-O2", "-o", library, ROOT / "checks" / "fail_alloc.c", "-ldl"], check=True)
        try:
            with ThreadPoolExecutor(max_workers=os.cpu_count()) as workers:
                counts = list(workers.map(lambda case: growths(case, library, Path(room)), cases))
        except Wrong as why:
            print(f"alloc_failure_calls: {why}")
            return 1
    for case, (count, refused) in zip(cases, counts):
        print(f"alloc_failure_calls: {case}, {count} growths refused in turn, {refused} of them in the call")
    never = [case for case, (_, refused) in zip(cases, counts) if not refused]
    if never:
        print(f"alloc_failure_calls: never refused: {', '.join(never)}")
        return 1
    return 0


if __name__ == "__main__":
    sys.exit(main())
