#!/usr/bin/env python3
"""Prints what the seconds of a crate's proof go into: the kinds of modules that the prover makes of it, and the slowest ones.

usage: python3 bench/modules.py CRATE     in a checkout where `rt ci` has left the libraries, and while nothing else runs

A check that keeps what it proved writes each module once it is proved, so the time between two files is what the second one
took. Of a function, `Lts` is its code as a transition system, which grows with its blocks, those of each `?` and each drop too,
and `Proof` is the search for its answers.
"""
import os
import subprocess
import sys
import tempfile
from collections import Counter

ROOT = os.path.dirname(os.path.dirname(os.path.abspath(__file__)))
sys.path.insert(0, os.path.join(ROOT, "checks"))
import mutants


def modules(kept):
    """Each module's name, and the seconds that it took, in the order of the check."""
    found = []
    for at, _, names in os.walk(kept):
        if os.path.basename(at) != "records":
            found += [(os.stat(os.path.join(at, it)).st_mtime, it[: -len(".oantt")]) for it in names if it.endswith(".oantt")]
    found.sort()
    return [(name, then - before) for (before, _), (then, name) in zip(found, found[1:])]


def main(crate):
    with tempfile.TemporaryDirectory(prefix="modules-") as kept:
        words = [*mutants.words_of(crate), "--incremental", kept]
        ran = subprocess.run(words, cwd=os.path.join(ROOT, "crates", crate), stdin=subprocess.DEVNULL, capture_output=True, text=True)
        if ran.returncode:
            print(ran.stdout[-2000:] + ran.stderr[-2000:])
            return 1
        took = modules(kept)
    kinds = Counter()
    for name, seconds in took:
        kinds[name.rsplit(".", 1)[-1]] += seconds
    print("%s: %d modules in %.0f s" % (crate, len(took), sum(seconds for _, seconds in took)))
    for kind, seconds in kinds.most_common(8):
        print("%8.1f s  %s" % (seconds, kind))
    for name, seconds in sorted(took, key=lambda it: -it[1])[:20]:
        print("%8.1f s  %s" % (seconds, name))
    return 0


if __name__ == "__main__":
    if len(sys.argv) != 2:
        sys.exit(__doc__)
    sys.exit(main(sys.argv[1]))
