#!/usr/bin/env python3
"""The proved test program of the loads that prepare.py, ensemble.py, readers.py and hosts.py measure.

usage: bench/loads.py     prints its path, to run a load with other numbers:
                          ZK_LOAD='2000 100' "$(python3 bench/loads.py)" loads::ensemble

The loads are the files of bench/loads: tests of a crate outside the repository, because the gate proves each crate in it. So
a copy of the repository's crates is made in the system's folder of temporary files, with this crate beside them, and `rt test` runs
there. It proves the loads and all that they stand on, for an hour or so where nothing else runs. The copy is named by the sum
of its files. So what was proved once is found again, and an interrupted proof goes on; where a file changed, a new copy is made.
"""
import functools
import hashlib
import subprocess
import sys
import tempfile
from pathlib import Path

ROOT = Path(__file__).resolve().parent.parent
LOADS = ROOT / "bench" / "loads"
COPIED = ("crates", "crates.txt", "HANDLES")
CRATE = "zk_loads"
# what the files of bench/loads name
NAMED = "anyhow zk_servers zk_views zk_prepare zk_machine zab_model zab_epoch zk_table zk_acl zk_path zk_requests zk_model zk_host zab_host"


def files() -> dict[str, bytes]:
    """What the copy has: each file's name in it, and the file's bytes."""
    words = ["git", "ls-files", "-z", "--cached", "--others", "--exclude-standard", "--", *COPIED]
    names = subprocess.run(words, cwd=ROOT, check=True, capture_output=True, text=True).stdout.split("\0")
    held = {name: (ROOT / name).read_bytes() for name in names if (ROOT / name).is_file()}
    for file in LOADS.rglob("*.txt"):
        # sources stand at the top of bench/loads, beside proofs/
        place = file.relative_to(LOADS).with_suffix("")
        folder = Path("crates") / CRATE / ("src" if place.suffix == ".rt" else "")
        held[str(folder / place)] = file.read_bytes()
    held["crates.txt"] += f"{CRATE}: {NAMED}\n".encode()
    return held


def sum_of(held: dict[str, bytes]) -> str:
    summed = hashlib.sha256()
    for name, text in sorted(held.items()):
        summed.update(f"{name} {len(text)}\n".encode() + text)
    return summed.hexdigest()[:16]


def write(held: dict[str, bytes], room: Path) -> None:
    for name, text in held.items():
        (room / name).parent.mkdir(parents=True, exist_ok=True)
        (room / name).write_bytes(text)


@functools.cache
def program() -> Path:
    """The path of the proved program, which is made where it is not there."""
    held = files()
    room = Path(tempfile.gettempdir()) / f"{CRATE}-{sum_of(held)}"
    crate = room / "crates" / CRATE
    tests = crate / "out" / f"{CRATE}_tests"
    if not tests.exists():
        write(held, room)
        print(f"the loads are proved in {crate}, which may take an hour", file=sys.stderr)
        subprocess.run(["rt", "test"], cwd=crate, check=True, stdout=sys.stderr)
    return tests


if __name__ == "__main__":
    print(program())
