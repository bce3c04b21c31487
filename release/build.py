#!/usr/bin/env python3
"""Makes the release archive of a proved program: the program with its commit, man page, completions, documents and install script.

usage: release/build.py PROGRAM ARCHIVE        in a checkout; ARCHIVE ends with .tar.gz

A release is made of a commit that passed `.ci/run` and `checks/mutants.py --all`.

The program has 40 zeros where its version names the commit, as the text that is proved can't name its own commit. They are replaced by
that of the checkout, or stay if it has uncommitted changes. The same program, checkout and documents give the same bytes.
"""
import gzip
import io
import os
import shutil
import subprocess
import sys
import tarfile
import tempfile

ROOT = os.path.dirname(os.path.dirname(os.path.abspath(__file__)))
UNKNOWN = b"0" * 40


def commit_of(root):
    """The checkout's commit and its time, or none and 0 if it has changes or is no checkout."""
    git = lambda *words: subprocess.run(["git", "-C", root, *words], capture_output=True, text=True)
    changes = git("status", "--porcelain", "--untracked-files=no")
    if changes.returncode or changes.stdout.strip():
        return None, 0
    return git("rev-parse", "HEAD").stdout.strip(), int(git("log", "-1", "--format=%ct").stdout)


def stamped(program, commit):
    """The program with the commit in its version."""
    with open(program, "rb") as it:
        data = it.read()
    marked = b"commit " + UNKNOWN
    if data.count(marked) != 1:
        sys.exit("%s: %d places for a commit" % (program, data.count(marked)))
    return data.replace(marked, b"commit " + commit.encode()) if commit else data


def lay_out(program, room, commit):
    """Lays the files of the archive out in a folder."""
    zk = os.path.join(room, "bin", "zk")
    os.makedirs(os.path.dirname(zk))
    with open(zk, "wb") as it:
        it.write(stamped(program, commit))
    os.chmod(zk, 0o755)
    subprocess.run([sys.executable, os.path.join(ROOT, "release", "pages.py"), zk, room], check=True)
    shutil.copy(os.path.join(ROOT, "release", "install.sh"), room)
    pages = os.path.join(room, "share", "doc", "zk")
    os.makedirs(pages)
    for name in ("README.md", "CHANGELOG.md"):
        shutil.copy(os.path.join(ROOT, name), pages)
    shutil.copytree(os.path.join(ROOT, "docs"), os.path.join(pages, "docs"))


def pack(room, name, archive, time):
    """Packs a folder, each file with the same time and owner."""

    def plain(it):
        it.uid = it.gid = 0
        it.uname = it.gname = "root"
        it.mtime = time
        it.mode = 0o755 if it.isdir() or it.mode & 0o100 else 0o644
        return it

    packed = io.BytesIO()
    with tarfile.open(fileobj=packed, mode="w", format=tarfile.GNU_FORMAT) as it:
        for at, folders, files in os.walk(room):
            folders.sort()
            for file in sorted(files):
                path = os.path.join(at, file)
                it.add(path, os.path.join(name, os.path.relpath(path, room)), filter=plain)
    with open(archive, "wb") as out, gzip.GzipFile("", "wb", 9, out, time) as it:
        it.write(packed.getvalue())


def main(program, archive):
    name = os.path.basename(archive)
    if not name.endswith(".tar.gz"):
        sys.exit(__doc__)
    commit, time = commit_of(ROOT)
    with tempfile.TemporaryDirectory() as room:
        lay_out(program, room, commit)
        pack(room, name[: -len(".tar.gz")], archive, time)
    print("%s: %s" % (archive, "commit " + commit if commit else "no commit, as the checkout has changes"))
    return 0


if __name__ == "__main__":
    if len(sys.argv) != 3:
        sys.exit(__doc__)
    sys.exit(main(*sys.argv[1:]))
