#!/usr/bin/env python3
"""Tries mutants, which the prover must reject, those of a crate together: the files of `checks/mutants`.

usage: checks/mutants.py                       in a checkout where `rt ci` has left the libraries: tries the mutants of an eighth of the
                                               crates, another one at each commit
       checks/mutants.py --all                 tries those of all crates, as before each release
       checks/mutants.py CRATE..               tries those of these crates
       checks/mutants.py --right [CRATE..]     tries the unchanged text in the same way: the prover must accept all of it
       checks/mutants.py --texts [CRATE..]     tries none, and says whether each old text is there: that takes a second, in any checkout

A mutant is a file `checks/mutants/CRATE/NAME.edit`. Its first line names the function that it changes, as a check prints it without
the crate. A line `file: src/..` and pairs of lines `old: TEXT`, `new: TEXT` follow, each old text being once in that file. Lines
`goal: NAME ARGUMENTS` name the goals at which it is rejected, where that saves time: they are then searched for as answers of the
function's own, and if these fail the prover offers none, which takes it up to half of such a check.

The mutants of a crate that change different functions are tried in one check of these functions. A proof rests on a function's own
body and on the contracts of what it calls, and no mutant changes a contract. So each changed function is rejected for its own mutant
or not at all. The bodies of the crate's other functions, which `rt ci` has proved, need not be checked again: each is emptied, with a
hole for its proof. (Those of traits' methods and closures, and what is derived, are checked as they are.) A changed function must be
rejected at a goal or an answer of its own: one that only calls a rejected one is tried again by itself. The mutants of one function
are tried one after the other. The checks of a crate go on from what the ones before proved, in a
folder of this run.
"""
import os
import re
import shutil
import subprocess
import sys
import tempfile
from concurrent.futures import ThreadPoolExecutor

HERE = os.path.dirname(os.path.abspath(__file__))
ROOT = os.path.dirname(HERE)
PARTS = ("src", "specs", "proofs")
# The crates whose mutants took longest in wall-clock time, one beside three others.
DEAREST = ["zab_world", "zk_front", "zk_requests", "zk_table", "zk_debug", "zk_model", "zk_servers"]
# The memory that is left to each check: a third more than one has been seen to take.
NEED = 3_000_000_000


class Edit:
    def __init__(self, crate, name):
        self.crate, self.name, self.pairs, self.goals, self.function = crate, name, [], [], None
        file = old = None
        with open(os.path.join(HERE, "mutants", crate, name), encoding="utf-8") as it:
            for line in it.read().splitlines():
                if line.startswith("function: "):
                    self.function = line[10:].strip()
                elif line.startswith("goal: "):
                    self.goals.append(line[6:].strip().split(" ", 1))
                elif line.startswith("file: "):
                    file = line[6:].strip()
                elif line.startswith("old: "):
                    old = line[5:]
                elif line.startswith("new:") and file and old is not None:
                    self.pairs.append((file, old, line[5:]))
                    old = None
        if not self.function or not self.pairs:
            sys.exit("%s/%s: an edit names its function, its file, and what is old and new there" % (crate, name))

    def edited(self, room):
        """The files that it changes, and their new texts."""
        texts = {}
        for file, old, new in self.pairs:
            if file not in texts:
                with open(os.path.join(room, file), encoding="utf-8") as it:
                    texts[file] = it.read()
            if texts[file].count(old) != 1:
                sys.exit("%s/%s: its old text stands %d times in %s" % (self.crate, self.name, texts[file].count(old), file))
            texts[file] = texts[file].replace(old, new)
        return texts

    def apply(self, room):
        for file, text in self.edited(room).items():
            with open(os.path.join(room, file), "w", encoding="utf-8") as it:
                it.write(text)

    def ask(self, room):
        """Writes answers for the goals that it names, each of them a search."""
        path = self.function.split("::")
        folder = os.path.join(room, "proofs", *path)
        if os.path.exists(os.path.join(folder, "Answers.antt")):
            sys.exit("%s/%s: `%s` has answers, so no goal is to be told" % (self.crate, self.name, self.function))
        os.makedirs(folder, exist_ok=True)
        with open(os.path.join(folder, "Answers.antt"), "w", encoding="utf-8") as it:
            it.write("use Rattle.std.proofs.Common.{rules}\nuse Rattle.%s.proofs.%s.Goals as goal\n" % (self.crate, ".".join(path)))
            it.writelines("\npub %s : goal.%s\n%s %s = search rules\n" % (name, name, name, arguments) for name, arguments in self.goals)


def kit():
    return os.path.dirname(subprocess.run(["rt", "doc"], check=True, capture_output=True, text=True).stdout.strip())


def named(lists, crate):
    """The libraries of the repository and of the kit that a crate's line names, and the repository's below it."""
    ours = [it for it in lists[crate] if it in lists]
    below = []
    for it in ours:
        below += [name for name in [*named(lists, it)[2], it] if name not in below]
    return ours, [it for it in lists[crate] if it not in lists], below


def lists_of():
    with open(os.path.join(ROOT, "crates.txt"), encoding="utf-8") as it:
        rows = [line.partition("#")[0].partition(":") for line in it]
    return {head.split()[0]: uses.split() for head, _, uses in rows if head.strip()}


def root_of(crate):
    """The file that a crate begins with: a program's `main.rt`, or a library's `lib.rt`."""
    return next(it for it in ("main.rt", "lib.rt") if os.path.isfile(os.path.join(ROOT, "crates", crate, "src", it)))


def words_of(crate):
    """How `rt` calls a check of a crate over the libraries that stand in out/."""
    top, (ours, kits, below) = kit(), named(lists_of(), crate)
    rlib = lambda name: os.path.join(ROOT, "crates", name, "out", "rlib", name + ".rlib")
    for name in below:
        if not os.path.isdir(rlib(name)):
            sys.exit("%s is not there: run `rt ci` first" % os.path.relpath(rlib(name), ROOT))
    words = ["--crate-name", crate, "src/" + root_of(crate)]
    for name in ["std", *kits]:
        words += ["--extern", "%s=%s/rlibs/%s.rlib" % (name, top, name)]
    words += ["-L", "dependency=%s/rlibs" % top]
    for name in ours:
        words += ["--extern", "%s=%s" % (name, rlib(name))]
    for name in below:
        words += ["-L", "dependency=" + os.path.dirname(rlib(name))]
    words += ["--antt-project", top + "/rattle/logic/antt-project.json", "--logic-built", top + "/logic_built"]
    return [top + "/bin/rattle", "check", *words, "--jobs", "1", "--links", crate + "="]


def blanked(text):
    """A file's text with its comments, strings and characters blanked, so that each brace left is one of the code."""
    blank = lambda it: re.sub(r"[^\n]", " ", it[0])
    return re.sub(r"//[^\n]*|\"(?:\\.|[^\"\\])*\"|'(?:\\.[^']*|[^'\\])'", blank, text)


def closing(text, at):
    """Where the brace that opens at a place closes."""
    depth = 0
    for it in re.compile("[{}]").finditer(text, at):
        depth += 1 if it[0] == "{" else -1
        if depth == 0:
            return it.start()
    raise ValueError("a brace is not closed")


# What begins a function that stands free or in a block, and what begins a block.
BEGINS = re.compile(r"^(?P<block>(?:pub )?(?:impl|trait)\b[^{;]*)\{|^ *(?:pub(?:\([a-z]+\))? )?(?:const )?fn (?P<name>\w+)", re.M)
OWN = re.compile(r"impl(?:<.*?>(?= ))? (?!.*\bfor\b)(\w+)")
CLAUSE = re.compile(r"\b(requires|ensures|ghost)\b[^{}]*\Z")


def bodies(text):
    """The functions of a file that stand free or in an `impl` of a type alone: each one's path in the file, and its body's braces."""
    text = blanked(text)
    found, passed, owner, ends = [], 0, [], 0
    for it in BEGINS.finditer(text):
        if it.start() < passed:
            continue
        if it["block"]:
            own, ends = OWN.match(" ".join(it["block"].split())), closing(text, it.end() - 1)
            owner, passed = ([own[1]], it.end()) if own else ([], ends)
            continue
        begun = opens = it.end()
        while CLAUSE.search(text[begun : (opens := text.index("{", opens))]):
            begun = opens = closing(text, opens) + 1
        passed = closing(text, opens)
        found.append(([*owner, it["name"]] if it.start() < ends else [it["name"]], opens, passed))
    return found


HOLE = "use Rattle.%s.proofs.%s.Statement.{statement}\n\npub %s_spec : {M : Type 1} → statement M\n%s_spec = ?\n"


def put_aside(crate, room, kept):
    """Empties the bodies of a copy's functions, but of those with one of these names, and leaves a hole where each one's proof stood."""
    texts, home = {}, {}
    for at, _, names in os.walk(os.path.join(room, "src")):
        for file in [os.path.join(at, name) for name in names]:
            with open(file, encoding="utf-8") as it:
                texts[file] = it.read()
            module = [it for it in os.path.relpath(file, os.path.join(room, "src"))[: -len(".rt")].split("/") if it != root_of(crate)[: -len(".rt")]]
            # (a method's proof stands with its type, wherever its `impl` is)
            home.update({it: module for it in re.findall(r"^(?:pub(?:\([a-z]+\))? )?(?:struct|enum) (\w+)", texts[file], re.M)})
            home[file] = module
    for file, text in texts.items():
        for path, opens, closes in reversed(bodies(text)):
            if path[-1] in kept:
                continue
            text = text[:opens] + "{ unreachable!() " + text[closes:]
            path = [*home[path[0] if len(path) > 1 else file], *path]
            proof = os.path.join(room, "proofs", *path)
            os.makedirs(proof, exist_ok=True)
            for old in ("Answers.antt", "Invariants.antt"):
                if os.path.isfile(os.path.join(proof, old)):
                    os.remove(os.path.join(proof, old))
            with open(os.path.join(proof, "Proof.antt"), "w", encoding="utf-8") as it:
                it.write(HOLE % (crate, ".".join(path), path[-1], path[-1]))
        with open(file, "w", encoding="utf-8") as it:
            it.write(text)


def check(crate, edits, kept, is_right=False):
    """What a check of the edited functions says, line by line, and its status. It starts from what earlier checks kept, and keeps its own."""
    with tempfile.TemporaryDirectory(prefix="mutants-") as room:
        for part in PARTS:
            if os.path.isdir(os.path.join(ROOT, "crates", crate, part)):
                shutil.copytree(os.path.join(ROOT, "crates", crate, part), os.path.join(room, part))
        for edit in edits if not is_right else []:
            edit.apply(room)
        for edit in [it for it in edits if it.goals]:
            edit.ask(room)
        functions = sorted({it.function for it in edits})
        put_aside(crate, room, {word for it in functions for word in it.split("::")})
        only = [word for function in functions for word in ("--only", function)]
        words = [*words_of(crate), "--incremental", kept, *only, "--allow-holes", "--short-goals"]
        ran = subprocess.run(words, cwd=room, stdin=subprocess.DEVNULL, capture_output=True, text=True, errors="replace")
    return (ran.stdout + ran.stderr).splitlines(), ran.returncode


# What says only that a proof file names something that the mutant removed, or that the changed function wants a proof of another kind.
NAMES = re.compile(r"has no field|is not in scope|has no `|was not admitted|rattle does not read")


def refusal(edit, lines):
    """What rejects the changed function for its own body: a goal that no search proves, or an error in an answer of its own. Else None."""
    start = "fn %s::%s: " % (edit.crate, edit.function)
    said = next((line[len(start) :] for line in lines if line.startswith(start)), "")
    if said.startswith("no proof: expected answers"):
        return said[said.index("`search` did not") :] if "`search` did not" in said else None
    if said.startswith(("no proof", "not proved")):
        folder = "proofs/%s/" % edit.function.replace("::", "/")
        return next((line for line in lines if folder in line and ": error: " in line and not NAMES.search(line)), None)
    return None


def groups(edits):
    """The mutants in groups, of which each changes a function once."""
    found = []
    for edit in edits:
        room = next((it for it in found if all(other.function != edit.function for other in it)), None)
        if room is None:
            found.append([edit])
        else:
            room.append(edit)
    return found


def trial(crate, edits, kept):
    """Tries a group, and each mutant that was accepted there by itself. Returns what to print, and how many were accepted."""
    lines, status = check(crate, edits, kept)
    if status != 1 and len(edits) == 1:
        return ["%s/%s: NOT REFUSED" % (crate, edits[0].name), *lines[-12:]], 1
    told, missed = [], 0
    for edit in edits:
        said = refusal(edit, lines) if status == 1 else None
        if said:
            told.append("%s/%s: refused: %s" % (crate, edit.name, said[:110]))
        elif len(edits) > 1:
            more, lost = trial(crate, [edit], kept)
            told, missed = told + more, missed + lost
        else:
            told += ["%s/%s: NOT REFUSED for a goal of its own" % (crate, edit.name), *[it for it in lines if it.startswith("fn ") and not it.endswith(": proved")]]
            missed += 1
    return told, missed


def trial_of_right(crate, edits, kept):
    """Tries the functions of a group unchanged. Returns what to print, and how many of these functions are rejected."""
    lines, _ = check(crate, edits, kept, is_right=True)
    said = {it.function: next((line for line in lines if line.startswith("fn %s::%s: " % (crate, it.function))), "no line") for it in edits}
    wrong = ["%s: %s" % (function, line) for function, line in said.items() if not re.search(r": (no holes|depends on a hole in [^;]+)\Z", line)]
    return ["%s: %d functions stand, %d do not" % (crate, len(said) - len(wrong), len(wrong)), *wrong], len(wrong)


def trials(crate, edits, one=trial):
    """Tries a crate's groups one after the other. Returns what to print, and how many were accepted."""
    told, missed = [], 0
    with tempfile.TemporaryDirectory(prefix="mutants-kept-") as kept:
        for group in groups(edits):
            more, lost = one(crate, group, kept)
            told, missed = told + more, missed + lost
    return told, missed


def lanes():
    with open("/proc/meminfo", encoding="utf-8") as it:
        free = next(int(line.split()[1]) * 1024 for line in it if line.startswith("MemAvailable"))
    return max(1, min(len(os.sched_getaffinity(0)), free // NEED))


def eighth(crates):
    """Every eighth crate, from the one that the commit's hash says; without a commit, each."""
    commit = subprocess.run(["git", "rev-parse", "HEAD"], cwd=ROOT, capture_output=True, text=True).stdout.strip()
    return crates[int(commit, 16) % 8 :: 8] if commit else crates


def main(words):
    is_right, crates = "--right" in words, [it for it in words if not it.startswith("--")]
    every = sorted(os.listdir(os.path.join(HERE, "mutants")))
    is_part = not words
    work = []
    for crate in crates or (eighth(every) if is_part else every):
        edits = [Edit(crate, it) for it in sorted(os.listdir(os.path.join(HERE, "mutants", crate)))]
        work.append((crate, edits))
    # (first: a mutant whose old text has moved would stop the run only after the trials of other crates)
    texts = [it.edited(os.path.join(ROOT, "crates", crate)) for crate, edits in work for it in edits]
    if "--texts" in words:
        print("%d edits can be applied" % len(texts))
        return 0
    # (so that no slow one is left alone at the end)
    work.sort(key=lambda it: DEAREST.index(it[0]) if it[0] in DEAREST else len(DEAREST))
    missed = 0
    with ThreadPoolExecutor(lanes()) as pool:
        for told, of in pool.map(lambda it: trials(*it, trial_of_right if is_right else trial), work):
            print("\n".join(told), flush=True)
            missed += of
    if not is_right:
        which = " of an eighth of the crates: --all tries those of all" if is_part else ""
        print("%d edits refused, %d not%s" % (sum(len(it) for _, it in work) - missed, missed, which))
    return 1 if missed else 0


if __name__ == "__main__":
    sys.exit(main(sys.argv[1:]))
