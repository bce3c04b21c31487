#!/usr/bin/env python3
"""Documents, helps and comments use the words of docs/GLOSSARY.md: none has a phrase of the table below.

Reads each Markdown page without its code, the comments of `.rt`, `.antt`, `.sh` and `.py` files, and the texts of `zk`'s helps.
A phrase may cross the end of a line. Names between backticks are left out, since formats and public names stay as they are.

Exceptions are in checks/words_allowed.txt: a file (or a pattern of files), the matched text, and a reason, between ` | `.

usage: words.py                prints FILE:LINE: phrase: text, and fails where there is any
       words.py --count        prints the number of phrases in each file
       words.py --more         also prints phrases that the check lets pass, and that mostly read badly
       words.py [..] FILE..    looks at these files alone
"""
import re
import sys
from fnmatch import fnmatch
from pathlib import Path

ROOT = Path(__file__).resolve().parent.parent
ALLOWED = Path(__file__).resolve().with_name("words_allowed.txt")

# What stands for a name between backticks.
NAME = r"`¤*`"
A = r"(?:an?|the|its|their|this|that|each|every|one|another|no|any|such an?)"
OBJECT = (
    rf"(?:an?|the|it|this|these|those|each|every|one|no|any|all|both|only|exactly|just|nothing|none|them|"
    rf"what|whether|how|which|so|for itself|{NAME}|\[|[A-Z]\d)"
)

# (what it is, what to write, pattern)
PHRASES = [
    ("order", "command", rf"\borders?\b(?= (?:of )?(?:the program )?{NAME})(?<!in order)(?<!in the order)"),
    ("order", "command", r"(?<!\b[Ii]n )\b(?:each|every|this|such an|an|An|no|No|another|which|whose) order\b(?! (?:of|in|by|as|to|for|is|and|are)\b)"),
    ("order", "command", r"\b(?:no|each|every|this|an) order (?:shows?|tells?|calls?|reads?|writes?|of (?:`|the program))"),
    ("order", "command", r"\b[Tt]he orders\b|\b[Oo]rders (?:that|are|which|and|stand|over|read|write|of the)\b|\border's\b"),
    ("edit", "mutant", r"\bmust-fail edits?\b|\b(?:each|an|no|every|this|the|such) edit\b|\bedits (?:that|are|in|of|which|beside)\b|\bedit's\b"),
    ("wrong body", "mutant", r"\bwrong bod(?:y|ies)\b"),
    ("rows", "tests, test cases, golden tests", r"\b[Ww]orked rows?\b|\b[Rr]ows (?:in|show|of (?:`|the (?:libr|orders?))|that show)|\ba row (?:in|shows)\b|\b[Cc]rates? of rows\b|\b[Tt]ables? of rows\b"),
    ("refusal, refused", "error, is rejected, fails", r"\b[Rr]efus(?:e|es|ed|al|als|ing)\b"),
    ("want of memory", "out of memory, allocation failure", r"\b[Ww]ant of memory\b|\b[Ww]ant of\b"),
    ("answer (verb)", "return, print, send, reply", rf"\b[Aa]nswer(?:ed|ing)\b|\b[Aa]nswers (?={OBJECT}\b|{NAME}|\[)|\b(?:to|may|can|must|not|will|would|should|that|which|they) answer\b(?! to\b)"),
    ("tell (verb)", "return, print, send, reply", r"\b[Tt]ells?\b|\b[Tt]elling\b|(?<!`)\btold\b"),
    ("front (of a list)", "prefix", r"\b(?:a|the|its|their|some|same|common|that|no|one) fronts? of\b|\b[Ff]ronts of\b|\bis a front\b|\bfrom the front\b|\bshare a front\b"),
    ("begins (a list)", "is a prefix of", r"\bbegins? (?:a list|the list|lists|what|each other|one another|it\b|them\b|all that)"),
    ("behind", "after", r"\b[Bb]ehind\b"),
    ("lent", "borrowed", r"\b[Ll]ent\b|\b[Ll]ends?\b|\b[Ll]ending\b"),
    ("once more", "copy", r"\b[Oo]nce more\b"),
    ("so many", "n, step n", r"\b[Ss]o many\b|\bso many-th\b"),
    ("another (checksum, digest)", "mismatched, wrong", r"\banother (?:checksum|digest|sum)s?\b"),
    ("nothing of, none of", "empty, no", r"\b[Nn]othing of\b|\b[Nn]one of\b"),
    ("piece", "chunk", r"\b[Pp]ieces?\b"),
    ("page (of memory)", "buffer", r"\bpages? of (?:\d|lines|many|text|bytes)|\b(?:onto|on) (?:a|the) page\b"),
    ("dear", "expensive", r"\b[Dd]ear(?:er|est)?\b"),
    ("by the clock", "wall-clock", r"\bby the clock\b"),
    ("processor minutes", "CPU minutes", r"\bprocessor(?:'s)? (?:minutes?|seconds?|time)\b|\b(?:minutes?|seconds?) of the processor\b|\bby the processor\b"),
    ("what one must read to believe", "trusted specification", r"\b(?:read|reads|has) to believe\b|\bto believe\b"),
    ("spell", "format, write, encode", r"\b[Ss]pell(?:s|ed|ing|ings)?\b|\b[Ss]pelt\b"),
    ("makes", "builds, creates", r"\b[Mm]akes? (?:an? |the )?(?:new |whole )?(?:logs?|nodes?|trees?|entry|entries|files?|directory|records?|journals?|list|session)\b"),
    ("is gone, goes", "is deleted, is removed", r"\b(?:is|are|was|were|has|have|be) gone\b|\bgoes\b(?= away|[.,;:)]|$| (?:with it|too|as well)\b)|\bgoes? away\b|\bgone away\b|\bgoes? on from\b|\bwent away\b"),
    ("due", "expired", r"\b(?:is|are|be|been|was|were|not|comes?|falls?) due\b|\bdue (?:sessions?|at|once|later|first)\b|\bsessions? due\b"),
    ("newer servers", "3.5 to 3.8 servers", r"\b[Nn]ewer servers?\b|\b[Nn]ewer (?:logs?|records?)\b"),
]

# What `--more` also prints.
MORE = [
    ("stands, wants, comes to", "is, needs, becomes", r"\b[Ss]tands?\b|\bstood\b|\bstanding\b|\bwants?\b|\bcomes? (?:to|of)\b"),
    ("whoever, whatever, nobody", "a list, or a noun", r"\b[Ww]ho(?:m)?ever\b|\b[Ww]hatever\b|\b[Nn]obody\b|\b[Ss]omebody\b"),
    ("answer", "reply, result, output", r"\b[Aa]nswers?\b"),
    ("history", "no history in documents", r"\b(?:today|that day|no longer|any more|used to)\b"),
    ("makes", "builds, creates", r"\b[Mm]ade of\b|\bmakes? (?:of|up)\b"),
]

# A server, a reader or a view may be behind another: it lags.
LAGS = re.compile(
    r"(?:\b(?:is|are|was|were|be|been|lags?|lagging|falls?|fell|fallen|left|far|one|not) |\b(?:entries|transactions|steps?|events?) )$"
)

SKIPPED = {"out", ".git", "target", "__pycache__", "node_modules"}
HELPS = ("crates/zk_helps/src/",)
IN_RUST = re.compile(
    r"""(?P<comment>//[^\n]*|/\*.*?\*/)|(?P<raw>\bb?r(?P<hash>\#*)".*?"(?P=hash))|(?P<text>b?"(?:\\.|[^"\\])*")|'(?:\\[^']+|[^'\\\n])'""",
    re.DOTALL,
)
IN_DEFINITIONS = re.compile(r"(?:^|(?<=\s))--(?P<comment>[^\n]*)|\{-(?P<block>.*?)-\}", re.DOTALL | re.MULTILINE)


class Lines:
    """Lines of prose, with their numbers, joined where they follow each other."""

    def __init__(self):
        self.parts = []

    def add(self, number: int, text: str):
        self.parts.append((number, text))

    def paragraphs(self):
        """Each paragraph as its text, and the number of the line of each offset."""
        start = 0
        while start < len(self.parts):
            end = start
            text, offsets = "", []
            while end < len(self.parts) and self.parts[end][1].strip():
                if end > start and self.parts[end][0] > self.parts[end - 1][0] + 1:
                    break
                offsets.append((len(text), self.parts[end][0]))
                text += self.parts[end][1].strip() + " "
                end += 1
            if text:
                yield text, offsets
            start = max(end, start + 1)


def line_at(text: str, offset: int) -> int:
    return text.count("\n", 0, offset) + 1


def add_lines(lines: Lines, number: int, text: str, mark: str = ""):
    for step, line in enumerate(text.split("\n")):
        lines.add(number + step, re.sub(mark, "", line) if mark else line)


def rust_prose(path: str, text: str) -> Lines:
    """Comments; and the texts of helps, without the first column of their lists."""
    found = []
    for match in IN_RUST.finditer(text):
        number = line_at(text, match.start())
        if match["comment"]:
            found.append((number, match["comment"], r"^\s*(?://[/!]?|/\*+!?|\*/?)"))
        elif path.startswith(HELPS) and (match["raw"] or match["text"]):
            found.append((number, (match["raw"] or match["text"]).strip('br#"'), r"^  \S.*?(?:  +|$)"))
    lines = Lines()
    for number, prose, mark in found:
        add_lines(lines, number, prose, mark)
    return lines


def definition_prose(text: str) -> Lines:
    lines = Lines()
    for match in IN_DEFINITIONS.finditer(text):
        add_lines(lines, line_at(text, match.start()), match["comment"] or match["block"] or "")
    return lines


def page_prose(text: str) -> Lines:
    """A page without its fenced code. A cell of a table, and an item of a list, is a paragraph of its own."""
    lines = Lines()
    fenced = False
    for number, line in enumerate(text.split("\n"), 1):
        if line.lstrip().startswith("```"):
            fenced = not fenced
            lines.add(number, "")
        elif not fenced:
            lines.add(number, line)
    return lines


def script_prose(path: str, text: str) -> Lines:
    """Comments; and the docstrings of Python."""
    docs = set()
    if path.endswith(".py"):
        for match in re.finditer(r'^ *(?:r?""")(.*?)"""', text, re.DOTALL | re.MULTILINE):
            docs |= set(range(line_at(text, match.start()), line_at(text, match.end()) + 1))
    lines = Lines()
    for number, line in enumerate(text.split("\n"), 1):
        match = re.match(r"\s*#(?!!)(.*)", line)
        lines.add(number, line if number in docs else match[1] if match else "")
    return lines


def prose_of(path: str, text: str) -> Lines:
    if path.endswith(".md"):
        return page_prose(text)
    if path.endswith(".rt"):
        return rust_prose(path, text)
    if path.endswith(".antt"):
        return definition_prose(text)
    return script_prose(path, text)


def masked(text: str) -> str:
    """Text without names between backticks and targets of links, as long as before."""
    text = re.sub(r"`[^`]*`", lambda it: "`" + "¤" * (len(it[0]) - 2) + "`", text)
    return re.sub(r"\]\([^)]*\)", lambda it: "]" + " " * (len(it[0]) - 1), text)


def files(named: list[str]):
    if named:
        for name in named:
            it = Path(name).resolve()
            yield str(it.relative_to(ROOT)), it
        return
    for it in sorted(ROOT.rglob("*")):
        path = it.relative_to(ROOT)
        if SKIPPED & set(path.parts) or not it.is_file():
            continue
        if it.suffix in (".md", ".rt", ".antt", ".sh", ".py") and it.resolve() != Path(__file__).resolve():
            yield str(path), it


def allowances():
    """The exceptions: a pattern of files, the text that may stand there, and a reason."""
    found = []
    if ALLOWED.exists():
        for number, line in enumerate(ALLOWED.read_text(encoding="utf-8").splitlines(), 1):
            if line and not line.startswith("#"):
                fields = line.split(" | ")
                if len(fields) != 3 or not all(fields):
                    sys.exit(f"{ALLOWED.name}:{number}: wants FILE | TEXT | REASON")
                found.append((fields[0], fields[1]))
    return found


def phrases_in(path: str, text: str, phrases, allowed):
    """Each phrase: its line, what it is, what to write, and the text around it."""
    here = [it for pattern, it in allowed if fnmatch(path, pattern)]
    for paragraph, offsets in prose_of(path, text).paragraphs():
        clean = masked(paragraph)
        for phrase, instead, pattern in phrases:
            for match in pattern.finditer(clean):
                around = paragraph[max(0, match.start() - 40) : match.end() + 40]
                if phrase == "behind" and LAGS.search(clean[: match.start()]):
                    continue
                if any(it in around for it in here):
                    continue
                number = [line for start, line in offsets if start <= match.start()][-1]
                yield number, phrase, instead, around.strip()


def main() -> int:
    words = sys.argv[1:]
    counting, more = "--count" in words, "--more" in words
    phrases = [(it, instead, re.compile(pattern)) for it, instead, pattern in PHRASES + (MORE if more else [])]
    allowed = allowances()
    total = 0
    counts = []
    for path, file in files([it for it in words if not it.startswith("--")]):
        found = sorted(set(phrases_in(path, file.read_text(encoding="utf-8"), phrases, allowed)))
        total += len(found)
        if found:
            counts.append((len(found), path))
        if not counting:
            for number, phrase, instead, around in found:
                print(f"{path}:{number}: {phrase} (write: {instead}): {around}")
    if counting:
        for count, path in sorted(counts, reverse=True):
            print(f"{count:5} {path}")
    print(f"words: {total} phrases in {len(counts)} files")
    return 1 if total else 0


if __name__ == "__main__":
    sys.exit(main())
