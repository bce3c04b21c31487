#!/usr/bin/env python3
"""Writes the man page and the shells' completions of a program `zk`, from its helps.

usage: release/pages.py PROGRAM ROOM

Writes ROOM/share/man/man1/zk.1, ROOM/share/bash-completion/completions/zk and ROOM/share/zsh/site-functions/_zk.
"""
import os
import re
import subprocess
import sys


def help_of(program, *words):
    """The help that a command prints."""
    return subprocess.run([program, *words, "--help"], check=True, capture_output=True, text=True).stdout


def commands_of(text):
    """The commands of the program's help and what it says of each."""
    listed = text.split("Commands:\n", 1)[1].split("\n\n", 1)[0]
    pairs = [line.split(None, 1) for line in listed.splitlines()]
    return [(name, about) for name, about in pairs if name != "help"]


def options_of(text):
    """The options of a help, each with the word for its value, if it takes one, and what the help says of it."""
    found = []
    for line in text.split("Options:\n", 1)[1].split("\n\n", 1)[0].splitlines():
        it = re.match(r"\s+(?:(-\w)(?:, )?)?(--[\w-]+)?(?: <(\w+)>)?\s+(.*)", line)
        if it:
            names = [name for name in it.group(1, 2) if name]
            found.append((names, it[3], it[4]))
    return found


def values_of(text):
    """The words for the values on a help's usage line, in order."""
    usage = text.split("Usage: ", 1)[1].split("\n", 1)[0]
    return [it for it in re.findall(r"[<\[]([A-Z][A-Z0-9|]*)[>\]]", usage) if it != "OPTIONS"]


def escaped(text):
    """A text as lines of a man page that is not filled."""
    text = text.replace("\\", "\\e").replace("-", "\\-")
    return "\n".join("\\&" + line if line.startswith((".", "'")) else line for line in text.splitlines())


def man_page(version, text, helps):
    """The man page: the program's help, and each command's."""
    about = text.split("\n", 1)[0]
    parts = ['.TH ZK 1 "" "%s" "User Commands"' % escaped(version), ".SH NAME", "zk \\- " + escaped(about[0].lower() + about[1:])]
    parts += [".SH SYNOPSIS", ".nf"]
    parts += [escaped(it.split("Usage: ", 1)[1].split("\n", 1)[0]) for _, _, it in helps]
    parts += [".fi", ".SH DESCRIPTION", ".nf", escaped(text.split("\n\n", 1)[1]), ".fi"]
    for name, _, it in helps:
        parts += [".SH " + name.upper(), ".nf", escaped(it), ".fi"]
    return "\n".join(parts) + "\n"


def bash_completion(helps):
    """Completions for bash: the commands, then a command's options, and else files and directories."""
    names = " ".join(name for name, _, _ in helps)
    cases = []
    for name, _, text in helps:
        words = " ".join(word for words, _, _ in options_of(text) for word in words)
        cases.append('        %s) options="%s" ;;' % (name, words))
    return """# Completions of zk for bash.
_zk() {
    local word=${COMP_WORDS[COMP_CWORD]} options
    COMPREPLY=()
    if [ "$COMP_CWORD" = 1 ]; then
        COMPREPLY=($(compgen -W "%s help --help --version" -- "$word"))
        return
    fi
    case ${COMP_WORDS[1]} in
%s
        help) options="%s" ;;
        *) return ;;
    esac
    case $word in
        -*) COMPREPLY=($(compgen -W "$options" -- "$word")) ;;
        *) if [ "${COMP_WORDS[1]}" = help ]; then COMPREPLY=($(compgen -W "$options" -- "$word")); else COMPREPLY=($(compgen -f -- "$word")); fi ;;
    esac
}
complete -o filenames -F _zk zk
""" % (names, "\n".join(cases), names)


def quoted(text):
    """A text within a description of zsh's `_arguments`."""
    return re.sub(r"([\[\]:\\])", r"\\\1", text).replace("'", "'\\''")


def zsh_completion(helps):
    """Completions for zsh: the commands, then a command's options and values."""
    listed = "\n".join("        '%s:%s'" % (name, about.replace("'", "'\\''").replace(":", "\\:")) for name, about, _ in helps)
    cases = []
    for name, _, text in helps:
        words = []
        for names, value, about in options_of(text):
            end = ":%s:_files" % value if value else ""
            words += ["'%s[%s]%s'" % (it, quoted(about), end) for it in names]
        words += ["'%d:%s:_files'" % (place, value) for place, value in enumerate(values_of(text), 1)]
        cases.append("        %s) _arguments %s ;;" % (name, " ".join(words)))
    return """#compdef zk
# Completions of zk for zsh.
_zk() {
    local -a commands
    commands=(
%s
    )
    if (( CURRENT == 2 )); then
        _describe command commands
        return
    fi
    local command=$words[2]
    shift words
    (( CURRENT-- ))
    case $command in
%s
    esac
}
_zk "$@"
""" % (listed, "\n".join(cases))


def main(program, room):
    program = os.path.abspath(program)
    text = help_of(program)
    helps = [(name, about, help_of(program, name)) for name, about in commands_of(text)]
    version = subprocess.run([program, "--version"], check=True, capture_output=True, text=True).stdout.strip()
    made = {
        "man/man1/zk.1": man_page(version, text, helps),
        "bash-completion/completions/zk": bash_completion(helps),
        "zsh/site-functions/_zk": zsh_completion(helps),
    }
    for name, page in made.items():
        path = os.path.join(room, "share", name)
        os.makedirs(os.path.dirname(path), exist_ok=True)
        with open(path, "w", encoding="utf-8") as it:
            it.write(page)
    return 0


if __name__ == "__main__":
    if len(sys.argv) != 3:
        sys.exit(__doc__)
    sys.exit(main(*sys.argv[1:]))
