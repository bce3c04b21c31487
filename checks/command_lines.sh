#!/usr/bin/env bash
# Command lines of the proved program: rejected ones end with status 2 and a usage on standard error, and touch no file;
# the help and the version end with status 0; and the program says `zk`, whatever it is called.
set -euo pipefail
work=$(mktemp -d)
trap 'rm -rf "$work"' EXIT
zk=crates/zk_cli/out/zk_cli
listing=examples/first_log.listing

# ends STATUS WORD..: what `zk WORD..` ends with; its output is left in $work/out, and its errors in $work/err
ends() {
    local wanted=$1 status=0
    shift
    "$zk" "$@" >"$work/out" 2>"$work/err" </dev/null || status=$?
    [ "$status" = "$wanted" ]
}

# `refuses USAGE WORD..`: a rejected command line writes nothing, and prints this usage on standard error
refuses() {
    local usage=$1
    shift
    ends 2 "$@"
    [ ! -s "$work/out" ]
    grep -qF "Usage: $usage" "$work/err"
}

printf before >"$work/kept"
refuses "zk <COMMAND>"
refuses "zk <COMMAND>" tree "$listing"
refuses "zk <COMMAND>" -- list "$listing"
refuses "zk <COMMAND>" $'\377' "$listing"
refuses "zk <COMMAND>" asm "$listing" $'\377'
refuses "zk show <DIR|FILE> <ZXID>" show examples/first_log.log
refuses "zk show [OPTIONS] <DIR|FILE> <ZXID>" show examples/first_log.log 1
refuses "zk show [OPTIONS] <DIR|FILE> <ZXID>" show examples/first_log.log 000000010000000A
refuses "zk show [OPTIONS] <DIR|FILE> <ZXID>" show examples/first_log.log last last
refuses "zk list [OPTIONS] <DIR|FILE>" list -x
refuses "zk files <DIR>" files
refuses "zk debug <DIR|FILE> [SCRIPT]" debug
refuses "zk debug [OPTIONS] <DIR|FILE> [SCRIPT]" debug @
refuses "zk debug [OPTIONS] <DIR|FILE> [SCRIPT]" debug @ @
refuses "zk asm <TEXT> <FILE>" asm "$listing"
refuses "zk asm [OPTIONS] <TEXT> <FILE>" asm --force "$listing" "$work/kept"
refuses "zk asm [OPTIONS] <TEXT> <FILE>" asm "$listing" "$work/kept" more
refuses "zk serve <PORT> <N>" serve 2181
refuses "zk serve [OPTIONS] <PORT> <N>" serve 0 3
refuses "zk serve [OPTIONS] <PORT> <N>" serve 65536 3
refuses "zk serve [OPTIONS] <PORT> <N>" serve 2181 1
refuses "zk serve [OPTIONS] <PORT> <N>" serve 2181 16
refuses "zk serve [OPTIONS] <PORT> <N>" serve --conns 4294967296 2181 3

# an input that can't be opened leaves the output as it was
ends 1 asm "$work/none" "$work/kept"
[ "$(cat "$work/err")" = "zk: read" ]
[ "$(cat "$work/kept")" = before ]

# after `--` a word may begin with a dash
cp "$listing" "$work/-x"
(
    zk=$PWD/$zk
    cd "$work"
    "$zk" asm -- -x -y
)
cmp "$work/-y" examples/first_log.log

zeros=0000000000000000000000000000000000000000
ends 0 --version
[ "$(cat "$work/out")" = "zk 0.1.0, commit $zeros" ]
ends 0 --help
grep -qF "Usage: zk <COMMAND>" "$work/out"
ends 0 show --help
grep -qF "Usage: zk show [OPTIONS] <DIR|FILE> <ZXID>" "$work/out"
ends 0 serve 0 0 --help
grep -qF "Usage: zk serve [OPTIONS] <PORT> <N>" "$work/out"
ends 0 help asm
grep -qF "Usage: zk asm [OPTIONS] <TEXT> <FILE>" "$work/out"

# under another name
cp "$zk" "$work/other"
zk=$work/other
refuses "zk <COMMAND>"
refuses "zk show [OPTIONS] <DIR|FILE> <ZXID>" show examples/first_log.log 1
ends 0 --version
[ "$(cat "$work/out")" = "zk 0.1.0, commit $zeros" ]
echo "command_lines: refused and told"
