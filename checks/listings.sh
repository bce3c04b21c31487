#!/usr/bin/env bash
# Logs to listings and back by the proved program, on files and on standard streams: the first log against its listing,
# the real server's log against itself, and what is left of an output if a text is rejected.
set -euo pipefail
work=$(mktemp -d)
trap 'rm -rf "$work"' EXIT
zk=crates/zk_cli/out/zk_cli
log=examples/first_log.log
listing=examples/first_log.listing

# ends COMMAND..: its status and its line on standard error, as one text
ends() {
    local status=0
    "$@" 2>"$work/err" || status=$?
    echo "$status $(cat "$work/err")"
}

"$zk" list "$log" | cmp - "$listing"
"$zk" list @ <"$log" | cmp - "$listing"
"$zk" asm "$listing" "$work/log"
cmp "$work/log" "$log"
"$zk" asm @ @ <"$listing" | cmp - "$log"

# the real server's log is padded with zeros, which no listing shows
"$zk" list examples/real/log.1 >"$work/real.listing"
"$zk" asm "$work/real.listing" "$work/real.log"
size=$(stat -c %s "$work/real.log")
cmp "$work/real.log" <(head -c "$size" examples/real/log.1)
"$zk" list "$work/real.log" | cmp - "$work/real.listing"
[ -z "$(tail -c +$((size + 1)) examples/real/log.1 | tr -d '\0' | head -c 1)" ]

# a longer log is truncated, and stays empty if the text is rejected
sed 's/ 1000 / +1000 /' "$listing" >"$work/bad"
[ "$(ends "$zk" asm "$work/bad" "$work/real.log")" = "1 zk: L2 1" ]
[ ! -s "$work/real.log" ]
sed -n '2p;1p' "$listing" | sort -r >"$work/bad"
[ "$(ends "$zk" asm "$work/bad" "$work/real.log")" = "1 zk: order 2" ]
{
    head -n 1 "$listing"
    printf '0000000100000002 0100000000000001 1 2000 setData "/a" x'
    head -c 33554432 /dev/zero | tr '\0' 0
    echo ' 0'
} >"$work/bad"
[ "$(ends "$zk" asm "$work/bad" "$work/real.log")" = "1 zk: length 2" ]
printf '\377' >"$work/bad"
[ "$(ends "$zk" asm "$work/bad" "$work/real.log")" = "1 zk: utf8" ]

# files that can't be opened, read or written
[ "$(ends "$zk" list "$work/none")" = "1 zk: read" ]
[ "$(ends "$zk" list "$work/none/")" = "1 zk: read" ]
[ "$(ends "$zk" asm "$work" "$work/out")" = "1 zk: read" ]
[ "$(ends "$zk" asm "$listing" "$work")" = "1 zk: write" ]
[ "$(ends "$zk" asm "$listing" /dev/full)" = "1 zk: write" ]
echo "listings: both ways"
