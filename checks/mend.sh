#!/usr/bin/env bash
# Logs of 3.8 servers by the proved program. The worked examples of examples/stock are mended byte for byte, with their reports
# and listings; the tree of a lone server's mended log is what that server itself said, at each zxid for which its word is there,
# and its digests are the table's. What was mended, and each log of 3.3 and 3.4 here, is mended to itself. A rejected log leaves the
# output empty, and a rejected command line leaves it as it was. Nothing in examples/stock was computed by this project.
set -euo pipefail
work=$(mktemp -d)
trap 'rm -rf "$work"' EXIT
zk=crates/zk_cli/out/zk_cli
stock=examples/stock

# ends COMMAND..: its status and its line on standard error, as one text
ends() {
    local status=0
    "$@" 2>"$work/err" >"$work/out" </dev/null || status=$?
    echo "$status $(head -n 1 "$work/err")"
}

# comes_back LOG: a log of 3.4 is mended to a prefix of itself, and every record is reported as unchanged
comes_back() {
    local size
    "$zk" mend "$1" "$work/back" >"$work/told" </dev/null
    size=$(stat -c %s "$work/back")
    cmp -n "$size" "$1" "$work/back"
    "$zk" list "$1" | cmp - <("$zk" list "$work/back")
    [ "$(wc -l <"$work/told")" = 3 ]
    [ "$(sed -n '1s/records //p' "$work/told")" = "$(sed -n '2s/unchanged //p' "$work/told")" ]
    [ "$(tail -n 1 "$work/told")" = "$("$zk" show "$1" last </dev/null | tail -n 1)" ]
}

# ---- the worked examples
for name in kinds close failed; do
    "$zk" mend "$stock/$name.log" "$work/mended" </dev/null | cmp - "$stock/$name.report"
    cmp "$work/mended" "$stock/$name.mended"
    "$zk" list "$work/mended" | cmp - "$stock/$name.listing"
    "$zk" mend @ "$work/piped" <"$stock/$name.log" | cmp - "$stock/$name.report"
    cmp "$work/piped" "$work/mended"
    comes_back "$work/mended"
done

# ---- a lone server's log, and its own word on its trees
"$zk" mend "$stock/check_alone/log.1" "$work/alone" </dev/null | cmp - "$stock/check_alone/report"
count=0
for nodes in "$stock"/check_alone/*.nodes; do
    zxid=$(basename "$nodes" .nodes)
    "$zk" show "$work/alone" "$zxid" >"$work/shown"
    [ "$(head -n 1 "$work/shown")" = "zxid $zxid" ]
    grep '^"' "$work/shown" | grep -v '^"/zookeeper["/]' | cmp - "$nodes"
    { grep '^session ' "$work/shown" || true; } | cmp - "$stock/check_alone/$zxid.sessions"
    count=$((count + 1))
done
[ "$count" = 3 ]
comes_back "$work/alone"

# ---- logs of 3.3 and 3.4
comes_back examples/first_log.log
comes_back examples/first_log_head.log
comes_back examples/log_of_33.log
comes_back examples/real/log.1
head -c 150 examples/first_log.log >"$work/torn"
comes_back "$work/torn"
[ "$(tail -n 1 "$work/told")" = "end torn 65" ]
{ cat examples/first_log.log; head -c 4096 /dev/zero; } >"$work/padded"
comes_back "$work/padded"
[ "$(tail -n 1 "$work/told")" = "end padding" ]

# ---- rejected logs
# entry RECORD: the entry of a record in hexadecimal digits
entry() {
    python3 -c 'import struct, sys, zlib
record = bytes.fromhex(sys.argv[1])
sys.stdout.buffer.write(struct.pack(">QI", zlib.adler32(record), len(record)) + record + b"B")' "$1"
}
open=0100004d23ab0000000000000000000000000001000001a20875e380fffffff600007530
create=0100004d23ab0000000000010000000000000002000001a20875e3a400000001000000022f61000000036f6e65000000010000001f00000005776f726c6400000006616e796f6e650000000001
# the session's end lists a node that stands and is not its own
close=0100004d23ab0000000000020000000000000003000001a20875e3dcfffffff500000001000000022f61
# a failed multi of which both parts kept their bodies
reasonless=c800003fb34000040000000100000001000000d9000001a20868b1ba0000000e00000002ffffffff0000000b000000072f666d2d342d30ffffffff0000000b000000072f666d2d342d30

# `refuses LINE`: $work/log is rejected with this line, and the output is left empty
refuses() {
    printf before >"$work/kept"
    [ "$(ends "$zk" mend "$work/log" "$work/kept")" = "1 $1" ]
    [ "$(wc -l <"$work/err")" = 1 ]
    [ ! -s "$work/out" ]
    [ ! -s "$work/kept" ]
}
{ head -c 16 "$stock/kinds.log"; entry "$reasonless"; } >"$work/log"
refuses "zk: N1 16"
{ head -c 16 "$stock/kinds.log"; entry "$open"; entry "$create"; entry "$close"; } >"$work/log"
refuses "zk: N2 155"
# a container, whose record of 3.4 has one byte more
python3 -c 'import struct, sys, zlib
head = bytes.fromhex("0100004d23ab0000000000000000000000000001000001a20875e38000000013") + struct.pack(">i", 2) + b"/a"
acl = struct.pack(">iii5si6si", 1, 31, 5, b"world", 6, b"anyone", 1)
record = head + struct.pack(">i", 2 ** 24 - len(head) - 4 - len(acl)) + bytes(2 ** 24 - len(head) - 4 - len(acl)) + acl
sys.stdout.buffer.write(bytes.fromhex("5a4b4c47000000020000000000000000") + struct.pack(">QI", zlib.adler32(record), len(record)) + record + b"B")' >"$work/log"
refuses "zk: N3 16"
{ head -c 16 "$stock/kinds.log"; entry "${open}ff"; } >"$work/log"
refuses "zk: G3 16"
{ head -c 16 "$stock/kinds.log"; entry "$open"; entry "$open"; } >"$work/log"
refuses "zk: G4 65"
{ head -c 20 "$stock/kinds.log"; printf x; tail -c +22 "$stock/kinds.log"; } >"$work/log"
refuses "zk: G2 16"
head -c 15 "$stock/kinds.log" >"$work/log"
refuses "zk: G1"

# ---- a log from the middle of a history: each record has a digest, and a closed session's record lists its
# nodes; the tree before the log is not known, so the report says of neither that it is another
for log in follower/log.2000000d8 servers/one/log.100000114; do
    "$zk" mend "examples/directories/$log" "$work/mended" </dev/null >"$work/told"
    [ "$(sed -n '1s/records //p' "$work/told")" -gt 100 ]
    [ "$(sed -n '2s/unchanged //p' "$work/told")" -lt 20 ]
    grep -q '^closePaths ' "$work/told"
    if grep -i 'digest\|other' "$work/told"; then
        echo "mend: $log: what is not known is reported" >&2
        exit 1
    fi
done

# ---- outputs that fail, and rejected command lines
[ "$(ends "$zk" mend "$stock/kinds.log" /dev/full)" = "1 zk: write" ]
status=0
"$zk" mend "$stock/kinds.log" "$work/mended" >/dev/full 2>"$work/err" </dev/null || status=$?
[ "$status $(cat "$work/err")" = "1 zk: write" ]
cmp "$work/mended" "$stock/kinds.mended"
printf before >"$work/kept"
[ "$(ends "$zk" mend "$work/none" "$work/kept")" = "1 zk: read" ]
for words in "$work/kept $work/kept" "$work/kept @" "@ @" "$work/kept"; do
    # shellcheck disable=SC2086
    [ "$(ends "$zk" mend $words | cut -c 1)" = 2 ]
    grep -q 'Usage: zk mend \(\[OPTIONS\] \)\?<FILE> <OUT>' "$work/err"
done
[ "$(cat "$work/kept")" = before ]
echo "mend: logs of 3.8 become logs of 3.4, and those of 3.4 come back"
