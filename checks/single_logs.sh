#!/usr/bin/env bash
# `zk list`, `show` and `debug` of one log of a 3.8 server, which is read as a directory that has only this log. The trees of
# examples/stock/check_alone are what the server itself said; nothing in examples/stock and examples/directories was computed by this
# project. Records of no known server, and logs on standard input, have G3.
. checks/lib.sh
stock=examples/stock
alone=$stock/check_alone/log.1
real=examples/directories/follower

# same FILE WORD..: `zk WORD.. FILE` does what it does of a directory that has only this log
same() {
    local file=$1 expected
    shift
    rm -rf "$work/data"
    mkdir "$work/data"
    cp "$file" "$work/data"
    expected=$(ends "$zk" "$1" "$work/data" "${@:2}")
    mv "$work/out" "$work/expected"
    [ "$(ends "$zk" "$1" "$file" "${@:2}")" = "$expected" ]
    cmp "$work/expected" "$work/out"
}

# fails LINE WORD..: `zk WORD..` prints nothing but this line on standard error, with status 1
fails() {
    local line=$1
    shift
    [ "$(ends "$zk" "$@")" = "1 zk: $line" ]
    [ ! -s "$work/out" ]
}

# ---- a whole history, and the server's own word on its trees
count=0
for nodes in "$stock"/check_alone/*.nodes; do
    zxid=$(basename "$nodes" .nodes)
    [ "$(ends "$zk" show "$alone" "$zxid")" = "0 " ]
    [ "$(head -n 1 "$work/out")" = "zxid $zxid" ]
    grep '^"' "$work/out" | grep -v '^"/zookeeper["/]' | cmp - "$nodes"
    { grep '^session ' "$work/out" || true; } | cmp - "$stock/check_alone/$zxid.sessions"
    printf 'goto %s\ntree\n' "$zxid" >"$work/script"
    [ "$(ends "$zk" debug "$alone" "$work/script")" = "0 " ]
    grep '^"' "$work/out" | grep -v '^"/zookeeper["/]' | cmp - "$nodes"
    [ "$(ends "$zk" debug "$alone" @ <"$work/script")" = "0 " ]
    grep '^"' "$work/out" | grep -v '^"/zookeeper["/]' | cmp - "$nodes"
    count=$((count + 1))
done
[ "$count" = 3 ]
[ "$(ends "$zk" list "$alone")" = "0 " ]
"$zk" mend "$alone" "$work/mended" >"$work/report" </dev/null
"$zk" list "$work/mended" | cmp - "$work/out"
printf 'goto 0000000000000011\nnode "/t"\n' | "$zk" debug "$alone" | tail -n 1 | cmp - <(grep '^"/t"' "$stock/check_alone/0000000000000011.nodes")

# ---- as a directory that has only this log
same "$alone" show last
same "$alone" show last --json
same "$alone" show 0x12
same "$alone" list --json
same "$alone" list --time iso
: >"$work/all"
for log in log.10000022d log.200000050 log.2000000d8; do
    same "$real/$log" list
    cat "$work/out" >>"$work/all"
    same "$real/$log" show last
    same "$real/$log" list --json
done
"$zk" list "$real" 2>"$work/err" | cmp - "$work/all"
fails "D2 000000010000022d" show "$real/log.10000022d" last
fails "D2 000000010000022d" debug "$real/log.10000022d" "$work/script"
# a log without the entries between those that it has
cp "$stock/kinds.log" "$work/log.1"
fails "D3 0000000000000002 0000000000000004" list "$work/log.1"
same "$work/log.1" list
# another byte in the last entry, at byte 1269: the one before it has this zxid and time by its bytes
"$zk" list "$alone" >"$work/all"
cp "$alone" "$work/log.1"
printf '\377' | dd of="$work/log.1" bs=1 seek=1300 conv=notrunc status=none
[ "$(ends "$zk" list "$work/log.1")" = "0 zk: lost log.1 0000000000000010 - 2026-11-23T12:51:16.655Z -" ]
sed '$d' "$work/all" | cmp - "$work/out"
same "$work/log.1" show last
# a torn end
head -c 1300 "$alone" >"$work/log.1"
[ "$(ends "$zk" show "$work/log.1" last)" = "0 " ]
[ "$(tail -n 1 "$work/out")" = "end torn 1269" ]

# ---- records of no known server, and standard input
python3 -c 'import struct, sys, zlib
log = open(sys.argv[1], "rb").read()
record = log[-50:]
sys.stdout.buffer.write(log[:1202] + struct.pack(">QI", zlib.adler32(record), len(record)) + record + b"B")' "$alone" >"$work/log.1"
fails "G3 16" list "$work/log.1"
fails "G3 16" show "$work/log.1" last
fails "G3 16" debug "$work/log.1" "$work/script"
[ "$(ends "$zk" list @ <"$alone")" = "1 zk: G3 16" ]
[ "$(ends "$zk" show @ last <"$alone")" = "1 zk: G3 16" ]
"$zk" --explain list "$work/log.1" 2>"$work/err" || true
[ "$(wc -l <"$work/err")" = 2 ]

echo "single_logs: $count trees that a server said, 3 logs of a directory, and those with errors"
