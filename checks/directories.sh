#!/usr/bin/env bash
# `zk files`, `zk show` and `zk list` over the real directory examples/directories/follower: as it is, above `version-2`, with the
# logs in another directory, and with files that are missing, damaged or no snapshots and logs; and over directories that have none.
# The trees are what the live servers said to a client (examples/directories/README.md).
. checks/lib.sh
real=$PWD/examples/directories/follower
lines=$PWD/examples/directories/follower.files
snapshot=snapshot.2000000d6
log=log.2000000d8

# prints SED WORD..: `zk files WORD..` prints the lines of the directory, changed by a script of sed, with status 0
prints() {
    local script=$1
    shift
    [ "$(ends "$zk" files "$@")" = "0 " ]
    sed "$script" "$lines" | diff - "$work/out"
}

# fails LINE WORD..: `zk WORD..` prints nothing but this line on standard error, with status 1
fails() {
    local line=$1
    shift
    [ "$(ends "$zk" "$@")" = "1 zk: $line" ]
    [ ! -s "$work/out" ]
}

# rejects LINE WORD..: the same of `zk files WORD..`
rejects() {
    local line=$1
    shift
    fails "$line" files "$@"
}

# copied NAME: a copy of the directory
copied() {
    cp -r "$real" "$work/$1"
    echo "$work/$1"
}

prints '' "$real"
prints '' "$real/"
mkdir "$work/data" "$work/logs" "$work/snapshots"
cp -r "$real" "$work/data/version-2"
prints '' "$work/data"
prints '' "$work/data/version-2"
cp "$real"/log.* "$work/logs"
cp "$real"/snapshot.* "$work/snapshots"
prints '' "$work/snapshots" --logs "$work/logs"
prints '' --logs="$work/logs" "$work/snapshots"
prints '' --logs "$work/data" -- "$real"
prints '/^log/d' "$work/snapshots"
prints '/^snapshot/d' --logs "$work/logs" "$work/logs"

# other files beside: those that a server reads too are named
other=$(copied other)
echo 1 >"$other/acceptedEpoch"
cp "$real/$snapshot" "$other/snapshot.2000000D6"
cp "$real/$log" "$other/log.02000000d8"
cp "$real/$snapshot" "$other/$snapshot.gz"
touch "$other/$(printf 'log.\377')"
prints '$ a snapshot.2000000D6 unread snapshot.2000000d6\
snapshot.2000000d6.gz unread snapshot.2000000d6\
log.02000000d8 unread log.2000000d8' "$other"

# a log that is missing leaves a gap; an empty one, as a crash leaves it, has no records
missing=$(copied missing)
rm "$missing/log.200000050"
prints "/^log.200000050/d; /^$log/s/\$/ gap 000000020000004f 00000002000000d8/" "$missing"
: >"$missing/log.7fffffff00000000"
prints "/^log.200000050/d; /^$log/{ s/\$/ gap 000000020000004f 00000002000000d8/; a log.7fffffff00000000 records 0 end whole
}" "$missing"

# damaged FILE AT LINE [SED]: with another byte at AT, the file's line is LINE
damaged() {
    rm -rf "$work/damaged"
    copied damaged >"$work/none"
    printf '\377' | dd of="$work/damaged/$1" bs=1 seek="$2" conv=notrunc status=none
    prints "s/^$1 .*/$1 $3/" "$work/damaged"
}
damaged $snapshot 0 S1
damaged $snapshot 1000 S4
damaged $log 0 "records 0 G1"
damaged $log 16 "records 0 G2 16"

# changed FILE LINE FILTER..: with the bytes that a filter makes of them, the file's line is LINE
changed() {
    local file=$1 line=$2
    shift 2
    rm -rf "$work/changed"
    copied changed >"$work/none"
    "$@" <"$real/$file" >"$work/changed/$file"
    prints "s/^$file .*/$file $line/" "$work/changed"
}
compressed() {
    printf '\037\213\010\000'
    cat
}
changed $snapshot S2 head -c 1000
changed $snapshot S2 head -c 16
changed $snapshot S1 head -c 15
changed $snapshot S5 cat - examples/first_log.listing
changed $snapshot S6 compressed
changed $log "records 0 end whole" head -c 16

# what can't be listed
mkdir "$work/empty"
rejects D1 "$work/empty"
prints "/^log/d" "$work/data" --logs "$work/empty"
rejects D1 "$work/empty" --logs "$work/snapshots"
rejects read "$work/none at all"
rejects read "$lines"
rejects read "$real" --logs "$lines"
mkdir "$work/empty/log.5"
rejects "G6 log.5" "$work/empty"
mkdir "$work/empty/snapshot.0"
rejects "G6 snapshot.0" "$work/empty"

rm -r "$work/empty"
mkdir "$work/empty"

# ---- the tree

# shows ZXID LINES WORD..: `zk show WORD..` prints this zxid first, the nodes that a live server had after it, and these lines last,
# with status 0. /zookeeper/config is the one node that each server of an ensemble sets by itself.
shows() {
    local zxid=$1 lines=$2
    shift 2
    [ "$(ends "$zk" show "$@")" = "0 " ]
    [ "$(head -n 1 "$work/out")" = "zxid $zxid" ]
    grep '^"' "$work/out" | grep -v '^"/zookeeper/config"' | cmp - "examples/directories/follower.$zxid.nodes"
    [ "$(grep -v '^"\|^zxid \|^session ' "$work/out")" = "$lines" ]
}
early=00000002000000b6
late=000000020000013d
# each record after the base has the digest of the server's tree
of_early=$'base snapshot.20000004e 000000020000004e\ndigest 104\nend padding'
of_late=$'base snapshot.2000000d6 00000002000000d6\ndigest 103\nend padding'
of_last=$'base snapshot.2000000d6 00000002000000d6\ndigest 105\nend padding'
passed_late=$'base snapshot.20000004e 000000020000004e\npassed snapshot.2000000d6 S4\ndigest 239\nend padding'

shows $early "$of_early" "$real" $early
shows $late "$of_late" "$work/data" $late
shows $late "$of_late" "$work/snapshots" $late --logs "$work/logs"
shows $late "$of_late" --logs="$work/logs" -- "$work/snapshots" $late
shows $late "$of_late" "$other" $late

# a time is that of the last transaction with it or an earlier one: these were at 14:56:02.249 and 14:58:02.472, the next ones at
# 14:56:02.530 and 14:58:02.687
shows $early "$of_early" "$real" 2026-11-27T14:56:02.249
shows $early "$of_early" "$real" 2026-11-27T14:56:02.529
shows $late "$of_late" "$work/snapshots" 2026-11-27T14:58:02.500 --logs "$work/logs"
[ "$(ends "$zk" show "$real" 2026-11-27T14:56)" = "0 " ]
[ "$(head -n 1 "$work/out")" = "zxid 0000000200000079" ]

# the end; what lies after it is in evidence.sh
[ "$(ends "$zk" show "$real" last)" = "0 " ]
[ "$(head -n 1 "$work/out")" = "zxid 000000020000013f" ]
[ "$(tail -n 3 "$work/out")" = "$of_last" ]

# a broken snapshot is passed over; its log must reach back to an earlier one
broken=$(copied broken)
printf '\377' | dd of="$broken/$snapshot" bs=1 seek=1000 conv=notrunc status=none
shows $late "$passed_late" "$broken" $late
shows $early "$of_early" "$broken" $early
rm "$broken/log.200000050"
fails "D3 000000020000004f 00000002000000d8" show "$broken" last
fails "D3 00000002000000d6 00000002000000d8" show "$missing" $late
fails "D3 000000020000004f 00000002000000d8" show "$missing" $early
fails "D2 000000010000022d" show "$work/logs" last
fails "D2 000000010000022d" show "$real" 000000020000004d
[ "$(ends "$zk" show "$broken" last --logs "$work/empty")" = "0 zk: ends 000000020000004e" ]
[ "$(tail -n 3 "$work/out")" = $'base snapshot.20000004e 000000020000004e\npassed snapshot.2000000d6 S4\nend none' ]
rm "$broken"/snapshot.20000004e "$broken"/log.*
fails "S4 $snapshot" show "$broken" last

# a log that is broken: all before the entry that is corrupt is shown
corrupt=$(copied corrupt)
printf '\377' | dd of="$corrupt/$log" bs=1 seek=8700 conv=notrunc status=none
shows $late "${of_late/padding/none}" "$corrupt" $late
fails "G2 $log 8657" show "$corrupt" last

# a record that stands twice is taken once, unless the two differ
twice=$(copied twice)
cp "$real/$log" "$twice/log.2000000d9"
shows $late "$of_late" "$twice" $late
python3 - "$twice/log.2000000d9" <<'END'
import struct, sys, zlib
path = sys.argv[1]
log = bytearray(open(path, "rb").read())
size = struct.unpack_from(">I", log, 24)[0]
log[28 + size - 1] ^= 1
struct.pack_into(">Q", log, 16, zlib.adler32(log[28 : 28 + size]))
open(path, "wb").write(log)
END
fails "D4 log.2000000d9 16" show "$twice" last
fails "D4 log.2000000d9 16" list "$twice"

# ---- the transactions

# listed DIR WORD..: `zk list WORD..` prints the transactions of the logs in DIR as `mend` and `list` print those of each, each once, and
# states their range, since others were before
range="zk: range 000000010000022d 000000020000013f 2026-11-27T14:55:44.913Z 2026-11-27T14:58:02.694Z"
listed() {
    local logs=$1 each
    shift
    [ "$(ends "$zk" list "$@")" = "0 $range" ]
    for each in "$logs"/log.*; do
        "$zk" mend "$each" "$work/each.log" >"$work/none"
        "$zk" list "$work/each.log"
    done | sort -u | cmp - "$work/out"
}
listed "$real" "$real"
listed "$real" "$work/data"
listed "$real" --logs "$work/logs" "$work/snapshots"
listed "$real" "$other"
fails "D3 000000020000004f 00000002000000d8" list "$missing"
# of a log that is broken, what is intact on both sides
lost="zk: lost $log 000000020000013d 000000020000013f 2026-11-27T14:58:02.472Z 2026-11-27T14:58:02.694Z"
[ "$(ends "$zk" list "$corrupt")" = "0 $lost"$'\n'"$range" ]
"$zk" list "$real" 2>"$work/none" | grep -v '^000000020000013e ' | cmp - "$work/out"

# ---- what is no directory with files
for command in "show last" "list"; do
    set -- $command
    rm -rf "$work/empty"
    mkdir "$work/empty"
    fails D1 "$1" "$work/empty" ${2-}
    fails D1 "$1" "$work/empty" ${2-} --logs "$work/snapshots"
    fails read "$1" "$work/none at all" ${2-} --logs "$work/logs"
    fails read "$1" "$real" ${2-} --logs "$lines"
    mkdir "$work/empty/log.5"
    fails "G6 log.5" "$1" "$work/empty" ${2-}
done
mkdir "$work/empty/snapshot.0"
fails "G6 snapshot.0" show "$work/empty" last

# a word that is no zxid and no time
for word in 2026-11-27 2026-11-27T14:60 2026-13-27T14:56 2026-11-27T14:56:02.2491 LAST 2000000b6; do
    [ "$(ends "$zk" show "$real" $word | head -c 1)" = 2 ]
done
echo "directories: as the files' bytes say, and as live servers said"
