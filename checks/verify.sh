#!/usr/bin/env bash
# `zk verify` over the real directory examples/directories/follower: as it is, above `version-2`, and with the logs in another
# directory; and with files that are missing, damaged or unreadable, each of which it names, and goes on. The lines of logs are those
# of follower.files, which a script in Python worked out. Each record of the directory's server has the digest of its tree
# (examples/directories/README.md), so the numbers of digests are those of records.
. checks/lib.sh
real=$PWD/examples/directories/follower
early=snapshot.20000004e
late=snapshot.2000000d6
first=log.10000022d
middle=log.200000050
last=log.2000000d8
of_logs=$(grep '^log' examples/directories/follower.files)
of_early="$early to 00000002000000d6 digest 136 exact 000000020000004e"
of_late="$late to 000000020000013f digest 105 exact 00000002000000d6"

# says STATUS LINES WORD..: `zk verify WORD..` prints these lines, but for those that begin with `help`, with this status
says() {
    local status=$1 lines=$2
    shift 2
    [ "$(ends "$zk" verify "$@")" = "$status " ]
    grep -v '^help ' "$work/out" | diff - <(echo "$lines")
}

# helps KIND..: the last run printed what helps against these kinds alone
helps() {
    [ "$(sed -n 's/^help \([^:]*\):.*/\1/p' "$work/out" | tr '\n' ';')" = "$(printf '%s;' "$@")" ]
}

# copied: a copy of the directory
copied() {
    rm -rf "$work/copy"
    cp -r "$real" "$work/copy"
    echo "$work/copy"
}

# around FILE FROM TO: the last entry of a log that begins before the byte FROM and the first one from the byte TO on, by its bytes:
# both zxids, and both times
around() {
    python3 - "$@" <<'END'
import datetime, struct, sys
log, before, after = open(sys.argv[1], "rb").read(), int(sys.argv[2]), int(sys.argv[3])
def moment(at):
    zxid, time = struct.unpack_from(">qq", log, at + 24)
    clock = datetime.datetime.fromtimestamp(time // 1000, datetime.timezone.utc)
    return f"{zxid:016x}", f"{clock:%Y-%m-%dT%H:%M:%S}.{time % 1000:03}Z"
at, places = 16, []
while at + 12 <= len(log) and struct.unpack_from(">i", log, at + 8)[0]:
    places.append(at)
    at += 13 + struct.unpack_from(">i", log, at + 8)[0]
last = moment(max(p for p in places if p < before))
next = moment(min(p for p in places if p >= after))
print(last[0], next[0], last[1], next[1])
END
}

# damaged FILE AT: a copy with another byte at AT
damaged() {
    copied
    printf '\377' | dd of="$work/copy/$1" bs=1 seek="$2" conv=notrunc status=none
}

well="$of_logs
$of_late
$of_early
well"
says 0 "$well" "$real"
[ -z "$(grep '^help' "$work/out" || true)" ]
mkdir "$work/data" "$work/logs" "$work/snapshots" "$work/empty"
cp -r "$real" "$work/data/version-2"
cp "$real"/log.* "$work/logs"
cp "$real"/snapshot.* "$work/snapshots"
says 0 "$well" "$work/data"
says 0 "$well" "$work/snapshots" --logs "$work/logs"
says 0 "$well" --logs="$work/logs" -- "$work/snapshots"

# a log that is missing: the later snapshot begins in the gap, and leads to itself alone
copy=$(copied)
rm "$copy/$middle"
read -r from _ time _ <<<"$(around "$real/$first" 1000000 16)"
read -r _ to _ next <<<"$(around "$real/$last" 1000000 16)"
[ "$from $to" = "000000020000004f 00000002000000d8" ]
says 1 "$(grep -v "$middle" <<<"$of_logs")
zk: D3 $from $to $time $next
$late to 00000002000000d6 digest 0 exact 00000002000000d6
$early to $from digest 1 exact 000000020000004e
wrong 1" "$copy"
helps "D3, missing"

# the last log alone is missing
copy=$(copied)
rm "$copy/$last"
says 0 "$(grep -v "$last" <<<"$of_logs")
$late to 00000002000000d7 digest 1 exact 00000002000000d6
$of_early
well" "$copy"

# a broken snapshot: the earlier one is followed to the end
says 1 "$of_logs
zk: S4 $late
$early to 000000020000013f digest 241 exact 000000020000004e
wrong 1" "$(damaged $late 1000)"
helps "S1 to S8"

# a broken entry: all before it is followed, and intact entries come after it; the number of whole records and the last zxid are read
# from the bytes
read -r records until digests to <<<"$(python3 - "$real/$last" 8657 <<'END'
import struct, sys
log, end = open(sys.argv[1], "rb").read(), int(sys.argv[2])
at, zxids = 16, []
while at < end:
    zxids.append(struct.unpack_from(">q", log, at + 24)[0])
    at += 13 + struct.unpack_from(">i", log, at + 8)[0]
print(len(zxids), f"{zxids[-1]:016x}", zxids[-1] - 0x2000000D6, at + 13 + struct.unpack_from(">i", log, at + 8)[0])
END
)"
lost="8657 $to $(around "$real/$last" 8657 "$to")"
before_damage="$late to $until digest $digests exact 00000002000000d6
$of_early
wrong 1"
says 1 "$(sed '$d' <<<"$of_logs")
$last records $records 00000002000000d8 $until
lost $last G2 $lost
$before_damage" "$(damaged $last 8700)"
helps lost

# zeros over an entry, or another byte where it ends: a server takes them for the end of the log, and says nothing
copy=$(copied)
dd if=/dev/zero of="$copy/$last" bs=1 seek=8657 count=$((to - 8657)) conv=notrunc status=none
says 1 "$(sed '$d' <<<"$of_logs")
$last records $records 00000002000000d8 $until end padding
lost $last padding $lost
$before_damage" "$copy"
helps lost
says 1 "$(sed '$d' <<<"$of_logs")
$last records $records 00000002000000d8 $until end torn 8657
lost $last torn $lost
$before_damage" "$(damaged $last $((to - 1)))"
helps lost

# nothing intact follows a broken entry
copy=$(damaged $last 8700)
truncate -s "$to" "$copy/$last"
says 1 "$(sed '$d' <<<"$of_logs")
$last records $records 00000002000000d8 $until
zk: G2 $last 8657
$before_damage" "$copy"
helps "G1 to G5"

# files that cannot be read
copy=$(copied)
mkdir "$copy/log.5" "$copy/snapshot.5"
says 1 "zk: G6 log.5
$of_logs
$of_late
$of_early
zk: G6 snapshot.5
wrong 2" "$copy"
helps G6

# two histories: no snapshot leads through them
copy=$(copied)
cp "$real/$last" "$copy/log.2000000d9"
python3 - "$copy/log.2000000d9" <<'END'
import struct, sys, zlib
path = sys.argv[1]
log = bytearray(open(path, "rb").read())
size = struct.unpack_from(">I", log, 24)[0]
log[28 + size - 1] ^= 1
struct.pack_into(">Q", log, 16, zlib.adler32(log[28 : 28 + size]))
open(path, "wb").write(log)
END
says 1 "$of_logs
log.2000000d9 records 104 00000002000000d8 000000020000013f end padding
zk: D4 log.2000000d9 16
$late to none
$early to none
wrong 1" "$copy"
helps D4

# a record whose digest is not that of its tree: its last eight bytes are the digest
copy=$(copied)
python3 - "$copy/$last" <<'END'
import struct, sys, zlib
log = bytearray(open(sys.argv[1], "rb").read())
size = struct.unpack_from(">I", log, 24)[0]
log[28 + size - 1] ^= 1
struct.pack_into(">Q", log, 16, zlib.adler32(log[28 : 28 + size]))
open(sys.argv[1], "wb").write(log)
END
record=$(python3 - "$real/$last" <<'END'
import datetime, struct, sys
log = open(sys.argv[1], "rb").read()
session, zxid, time, length = struct.unpack_from(">q4xqq4xi", log, 28)
clock = datetime.datetime.fromtimestamp(time // 1000, datetime.timezone.utc)
path = log[64 : 64 + length].decode()
print(f'{zxid:016x} {clock:%Y-%m-%dT%H:%M:%S}.{time % 1000:03}Z {session:016x} "{path}"')
END
)
says 1 "$of_logs
$late to 000000020000013f digest 104 otherDigest 1 exact 00000002000000d6
$of_early
otherDigest $record
wrong 1" "$copy"
helps otherDigest

# two epochs: examples/directories/epochs has the files before; a digest after the first transaction of epoch 2 is that of its tree
epochs=$PWD/examples/directories/epochs
copy=$(copied)
rm "$copy/$early"
cp "$epochs"/* "$copy"
of_epochs="log.1000001a7 records 134 00000001000001a7 000000010000022c end padding
$of_logs"
both="$late to 000000020000013f digest 105 exact 00000002000000d6"
says 0 "$of_epochs
$both
snapshot.1000001b1 to 00000002000000d6 digest $((0x270 - 0x1b7 + 0xd6)) exact 00000001000001b7
well" "$copy"

# the log without the last transactions of epoch 1, as if they were in another that is missing: they write /hot/x, as transaction
# 200000002 does again, so that the digest of 200000001 alone shows it. It is no fault of the tree
python3 - "$copy/$first" <<'END'
import struct, sys
log = open(sys.argv[1], "rb").read()
at, kept = 16, log[:16]
while size := struct.unpack_from(">i", log, at + 8)[0]:
    entry = log[at : at + 13 + size]
    kept += entry if not 0x100000267 < struct.unpack_from(">q", entry, 24)[0] < 0x200000000 else b""
    at += len(entry)
open(sys.argv[1], "wb").write(kept.ljust(len(log), b"\0"))
END
says 1 "$(sed "s/^$first records 147/$first records 138/" <<<"$of_epochs")
$both
snapshot.1000001b1 to 00000002000000d6 digest $((0x267 - 0x1b7 + 0xd5)) otherDigest 1 exact 00000001000001b7
missing 0000000100000267 0000000200000001
wrong 1" "$copy"
helps "D3, missing"

# without snapshots the logs must begin with the first transaction
says 1 "$of_logs
zk: D2 000000010000022d
wrong 1" "$work/empty" --logs "$work/logs"
helps D2

# what is no directory with files
for words in "$work/empty" "$work/empty --logs $work/snapshots"; do
    [ "$(ends "$zk" verify $words)" = "1 zk: D1" ]
    [ ! -s "$work/out" ]
done
[ "$(ends "$zk" verify "$work/none at all")" = "1 zk: read" ]
[ "$(ends "$zk" verify "$real" "$real" | head -c 1)" = 2 ]
echo "verify: a real directory, as it is and with faults"
