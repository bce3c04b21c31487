#!/usr/bin/env bash
# No answer of `zk` about a data directory goes beyond what its files prove. Over the files of real servers (examples/directories), as
# they are, and as autopurge, a crash, a compression or a lost disk leaves them: the lines for a question after the last transaction,
# for a history without its beginning and for the end of an epoch that nothing proves, and the trees that a real server restores.
. checks/lib.sh
real=$PWD/examples/directories/follower
last=000000020000013f
at=2026-11-27T14:58:02.694
clock=${at}Z
for name in epochs upper; do
    mkdir "$work/$name"
    tar -C "$work/$name" -xJf "examples/directories/$name.tar.xz"
done

# says STATUS-AND-LINES WORD..: `zk WORD..` ends so; what it prints on a fault is nothing
says() {
    local told=$1
    shift
    [ "$(ends "$zk" "$@")" = "$told" ] || { echo "zk $*: $(cat "$work/err")"; return 1; }
    [ "${told:0:1}" = 0 ] || [ ! -s "$work/out" ]
}

# copied NAME: a copy of the directory
copied() {
    cp -r "$real" "$work/$1"
    echo "$work/$1"
}

# ---- a question after the last transaction

says "0 " show "$real" $last
says "0 " show "$real" $at
says "0 " show "$real" last
for words in "0000000200000140" "2026-11-27T14:58:02.695" "2027-01-01T00:00"; do
    says "1 zk: D7 $last $clock" show "$real" "$words"
    says "1 zk: D7 $last $clock" show --json "$real" "$words"
    says "1 zk: D7 $last $clock" diff "$real" 00000002000000d6 "$words"
    says "1 zk: D7 $last $clock" diff --json "$real" 00000002000000d6 "$words"
    says "1 zk: D7 $last $clock" diff "$real" "$words" last
    says "1 zk: D7 $last $clock" restore "$real" /app --at "$words"
done

# the logs are in another directory, and `--logs` is forgotten
mkdir "$work/snapshots" "$work/logs"
cp "$real"/snapshot.* "$work/snapshots"
cp "$real"/log.* "$work/logs"
says "0 zk: ends 00000002000000d6" show "$work/snapshots" last
says "0 " show "$work/snapshots" 00000002000000d6
says "1 zk: D7 00000002000000d6" show "$work/snapshots" 00000002000000d7
says "1 zk: D8" show "$work/snapshots" $at
says "1 zk: D8" diff "$work/snapshots" $at last
says "0 " show "$work/snapshots" $at --logs "$work/logs"

# a time between two transactions, of which those between are missing
missing=$(copied missing)
rm "$missing/log.200000050"
says "1 zk: D3 000000020000004f 00000002000000d8" show "$missing" 2026-11-27T14:56:20

# ---- a history without its beginning

purged=$work/purged
mkdir "$purged"
cp "$real"/log.2* "$purged"
says "1 zk: D2 0000000200000050" show "$purged" last
for snapshot in "$real"/snapshot.*; do
    gzip -n <"$snapshot" >"$purged/${snapshot##*/}"
done
says "1 zk: D2 0000000200000050" show "$purged" last

# the same where a log begins with an epoch: the snapshots are compressed, corrupt or deleted
begins=$work/begins
mkdir "$begins"
cp "$work"/epochs/log.[23]* "$begins"
says "1 zk: D2 0000000200000001" show "$begins" last
says "1 zk: D2 0000000200000001" show "$begins" 0000000000000005
head -c 1000 "$work/epochs/snapshot.20000035b" >"$begins/snapshot.20000035b"
says "1 zk: D2 0000000200000001" show "$begins" last
gzip -n <"$work/epochs/snapshot.20000035b" >"$begins/snapshot.20000035b"
says "1 zk: D2 0000000200000001" show "$begins" last
says "1 zk: D2 0000000200000001" restore "$begins" / --at last

# the first epoch, and a log without a transaction
mkdir "$work/first" "$work/blank"
cp "$work"/epochs/log.1* "$work/first"
says "0 " show "$work/first" last
: >"$work/blank/log.300000001"
says "1 zk: D8" show "$work/blank" last
mv "$work/blank/log.300000001" "$work/blank/log.100000001"
says "0 zk: ends 0000000000000000" show "$work/blank" last

# ---- a range that the logs do not hold

# the commands that fold the logs, in each form
first=000000010000022d
begun=2026-11-27T14:55:44.913
range="zk: range $first $last ${begun}Z $clock"
for words in "list" "list --json" "list --time iso" "history / -r" "history --json /shop" "top --by path" "top --json --by session"; do
    read -r command rest <<<"$words"
    # shellcheck disable=SC2086
    {
        says "0 $range" "$command" "$real" $rest
        says "0 $range" "$command" "$work/snapshots" $rest --logs "$work/logs"
        says "1 zk: D8" "$command" "$work/snapshots" $rest
        says "0 " "$command" "$work/first" $rest
    }
done
for words in "--from $first" "--from $begun" "--from $first --to $last" "--from $begun --to $at" "--from $last" "--from $at"; do
    # shellcheck disable=SC2086
    says "0 " top "$real" --by path $words
done
for words in "--to $last" "--from 000000010000022c" "--from 2026-11-27T14:55:44.912" "--from $first --to 0000000200000140" "--from $first --to 2027-01-01T00:00" "--to $first"; do
    # shellcheck disable=SC2086
    says "0 $range" top "$real" --by session $words
done
for words in "--from 0000000200000140" "--from 2026-11-27T14:58:02.695" "--from 2027-01-01T00:00 --to 2027-01-02T00:00" "--json --from 0000000300000000"; do
    # shellcheck disable=SC2086
    says "1 zk: D7 $last $clock" top "$real" --by path $words
done
for words in "--to 000000010000022c" "--to 2026-11-27T14:55:44.912" "--json --from 2020-01-01T00:00 --to 2020-01-02T00:00"; do
    # shellcheck disable=SC2086
    says "1 zk: D2 $first" top "$real" --by path $words
done
# before the first transaction of all there was none
says "0 " top "$work/first" --by path --to 2020-01-01T00:00
[ ! -s "$work/out" ]
says "0 " list "$work/blank"
[ ! -s "$work/out" ]

# ---- a damaged place of a log

# lost LOG AT COUNT: what these bytes of a log of the directory lose: the line for it, and the zxids, by a reader in Python
lost() {
    python3 - "$real" "$@" <<'END'
import datetime, struct, sys
from pathlib import Path
directory, log, at, count = Path(sys.argv[1]), sys.argv[2], int(sys.argv[3]), int(sys.argv[4])
clock = lambda time: f"{datetime.datetime.fromtimestamp(time // 1000, datetime.timezone.utc):%Y-%m-%dT%H:%M:%S}.{time % 1000:03d}Z"
before, gone, after = None, [], None
for file in sorted(directory.glob("log.*"), key=lambda file: int(file.name[4:], 16)):
    data, place = file.read_bytes(), 16
    while place + 12 < len(data) and (length := struct.unpack_from(">i", data, place + 8)[0]) > 0:
        entry = struct.unpack_from(">qq", data, place + 24)
        if file.name == log and place < at + count and at < place + 13 + length:
            gone.append(f"{entry[0]:016x}")
        elif not gone:
            before = entry
        elif after is None:
            after = entry
        place += 13 + length
shown = lambda it: ("-", "-") if it is None else (f"{it[0]:016x}", clock(it[1]))
print("zk: lost", log, shown(before)[0], shown(after)[0], shown(before)[1], shown(after)[1])
print("\\|".join(gone))
END
}
# zeros, as a bad sector leaves them, and one wrong byte: within a log, at its beginning, across its first entry, and at the very end
for place in "log.10000022d 4096 4096" "log.200000050 8192 512" "log.200000050 16 1" "log.200000050 5000 1" "log.2000000d8 40 1" "log.10000022d 20 1" "log.2000000d8 8718 1"; do
    # shellcheck disable=SC2086
    set -- $place
    damaged=$(copied damaged)
    head -c "$3" /dev/zero | tr '\0' '\377' >"$work/bytes"
    [ "$3" = 1 ] || head -c "$3" /dev/zero >"$work/bytes"
    dd if="$work/bytes" of="$damaged/$1" bs=1 seek="$2" conv=notrunc status=none
    lost "$@" >"$work/lost"
    line=$(head -n 1 "$work/lost")
    gone=$(tail -n 1 "$work/lost")
    [ "$(ends "$zk" list "$damaged" | head -n 1)" = "0 $line" ]
    "$zk" list "$real" 2>"$work/unsaid" | grep -v "^\($gone\) " | cmp - "$work/out"
    [ "$(ends "$zk" history "$damaged" / -r | head -n 1)" = "0 $line" ]
    "$zk" history "$real" / -r 2>"$work/unsaid" | grep -v " \($gone\) " | cmp - "$work/out"
    [ "$(ends "$zk" top "$damaged" --by path --json | head -n 1)" = "0 $line" ]
    rm -rf "$damaged"
done

# ---- the end of an epoch

# the logs and snapshots after 20000035f are missing, and no record has a digest: a server restores a tree from the others without a
# word
says "0 zk: unproved 000000020000035f 0000000300000001" show "$work/epochs" last
# an earlier snapshot serves these questions, so that the end of epoch 1 counts too
first="zk: unproved 0000000100000bde 0000000200000001"
says "0 $first"$'\n'"zk: unproved 000000020000035f 0000000300000001" show "$work/epochs" 0000000200000400
says "0 $first" show "$work/epochs" 000000020000035f
# `diff` and `restore`, and `--json`, write the notices on each state that they use, once where both states have the same
for form in "" --json; do
    says "0 zk: unproved 000000020000035f 0000000300000001" show $form "$work/epochs" last
    says "0 $first" diff $form "$work/epochs" 0000000200000340 000000020000035f
    says "0 $first"$'\n'"zk: unproved 000000020000035f 0000000300000001" diff $form "$work/epochs" 0000000200000340 last
    says "0 zk: ends 00000002000000d6" show $form "$work/snapshots" last
    says "0 zk: ends 00000002000000d6" diff $form "$work/snapshots" 00000002000000d6 last
done
says "0 zk: unproved 000000020000035f 0000000300000001" restore "$work/epochs" / --at last
says "0 zk: ends 00000002000000d6" restore "$work/snapshots" / --at last

# a record whose digest is not that of its tree: its last eight bytes are the digest
wrong=$(copied wrong)
python3 - "$wrong/log.2000000d8" <<'END'
import struct, sys, zlib
log = bytearray(open(sys.argv[1], "rb").read())
size = struct.unpack_from(">I", log, 24)[0]
log[28 + size - 1] ^= 1
struct.pack_into(">Q", log, 16, zlib.adler32(log[28 : 28 + size]))
open(sys.argv[1], "wb").write(log)
END
for form in "" --json; do
    says "0 zk: otherDigest 1 00000002000000d8" show $form "$wrong" last
    says "0 zk: otherDigest 1 00000002000000d8" diff $form "$wrong" 00000002000000d7 last
done
says "0 zk: otherDigest 1 00000002000000d8" restore "$wrong" /app --at last

# ---- names that a server reads

# `log.2000000D8`, in upper case: the server restored this tree
says "0 " show "$work/upper" last
[ "$(head -n 1 "$work/out")" = "zxid $last" ]
grep '^"' "$work/out" | grep -v '^"/zookeeper' | cmp - <(grep '^"' "$work/upper/real.txt" | grep -v '^"/zookeeper')
# leading zeros, more after a second dot, and a plus sign; of snapshots too
says "0 " show "$real" last
cp "$work/out" "$work/restored"
for name in log.02000000d8 log.2000000d8.bak log.+2000000D8 snapshot.2000000D6 snapshot.02000000d6.old; do
    other=$(copied "$name")
    case $name in
        log*) mv "$other/log.2000000d8" "$other/$name" ;;
        *) mv "$other/snapshot.2000000d6" "$other/$name" ;;
    esac
    says "0 " show "$other" last
    cmp "$work/out" "$work/restored"
    says "0 " files "$other"
    cmp "$work/out" examples/directories/follower.files
done
# two names of one file: the one that a server writes is read, and else the first by name
both=$(copied both)
cp "$both/log.2000000d8" "$both/log.2000000d8.bak"
: >"$both/snapshot.2000000D6"
says "0 " files "$both"
cmp "$work/out" - <<END
$(cat examples/directories/follower.files)
snapshot.2000000D6 unread snapshot.2000000d6
log.2000000d8.bak unread log.2000000d8
END
mv "$both/log.2000000d8" "$both/log.2000000D8"
says "0 " files "$both"
[ "$(tail -n 1 "$work/out")" = "log.2000000d8.bak unread log.2000000d8" ]
says "0 " show "$both" last
cmp "$work/out" "$work/restored"
# names that a server leaves out
mkdir "$work/none"
touch "$work/none"/{log.,log.xyz,log.-1,log..d8,log_d8,snapshot,snapshot.0x1}
says "1 zk: D1" files "$work/none"
# a compressed log, which a server rejects too, and a compressed snapshot
compressed=$(copied compressed)
gzip -n "$compressed/log.2000000d8"
says "1 zk: G1 log.2000000d8" show "$compressed" last
gzip -n "$compressed/snapshot.2000000d6"
says "0 " files "$compressed"
grep -q '^snapshot.2000000d6 S6$' "$work/out"
echo "evidence: as real servers, or with a word"
