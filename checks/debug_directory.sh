#!/usr/bin/env bash
# `zk debug` over the real directory examples/directories/follower: where a debugger starts, which places it reaches, and the trees
# there, which are what the live servers said to a client (examples/directories/README.md). By its lines in
# examples/directories/follower.files, the latest snapshot is exact at 2000000d6, and 105 transactions follow, up to 20000013f.
. checks/lib.sh
real=$PWD/examples/directories/follower
lines=$PWD/examples/directories/follower.files
mkdir "$work/data" "$work/logs" "$work/snapshots"
cp -r "$real" "$work/data/version-2"
cp "$real"/log.* "$work/logs"
cp "$real"/snapshot.* "$work/snapshots"

cat >"$work/script" <<'END'
back
run
step
goto 00000002000000d7
back
back
goto 00000002000000d8
reset
runback
END
cat >"$work/answers" <<'END'
B2
place 105 000000020000013f
B1
place 1 00000002000000d7
place 0 00000002000000d6
B2
place 2 00000002000000d8
place 0 00000002000000d6
B2
END

# in_numbers: a session's faults as a script has them
in_numbers() { sed 's/^.* (\(B[1-6]\))$/\1/'; }

# answers WORD..: `zk debug WORD..`, where SCRIPT is the script's path or `@`, prints the answers with status 0; and so does a session
answers() {
    [ "$(ends "$zk" debug "$@" <"$work/script")" = "0 " ]
    in_numbers <"$work/out" | cmp - "$work/answers"
}
answers "$real" "$work/script"
answers "$real" @
answers "$real"
answers "$work/data" "$work/script"
answers "$work/data/version-2"

# the tree at a place is the live server's
printf 'goto 000000020000013d\ntree\n' >"$work/looks"
[ "$(ends "$zk" debug "$real" "$work/looks")" = "0 " ]
[ "$(head -n 2 "$work/out")" = $'place 103 000000020000013d\nzxid 000000020000013d' ]
grep '^"' "$work/out" | grep -v '^"/zookeeper/config"' | cmp - examples/directories/follower.000000020000013d.nodes
# and so it is after a way back from the end
printf 'run\nback\nback\ntree\n' >"$work/looks"
[ "$(ends "$zk" debug "$real" "$work/looks")" = "0 " ]
grep '^"' "$work/out" | grep -v '^"/zookeeper/config"' | cmp - examples/directories/follower.000000020000013d.nodes

# a start that is asked for: after a zxid, a time, or the last transaction. The log of 2000000d8 has each zxid up to 2000000013f
# once, as `zk files` counts, and the earlier snapshot is exact at 20000004e
starts() {
    local answers=$1 lines=$2
    shift 2
    [ "$(printf '%b' "$lines" | "$zk" debug "$real" "$@" | in_numbers)" = "$(printf '%b' "$answers")" ]
}
starts 'place 1 00000002000000e8\nplace 0 00000002000000e7\nB2\n' 'step\nback\nback\n' --from 00000002000000e7
starts 'place 1 00000002000000e8\n' 'step\n' --from=2026-11-27T14:56:48.220
starts 'B1\nB2\nplace 0 000000020000013f\n' 'step\nback\nreset\n' --from last
starts 'place 137 00000002000000d7\nplace 0 000000020000004e\n' 'goto 00000002000000d7\nreset\n' --from 000000020000004e
[ "$("$zk" debug --from 000000020000004e "$real" "$work/looks" | grep '^"' | grep -v '^"/zookeeper/config"')" = "$(cat examples/directories/follower.000000020000013d.nodes)" ]
answers --logs "$work/logs" "$work/snapshots" "$work/script"
answers "$work/snapshots" --logs="$work/logs"
rejects() {
    [ "$(ends "$zk" debug "$@" <"$work/script" | head -n 1)" = "2 error: ZXID is neither sixteen lower-case hexadecimal digits, \`last\`, nor a time such as 2026-11-27T14:03" ]
}
rejects "$real" --from 20000004e
rejects "$real" "$work/script" --from=now

# a session has a prompt with the zxid of the place
[ "$(printf 'step\n' | "$zk" debug --prompt "$real")" = "zk 0 00000002000000d6> place 1 00000002000000d7
zk 1 00000002000000d7> " ]

# fails LINE WORD..: `zk debug WORD..` prints nothing but this line on standard error, with status 1
fails() {
    local line=$1
    shift
    [ "$(ends "$zk" debug "$@" <"$work/script")" = "1 zk: $line" ]
    [ ! -s "$work/out" ]
}
mkdir "$work/empty"
fails D1 "$work/empty" "$work/script"
fails D1 "$work/empty"
fails read "$work/none" "$work/script"
fails read "$real" "$work/none"
fails "D2 000000010000022d" "$work/logs" "$work/script"
# a log that is missing: the earlier snapshot is passed by, or the logs are not whole
cp -r "$real" "$work/missing"
rm "$work/missing/snapshot.2000000d6" "$work/missing/log.200000050"
fails "D3 000000020000004f 00000002000000d8" "$work/missing"
cp -r "$real" "$work/corrupt"
printf '\377' | dd of="$work/corrupt/log.2000000d8" bs=1 seek=8700 conv=notrunc status=none
fails "G2 log.2000000d8 8657" "$work/corrupt"
printf 'step\nstop\n' >"$work/bad"
[ "$(ends "$zk" debug "$real" "$work/bad")" = "1 zk: script 2" ]
[ "$(cat "$work/out")" = "place 1 00000002000000d7" ]
echo "debug_directory: places and trees of a real directory"
