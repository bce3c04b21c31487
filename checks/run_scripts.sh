#!/usr/bin/env bash
# Run scripts by the proved program: each script of examples/runs against its answers, on a file and on standard input; a
# malformed line, with the answers before it; scripts without a first line; and what can't be opened, read or written.
. checks/lib.sh
scripts=examples/runs
first=$scripts/first_session_commits

for script in "$scripts"/*.script; do
    "$zk" run "$script" | cmp - "${script%.script}.answers"
    "$zk" run @ <"$script" | cmp - "${script%.script}.answers"
done

# each script whose first line has no weights has the same output if that gives each server the weight 1
for script in "$scripts"/*.script; do
    servers=$(sed -n '1s/^servers \([0-9]*\)$/\1/p' "$script")
    [ -n "$servers" ] || continue
    sed "1s/\$/ weights$(printf ' 1%.0s' $(seq "$servers"))/" "$script" | "$zk" run @ | cmp - "${script%.script}.answers"
done

# one commit of 300 entries: the leader alone is a quorum, and a follower that joins again has its whole history before the commit
opened=$(for tag in $(seq 300); do printf '00000001%08x\n' "$tag"; done)
{
    printf '%s\n' 'servers 3 weights 3 1 1' 'lead 1' 'follow 2 1' 'arrive 1' 'arrive 2' 'arrive 3' 'arrive 4' 'arrive 5'
    seq 300 | sed 's/.*/submit 1 & 0000000000000000 0 1000 0 open 30000/'
    printf '%s\n' 'follow 2 1' 'arrive 607' 'arrive 608' 'arrive 609' 'arrive 610' 'arrive 611' 'delivered 2' 'arrive 612' 'delivered 2' 'answers 2'
} >"$work/many.script"
{
    printf '%s\n' ok ok 'ok 1' 'ok 2' 'ok 3' 'ok 4' 'ok 5' 'ok 6'
    for tag in $(seq 300); do echo "ok $((2 * tag + 5)) $((2 * tag + 6))"; done
    printf '%s\n' 'ok 607' 'ok 608' 'ok 609' 'ok 610' 'ok 611' 'ok 612' 'lines 0' ok 'lines 300'
    for zxid in $opened; do echo "$zxid $zxid 0 1000 createSession 30000"; done
    echo 'lines 300'
    paste -d ' ' <(seq 300) <(for zxid in $opened; do echo "result $zxid 0 - -"; done)
} >"$work/many.answers"
"$zk" run "$work/many.script" | cmp - "$work/many.answers"

# a last line without a newline counts
printf %s "$(cat "$first.script")" | "$zk" run @ | cmp - "$first.answers"

# the answers to the lines before a malformed one are written
for line in 'servers 3' 'lead 01' 'lead +1' 'lead' 'lead 1 2' 'tree 0' 'tree 4' 'history 4' 'history' 'syncs 4' 'syncs 0' 'syncs' 'syncs 1 1' 'sync 1' 'sync 1 01' 'sync 1 1 1' ''; do
    {
        head -n 3 "$first.script"
        echo "$line"
        cat "$first.script"
    } >"$work/bad"
    [ "$(ends "$zk" run "$work/bad")" = "1 zk: script 4" ]
    head -n 3 "$first.answers" | cmp - "$work/out"
done

# the first line has the number of servers and their weights, and nothing else
for line in '' 'servers' 'servers 1' 'servers 16' 'servers 03' 'servers 3 ' 'servers 3 weights' 'servers 3 weights ' \
    'servers 3 weights 1 1' 'servers 3 weights 1 1 1 1' 'servers 3 weights 1 1 1 ' 'servers 3 weights 0 0 0' 'servers 3 weights 1 1 01' \
    'servers 3 weights 1 1 4294967296' 'servers 3  weights 1 1 1' 'servers 3 weight 1 1 1' 'servers 1 weights 1' 'lead 1'; do
    printf '%s\nlead 1\n' "$line" >"$work/bad"
    [ "$(ends "$zk" run "$work/bad")" = "1 zk: script 1" ]
    [ ! -s "$work/out" ]
done
[ "$(ends "$zk" run /dev/null)" = "1 zk: script 1" ]
[ ! -s "$work/out" ]

# what is not in UTF-8, can't be opened or read, or can't be written
printf 'servers 3\nlead 1\n\377\n' >"$work/bad"
[ "$(ends "$zk" run "$work/bad")" = "1 zk: utf8" ]
[ ! -s "$work/out" ]
[ "$(ends "$zk" run "$work/none")" = "1 zk: read" ]
[ "$(ends "$zk" run "$work")" = "1 zk: read" ]
status=0
"$zk" run "$first.script" 2>"$work/err" >/dev/full || status=$?
[ "$status $(cat "$work/err")" = "1 zk: write" ]
