#!/usr/bin/env bash
# Debug scripts by the proved program: the lock that a closed session took away, and a multi with the tree at each place, on
# files and on standard input; a malformed line, with the answers before it; an empty script; more breakpoints than there are
# numbers; and what can't be opened, read or written.
. checks/lib.sh
script=examples/lock.script
answers=examples/lock.answers
log=$work/lock.log

for example in lock multi; do
    files=examples/$example
    "$zk" asm "$files.listing" "$work/$example.log"
    "$zk" debug "$work/$example.log" "$files.script" | cmp - "$files.answers"
    "$zk" debug @ "$files.script" <"$work/$example.log" | cmp - "$files.answers"
    "$zk" debug "$work/$example.log" @ <"$files.script" | cmp - "$files.answers"
done

# the close of a session with 300 nodes is taken back, and done again
none=0000000000000000
world='1 31 "world" "anyone"'
{
    echo "0000000000000001 0000000000000007 0 1000 createSession 30000"
    for number in $(seq 300); do
        printf '%016x 0000000000000007 %d 1000 create "/n%03d" x %s e %d\n' "$((number + 1))" "$number" "$number" "$world" "$number"
    done
    printf '%016x 0000000000000007 301 2000 closeSession\n' 302
} >"$work/many.listing"
# root CVERSION CHILDREN PZXID: the line of `/`
root() {
    echo "\"/\" x $world $none $none 0 0 0 $1 0 $none 0 $2 $3"
}
system() {
    echo "\"/zookeeper\" x $world $none $none 0 0 0 -1 0 $none 0 1 $none"
    echo "\"/zookeeper/quota\" x $world $none $none 0 0 0 0 0 $none 0 0 $none"
}
{
    echo 'zxid 000000000000012d'
    echo 'session 0000000000000007 30000'
    root 299 301 000000000000012d
    for number in $(seq 300); do
        zxid=$(printf '%016x' "$((number + 1))")
        printf '"/n%03d" x %s %s %s 1000 1000 0 0 0 0000000000000007 0 0 %s\n' "$number" "$world" "$zxid" "$zxid" "$zxid"
    done
    system
} >"$work/open"
{
    echo 'zxid 000000000000012e'
    root 599 1 000000000000012e
    system
} >"$work/closed"
printf '%s\n' run tree back tree step tree >"$work/many.script"
{
    echo 'place 302 000000000000012e'
    cat "$work/closed"
    echo 'place 301 000000000000012d'
    cat "$work/open"
    echo 'place 302 000000000000012e'
    cat "$work/closed"
} >"$work/many.answers"
"$zk" asm "$work/many.listing" "$work/many.log"
"$zk" debug "$work/many.log" "$work/many.script" | cmp - "$work/many.answers"

# a last line without a newline counts
printf %s "$(cat "$script")" | "$zk" debug "$log" @ | cmp - "$answers"

# the answers to the lines before a malformed one are written
{
    head -n 3 "$script"
    echo 'node "/lock/"'
    cat "$script"
} >"$work/bad"
[ "$(ends "$zk" debug "$log" "$work/bad")" = "1 zk: script 4" ]
head -n 3 "$answers" | cmp - "$work/out"

# an empty script has no answers, and an empty line is malformed
[ "$(ends "$zk" debug "$log" /dev/null)" = "0 " ]
[ ! -s "$work/out" ]
echo >"$work/bad"
[ "$(ends "$zk" debug "$log" "$work/bad")" = "1 zk: script 1" ]
[ ! -s "$work/out" ]

# as many breakpoints can be set as there are numbers, each at the next one, and no number comes again
"$zk" asm /dev/null "$work/empty.log"
{
    seq 65535 | sed 's/.*/break error/'
    printf 'clear 1\nclear 1\nbreak error\n'
} >"$work/breaks"
{
    seq 65535 | sed 's/^/break /'
    printf 'ok\nB3\nB6\n'
} >"$work/wanted"
"$zk" debug "$work/empty.log" "$work/breaks" | cmp - "$work/wanted"

# both inputs are opened before either is read, and the log is loaded before the script is read
printf 'step\377' >"$work/bad"
[ "$(ends "$zk" debug "$log" "$work/bad")" = "1 zk: utf8" ]
[ "$(ends "$zk" debug "$script" "$work/none")" = "1 zk: read" ]
[ "$(ends "$zk" debug "$script" "$work/bad")" = "1 zk: G1" ]
[ "$(ends "$zk" debug "$log" "$work")" = "1 zk: read" ]
status=0
"$zk" debug "$log" "$script" 2>"$work/err" >/dev/full || status=$?
[ "$status $(cat "$work/err")" = "1 zk: write" ]
echo "debugger: a lock that a closed session took away, and a multi with the tree at each place"
