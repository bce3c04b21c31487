#!/usr/bin/env bash
# A session with the debugger: it prints for a script's lines what a script prints, one by one, with faults in words, and reads
# nothing after `quit`. A malformed line is reported and dropped. A prompt comes at a terminal or if asked for, and nowhere else.
# Short forms, an empty line, and the session's own lines; and errors.
set -euo pipefail
work=$(mktemp -d)
trap 'rm -rf "$work"' EXIT
zk=$PWD/crates/zk_cli/out/zk_cli
log=$work/lock.log

# in_numbers: a session's faults as a script has them
in_numbers() { sed 's/^.* (\(B[1-6]\))$/\1/'; }

for example in lock multi; do
    files=examples/$example
    "$zk" asm "$files.listing" "$work/$example.log"
    "$zk" debug "$work/$example.log" <"$files.script" | in_numbers | cmp - "$files.answers"
done

# the last line may have no newline, and no line is none
printf %s "$(cat examples/lock.script)" | "$zk" debug "$log" | in_numbers | cmp - examples/lock.answers
[ -z "$("$zk" debug "$log" </dev/null)" ]

# the output of each line comes before the next line is there
coproc session { exec "$zk" debug "$log"; }
# (bash forgets the name once the session has ended)
pid=$session_PID
for place in 1 2 3; do
    echo step >&"${session[1]}"
    read -r -t 20 answer <&"${session[0]}"
    [[ $answer = "place $place "* ]]
done
echo quit >&"${session[1]}"
wait "$pid"

# the input after `quit` is left to the next reader
[ "$(printf 'step\nquit\nleft\n' | { "$zk" debug "$log" && cat; } | tail -n 1)" = left ]

# lines that say nothing
{
    printf '\nnode "/lock/"\n\ngoto 1\nlist x\nwhere\nstep\377\n'
    head -c 65537 /dev/zero | tr '\0' x
    printf '\nstep\n'
} >"$work/bad"
"$zk" debug "$log" <"$work/bad" >"$work/out"
cat >"$work/wanted" <<'END'
? a command; help lists them
? node PATH, in double quotes if it has a space
? node PATH, in double quotes if it has a space
? goto ZXID, of sixteen lower-case hexadecimal digits, or 0x and fewer
? list or list N, a number of lines
? a command; help lists them
? a line in UTF-8
? a line of at most 65,536 bytes
END
head -n 8 "$work/out" | cmp - "$work/wanted"
[[ $(tail -n 1 "$work/out") = "place 1 "* ]]

# prompts, where they are asked for
first=$(printf 'step\n' | "$zk" debug "$log")
[ "$(printf 'step\nquit\n' | "$zk" debug --prompt "$log")" = "zk 0 0000000000000000> $first
zk 1 ${first#place 1 }> " ]
printf 'step\n' | "$zk" debug "$log" --prompt >"$work/out"
[ "$(head -n 1 "$work/out")" = "zk 0 0000000000000000> $first" ]

# and at a terminal, which echoes the lines
# shows TEXT: waits until the terminal shows it
shows() {
    for ((tries = 0; tries < 1200; tries++)); do
        if grep -qF "$1" "$work/terminal"; then
            return
        fi
        sleep 0.05
    done
    echo "debug_session: the terminal does not show $1" >&2
    return 1
}
: >"$work/terminal"
{
    shows "zk 0 0000000000000000> "
    printf 'step\n'
    shows "zk 1 ${first#place 1 }> "
    printf 'quit\n'
} | script -qec "$zk debug $log" /dev/null >"$work/terminal"
grep -qF "$first" "$work/terminal"

# `tells PATTERN LINE..`: whether a session of these lines prints the pattern
# (by a file: a `grep -q` that stops early in a pipe is an output that fails)
tells() {
    local pattern=$1
    shift
    printf '%s\n' "$@" | "$zk" debug "$log" >"$work/out"
    grep -q -- "$pattern" "$work/out"
}
if tells '> ' step; then
    exit 1
fi

# means 'LINE..' 'LINE..': whether the first lines print what the second do
means() {
    printf "$1\n" | "$zk" debug "$log" >"$work/out"
    printf "$2\n" | "$zk" debug "$log" >"$work/long"
    [ -s "$work/long" ] && cmp "$work/out" "$work/long"
}

# short forms, and an empty line
means 's\nb\nr\nrb\ng 0x100000005' 'step\nback\nrun\nrunback\ngoto 0000000100000005'
means 'run\nnode /lock/holder\nbreak path /lock' 'run\nnode "/lock/holder"\nbreak path "/lock"'
means 's\n' 'step\nstep'
means 'break at 0x100000003\nbreak session 0x100000000000001\nr\n' 'break at 0000000100000003\nbreak session 0100000000000001\nrun\nrun'

# several steps, up to the end
[ "$(printf 'step 3\nstep 99\nstep 1\nback\nstep 1\n' | "$zk" debug "$log")" = 'place 3 0000000100000003
place 7 0000000100000007
end of the log (B1)
place 6 0000000100000006
place 7 0000000100000007' ]

# all below a path
[ "$(printf 'break prefix /lock\nbreak prefix /loc\nbreak kind error\nclear 2\ninfo breaks\nr\nr\nr\n' | "$zk" debug "$log")" = 'break 1
break 2
break 3
ok
1 prefix "/lock"
3 kind error
place 2 0000000100000002 hit 1
place 3 0000000100000003 hit 1
place 5 0000000100000005 hit 3' ]
[ "$(printf 'info breaks\nclear 7\nback\n' | "$zk" debug "$log")" = 'none
no breakpoint has this number (B3)
no earlier place (B2)' ]
[ "$(printf 'tree /lock\nrun\ntree /lock\ntree /loc\n' | "$zk" debug "$log" | cut -d " " -f 1)" = 'none
place
"/lock"
"/lock/holder"
none' ]

# what the last transaction changed, after a longer move
[ "$(printf 'run\ndiff last\n' | "$zk" debug "$log" | tail -n +2)" = "$(printf 'goto 0000000100000006\nrun\ndiff\n' | "$zk" debug "$log" | tail -n +3)" ]

# every line that help names, and the last move
tells '^  quit  ' help
tells '^  s, step \[N\]  ' help
tells '^>' step 'list 1'
tells '^+ "/lock' run diff

# ends STATUS WORD..: whether `zk WORD..` ends with this status; its errors are left in $work/err
ends() {
    local wanted=$1 status=0
    shift
    "$zk" "$@" >"$work/out" 2>"$work/err" </dev/null || status=$?
    [ "$status" = "$wanted" ]
}
ends 2 debug @
ends 2 debug --prompt @
ends 2 debug --prompt "$log" examples/lock.script
ends 2 show --prompt "$log" last
ends 1 debug examples/lock.script
[ "$(cat "$work/err")" = "zk: G1" ]
ends 1 debug "$work/none"
[ "$(cat "$work/err")" = "zk: read" ]
status=0
printf 'step\n' | "$zk" debug "$log" 2>"$work/err" >/dev/full || status=$?
[ "$status $(cat "$work/err")" = "1 zk: write" ]
status=0
"$zk" debug "$log" <"$work" 2>"$work/err" || status=$?
[ "$status $(cat "$work/err")" = "1 zk: read" ]
echo "debug_session: line by line as a script, with a prompt at a terminal alone"
