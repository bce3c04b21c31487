#!/usr/bin/env bash
# Lets each allocation fail in turn, from the first on until a run meets none, while the proved program shows
# examples/first_log_head.log, lists the first log, assembles its listing, and mends two logs of 3.8 servers; and the same for a log
# with a path of 200 bytes and contents that are longer than a buffer of output, of which it also writes a snapshot. Each run must end with the whole output, or with
# `zk: memory`, status 1, and a prefix of the output. A debug script may also go on after a line `B4`: a debugger that failed prints
# `B5` until it is reset, and then starts again with its breakpoints. If a breakpoint cannot be allocated, the rest is as if its line
# were not there. Run scripts have a check of their own, `alloc_failure_scripts.py`.
set -euo pipefail
work=$(mktemp -d)
trap 'rm -rf "$work"' EXIT
cc -shared -fPIC -O2 -o "$work/fail_alloc.so" checks/fail_alloc.c -ldl
zk=crates/zk_cli/out/zk_cli

# goes_on WHOLE: whether the output is WHOLE but for a line `B4` and lines `B5` right after it
goes_on() {
    awk -v first=B4 -v later=B5 '
        FNR == NR { whole[++lines] = $0; next }
        { out[++told] = $0 }
        END {
            while (same < lines && same < told && whole[same + 1] == out[same + 1]) same++
            if (same == lines && same == told) exit 0
            if (out[same + 1] != first) exit 1
            while (back < told - same - 1 && back < lines && whole[lines - back] == out[told - back]) back++
            for (at = same + 2; at <= told - back; at++) if (out[at] != later) exit 1
        }' "$1" "$work/out"
}

# `is_left_out REFUSED WORD.. SCRIPT`: whether the output, without its line REFUSED, is that of `zk WORD..` for the script without the
# line that led to it. Up to there each line of the script has one of the output.
is_left_out() {
    local refused=$1 words=("${@:2:$#-2}") script=${!#} line
    line=$(grep -n -m 1 -x "$refused" "$work/out" | cut -d : -f 1)
    [ -n "$line" ] || return 1
    sed "${line}d" "$script" >"$work/shorter"
    "$zk" "${words[@]}" "$work/shorter" >"$work/rest"
    {
        head -n "$((line - 1))" "$work/rest"
        echo "$refused"
        tail -n "+$line" "$work/rest"
    } | cmp -s - "$work/out" || return 1
    left_out=$((left_out + 1))
}

# refuse_each WHOLE WORD..: runs `zk WORD..`, whose output without a failure is the file WHOLE; leaves in `lines` how many runs had a
# line for the failure, and in `left_out` how many of these went on as if that line were not there
refuse_each() {
    local whole=$1 count=0 status
    lines=0
    left_out=0
    shift
    while :; do
        count=$((count + 1))
        status=0
        REFUSE=$count REFUSE_MET="$work/met" LD_PRELOAD="$work/fail_alloc.so" \
            "$zk" "$@" >"$work/out" 2>"$work/err" || status=$?
        if [ "$status" = 0 ]; then
            [ ! -s "$work/err" ]
            if ! cmp -s "$work/out" "$whole"; then
                lines=$((lines + 1))
                case $1 in
                debug) goes_on "$whole" || is_left_out B4 "$@" ;;
                *) cmp "$work/out" "$whole" ;;
                esac
            fi
        else
            [ "$status" = 1 ]
            [ "$(cat "$work/err")" = "zk: memory" ]
            # what was written before is a part of the output from its front
            cmp "$work/out" <(head -c "$(stat -c %s "$work/out")" "$whole")
        fi
        [ "$(cat "$work/met")" = met ] || break
        [ "$count" -lt 100000 ]
    done
    [ "$status" = 0 ]
    echo "alloc_failure_commands: $1 $(basename "$whole"), $((count - 1)) growths refused in turn"
}

refuse_each examples/first_log_head.shown show examples/first_log_head.log last
refuse_each examples/first_log.listing list examples/first_log.log
refuse_each examples/first_log.log asm examples/first_log.listing @
# (what is written is the report; the log stands in a file of its own)
refuse_each examples/stock/kinds.report mend examples/stock/kinds.log "$work/mended"
refuse_each examples/stock/close.report mend examples/stock/close.log "$work/mended"

# a path of 200 bytes, a line that fills more than one buffer, and after it one that needs a longer buffer still
path=/$(printf 'a%.0s' $(seq 199))
digits=$(printf '6b%.0s' $(seq 40000))
cat >"$work/long.listing" <<END
0000000100000001 0100000000000001 0 1000 createSession 30000
0000000100000002 0100000000000001 1 2000 create "$path" x$digits 1 31 "world" "anyone" p 1
0000000100000003 0100000000000001 2 3000 setData "$path" x$digits$digits$digits 1
0000000100000004 0100000000000001 3 4000 setData "$path" x6869 2
0000000100000005 0100000000000001 4 5000 closeSession
END
"$zk" asm "$work/long.listing" "$work/long.log"
"$zk" show "$work/long.log" last >"$work/long.shown"
grep -q "^\"$path\" x6869 " "$work/long.shown"
refuse_each "$work/long.shown" show "$work/long.log" last
refuse_each "$work/long.listing" list "$work/long.log"
refuse_each "$work/long.log" asm "$work/long.listing" @
# a snapshot of more than one part
mkdir "$work/long"
cp "$work/long.log" "$work/long/log.100000001"
"$zk" snapshot "$work/long" "$work/long.snapshot" --at 0x100000003
[ "$(stat -c %s "$work/long.snapshot")" -gt 120000 ]
refuse_each "$work/long.snapshot" snapshot "$work/long" @ --at 0x100000003

# a debug script without breakpoints: a failed line alters no result after it, but by the failed debugger
"$zk" asm examples/lock.listing "$work/lock.log"
cat >"$work/lock.script" <<END
step
run
last
node "/lock"
back
last
goto 0000000100000003
node "/lock/holder"
runback
reset
step
run
last
tree
END
"$zk" debug "$work/lock.log" "$work/lock.script" >"$work/lock.answers"
refuse_each "$work/lock.answers" debug "$work/lock.log" "$work/lock.script"
[ "$lines" -gt 0 ]

# breakpoints of each kind, which stop the moves after them; and after a reset the same moves again
cat >"$work/moves" <<END
run
last
run
run
runback
node "/lock"
run
END
{
    cat <<END
break path "/lock/holder"
break at 0000000100000005
break session 0100000000000001
break kind delete
break error
clear 3
END
    cat "$work/moves"
    echo reset
    cat "$work/moves"
    echo 'break path "/lock"'
} >"$work/breaks.script"
"$zk" debug "$work/lock.log" "$work/breaks.script" >"$work/breaks.answers"
refuse_each "$work/breaks.answers" debug "$work/lock.log" "$work/breaks.script"
[ "$left_out" -gt 0 ]

# the script over a multi, which stops at breakpoints; and after a reset its moves again, from its
# start
{
    head -n 13 examples/multi.script
    echo reset
    sed -n 3,13p examples/multi.script
} >"$work/worked.script"
{
    head -n 13 examples/multi.answers
    echo 'place 0 0000000000000000'
    sed -n 3,13p examples/multi.answers
} >"$work/worked.answers"
"$zk" asm examples/multi.listing "$work/multi.log"
refuse_each "$work/worked.answers" debug "$work/multi.log" "$work/worked.script"
[ "$lines" -gt "$left_out" ]
[ "$left_out" -gt 0 ]
