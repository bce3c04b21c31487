#!/usr/bin/env bash
# A log of a 3.3 server by the proved program: the first log's head, where the create ends after its boolean. Its tree is that
# of the head as a 3.4 server logs it, with the count; its listing goes both ways; breakpoints distinguish the two creates; and
# with one to three bytes of the count it is no record.
. checks/lib.sh
log=examples/first_log.log
old=examples/log_of_33

# created SUM LENGTH BYTES: the log with the first of these bytes as the second record; the numbers are in escaped bytes
created() {
    head -c 65 "$log"
    printf "\0\0\0\0$1\0\0\0$2"
    tail -c +78 "$log" | head -c "$3"
    printf B
}

created '\x81\x12\x07\x21' '\x48' 72 | cmp - "$old.log"
[ "$(stat -c %s "$old.log")" = 150 ]
"$zk" show "$old.log" last | cmp - examples/first_log_head.shown
"$zk" list "$old.log" | cmp - "$old.listing"
"$zk" asm "$old.listing" @ | cmp - "$old.log"
"$zk" debug "$old.log" "$old.script" | cmp - "$old.answers"

# Adler-32 of the first 73, 74 and 75 bytes of the record, and of all 76
created '\x88\x33\x07\x21' '\x49' 73 >"$work/73"
created '\x8f\x54\x07\x21' '\x4a' 74 >"$work/74"
created '\x96\x75\x07\x21' '\x4b' 75 >"$work/75"
created '\x9d\x97\x07\x22' '\x4c' 76 | cmp - <(head -c 154 "$log")
for length in 73 74 75; do
    [ "$(ends "$zk" list "$work/$length")" = "1 zk: G3 65" ]
    [ ! -s "$work/out" ]
done

# in a listing a create of 3.3 has no count, and is no part of a multi
sed '2s/$/ 1/' "$old.listing" >"$work/bad"
[ "$(ends "$zk" asm "$work/bad" @)" = "1 zk: L1 2" ]
sed '2s/create0/multi ; create0/' "$old.listing" >"$work/bad"
[ "$(ends "$zk" asm "$work/bad" @)" = "1 zk: L5 2" ]
echo "compat_33: its tree is that of a log of 3.4"
