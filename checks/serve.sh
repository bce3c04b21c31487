#!/usr/bin/env bash
# `zk serve`, by a client that is bash alone: errors for a port that is taken and for an output that fails; a reply to each kind of
# line; lines of up to 65,536 bytes, and longer ones, which do no harm; connections one after the other, of which the second sees the
# tree that the first one left; a client that disconnects within a line; a lock, held by an ephemeral node, whose watch fires once
# its holder has disconnected and expired; and a connection that opens another session once its own has expired.
set -euo pipefail
work=$(mktemp -d)
server=
trap '[ -z "$server" ] || kill "$server" 2>/dev/null || true; rm -rf "$work"' EXIT
zk=crates/zk_cli/out/zk_cli
open='1 31 "world" "anyone"'

# starts WORD..: three servers, on a port that is free; leaves it in $port, and their process in $server
starts() {
    local tries
    for ((tries = 0; tries < 50; tries++)); do
        port=$((20000 + RANDOM % 20000))
        # what an earlier one wrote is no sign of this one
        : >"$work/out"
        "$zk" serve "$port" 3 "$@" >"$work/out" 2>"$work/err" </dev/null &
        server=$!
        while kill -0 "$server" 2>/dev/null && [ ! -s "$work/out" ]; do
            sleep 0.02
        done
        if [ "$(cat "$work/out")" = "listening $port" ]; then
            return
        fi
        wait "$server" || true
    done
    return 1
}

# ends: the servers end by themselves, and have printed nothing more
ends() {
    wait "$server"
    server=
    [ "$(cat "$work/out")" = "listening $port" ]
    [ ! -s "$work/err" ]
}

connects() {
    exec 3<>"/dev/tcp/127.0.0.1/$port"
}

goes_away() {
    exec 3>&-
}

# asks LINE ANSWER..: the replies to the line, before the next is sent; a reply is plain text, but that a T means a time
asks() {
    local line=$1 wanted answer
    shift
    printf '%s\n' "$line" >&3
    for wanted in "$@"; do
        IFS= read -r -t 60 -u 3 answer
        wanted=$(printf '%s' "$wanted" | sed 's/[][\.*^$]/\\&/g; s/\bT\b/[0-9][0-9]*/g')
        if ! printf '%s\n' "$answer" | grep -qx -- "$wanted"; then
            printf '%s\n' "serve: $line is answered $answer, and not $wanted" >&2
            return 1
        fi
    done
}

# no connection at all
starts --conns 0
ends

# a port that is taken
starts
status=0
"$zk" serve "$port" 3 >"$work/taken" 2>"$work/why" </dev/null || status=$?
[ "$status" = 1 ]
[ ! -s "$work/taken" ]
[ "$(cat "$work/why")" = "zk: listen" ]
connects
asks 'ruok' 'imok'
goes_away
ends

# an output that fails
status=0
"$zk" serve "$port" 3 --conns 1 >/dev/full 2>"$work/why" </dev/null || status=$?
[ "$status" = 1 ]
[ "$(cat "$work/why")" = "zk: write" ]

# the lines of one connection
starts
connects
asks 'open 30000' 'ok 0000000100000001 30000'
asks 'create "/a" x6869 '"$open" 'ok "/a"'
asks 'get "/a"' 'ok x6869 0000000100000002 0000000100000002 T T 0 0 0 0000000000000000 2 0 0000000100000002'
asks 'ruok' 'imok'
asks 'ls -w "/"' 'ok 2 "a" "zookeeper" 0000000000000000 0000000000000000 0 0 0 0 0 0000000000000000 0 2 0000000100000002'
asks 'create "/b" x '"$open" 'event 4 "/"' 'ok "/b"'
asks 'sync "/a"' 'ok "/a"'
asks $'commit\nruok' 'err -8' 'imok'
goes_away
ends

# letters COUNT: that many letters
letters() {
    head -c "$1" /dev/zero | tr '\0' y
}

# is_read BYTES ANSWER: the reply to a line of this length, with its newline; and a reply to the next one
is_read() {
    local front='create "/l" "' back="\" $open" content
    content=$(letters $(($1 - ${#front} - ${#back} - 1)))
    starts
    connects
    asks 'open 30000' 'ok 0000000100000001 30000'
    asks "$front$content$back"$'\nruok' "$2" 'imok'
    goes_away
    ends
}

is_read 65535 'ok "/l"'
is_read 65536 'ok "/l"'
is_read 65537 'err -8'
is_read 70000 'err -8'
is_read 140000 'err -8'

# a long line that is none, without a session
starts
connects
asks "$(letters 70000)"$'\nruok' 'err -8' 'imok'
goes_away
ends

# three connections in turn; the first ends within a line, and leaves a session and what it holds
starts --conns=3
connects
asks 'create "/a" "hi" '"$open" 'err -112'
asks 'open 10000' 'ok 0000000100000001 10000'
asks 'create "/a" "hi" '"$open" 'ok "/a"'
asks 'get "/a"' 'ok x6869 0000000100000002 0000000100000002 T T 0 0 0 0000000000000000 2 0 0000000100000002'
asks 'create -e "/lock" "" '"$open" 'ok "/lock"'
printf 'set "/a" "gon' >&3
goes_away

# the second waits for the lock
connects
asks 'open 40000' 'ok 0000000100000004 40000'
asks 'ls "/"' 'ok 3 "a" "lock" "zookeeper" 0000000000000000 0000000000000000 0 0 0 1 0 0000000000000000 0 3 0000000100000003'
asks 'get "/a"' 'ok x6869 0000000100000002 0000000100000002 T T 0 0 0 0000000000000000 2 0 0000000100000002'
asks 'create -e "/lock" "" '"$open" 'err -110'
asks 'stat -w "/lock"' 'ok 0000000100000003 0000000100000003 T T 0 0 0 0000000100000001 0 0 0000000100000003'
# the holder expires 10 seconds after its last line
sleep 10.1
asks 'create "/woken" "" '"$open" 'event 2 "/lock"' 'ok "/woken"'
asks 'create -e "/lock" "" '"$open" 'ok "/lock"'
asks 'close' 'ok'
goes_away

# the third finds no lock, since the second has closed its session
connects
asks 'open 30000' 'ok 000000010000000a 30000'
asks 'stat "/lock"' 'err -101'
asks 'sync "/a"' 'ok "/a"'
asks 'multi'
asks 'create "/b" x '"$open"
asks 'check "/a" 1'
asks 'commit' 'err -103 ; 0 "/b" - ; -103 - -'
asks 'close' 'ok'
goes_away
ends
# an expired session ends at its connection with the reply to a request that says so, or to a read
starts
connects
asks 'open 1' 'ok 0000000100000001 4000'
sleep 4.1
asks 'create "/a" x '"$open" 'err -112'
asks 'create "/a" x '"$open" 'err -112'
asks 'close' 'err -112'
asks 'open 4000' 'ok 0000000100000004 4000'
asks 'create "/a" x '"$open" 'ok "/a"'
sleep 4.1
# it is closed at this line, which does not wait for that
asks 'sync "/a"' 'ok "/a"'
for ((tries = 0; tries < 1200; tries++)); do
    printf 'stat "/a"\n' >&3
    IFS= read -r -t 60 -u 3 answer
    [ "$answer" != 'err -112' ] || break
    sleep 0.05
done
asks 'stat "/a"' 'err -112'
asks 'stat "/a"' 'err -112'
asks 'open 30000' 'ok 0000000100000007 30000'
asks 'stat "/a"' 'ok 0000000100000005 0000000100000005 T T 0 0 0 0000000000000000 0 0 0000000100000005'
goes_away
ends
echo "serve: lines, long ones too, connections in turn, a lock that is passed on, sessions that expire, a port that is taken and an output that fails"
