#!/usr/bin/env bash
# Shows the log that a real ZooKeeper server wrote, at each zxid for which the server's own word on its tree is there, and
# compares the nodes outside /zookeeper and the sessions. Nothing in examples/real was computed by this project.
set -euo pipefail
work=$(mktemp -d)
trap 'rm -rf "$work"' EXIT
count=0
for nodes in examples/real/*.nodes; do
    zxid=$(basename "$nodes" .nodes)
    crates/zk_cli/out/zk_cli show examples/real/log.1 "$zxid" >"$work/shown"
    [ "$(head -n 1 "$work/shown")" = "zxid $zxid" ]
    [ "$(tail -n 1 "$work/shown")" = "end whole" ]
    grep '^"' "$work/shown" | grep -v '^"/zookeeper["/]' | cmp - "$nodes"
    { grep '^session ' "$work/shown" || true; } | cmp - "examples/real/$zxid.sessions"
    count=$((count + 1))
done
[ "$count" = 8 ]
echo "real_log: $count states are the server's"
