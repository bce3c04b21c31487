#!/usr/bin/env bash
# With --explain, a line for an error is followed by what it means and what helps; without it, scripts see the one line. Each error of
# the first column of docs/ERRORS.md's list for standard error has an explanation.
. checks/lib.sh
log=examples/first_log.log
printf 'not a log at all' >"$work/text"
[ "$(ends "$zk" show "$work/text" last)" = "1 zk: G1" ]
for words in "--explain show $work/text last" "show --explain $work/text last" "show $work/text last --explain"; do
    # shellcheck disable=SC2086
    ends "$zk" $words | grep -qx "It is no transaction log: .*"
done
[ "$(ends "$zk" --explain show "$log" last)" = "0 " ]
[ "$(ends "$zk" show --explain "$work/none" last | sed -n 2p)" = "An input cannot be opened or read; of a time, it must be a directory." ]
# on a terminal, as `script` gives one
if command -v script >/dev/null; then
    { script -qec "$zk show $work/text last" /dev/null || true; } | tr -d '\r' | grep -qx "It is no transaction log: .*"
fi

# each error of the page has words
named=$(sed -n 's/^| `zk: \([A-Za-z0-9]*:\{0,1\}\)[ `].*/\1/p' docs/ERRORS.md | sort -u)
for code in $named; do
    grep -qF "code: \"$code\"" crates/zk_helps/src/explanations.rt
done
echo "explanations: $(wc -w <<<"$named") errors of the page"
