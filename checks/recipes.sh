#!/usr/bin/env bash
# Runs the recipe of docs/CLI.md over a log of examples/lock.listing with a corrupt entry. The output is compared with a file of
# examples/recipes, worked out by hand from the listing and from the lengths of its records. It also runs over a log of a 3.8 server:
# the tree is what that server said.
set -euo pipefail
work=$(mktemp -d)
trap 'rm -rf "$work"' EXIT
listing=examples/lock.listing
expected=$PWD/examples/recipes
recipes=docs/CLI.md
alone=examples/stock/check_alone
mkdir "$work/bin"
ln -s "$PWD/crates/zk_cli/out/zk_cli" "$work/bin/zk"
PATH=$work/bin:$PATH

zk asm "$listing" "$work/whole"

# corrupt LOG AT: a log with a wrong byte at AT
corrupt() {
    head -c "$2" "$1"
    printf '\377'
    tail -c "+$(($2 + 2))" "$1"
}
# the third entry begins at byte 155: after the header's 16 bytes, and entries of 49 and 90 bytes
corrupt "$work/whole" 200 >"$work/corrupt"

# prints HEADING LOG [LINE]: what the recipe below a heading prints over a log, and then a line of the shell
prints() {
    awk -v heading="### $1" '$0 == heading { found = 1 } found && /^```$/ { exit } inside { print } found && /^```sh$/ { inside = 1 }' \
        "$recipes" >"$work/recipe"
    [ -s "$work/recipe" ]
    echo "${3-}" >>"$work/recipe"
    rm -rf "$work/run"
    mkdir "$work/run"
    (
        cd "$work/run"
        LOG=$2 bash -u "$work/recipe" 2>"$work/err"
    )
}

# runs HEADING LOG NAME: the recipe prints the file NAME over a log
headings=
runs() {
    prints "$1" "$2" | cmp - "$expected/$3.expected"
    headings+=$1$'\n'
}

# nodes: the lines of nodes outside /zookeeper, of a report
nodes() {
    grep '^"' | grep -v '^"/zookeeper["/]'
}

runs "The tree before a corrupt entry" "$work/corrupt" tree_before_a_corrupt_entry

# ---- a log of a 3.8 server
# the entry of zxid b, which comes after the node lines of zxid a, begins where the first ten entries end
at=$(python3 -c 'import struct, sys
log, at = open(sys.argv[1], "rb").read(), 16
for _ in range(10):
    at += 13 + struct.unpack_from(">I", log, at + 8)[0]
print(at)' "$alone/log.1")
corrupt "$alone/log.1" $((at + 12)) >"$work/corrupt"
prints "The tree before a corrupt entry" "$work/corrupt" | nodes | cmp - "$alone/000000000000000a.nodes"

# each recipe was run
[ "$(printf '%s' "$headings" | sort -u | wc -l)" = "$(grep -c '^```sh$' "$recipes")" ]
echo "recipes: as worked out by hand, and as a 3.8 server said"
