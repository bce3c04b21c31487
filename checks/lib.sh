# What the scripts of this folder share; each begins with `. checks/lib.sh`, at the top of a checkout: a folder for its files,
# the proved program, and how a run ends.
set -euo pipefail
work=$(mktemp -d)
trap 'rm -rf "$work"' EXIT
zk=${ZK:-$PWD/crates/zk_cli/out/zk_cli}

# ends COMMAND..: its status and its line on standard error, as one text; its output is left in $work/out
ends() {
    local status=0
    "$@" 2>"$work/err" >"$work/out" || status=$?
    echo "$status $(cat "$work/err")"
}
