#!/bin/sh
# Installs zk below a prefix: the program, its man page, its documents, and completions for bash and zsh.
#
# usage: ./install.sh [PREFIX]       (default: /usr/local)
set -eu
prefix=${1:-/usr/local}
cd "$(dirname "$0")"
find bin share -type f | while read -r file; do
    mkdir -p "$prefix/$(dirname "$file")"
    # a program that runs is replaced, not written into
    rm -f "$prefix/$file"
    cp "$file" "$prefix/$file"
done
chmod 755 "$prefix/bin/zk"
echo "installed: $prefix/bin/zk"
