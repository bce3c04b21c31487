#!/usr/bin/env bash
# Looks at the first log from several sides, with `zk`, or with the program that ZK names.
cd "$(dirname "$0")/.."
zk=${ZK:-zk}

echo "The tree after the last transaction of the log's first two entries:"
"$zk" show examples/first_log_head.log last

echo
echo "The same log as of its first transaction, from standard input:"
"$zk" show @ 0000000100000001 <examples/first_log_head.log

echo
echo "The same log, torn in its second entry:"
head -c 100 examples/first_log_head.log | "$zk" show @ last

echo
echo "The whole first log as text, one line for each transaction:"
"$zk" list examples/first_log.log

echo
echo "A log of that text, with a session timeout of a minute, and its tree:"
sed 's/createSession 30000/createSession 60000/; $d' examples/first_log.listing | "$zk" asm @ @ | "$zk" show @ last

echo
echo "A lock that a closed session deleted, found by a breakpoint on its path, with the tree before and after:"
"$zk" asm examples/lock.listing @ | "$zk" debug @ examples/lock.script
