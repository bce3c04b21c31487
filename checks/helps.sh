#!/usr/bin/env bash
# The helps of `zk debug` and `zk run` list the lines of a script, and that of `zk serve` the lines of a connection: every word of the
# definitions of these lines, and no other. The helps list the options of the definitions of command lines, and no other. Each help lists
# the numbers of its command's errors, and names docs/ERRORS.md, which has each number and each word of the definitions of faults.
set -euo pipefail
work=$(mktemp -d)
trap 'rm -rf "$work"' EXIT
zk=crates/zk_cli/out/zk_cli
faults=docs/ERRORS.md

# defining PATTERN: the files whose definitions have a line that begins so
defining() {
    grep -lE "^($1)" crates/*/specs/*.antt
}

debug_lines=$(defining 'command_text commands\.Step')
session_lines=$(defining 'abbrev pub own_words')
run_lines=$(defining 'SpellsWorldEvent \(Lead|SpellsRequest \(requests\.Create|abbrev pub SpellsWeights')
serve_lines=$(defining 'SpellsRequest \(requests\.Create|pub record SpellsProof')
option_lines=$(grep -l 'codes "--[a-z]' crates/*/specs/*.antt)
fault_lines=$(defining 'line_of_(log_fault log_faults\.Header|mend_fault \(faults\.NoReason)|abbrev pub mismatch_line')
debug_numbers=$(defining 'fault_text faults\.AtEnd')
run_numbers=$(defining 'fault_text \(faults\.Behind')

# texts_in FILE..: the texts in definitions, each on a line; the scheme of an identity is no word of a line
texts_in() {
    sed '/\.scheme ≡/d' "$@" | grep -o 'codes "[^"]*"' | sed 's/^codes "//; s/"$//'
}

# words_in_help COMMAND: the words in the first column of a help's lists, with flags; a word in capitals is a field
words_in_help() {
    "$zk" "$1" --help </dev/null | grep '^  [a-z]' | sed 's/^  //; s/  .*//' | tr -d '[]' | tr ' ' '\n' | grep '^-\{0,1\}[a-z]' | sort -u
}

# lists COMMAND FILE..: the help has the words of these definitions
lists() {
    local command=$1
    shift
    texts_in "$@" | tr ' ' '\n' | grep '^-\{0,1\}[a-z]' | sort -u >"$work/defined"
    words_in_help "$command" >"$work/helped"
    [ -s "$work/defined" ]
    diff "$work/defined" "$work/helped"
}

lists debug $debug_lines $session_lines
lists run $run_lines
lists serve $serve_lines

# options_in_help COMMAND: the options of a command, without those of every program
options_in_help() {
    "$zk" "$1" --help </dev/null | sed -n '/^Options:/,/^$/p' | grep -oE '^ +--?[a-z-]+' | tr -d ' ' | grep -vx -- -h
}

for command in $("$zk" --help | sed -n '/^Commands:/,/^$/s/^  \([a-z]*\) .*/\1/p' | grep -vx help); do
    options_in_help "$command" >"$work/of_command"
    grep -qx -- --explain "$work/of_command"
    cat "$work/of_command" >>"$work/of_all"
done
sort -u "$work/of_all" >"$work/helped"
texts_in $option_lines | grep -oE '^--?[a-z][a-z-]*' | sort -u >"$work/defined"
diff "$work/defined" "$work/helped"

# the numbers of all faults; an allocation failure has a word, and never G8 or L8
numbers=$(texts_in $fault_lines $debug_numbers $run_numbers | grep -oE '\b[BCEGLN][0-9]+\b' | sort -u | grep -v '[GL]8')

# numbers_in_help COMMAND LETTERS: the help lists each number that begins with one of these letters
numbers_in_help() {
    local number
    "$zk" "$1" --help </dev/null >"$work/help"
    grep -qF "$faults" "$work/help"
    for number in $(grep "^[$2]" <<<"$numbers"); do
        grep -qE "^  $number\b" "$work/help"
    done
}

numbers_in_help show G
numbers_in_help list G
numbers_in_help asm L
numbers_in_help mend GN
numbers_in_help debug BG
numbers_in_help run E
numbers_in_help serve C

for number in $numbers; do
    grep -qE "^\\| (\`zk: )?$number\\b" "$faults"
done
for word in $(texts_in $fault_lines | grep -o '^zk: [a-z][a-z0-9]*' | sed 's/^zk: //' | sort -u) read write listen memory utf8; do
    grep -qE "^\\| \`zk: $word\\b" "$faults"
done
echo "helps: the words of scripts and connections, each option, and each fault"
