#!/usr/bin/env bash
# Builds the release archive of the proved program, out/zk-VERSION-x86_64-linux.tar.gz, installs it below a prefix, and tries what was
# installed: the program, the completions of bash, and the man page, where a program here can print one.
. checks/lib.sh
version=$("$zk" --version | sed 's/^zk \([0-9.]*\).*/\1/')
name=zk-$version-x86_64-linux
mkdir -p out
python3 release/build.py "$zk" "out/$name.tar.gz" >/dev/null
tar -xzf "out/$name.tar.gz" -C "$work"
"$work/$name/install.sh" "$work/prefix" >/dev/null

# the installed program shows what the built one shows
"$work/prefix/bin/zk" show examples/directories/follower last >"$work/one"
"$zk" show examples/directories/follower last >"$work/two"
cmp "$work/one" "$work/two"
# its version names the commit, unless there are changes
if git diff --quiet HEAD 2>/dev/null; then
    [ "$("$work/prefix/bin/zk" --version)" = "zk $version, commit $(git rev-parse HEAD)" ]
fi

# each command is in the man page and in the completions, with each of its options
page=$work/prefix/share/man/man1/zk.1
bash_words=$work/prefix/share/bash-completion/completions/zk
zsh_words=$work/prefix/share/zsh/site-functions/_zk
for command in $("$zk" --help | sed -n '/^Commands:/,/^$/s/^  \([a-z]*\) .*/\1/p'); do
    grep -qw "$command" "$bash_words"
    [ "$command" != help ] || continue
    grep -qx "\.SH ${command^^}" "$page"
    grep -q "^        '$command:" "$zsh_words"
    sed -n "/^\.SH ${command^^}\$/,/^\.fi/p" "$page" | tr -d '\\' >"$work/section"
    for option in $("$zk" "$command" --help | sed -n '/^Options:/,/^$/p' | grep -oE '^ +(-h, )?--?[a-z-]+' | sed 's/-h, //'); do
        grep -qE -- "^ +(-h, )?$option\b" "$work/section"
        grep -qE -- "^        $command\) options=.*[\" ]$option[\" ]" "$bash_words"
        grep -qF -- "'$option[" <(grep "^        $command) _arguments" "$zsh_words")
    done
done
if command -v groff >/dev/null; then
    groff -man -Tascii -ww "$page" 2>"$work/err" >"$work/out"
    [ ! -s "$work/err" ]
fi
completed=$(bash -c "
    . '$work/prefix/share/bash-completion/completions/zk'
    COMP_WORDS=(zk hi) COMP_CWORD=1; _zk; echo \"\${COMPREPLY[@]}\"
    COMP_WORDS=(zk show --l) COMP_CWORD=2; _zk; echo \"\${COMPREPLY[@]}\"")
[ "$completed" = $'history\n--logs' ]

# a second archive of the same is the same
python3 release/build.py "$zk" "$work/$name.tar.gz" >/dev/null
cmp "out/$name.tar.gz" "$work/$name.tar.gz"
echo "release: out/$name.tar.gz, $(stat -c %s "out/$name.tar.gz") bytes"
