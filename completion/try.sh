#!/usr/bin/env bash
# Tries the completions: what follows each line of completion/tries is what a shell makes of it.
#
#   completion/try.sh          the words of bash that may follow, without a terminal
#   completion/try.sh --typed  also typed into a real bash, and into a real zsh where there is one (completion/typed.py, which wants python3)
#
# A line after "$ " is followed by the words that may stand in place of its last one, a line each, or <files>, or <folders>; a line after "> " by
# what stands there when the tabulator was pressed, after "bash> " and "zsh> " in that shell alone. Each line after "@ " is the name of a package of
# the database h, begun bare and behind both quotes, completed, and run: the program has to get that very name, and nothing else may happen; "+ "
# names a package that h has beside. The shell is in a folder with a copy of example/real/68-packages.db in d and with h, and has the program of the
# gate or of release/ as rpm, rpmdb, juzkarg-rpm and juzkarg-rpmdb; without --noindex, which the completion has, that says its words and answers nothing.
# It takes four seconds, and fifteen with --typed.
set -euo pipefail
unset CDPATH
[ "${1-}" != --help ] || { sed -n '2,/^set /s/^# \{0,1\}//p' "$0"; exit; }
here=$(cd -P -- "$(dirname -- "$0")" && pwd)
room=$(mktemp -d)
trap 'rm -rf "$room"' EXIT
mkdir "$room/bin" "$room/d" "$room/folder"
program=$("$here/../release/program.sh" "$room")
for name in rpm rpmdb; do
    cat > "$room/bin/$name" <<END
#!/bin/sh
for word; do [ "\$word" != --noindex ] || exec "$program" $name "\$@"; done
printf '%s\\n' "\$@" END >> "$room/out"
END
    chmod 755 "$room/bin/$name"
    ln -s $name "$room/bin/juzkarg-$name"
done
cp "$here/../example/real/68-packages.db" "$room/d/Packages.db"
failed=0

# Compares what was printed with the lines of tries that begin so, and what follows them: SHELL PATTERN.
compare() {
    awk -v pattern="^($2) " '/^([$@+]|[a-z]*>) / { wanted = $0 ~ pattern } wanted && !/^#/' "$here/tries" | diff - "$room/printed" > "$room/differences" ||
        { sed "s/^/completion: $1: /" "$room/differences" >&2; failed=1; }
}

# The words of bash, which its function gives.
words_of_bash() {
    cd "$room"
    PATH=$room/bin:$PATH
    . "$here/rpm.bash"
    compopt() {
        case $2 in default) echo '<files>' ;; dirnames) echo '<folders>' ;; esac
    }
    # (whole words, and not as they stand on the line)
    _juzkarg_lines() {
        [ -z "$list" ] || sed "s/$(printf '\t').*//" <<< "$list" | awk -v prefix="$prefix" '{ print prefix $0 }'
    }
    while IFS= read -r line; do
        [[ $line == '$ '* ]] || continue
        printf '%s\n' "$line"
        COMP_LINE=${line#??} COMP_POINT=$((${#line} - 2)) COMPREPLY=()
        _juzkarg rpm ''
        [ ${#COMPREPLY[@]} -eq 0 ] || printf '%s\n' "${COMPREPLY[@]}"
    done < "$here/tries"
}

# Types the lines of a shell into it: SHELL SCRIPT PATTERN.
type_into() {
    grep -E "^($3) " "$here/tries" | "$here/typed.py" "$1" "$here/$2" "$room" > "$room/printed"
    compare "$1" "$3"
}

count=$(grep -c '^[$] ' "$here/tries")
(words_of_bash) > "$room/printed"
compare bash '[$]'
if [ "${1-}" = --typed ]; then
    mkdir "$room/h"
    sed -n 's/^[@+] //p' "$here/tries" | "$here/names.py" > "$room/names"
    "$program" rpmdb --dbpath "$room/h" --importdb < "$room/names"
    touch "$room/printed" "$room/differences" "$room/out" "$room/setup"
    ls -A "$room" > "$room/differences.before"
    type_into bash rpm.bash '(bash)?>|@'
    if command -v zsh > /dev/null; then
        type_into zsh _rpm '[$]|(zsh)?>|@'
    else
        echo 'completion: there is no zsh, so nothing is typed into it'
    fi
    ls -A "$room" | diff "$room/differences.before" - || { echo 'completion: something was run' >&2; failed=1; }
    count=$(grep -cE '^([$@]|[a-z]*>) ' "$here/tries")
fi
[ "$failed" -ne 0 ] || echo "completion: $count lines are completed as they have to be"
exit "$failed"
