#!/bin/sh
# Whether the completions are current for the tables of the code, and bash (and zsh, where there is one) completes the lines of completion/tries as it
# has to. They are typed into real shells where there is python3. It takes a quarter of a minute.
#
#   completion/check.sh
set -eu
unset CDPATH
[ "${1-}" != --help ] || { sed -n '2,/^set /s/^# \{0,1\}//p' "$0"; exit; }
cd -P -- "$(dirname -- "$0")"
if command -v python3 > /dev/null; then
    ./make.py --check
    ./try.sh --typed
else
    echo "completion: there is no python3, so it isn't known whether the completions are current, and nothing is typed into a shell"
    ./try.sh
fi
