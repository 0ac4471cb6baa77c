#!/bin/sh
# Says how the sources differ from those of which release/'s program was built: a line for each file that was changed, added or is missing, and
# none where they are the same. It takes a second.
#
#   release/differs.sh
set -eu
unset CDPATH
cd -P -- "$(dirname -- "$0")/.."
[ "${1-}" != --help ] || { sed -n '2,/^set /s/^# \{0,1\}//p' "$0"; exit; }
gzip -t release/sources.gz

{
    gzip -d -c release/sources.gz
    echo
    sh release/digest.sh --files
} | awk '
    { digest = substr($0, 1, 16); name = substr($0, 19) }
    $0 == "" { here = 1; next }
    !here { were[name] = digest; next }
    !(name in were) { print "added: " name; next }
    were[name] != digest { print "changed: " name }
    { delete were[name] }
    END { for (name in were) print "missing: " name }
' | LC_ALL=C sort
