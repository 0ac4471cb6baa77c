#!/bin/sh
# Makes NAME.expected from rpm: reads each question there (a line that begins with "$ ") and writes after it what rpm answers over the same
# packages. Nothing of this program is run.
#
#   example/real/expect.sh            prints nothing where the files are current, else the differences, and fails
#   example/real/expect.sh --write    writes them
#
# Wants rpm and python3 (Debian: apt-get install rpm python3). The packages are read out of the bytes of NAME.db by
# crates/rpm_rows/models/read_store.py, and imported as a list into a database of rpm's own backend. Package numbers and what a list has are those of the bytes: rpm's import gives
# numbers of its own. A change is made on the packages that were read, and they are imported again.
set -eu
[ "${1-}" != --help ] || { sed -n '1d; /^#/!q; s/^# \{0,1\}//p' "$0"; exit; }
here=$(cd "$(dirname "$0")" && pwd)
for needed in rpm rpmdb python3; do
    command -v "$needed" > /dev/null || { echo "expect.sh: there is no $needed" >&2; exit 1; }
done
room=$(mktemp -d)
trap 'rm -rf "$room"' EXIT
HOME=$room TZ=UTC LC_ALL=C
export HOME TZ LC_ALL
. "$here/answers.sh"

# The numbers of the packages.
numbers() {
    ls "$room/packages" | sort -n
}

# The list of all headers.
list() {
    numbers | while read -r number; do cat "$room/packages/$number"; done
}

# Imports the packages into a new database of rpm's.
import() {
    rm -rf "$room/theirs"
    command rpmdb --dbpath "$room/theirs" --initdb
    list | command rpmdb --dbpath "$room/theirs" --importdb
}

# A question that begins each line with rpm's number of a package, with the number that the bytes have.
numbered() {
    command rpm --dbpath "$room/theirs" "$@" > "$room/lines"
    numbers | awk 'FILENAME == "-" { number[FNR] = $1; next } { sub(/^[0-9]+/, number[$1]); print }' - "$room/lines"
}

rpm() {
    # (rpm has no --noindex)
    [ "${2-}" != --noindex ] || { question=$1; shift 2; set -- "$question" "$@"; }
    case "$*" in
        --erasepkg*)
            shift
            for number in "$@"; do rm -- "$room/packages/$number"; done
            import
            ;;
        *'%{DBINSTANCE} '*) numbered "$@" ;;
        *) command rpm --dbpath "$room/theirs" "$@" ;;
    esac
}

# Adds the headers of the packages once more; the list on standard input has to be of all of them.
import_again() {
    list | cmp - /dev/fd/3 3<&0 || { echo 'expect.sh: only a whole list can be imported'; return 1; }
    for number in $(numbers); do
        cp "$room/packages/$number" "$room/packages/$following"
        following=$((following + 1))
    done
    import
}

rpmdb() {
    case $1 in
        --exportdb) list ;;
        --verifydb) command rpmdb --dbpath "$room/theirs" --verifydb ;;
        --importdb) import_again ;;
        *) echo "expect.sh: rpm isn't asked for $1"; return 1 ;;
    esac
}

failed=0
cd "$room"
for file in "$here"/*.db; do
    name=$(basename "$file" .db)
    mkdir "$room/packages"
    following=$("$here/../../crates/rpm_rows/models/read_store.py" "$file" "$room/packages")
    import
    answers "$here/$name.expected" > "$room/$name.expected"
    rm -r "$room/packages"
    if [ "${1-}" = --write ]; then
        cp "$room/$name.expected" "$here/$name.expected"
    else
        diff -u "$here/$name.expected" "$room/$name.expected" || failed=1
    fi
done
exit "$failed"
