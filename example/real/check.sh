#!/bin/sh
# Whether the program answers over each database of this folder, which rpm's own code wrote, as NAME.expected has it: it is listed,
# exported, verified, asked by key, changed and asked again. Those answers come from rpm (expect.sh), not from the program.
#
#   example/real/check.sh [PROGRAM]    PROGRAM is crates/rpm_prog/out/rpm_prog or such; the gate's or release/'s where none is given
#
# Copies are asked, in folders that are removed at the end. Each difference is a line, and it fails.
set -eu
[ "${1-}" != --help ] || { sed -n '1d; /^#/!q; s/^# \{0,1\}//p' "$0"; exit; }
here=$(cd "$(dirname "$0")" && pwd)
room=$(mktemp -d)
# (in memory where that can be: there an fsync takes no time)
databases=$(mktemp -d -p /dev/shm 2> /dev/null || mktemp -d)
trap 'rm -rf "$room" "$databases"' EXIT
HOME=$room TZ=UTC LC_ALL=C
export HOME TZ LC_ALL
program=${1-$("$here/../../release/program.sh" "$room")}
[ -x "$program" ] || { echo "real: there is no program $program" >&2; exit 1; }
program=$(cd "$(dirname "$program")" && pwd)/$(basename "$program")
. "$here/answers.sh"

rpm() {
    "$program" rpm --dbpath "$database" "$@"
}

rpmdb() {
    "$program" rpmdb --dbpath "$database" "$@"
}

failed=0
cd "$room"
for file in "$here"/*.db; do
    name=$(basename "$file" .db)
    database=$databases/$name
    mkdir "$database"
    cp "$file" "$database/Packages.db"
    chmod u+w "$database/Packages.db"
    answers "$here/$name.expected" > "$room/answers"
    if ! diff "$here/$name.expected" "$room/answers" > "$room/differences"; then
        sed "s/^/real: $name: /" "$room/differences" >&2
        failed=1
    fi
done
[ "$failed" -ne 0 ] || echo "real: the databases that rpm's own code wrote are answered as rpm answers"
exit "$failed"
