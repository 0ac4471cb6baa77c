#!/bin/sh
# Instructions and seconds of the three reports over databases of many packages.
#
#   bench/reports.sh PROGRAM [COUNT..]     COUNT packages; 1000 and 10000 where none is given
#
# PROGRAM is crates/rpm_prog/out/rpm_prog (made by `rt run` there). Wants valgrind and python3 (Debian: apt-get install valgrind).
# The packages have 20 files and 20 requirements each. Each report is asked with an index that is there. At the end stands the order of a
# chain of 100,000 packages, each of which requires the next (CHAIN=COUNT for another length, 0 for none): its seconds alone.
set -euf

[ "${1-}" != --help ] || { sed -n '1d; /^#/!q; s/^# \{0,1\}//p' "$0"; exit; }
here=$(cd "$(dirname "$0")" && pwd)
[ $# -ge 1 ] || { echo "usage: reports.sh PROGRAM [COUNT..]" >&2; exit 2; }
program=$1
shift
[ $# -ge 1 ] || set -- 1000 10000

folder=$(mktemp -d)
trap 'rm -rf "$folder"' EXIT

# Makes a database with its index: KIND COUNT.
made() {
    rm -rf "$folder/base"
    mkdir "$folder/base"
    python3 "$here/make_reports.py" "$1" "$2" "$folder/base"
    "$program" rpmdb --dbpath "$folder/base" --rebuilddb > /dev/null
}

# Runs a report, and leaves its nanoseconds and what it printed: WORDS..
# A report that has lines ends with status 1; any other status but 0 ends this script.
timed() {
    status=0
    begin=$(date +%s%N)
    "$program" "$@" --dbpath "$folder/base" > "$folder/lines" < /dev/null || status=$?
    taken=$(($(date +%s%N) - begin))
    [ "$status" -le 1 ] || { echo "$*: status $status" >&2; exit 1; }
}

# A line of the table: KIND COUNT INSTRUCTIONS WORDS..
line() {
    kind=$1 count=$2 counted=$3
    shift 3
    echo "$counted $taken $(wc -l < "$folder/lines")" | awk -v name="$*" -v kind="$kind" -v count="$count" '{
        printf "| `%s` | %s | %d | %s | %.3f | %d |\n", name, kind, count, $1 == "-" ? $1 : sprintf("%.1f", $1 / 1e6), $2 / 1e9, $3 }'
}

# Measures a report: KIND COUNT WORDS..
row() {
    kind=$1 count=$2
    shift 2
    timed "$@"
    counted=$(valgrind --tool=callgrind --callgrind-out-file=/dev/null "$program" "$@" --dbpath "$folder/base" \
        2>&1 > /dev/null < /dev/null | awk '/Collected/ { print $4 }')
    line "$kind" "$count" "$counted" "$@"
}

echo '| Report | Packages are | Packages | Million instructions | Seconds | Lines |'
echo '|---|---|---|---|---|---|'
for packages in "$@"; do
    made mixed "$packages"
    row mixed "$packages" rpm -Va --nofiles
    row mixed "$packages" rpmdb --order
    row mixed "$packages" rpmdb --checkfiles
    made shared "$packages"
    row shared "$packages" rpmdb --checkfiles
done
if [ "${CHAIN:-100000}" -gt 0 ]; then
    made chain "${CHAIN:-100000}"
    timed rpmdb --order
    line chain "${CHAIN:-100000}" - rpmdb --order
fi
