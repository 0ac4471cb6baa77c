#!/bin/sh
# The quick trials of what no proof reaches, side by side:
#
#     trials/quick.sh PROGRAM [RPM_WITH_NDB]
#
# PROGRAM is crates/rpm_prog/out/rpm_prog. Crashes (crashes.py), hard cases beside rpm (hard_cases.py), two commands at once (together.py), and rpm itself over
# ndb on one folder (beside_rpm.py), where a RPM_WITH_NDB is named, which trials/rpm-with-ndb makes. Wants strace, setpriv, rpm of Debian 12, and to be root. It
# takes about a minute on four free cores. What a trial prints is shown where it fails; then this fails too.
set -u
case ${1-} in
-h | --help)
    sed -n '2,/^set /s/^# \{0,1\}//p' "$0"
    exit 0 ;;
'' | -*)
    echo 'usage: trials/quick.sh PROGRAM [RPM_WITH_NDB]' >&2
    exit 2 ;;
esac
here=$(cd -P -- "$(dirname "$0")" && pwd)
[ -n "${TMPDIR-}" ] || [ ! -w /dev/shm ] || export TMPDIR=/dev/shm
found=$(mktemp -d)
trap 'rm -rf "$found"' EXIT

# A trial in the background: its name, and its command line.
try() {
    name=$1
    shift
    { begin=$(date +%s); "$@" > "$found/$name.out" 2>&1; echo "$? $(($(date +%s) - begin))" > "$found/$name"; } &
}
try crashes "$here/crashes.py" "$1" --quick --databases none,small
try hard_cases "$here/hard_cases.py" "$1" --quick
try together "$here/together.py" "$1" --quick
[ -z "${2-}" ] || try beside_rpm "$here/beside_rpm.py" "$1" "$2" --quick
wait

failed=0
for name in crashes hard_cases together beside_rpm; do
    [ -e "$found/$name" ] || continue
    read -r status seconds < "$found/$name"
    echo "$name: status $status, $seconds s"
    [ "$status" -eq 0 ] || { failed=1; cat "$found/$name.out"; }
done
exit "$failed"
