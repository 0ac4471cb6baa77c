#!/bin/sh
# Prints where the program is, to try: the one of release/, unpacked into FOLDER, where it is the one that MANIFEST names and no other object was
# built here; else the one that the gate left.
#
#   release/program.sh FOLDER
set -eu
unset CDPATH
case $# in
    1) ;;
    *) echo 'usage: release/program.sh FOLDER' >&2; exit 2 ;;
esac
[ "$1" != --help ] || { sed -n '2,/^set /s/^# \{0,1\}//p' "$0"; exit; }
folder=$(cd -P -- "$1" && pwd)
cd -P -- "$(dirname -- "$0")/.."

# Whether MANIFEST has this line: WORD FILE, where it names the file's digest.
names() {
    grep -qxF "$1 $(sha256sum < "$2" | cut -d ' ' -f 1)" release/MANIFEST
}

built=$(pwd)/crates/rpm_prog/out/rpm_prog
if [ -x "$built" ] && ! { [ -f "$built.o" ] && names object "$built.o"; }; then
    echo "$built"
    exit
fi
gzip -d -c release/rpm_prog.gz > "$folder/rpm_prog"
names program "$folder/rpm_prog" || { echo "release/program.sh: the packed program isn't the one that MANIFEST names" >&2; exit 1; }
chmod 755 "$folder/rpm_prog"
echo "$folder/rpm_prog"
