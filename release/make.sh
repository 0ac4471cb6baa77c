#!/bin/sh
# Renews release/ from the object that the gate left (`.ci/run`, or `rt ci`), or `rt run` in crates/rpm_prog: links it into a program that needs no
# library, packs that, and writes MANIFEST and the list of the sources. It proves nothing, refuses an object that is older than a file that it is
# built from, and takes two seconds. It wants what release/link.sh wants.
#
#   release/make.sh
set -eu
unset CDPATH
cd -P -- "$(dirname -- "$0")/.."
[ "${1-}" != --help ] || { sed -n '2,/^set /s/^# \{0,1\}//p' "$0"; exit; }

fail() {
    printf 'release/make.sh: %s\n' "$*" >&2
    exit 1
}

object=crates/rpm_prog/out/rpm_prog.o
[ -f "$object" ] || fail "there is no $object: run .ci/run first"
newer=$(find crates crates.txt -path 'crates/*/out' -prune -o -type f -newer "$object" -print | head -n 1)
[ -z "$newer" ] || fail "$newer is newer than $object: run .ci/run first"

program=$(mktemp)
trap 'rm -f "$program"' EXIT
release/link.sh "$program"
gzip -9 -n -c "$program" > release/rpm_prog.gz
release/digest.sh --files | gzip -9 -n > release/sources.gz
{
    printf 'program %s\n' "$(sha256sum < "$program" | cut -d ' ' -f 1)"
    printf 'object %s\n' "$(sha256sum < "$object" | cut -d ' ' -f 1)"
    printf 'sources %s\n' "$(release/digest.sh)"
    printf 'toolchain %s\n' "$(rt version)"
    release/link.sh --with
} > release/MANIFEST
cat release/MANIFEST
