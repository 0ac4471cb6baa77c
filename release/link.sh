#!/bin/sh
# Links the object that the gate left of the proved program, crates/rpm_prog/out/rpm_prog.o, into a program that needs no library where it runs. It
# takes half a second, and wants cc, ld, ar and libc.a (in Debian gcc, binutils and libc6-dev) and the toolchain.
#
#   release/link.sh PROGRAM    links it into this file; the same object, linker and libraries give the same bytes
#   release/link.sh --with     prints the lines of MANIFEST that say with what this machine links
set -eu
unset CDPATH
case ${1-} in
    '' | --help) sed -n '2,/^set /s/^# \{0,1\}//p' "$0"; [ $# -gt 0 ]; exit ;;
    --with) program= ;;
    *) program=$1 ;;
esac
here=$(cd -P -- "$(dirname -- "$0")/.." && pwd)

fail() {
    printf 'release/link.sh: %s\n' "$*" >&2
    exit 1
}

for tool in cc ld ar rt; do
    command -v "$tool" > /dev/null || fail "there is no $tool, so no program can be linked"
done
libc=$(cc -print-file-name=libc.a)
[ -f "$libc" ] || fail "there is no libc.a (in Debian of the package libc6-dev), so no program can be linked"
kit=$(dirname "$(rt doc)")/c

if [ -n "$program" ]; then
    object=$here/crates/rpm_prog/out/rpm_prog.o
    [ -f "$object" ] || fail "there is no $object: run .ci/run first"
    cc -static -s -o "$program" "$object" "$kit/libos_c.a" "$kit/liblibc_c.a"
else
    printf 'linker %s\n' "$(ld --version | head -n 1)"
    printf 'compiler %s\n' "$(cc --version | head -n 1)"
    printf 'libc %s\n' "$(ar p "$libc" version.o | strings | sed -n 's/^\(GNU C Library .*\)\.$/\1/p' | head -n 1)"
    # (all that stands in the program beside the object)
    for part in crt1.o crti.o crtbeginT.o libgcc.a libgcc_eh.a libc.a crtend.o crtn.o; do
        cc -print-file-name="$part"
    done | { cat; printf '%s\n' "$kit/libos_c.a" "$kit/liblibc_c.a"; } | while IFS= read -r file; do cat "$file"; done |
        sha256sum | sed 's/^\([0-9a-f]*\).*/libraries \1/'
fi
