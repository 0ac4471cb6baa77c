#!/bin/sh
# Whether release/ is of this tree: its MANIFEST names the digest of these sources and this toolchain, and the packed program is the one that it
# names. Where the gate left the object of the proved program, that is the one that MANIFEST names; and where this machine has the linker and the
# libraries that MANIFEST names, the object is linked anew and gives the packed program, byte for byte. Then the packed program is asked in a root
# that has nothing but a database, where one can be entered. It proves nothing, and takes two seconds.
#
#   release/check.sh
set -eu
unset CDPATH
cd -P -- "$(dirname -- "$0")/.."
[ "${1-}" != --help ] || { sed -n '2,/^set /s/^# \{0,1\}//p' "$0"; exit; }

fail() {
    printf 'release: %s\n' "$*" >&2
    exit 1
}

# The rest of the MANIFEST's line that begins with this word.
told() {
    sed -n "s/^$1 //p" release/MANIFEST
}

digest() {
    sha256sum | cut -d ' ' -f 1
}

{ [ -f release/MANIFEST ] && [ -f release/rpm_prog.gz ]; } || fail "there is no program: run release/make.sh after the gate"
[ "$(told sources)" = "$(release/digest.sh)" ] || fail "the program is of other sources: run release/make.sh after the gate"
[ "$(told toolchain)" = "$(rt version)" ] || fail "the program is of another toolchain: run release/make.sh after the gate"
differing=$(release/differs.sh) && [ -z "$differing" ] || fail "sources.gz is of other sources: run release/make.sh"

room=$(mktemp -d)
trap 'rm -rf "$room"' EXIT
mkdir "$room/root" "$room/root/d"
gzip -d -c release/rpm_prog.gz > "$room/root/rpm"
[ "$(told program)" = "$(digest < "$room/root/rpm")" ] || fail "the packed program isn't the one that MANIFEST names"

object=crates/rpm_prog/out/rpm_prog.o
if [ ! -f "$object" ]; then
    echo "release: of these sources; no program was built here to compare"
elif [ "$(told object)" != "$(digest < "$object")" ]; then
    fail "$object is another one than that of the packed program: run release/make.sh"
elif release/link.sh --with > "$room/with" && sed -n '/^linker/,$p' release/MANIFEST | cmp -s - "$room/with"; then
    release/link.sh "$room/linked"
    cmp -s "$room/root/rpm" "$room/linked" || fail "$object is linked into another program than the one that is packed"
    echo "release: of these sources, and the program that was built here, byte for byte"
else
    echo "release: of these sources, and of the object that was built here; the program isn't compared, since this machine links with something else:"
    sed -n '/^linker/,$p' release/MANIFEST | diff - "$room/with" | sed -n 's/^[<>]/release:  &/p'
fi

chmod 755 "$room/root/rpm"
cp example/Packages.db "$room/root/d"
status=0
answer=$(release/in_root.sh "$room/root" /rpm --dbpath /d -qf /usr/bin/sh) || status=$?
if [ "$status" -eq 125 ]; then
    echo "release: no other root can be entered here, so the program wasn't asked in one that is empty"
elif [ "$status" -ne 0 ] || [ "$answer" != bash-5.1-2.x86_64 ]; then
    fail "the packed program doesn't answer in a root that has nothing but a database ($status, $answer)"
else
    echo "release: the packed program answers in a root that has nothing but a database"
fi
