#!/bin/sh
# Tries install.sh: over links, another rpm, full disks, a program that runs, files that were changed, lists that were forged, ends between two
# moves, and from wherever it is called. Each case is what somebody could lose by an installation.
#
#   release/try.sh [CASE..]    all cases, or these of release/cases.sh
#
# It installs below folders of its own, from a small tree with this install.sh, release/, man/ and completion/, and with the program of the gate
# or of release/. It takes a quarter of a minute and needs no rights; what it has no rights to (an empty root, a small disk) it says.
set -eu
unset CDPATH
[ "${1-}" != --help ] || { sed -n '2,/^set /s/^# \{0,1\}//p' "$0"; exit; }
here=$(cd -P -- "$(dirname -- "$0")/.." && pwd)
room=$(cd -P -- "$(mktemp -d)" && pwd)
mounted=
trap '[ -z "$mounted" ] || umount "$mounted"; rm -rf "$room"' EXIT
failed=0
case=start

wrong() {
    printf 'release/try.sh: %s: %s\n' "$case" "$*" >&2
    [ ! -s "$room/said" ] || sed 's/^/    /' "$room/said" >&2
    failed=1
}

# Begins a case: what it is about.
begin() {
    case=$1
    rm -rf "$room/P" "$room/other"
    P=$room/P
    mkdir "$room/other"
    : > "$room/said"
}

# Runs the installer of a tree, with a PATH that has no rpm but what stands in other: STATUS TREE WORD..
run() {
    wanted=$1 tree=$2
    shift 2
    status=0
    PATH=$room/other:$room/tools "$room/$tree/install.sh" "$@" > "$room/said" 2>&1 || status=$?
    [ "$status" = "$wanted" ] || wrong "the status of install.sh $* is $status"
}

# The same, which has to succeed: WORD..
installs() {
    run 0 tree --prefix "$P" "$@"
}

# All that stands below a folder.
all_of() {
    (cd "$1" && find . -type f -exec sha256sum {} + && find . -type d && find . -type l -exec ls -l {} +) 2> /dev/null | LC_ALL=C sort
}

# What has to be refused, and to leave everything as it is, without what waits: TREE WORD..
refuses() {
    all_of "$P" > "$room/before"
    run 1 "$@"
    same_as_before
}

same_as_before() {
    all_of "$P" | cmp -s - "$room/before" || wrong "it changed something"
}

said() {
    grep -qF -e "$1" "$room/said" || wrong "it doesn't say: $1"
}

# That these names are there below the folder, or aren't: 0 or 1, NAME..
are() {
    there=$1
    shift
    for name in "$@"; do
        now=0
        [ -e "$P/$name" ] || [ -L "$P/$name" ] || now=1
        [ "$now" = "$there" ] || wrong "$name: there is $now, not $there"
    done
}

# That a program below the folder answers by its own name: NAME.
answers() {
    "$P/bin/$1" --dbpath "$here/example" -qa > "$room/answer" 2>&1 || true
    printf '%s\n' 'libx-1.0~rc1-1.noarch' 'bash-5.1-2.x86_64' 'libx-1.0^git1-1.noarch' | cmp -s - "$room/answer" || wrong "bin/$1 answers otherwise"
}

# Takes everything away, after which nothing may be left.
uninstalls() {
    run 0 tree --prefix "$P" --uninstall
    [ ! -e "$P" ] || wrong "--uninstall left $(cd "$P" && find .)"
}

# A tree of a release with this program: NAME PROGRAM.
make_tree() {
    mkdir -p "$room/$1/crates/one/src"
    echo text > "$room/$1/crates/one/src/lib.rt"
    echo one > "$room/$1/crates.txt"
    cp -r "$here/install.sh" "$here/release" "$here/man" "$here/completion" "$room/$1"
    gzip -1 -n -c "$2" > "$room/$1/release/rpm_prog.gz"
    {
        printf 'program %s\n' "$(sha256sum < "$2" | cut -d ' ' -f 1)"
        printf 'sources %s\n' "$("$room/$1/release/digest.sh")"
    } > "$room/$1/release/MANIFEST"
    "$room/$1/release/digest.sh" --files | gzip -n > "$room/$1/release/sources.gz"
}

prepare() {
    program=$("$here/release/program.sh" "$room")
    { cat "$program" && echo; } > "$room/newer_program"
    make_tree tree "$program"
    make_tree newer "$room/newer_program"
    mkdir "$room/tools"
    for tool in awk basename cat chmod cp cut dirname find grep gzip head ln mkdir mktemp mv readlink rm rmdir sed sh sha256sum sort tr uname wc xargs; do
        ln -s "$(command -v "$tool")" "$room/tools/$tool"
    done
    cp "$room/tools/cat" "$room/another"
}

. "$here/release/cases.sh"
prepare
[ $# -gt 0 ] || set -- names others changed lists folders calls sources programs disks kills roots
for try in "$@"; do "try_$try"; done
[ "$failed" -ne 0 ] || echo 'release: install.sh did no harm in any case that was tried'
exit "$failed"
