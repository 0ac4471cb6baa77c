#!/bin/sh
# Prints one digest of all files of crates/ and of crates.txt, by their names and contents. What a build leaves in out/ isn't part of it.
#
#   release/digest.sh            the digest
#   release/digest.sh --files    a line for each file: the first 16 digits of its digest, two spaces, its name
set -eu
unset CDPATH
cd -P -- "$(dirname -- "$0")/.."

digests() {
    find crates crates.txt -path 'crates/*/out' -prune -o -type f -print0 | LC_ALL=C sort -z | xargs -0 sha256sum --
}

case ${1-} in
    '') digests | sha256sum | cut -d ' ' -f 1 ;;
    --files) digests | cut -c 1-16,65- ;;
    *)
        sed -n '2,/^set /s/^# \{0,1\}//p' "$0"
        [ "$1" = --help ]
        ;;
esac
