#!/usr/bin/env bash
# Tries the wrong bodies of trials/edits, which the gate leaves out for its time: the prover has to refuse each.
#
#   trials/edits.sh [CRATE ..]        (all of trials/edits where none is named)
#
# Works on a copy of the files that git knows, as they stand. Needs rt and git; takes two minutes a crate, and half a minute an edit. Its status is that of
# rt must-fail.
set -eu
[ "${1-}" != --help ] || { sed -n '1d; /^#/!q; s/^# \{0,1\}//p' "$0"; exit; }
cd "$(dirname "$0")/.."
[ $# -gt 0 ] || { cd trials/edits; set -- *; cd ../..; }
copy=$(mktemp -d)
trap 'rm -rf "$copy"' EXIT
git ls-files -z | tar --null -T - -cf - | tar -xf - -C "$copy"
for crate in "$@"; do
    [ -d "trials/edits/$crate" ] || { echo "edits.sh: trials/edits has no folder $crate" >&2; exit 2; }
    mkdir -p "$copy/crates/$crate/must-fail"
    mv "$copy/trials/edits/$crate"/*.edit "$copy/crates/$crate/must-fail/"
done
cd "$copy"
rt must-fail "$@"
