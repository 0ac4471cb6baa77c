#!/bin/sh
# Whether the sessions of the pages go as they are written. Each line that begins with "$ " is run, together with the lines that begin with "> "
# right below it, and what it prints on both streams is compared with the lines that follow. It takes some ten seconds.
#
#   man/sessions.sh FOLDER [PAGE..]    FOLDER has the programs rpm and rpmdb; the pages are README.md, man/*.8, docs/RECIPES.md and
#                                      docs/MIGRATING.md where none is named
#
# A page is run in a folder of its own, with a copy of example/ and with bench/ and recipes/. A page with headings of the third rank has a
# session under each: each is run in a folder of its own, after what stands before the first of these headings. Where the text of a session, or
# what stands before the first of these headings, says "Needs `TOOL`" or "Needs `TOOL` and `TOOL`", it is run only where these tools are, and a
# line tells what was left out. A tool is a command or a path; `psql` means a server that psql reaches without options.
set -eu
case ${1-} in --help) sed -n '2,/^[^#]/s/^# \{0,1\}//p' "$0"; exit ;; esac

[ $# -ge 1 ] || { echo "man/sessions.sh: name the folder of rpm and rpmdb" >&2; exit 1; }
bin=$(cd "$1" && pwd)
shift
top=$(cd "$(dirname "$0")/.." && pwd)
# (in memory where that can be: there an fsync takes no time)
room=$(mktemp -d -p /dev/shm 2> /dev/null || mktemp -d)
trap 'rm -rf "$room"' EXIT
HOME=$room/home LC_ALL=C TZ=UTC PYTHONDONTWRITEBYTECODE=1
export HOME LC_ALL TZ PYTHONDONTWRITEBYTECODE
mkdir "$HOME"
failed=0

# The sessions of a page, each in a file of its own: PAGE FOLDER. The page's own text stands in FOLDER/0.
cut_up() {
    case $1 in
        *.md) awk -v folder="$2" '/^### / { part++ } { print > (folder "/" part + 0) }' "$1" ;;
        *) sed '/^\.Bd -literal/,/^\.Ed/{s/\\e/\\/g; s/\\&//g; /^\.[BE]d/!s/^/    /;}' "$1" > "$2/0" ;;
    esac
}

# The lines of the sessions of a text: of each block of indented lines those from the first command on. Empty lines within a block belong to it.
sessions() {
    awk '
        /^    / { while (empty > 0) { print ""; empty-- } if (/^    \$ /) told = 1; if (told) print substr($0, 5); within = told; next }
        /^$/ { if (within) empty++; next }
        { told = within = empty = 0 }
    ' "$1"
}

# A shell's text that runs each command of a session, and writes it and what it prints.
script() {
    awk '
        function quoted(text) { gsub(/\047/, "\047\\\047\047", text); return "\047" text "\047" }
        function end() { if (command != "") printf "printf \"%%s\\n\" %s\n{ %s\n} 2>&1 || true\n", quoted(shown), command; command = "" }
        /^\$ / { end(); shown = $0; command = substr($0, 3); next }
        /^> / && command != "" { shown = shown "\n" $0; command = command "\n" substr($0, 3); next }
        { end() }
        END { end() }
    '
}

# The first tool that a text needs and that isn't here.
missing() {
    grep -ho 'Needs `[^`]*`\( and `[^`]*`\)*' "$@" | grep -o '`[^`]*`' | tr -d '`' | while IFS= read -r tool; do
        case $tool in
            psql) psql -XAtc 'select 1' > "$room/said" 2>&1 < /dev/null || echo "a server that psql reaches" ;;
            */*) [ -e "$tool" ] || echo "$tool" ;;
            *) command -v "$tool" > "$room/said" || echo "$tool" ;;
        esac
    done | head -n 1
}

# Runs one session of a page in a folder of its own, after another text's: PAGE BEFORE SESSION NAME.
run() {
    lack=$(missing "$2" "$3")
    if [ -n "$lack" ]; then
        echo "man/sessions.sh: $1: $4 isn't run without $lack"
        return
    fi
    rm -rf "$room/run"
    mkdir "$room/run"
    cp -R "$top/example" "$room/run/example"
    ln -s "$top/bench" "$top/recipes" "$room/run"
    if [ "$2" != "$3" ]; then
        sessions "$2" | script > "$room/script"
        (cd "$room/run" && PATH="$bin:$PATH" sh "$room/script" > "$room/printed" < /dev/null) || true
    fi
    sessions "$3" > "$room/wanted"
    script < "$room/wanted" > "$room/script"
    (cd "$room/run" && PATH="$bin:$PATH" sh "$room/script" > "$room/printed" < /dev/null) || true
    if ! diff -u "$room/wanted" "$room/printed"; then
        echo "man/sessions.sh: $1: $4 shows something else than what is printed" >&2
        failed=1
    fi
}

[ $# -gt 0 ] || set -- "$top/README.md" "$top"/man/*.8 "$top/docs/RECIPES.md" "$top/docs/MIGRATING.md"
for page in "$@"; do
    mkdir "$room/parts"
    cut_up "$page" "$room/parts"
    run "$(basename "$page")" "$room/parts/0" "$room/parts/0" "its text"
    for part in $(ls "$room/parts" | sort -n); do
        [ "$part" = 0 ] || run "$(basename "$page")" "$room/parts/0" "$room/parts/$part" "$(sed -n '1s/^#* //p' "$room/parts/$part")"
    done
    rm -r "$room/parts"
done
exit $failed
