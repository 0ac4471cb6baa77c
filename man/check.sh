#!/bin/sh
# Whether the pages name each option, tag, formatter and message that the code has, whether the help names all options, and none that the
# completions lack, on one screen, whether the version is the newest of docs/CHANGELOG.md, whether each line of a synopsis is one that the program
# takes, and whether the sessions of README.md, of the pages and of docs/RECIPES.md go as they are written (man/sessions.sh). Where there is groff or
# mandoc, the pages are looked at as they are shown, and rendering them gives no warning; elsewhere their sources are, and no synopsis. It takes
# some twenty seconds.
#
#   man/check.sh [PROGRAM]    PROGRAM is crates/rpm_prog/out/rpm_prog or such; the gate's or release/'s where none is given
set -eu
[ "${1-}" != --help ] || { sed -n '2,/^[^#]/s/^# \{0,1\}//p' "$0"; exit; }

here=$(pwd)
given=${1-}
cd "$(dirname "$0")/.."
switches=crates/rpm_words/src/switch.rt
texts=crates/rpm_command/src/texts.rt
missing=0
room=$(mktemp -d)
trap 'rm -rf "$room"' EXIT

fail() {
    printf 'man: %s\n' "$*" >&2
    missing=1
}

# The text of a page as it is shown, without line breaks within a paragraph.
shown() {
    if command -v groff > /dev/null; then
        groff -mandoc -ww -Tascii -P-c -P-b -P-u -rLL=990n "$1" 2> "$room/warnings"
    else
        mandoc -W warning -Tascii -O width=990 "$1" 2> "$room/warnings" | sed "s/.$(printf '\b')//g"
    fi
    [ ! -s "$room/warnings" ] || fail "$1: $(cat "$room/warnings")"
}

# The words of a table that no line of the text begins with, or a list at its beginning has, each in a line: WHAT TEXT. Options have their dashes.
wanted() {
    while IFS= read -r word; do
        grep -qE -e "^ +([-[:alnum:]]+( [a-z]+)?, )*$word([^-[:alnum:]]|\$)" "$room/$2" || fail "$2 doesn't show $1 $word"
    done
}

# The same in the source of a page, where dashes are macros.
wanted_in_source() {
    while IFS= read -r word; do
        case $word in
            -*) word="Fl ${word#-}" ;;
        esac
        grep -qwF -e "$word" "man/$2" || fail "$2 has no $1 $word"
    done
}

# The texts between quotes of the lines of a table that have this in them: FILE THIS.
quoted() {
    sed -n "/$2/s/[^\"]*\"\([^\"]*\)\".*/\1/p" "$1" | sort -u
}

# The long options of a program: RPM or RPMDB.
options() {
    sed -n "/^const $1: /,/^];/p" "$switches" > "$room/table"
    quoted "$room/table" 'Spelling('
}

# The short options of rpm, of those that have this in them.
letters() {
    sed -n "s/.*b'\([a-zA-Z]\)' => Some($1.*/-\1/p" "$switches"
}

# The pieces of all messages, a line each: the texts of the crates that print and of the edge, cut where a number or a word comes in. What is no
# message of its own is left out: formats, what an exercise makes, files of the system.
messages() {
    for crate in rpm_print rpm_change rpm_query rpm_report rpm_real rpm_prog; do
        find "crates/$crate/src" -name '*.rt' ! -name reading.rt ! -name texts.rt ! -name exercise.rt -exec cat {} +
    done | sed 's,^ *//.*,,; /^#\[/d; /ghost use/d' | grep -oE '"([^"\\]|\\.)*"' | sed 's/^"//; s/"$//; s/\\n//g; s/{[a-z]*}/\n/g' |
        sed 's/^[ :]*//; s/[ :]*$//' | grep -E '[a-z]{3}' | grep -vE '^(/|rpm$|rpmdb$)' | sort -u
}

# Whether each piece of a message is on one of the pages: FILES..
told() {
    cat "$@" | sed 's/\\&//g; s/\\e/\\/g' | tr -s ' \n' '  ' > "$room/all"
    while IFS= read -r text; do
        grep -qF -e "$text" "$room/all" || fail "neither page has the message: $text"
    done
}

# Runs each command line that a synopsis stands for on a database of its own: what is refused as against the rules is no line of a synopsis.
synopsis() {
    sed -n '/^SYNOPSIS/,/^DESCRIPTION/s/^   *//p' "$room/$1" > "$room/lines"
    [ -s "$room/lines" ] || fail "$1 shows no synopsis"
    selections="$(letters Switch::Choose) $(sed -n 's/.*"\(--[a-z]*\)", Switch::Choose.*/\1/p' "$switches")"
    awk -v selections="$(echo $selections)" -f man/synopsis.awk "$room/lines" > "$room/commands"
    database=$room/database
    while IFS= read -r command; do
        case $command in
            *'--dbpath "$database"'* | *' --help' | *' --version') ;;
            *) fail "$1: not tried, since it names no database: $command"; continue ;;
        esac
        status=0
        eval "\"\$program\" $command" < /dev/null > /dev/null 2> "$room/errors" || status=$?
        [ "$status" -ne 251 ] || fail "$1: $command: $(cat "$room/errors")"
    done < "$room/commands"
}

look=wanted_in_source
if command -v groff > /dev/null || command -v mandoc > /dev/null; then
    look=wanted
    for page in man/*.8; do shown "$page" > "$room/$(basename "$page")"; done
else
    echo 'man: there is neither groff nor mandoc, so the pages are looked at by their sources'
fi

{ options RPM; letters Switch::; } > "$room/words"
$look option rpm-q.8 < "$room/words"
options RPMDB > "$room/words"
$look option rpmdb.8 < "$room/words"
quoted crates/rpm_tags/src/tag.rt 'Row(Tag::' > "$room/words"
$look tag rpm-q.8 < "$room/words"
quoted crates/rpm_qfparse/src/tag.rt 'Row(Show::' > "$room/words"
$look formatter rpm-q.8 < "$room/words"

# The help, as the code has it, and the options that it names and that there are.
sed -n '/const HELP: /,/^";$/{//!p;}' "$texts" | sed 's/\\\\/\\/g' > "$room/help"
[ "$(wc -l < "$room/help")" -le 24 ] && ! grep -q '.\{81\}' "$room/help" || fail "the help has more than 24 lines, or than 80 columns"
grep -oE -e '(^|[ ;,])--?[[:alpha:]]+' "$room/help" | sed 's/^[^-]//' | sort -u > "$room/named"
{ options RPM; options RPMDB; letters Switch::; } | sort -u > "$room/words"
for word in $(comm -13 "$room/named" "$room/words"); do fail "the help doesn't name $word"; done
for word in $(comm -23 "$room/named" "$room/words"); do fail "the help names $word, which is no option"; done
while IFS= read -r word; do
    grep -qE -e "'rpm(db)? $word'" completion/rpm.bash || fail "the completions lack $word, which the help names"
done < "$room/named"

# The version of the code, and the first that the list of versions has.
version=$(sed -n 's/.*const VERSION: .*b"juzkarg \([0-9.]*\)\\n";$/\1/p' "$texts")
newest=$(grep -oE '[0-9]+\.[0-9]+\.[0-9]+' docs/CHANGELOG.md | head -n 1)
[ -n "$version" ] && [ "$version" = "$newest" ] || fail "the code has the version '$version', docs/CHANGELOG.md '$newest'"

messages > "$room/words"
[ -s "$room/words" ] || fail "no message was found in the code"
if [ $look = wanted ]; then told "$room/rpm-q.8" "$room/rpmdb.8" < "$room/words"; else told man/rpm-q.8 man/rpmdb.8 < "$room/words"; fi

program=$(release/program.sh "$room")
[ -z "$given" ] || program=$(cd "$here" && cd "$(dirname "$given")" && pwd)/$(basename "$given")
if [ $look = wanted ]; then
    mkdir "$room/database"
    cp example/Packages.db "$room/database"
    synopsis rpm-q.8
    synopsis rpmdb.8
fi

mkdir "$room/bin"
for name in rpm rpmdb; do
    printf '#!/bin/sh\nexec "%s" %s "$@"\n' "$program" "$name" > "$room/bin/$name"
    chmod +x "$room/bin/$name"
done
man/sessions.sh "$room/bin" || missing=1
exit $missing
