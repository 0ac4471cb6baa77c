#!/bin/sh
# Puts the program where a shell finds it, with its manual pages and completions, or takes all of that away.
#
#   ./install.sh [--prefix DIR] [--as-rpm] [--prove]
#   ./install.sh [--prefix DIR] --uninstall
#
#   --prefix DIR   install below DIR: bin, libexec/juzkarg, share/man, share/bash-completion and share/zsh (/usr/local where none is given)
#   --as-rpm       take the names rpm and rpmdb, also where PATH leads to another rpm; without it the names are juzkarg-rpm and juzkarg-rpmdb there
#   --prove        prove all crates and build the program here, which takes an hour or more (4 GB of memory, 10 GB of disk, the toolchain)
#   --uninstall    take away what was put below DIR, and the folders that were made for it
#
# The program is the one of release/, for x86-64 Linux of any distribution, where the sources are those that it was built from. Where they aren't,
# the files that differ are named and nothing is installed but with --prove.
#
# Everything is written beside its place first, and the program is run there; then each file is moved. So the last installation stays whole where
# the disk is full, and a program that runs goes on. What this script didn't put there is never written over, removed or followed as a link, and
# what was changed since it put it there is kept and told. It takes a second; it wants sh, coreutils or busybox, grep, sed, awk and gzip.
set -eu
unset CDPATH
export LC_ALL=C
umask 022

here=$(dirname -- "$(readlink -f -- "$0")")
program=libexec/juzkarg/rpm_prog
prefix=/usr/local
deed=install
plain=
lead=

fail() {
    printf 'install.sh: %s\n' "$*" >&2
    exit 1
}

say() {
    printf 'install.sh: %s\n' "$*"
}

while [ $# -gt 0 ]; do
    case $1 in
        --prefix) [ $# -ge 2 ] && [ -n "$2" ] || fail "--prefix wants a folder" ; prefix=$2; shift ;;
        --prefix=?*) prefix=${1#*=} ;;
        --as-rpm) plain=asked ;;
        --prove) deed=prove ;;
        --uninstall) deed=uninstall ;;
        --help) sed -n '2,/^set /s/^# \{0,1\}//p' "$0"; exit ;;
        *) fail "unknown word: $1 (--help shows those that there are)" ;;
    esac
    shift
done

case $prefix in
    *'
'*) fail "the folder's name has a line end" ;;
    /*) ;;
    *) prefix=$(pwd)/$prefix ;;
esac
while [ "$prefix" != "${prefix%/}" ]; do prefix=${prefix%/}; done

. "$here/release/place.sh"

# One word of shell that is this text.
quoted() {
    printf "'%s'" "$(printf '%s' "$1" | sed "s/'/'\\\\''/g")"
}

# Whether two paths lead to one folder.
same_folder() {
    [ -d "$1" ] && [ -d "$2" ] && [ "$(cd -P -- "$1" && pwd)" = "$(cd -P -- "$2" && pwd)" ]
}

# The first program of this name that PATH leads to, and no installation below this prefix put there.
found() {
    (
        set -f
        IFS=:
        for folder in ${PATH-}; do
            file=${folder:-.}/$1
            if [ -f "$file" ] && [ -x "$file" ] && ! { same_folder "${folder:-.}" "$prefix/bin" && is_ours "bin/$1"; }; then
                printf '%s\n' "$file"
                break
            fi
        done
    )
}

# Whether PATH has the folder of the programs.
is_in_path() {
    (
        set -f
        IFS=:
        for folder in ${PATH-}; do
            ! same_folder "${folder:-.}" "$prefix/bin" || exit 0
        done
        exit 1
    )
}

# The pages, a line each: where each comes from, and its name below the folder. What is made here comes from a dash.
pages() {
    for page in "$here"/man/*.8; do
        name=${page##*/}
        case $name in
            juzkarg*) ;;
            *) name=$lead$name ;;
        esac
        printf '%s %s\n' "${page##*/}" "share/man/man8/$name"
    done
    for name in "juzkarg.8" "${lead}rpm.8"; do
        [ -f "$here/man/${name#"$lead"}" ] || [ -f "$here/man/$name" ] || printf -- '- %s\n' "share/man/man8/$name"
    done
}

# The names below the folder of all that is put.
targets() {
    echo "$program"
    for name in rpm rpmdb; do
        printf '%s\n' "bin/$lead$name" "share/bash-completion/completions/$lead$name" "share/zsh/site-functions/_$lead$name"
    done
    pages | sed 's/^[^ ]* //'
}

# The first of the places at which something stands that no installation put there.
taken() {
    targets | while IFS= read -r name; do
        if is_there "$prefix/$name" && { is_folder "$prefix/$name" || ! is_ours "$name"; }; then
            printf '%s\n' "$prefix/$name"
            break
        fi
    done
}

# Chooses the names: those of rpm where that hides no other, or where it was asked for.
choose_names() {
    other=$(found rpm)
    [ -n "$other" ] || other=$(found rpmdb)
    why="; $other keeps its name, which --as-rpm would take"
    [ -n "$other" ] || { other=$(taken); why="; $other is another's"; }
    [ -z "$other" ] || [ "$plain" = asked ] || lead=juzkarg-
    hit=$(taken)
    [ -z "$hit" ] || fail "$hit is there already, and no installation of this program put it there; nothing was changed"
}

# The rest of the line of release/MANIFEST that begins with this word.
told() {
    sed -n "s/^$1 //p" "$here/release/MANIFEST" 2> /dev/null || true
}

# Ends where the sources aren't those that the program of release/ was built from, and says which files differ.
refuse_other_sources() {
    [ -f "$here/release/MANIFEST" ] && [ -f "$here/release/rpm_prog.gz" ] || fail "release/ has no program; --prove builds one of these sources"
    [ "$(told sources)" != "$(sh "$here/release/digest.sh")" ] || return 0
    sh "$here/release/differs.sh" > "$room/differs" || fail "these sources aren't those of release/'s program"
    head -n 20 "$room/differs" >&2
    fail "these sources aren't those of release/'s program: $(wc -l < "$room/differs") files differ (20 of them above at most); nothing was changed." \
        "A fresh copy has them; --prove proves and builds these, which takes an hour or more"
}

# Proves all crates, builds the program into room, linked as the one of release/ where this machine can, and says whether it is that one.
prove() {
    command -v rt > /dev/null || fail "there is no rt, which proves and builds ($(told toolchain))"
    say "proving all crates, then building the program: some 50 minutes of one core, 4 GB of memory and 10 GB of disk"
    (cd "$here/crates/rpm_prog" && rt run -- rpm --dbpath "$here/example" -qa > /dev/null) || fail "rt built no program"
    sh "$here/release/link.sh" "$room/rpm_prog" || {
        cp -- "$here/crates/rpm_prog/out/rpm_prog" "$room/rpm_prog"
        say "so the program is linked with this machine's C library"
    }
    if [ "$(told program)" = "$(digest < "$room/rpm_prog")" ]; then
        say "the program that was built is the one of release/, byte for byte"
    elif [ "$(told object)" = "$(digest < "$here/crates/rpm_prog/out/rpm_prog.o")" ]; then
        say "the object that was built is the one of release/'s program, byte for byte; it was linked with other libraries"
    else
        say "the program that was built is another one than release/'s"
    fi
}

# Lets the program wait for its place, and runs it there by a name of its own.
stage_program() {
    if [ "$deed" = prove ]; then
        stage_file "$program" < "$room/rpm_prog"
    else
        gzip -d -c "$here/release/rpm_prog.gz" | stage_file "$program"
        grep -qxF "file $(told program) $program" "$room/new" || fail "release/'s program isn't the one that MANIFEST names; nothing was changed"
    fi
    waits_for "$program"
    chmod 755 "$waits"
    ln -sf rpm_prog "${waits%/*}/juzkarg-rpm"
    version=$("${waits%/*}/juzkarg-rpm" --version 2>&1) || fail "the program doesn't run on this machine ($(uname -sm)); nothing was changed: $version"
}

# Lets the links to the program wait: they go by the folder above, so that all may be moved, but where bin itself is a link.
stage_links() {
    make_folder bin
    way=..
    same_folder "$prefix/bin/../libexec/juzkarg" "$prefix/libexec/juzkarg" || way=$prefix
    for name in rpm rpmdb; do
        stage_link "$way/$program" "bin/$lead$name"
    done
}

# Lets completions and pages wait, with the names that were chosen.
stage_texts() {
    for name in "${lead}rpm" "${lead}rpmdb"; do
        sed "s/^complete -F _juzkarg .*/complete -F _juzkarg ${lead}rpm ${lead}rpmdb/" "$here/completion/rpm.bash" |
            stage_file "share/bash-completion/completions/$name"
        sed "1s/.*/#compdef ${lead}rpm ${lead}rpmdb/" "$here/completion/_rpm" | stage_file "share/zsh/site-functions/_$name"
    done
    pages > "$room/pages"
    while read -r page name; do
        if [ "$page" = - ]; then
            echo ".so man8/${lead}rpm-q.8" | stage_file "$name"
        elif [ -n "$lead" ]; then
            sed -f "$here/release/names.sed" "$here/man/$page" | stage_file "$name"
        else
            stage_file "$name" < "$here/man/$page"
        fi
    done < "$room/pages"
}

# Says in a line what was done, and in another what PATH lacks.
report() {
    first=$(command -v rpm) || first=
    if [ -z "$lead" ]; then
        why=${other:+"; where PATH has that folder first they hide $other"}
        ! is_in_path || same_folder "${first%/*}" "$prefix/bin" || why="; but PATH leads to $first before"
    fi
    gone=$(sed -n 's/^bin.//p' "$room/removed" | tr '\n' ' ')
    say "installed ${lead}rpm and ${lead}rpmdb in $prefix/bin ($version)$why${gone:+"; removed the names ${gone% }"}"
    is_in_path || say "PATH lacks that folder; with this line in ~/.profile it has it: export PATH=$(quoted "$prefix/bin"):\"\$PATH\""
}

install_all() {
    choose_names
    if [ "$deed" = prove ]; then prove; else refuse_other_sources; fi
    if [ ! -d "$prefix/" ]; then
        mkdir -p -- "$prefix" || fail "$prefix can't be made"
        echo 'folder - .' > "$room/made"
    fi
    prefix=$(cd -- "$prefix/" && pwd)
    prefix=${prefix%/}
    stage_program
    stage_links
    stage_texts
    place_all
    report
}

uninstall() {
    [ -f "$prefix/$list" ] || fail "nothing is installed below $prefix"
    remove_all "$room/old_names"
    sed 's,/[^/]*$,,' "$room/old_names" | sort -u > "$room/stages"
    remove_stages
    rm -f -- "$prefix/$list"
    remove_folders "$room/old"
    say "removed $(wc -l < "$room/removed") files of those that were installed below $prefix"
}

room=$(mktemp -d)
for notes in old old_names made stages new removed; do : > "$room/$notes"; done
trap clean EXIT
trap 'exit 1' HUP INT TERM
read_list
if [ "$deed" = uninstall ]; then uninstall; else install_all; fi
