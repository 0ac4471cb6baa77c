# The cases of release/try.sh, which reads this file; its functions say what each step wants.

try_names() {
    begin 'no other rpm'
    installs
    said "installed rpm and rpmdb in $P/bin"
    answers rpm
    are 0 bin/rpmdb share/man/man8/rpm-q.8 share/man/man8/rpm.8 share/man/man8/juzkarg.8 share/zsh/site-functions/_rpm
    are 1 bin/juzkarg-rpm
    uninstalls

    begin 'another rpm in PATH'
    cp "$room/another" "$room/other/rpm"
    installs
    said "installed juzkarg-rpm and juzkarg-rpmdb in $P/bin"
    said "$room/other/rpm keeps its name, which --as-rpm would take"
    answers juzkarg-rpm
    are 0 bin/juzkarg-rpmdb share/man/man8/juzkarg-rpmdb.8 share/man/man8/juzkarg.8 share/bash-completion/completions/juzkarg-rpm
    are 1 bin/rpm share/man/man8/rpmdb.8 share/bash-completion/completions/rpm share/zsh/site-functions/_rpm
    bash --norc -c '. "$1"; complete -p juzkarg-rpm && ! complete -p rpm' - "$P/share/bash-completion/completions/juzkarg-rpm" > /dev/null 2>&1 ||
        wrong 'the completion is of other names'
    installs --as-rpm
    said 'removed the names juzkarg-rpm juzkarg-rpmdb'
    are 0 bin/rpm share/man/man8/rpmdb.8
    are 1 bin/juzkarg-rpm share/man/man8/juzkarg-rpmdb.8
    answers rpm
    uninstalls
}

try_others() {
    begin 'files of others'
    mkdir -p "$P/bin" "$P/share/bash-completion/completions"
    cp "$room/another" "$P/share/bash-completion/completions/rpm"
    refuses tree --prefix "$P" --as-rpm
    said "$P/share/bash-completion/completions/rpm is there already"
    installs
    are 0 bin/juzkarg-rpm
    run 0 tree --prefix "$P" --uninstall
    cmp -s "$room/another" "$P/share/bash-completion/completions/rpm" || wrong 'a file of others was changed'
    are 1 libexec share/man share/zsh

    begin 'a link at a target'
    mkdir -p "$P/bin"
    ln -s "$room/victim" "$P/bin/rpm"
    refuses tree --prefix "$P" --as-rpm
    installs
    answers juzkarg-rpm
    ln -s "$room/victim" "$P/share/man/man8/rpm-q.8"
    rm "$P/bin/rpm"
    cp "$room/another" "$room/victim"
    installs
    cmp -s "$room/another" "$room/victim" || wrong 'what a link leads to was changed'
    are 0 share/man/man8/rpm-q.8 bin/juzkarg-rpm
    rm -r "$room/victim"
    begin 'a folder at a target'
    mkdir -p "$P/bin/rpm/kept" "$P/bin/juzkarg-rpm"
    refuses tree --prefix "$P"
}

try_changed() {
    begin 'files that were changed since'
    installs
    echo mine > "$room/mine"
    rm "$P/bin/rpm"
    ln -s "$room/mine" "$P/bin/rpm"
    ln -sf "$room/other" "$P/share/man/man8/juzkarg.8"
    echo more >> "$P/share/man/man8/rpm-q.8"
    installs
    said "kept $P/share/man/man8/rpm-q.8, which was changed since it was installed, as $P/share/man/man8/rpm-q.8~"
    answers rpm
    [ "$(cat "$room/mine")" = mine ] || wrong 'the file that a link led to was changed'
    [ "$(readlink "$P/bin/rpm~")" = "$room/mine" ] || wrong 'the link was lost'
    [ "$(tail -n 1 "$P/share/man/man8/rpm-q.8~")" = more ] || wrong 'the page was lost'
    [ -z "$(ls "$room/other")" ] || wrong 'something was moved into the folder that a link led to'
    echo more >> "$P/share/man/man8/rpmdb.8"
    run 0 tree --prefix "$P" --uninstall
    said "kept $P/share/man/man8/rpmdb.8, which was changed since it was installed"
    are 0 share/man/man8/rpmdb.8
    are 1 bin/rpm libexec share/man/man8/rpm-q.8
}

try_lists() {
    begin 'a forged list'
    installs
    cp "$P/libexec/juzkarg/installed" "$room/list"
    digest=$(sha256sum < "$room/another" | cut -d ' ' -f 1)
    cp "$room/another" "$room/victim"
    for line in "$room/victim" "file $digest $room/victim" "file $digest ../victim" "file $digest share/../../victim" 'folder - ../other' /; do
        { cat "$room/list"; printf '%s\n' "$line"; } > "$P/libexec/juzkarg/installed"
        refuses tree --prefix "$P" --uninstall
        said "$line"
        refuses tree --prefix "$P"
    done
    cmp -s "$room/another" "$room/victim" || wrong 'a file outside was removed'
    [ -d "$room/other" ] || wrong 'a folder outside was removed'
    begin 'the list of the first installer'
    mkdir -p "$P/bin" "$P/libexec/juzkarg"
    printf '%s\n' "$P//libexec/juzkarg/rpm_prog" "$P/bin/rpm" > "$P/libexec/juzkarg/installed"
    cp "$room/another" "$P/libexec/juzkarg/rpm_prog"
    cp "$room/another" "$P/bin/rpm"
    installs
    answers rpm
    run 0 tree --prefix "$P" --uninstall
    are 1 bin/rpm libexec/juzkarg/rpm_prog libexec/juzkarg/installed
}

try_folders() {
    begin 'names of folders'
    run 0 tree --prefix "$P/"
    run 0 tree --prefix "$P"
    (cd "$room" && run 0 tree --prefix ./P//)
    ln -s "$P" "$room/other/link"
    run 0 tree --prefix "$room/other/link"
    answers rpm
    rm "$room/other/link"
    mv "$P" "$room/other/moved"
    P=$room/other/moved
    answers rpm
    uninstalls

    begin 'a folder with signs of the shell'
    P="$room/other/-a \"b\" 'c' \$(d) \`e\` \\f"
    installs
    answers rpm
    sed -n 's/.* export /export /p' "$room/said" > "$room/line"
    [ "$(PATH=/nowhere; . "$room/line"; command -v rpm)" = "$P/bin/rpm" ] || wrong 'the line for PATH is another'
    PATH="$P/bin:$PATH" "$room/tree/install.sh" --prefix "$P" > "$room/said" 2>&1
    ! grep -q 'PATH lacks' "$room/said" || wrong 'PATH has the folder'
    uninstalls

    begin 'a folder of programs that is a link'
    mkdir -p "$P" "$room/other/bin"
    ln -s "$room/other/bin" "$P/bin"
    installs
    answers rpm
    run 0 tree --prefix "$P" --uninstall
    [ -z "$(ls "$room/other/bin")" ] || wrong 'not all is removed'
}

try_calls() {
    begin 'CDPATH, a link, another folder, umask'
    mkdir "$room/other/install.sh" "$room/other/release" "$room/other/deep"
    ln -s "$room/tree/install.sh" "$room/other/deep/put"
    (
        cd "$room/tree"
        CDPATH=$room/other:$room
        export CDPATH
        umask 077
        PATH=$room/tools sh install.sh --prefix "$P"
        cd "$room/other"
        PATH=$room/tools deep/put --prefix "$P"
    ) > "$room/said" 2>&1 || wrong 'it fails'
    answers rpm
    [ -z "$(find "$P" ! -perm -004)" ] || wrong 'not everybody can read what was installed'
    run 0 tree --prefix "$P" --uninstall
    run 0 tree --help
    said --as-rpm
    refuses tree --prefix "$P" --nosuch
    refuses tree --prefix
}

try_sources() {
    begin 'sources that are not of the release'
    make_tree stray "$program"
    mkdir "$room/stray/crates/rpm_prog"
    echo backup > "$room/stray/crates/one/src/lib.rt~"
    echo more >> "$room/stray/crates.txt"
    printf '#!/bin/sh\necho proves > "%s/called"\nexit 1\n' "$room" > "$room/other/rt"
    chmod 755 "$room/other/rt"
    refuses stray --prefix "$P"
    said 'added: crates/one/src/lib.rt~'
    said 'changed: crates.txt'
    [ ! -e "$room/called" ] || wrong 'it began to prove'
    refuses stray --prefix "$P" --prove
    [ -e "$room/called" ] || wrong 'it does not prove when asked to'
    are 1 bin share
}

try_programs() {
    begin 'a program that does not start'
    printf '\177ELF of another machine\n' > "$room/not_this"
    make_tree foreign "$room/not_this"
    refuses foreign --prefix "$P"
    said "doesn't run on this machine"
    installs
    refuses foreign --prefix "$P"
    answers rpm
    begin 'a program that is not the one of the manifest'
    gzip -c "$room/another" > "$room/foreign/release/rpm_prog.gz"
    refuses foreign --prefix "$P"

    begin 'a program that runs'
    installs
    mkfifo "$room/other/pipe"
    "$P/bin/rpmdb" --dbpath "$room/other" --importdb < "$room/other/pipe" > "$room/other/printed" 2>&1 &
    exec 9> "$room/other/pipe"
    run 0 newer --prefix "$P"
    cmp -s "$room/newer_program" "$P/libexec/juzkarg/rpm_prog" || wrong 'the newer program is not there'
    exec 9>&-
    wait $! || wrong 'the program that ran failed'
    uninstalls
}

# A full disk of this many free kB beside an installation: the newer one is refused. SPARE..
full_disk() {
    : > "$P/filler"
    cat /dev/zero > "$P/filler" 2> /dev/null || true
    full=$(wc -c < "$P/filler")
    for spare in "$@"; do
        head -c $((full - 1024 * spare)) /dev/zero > "$P/filler"
        refuses newer --prefix "$P"
        answers rpm
    done
    rm "$P/filler"
}

try_disks() {
    begin 'a full disk'
    mkdir "$P"
    size=$(($(wc -c < "$program") / 1024))
    if mount -t tmpfs -o size=$((2 * size + 400))k none "$P" 2> /dev/null; then
        mounted=$P
        installs
        full_disk 0 40 $((size / 2)) $((size + 20))
        run 0 newer --prefix "$P"
        run 0 tree --prefix "$P" --uninstall
        umount "$P"
        mounted=
    else
        echo 'release/try.sh: a full disk is not tried, since none can be mounted here'
    fi
    begin 'files that may not grow'
    installs
    all_of "$P" > "$room/before"
    (
        failed=0
        ulimit -f 100
        run 1 newer --prefix "$P"
        exit "$failed"
    ) || failed=1
    same_as_before

    begin 'a place that can not be written'
    installs
    rm -r "$P/share/zsh"
    echo file > "$P/share/zsh"
    refuses newer --prefix "$P"
    said "$P/share/zsh can't be written"
}

# A killed installer: it ends before the move of this number.
try_kills() {
    begin 'a killed installer'
    cat > "$room/other/mv" <<END
#!/bin/sh
echo >> "$room/moves"
[ "\$(wc -l < "$room/moves")" -ne "\$(cat "$room/last_move")" ] || kill -KILL \$PPID \$\$
exec "$room/tools/mv" "\$@"
END
    for move in 1 2 3 8 13; do
        P=$room/P$move
        rm -f "$room/moves"
        echo 100 > "$room/last_move"
        chmod 644 "$room/other/mv"
        installs
        chmod 755 "$room/other/mv"
        echo "$move" > "$room/last_move"
        run 137 newer --prefix "$P" 2> /dev/null
        answers rpm
        expected=$room/newer_program
        [ "$move" -gt 2 ] || expected=$program
        cmp -s "$expected" "$P/libexec/juzkarg/rpm_prog" || wrong "before move $move another program is there"
        uninstalls
    done
}

try_roots() {
    begin 'an empty root'
    if grep -qa /ld-linux "$program"; then
        echo 'release/try.sh: an empty root is not tried, since the program here wants libraries'
    else
        installs
        cp -r "$here/example" "$P/d"
        status=0
        "$here/release/in_root.sh" "$P" /bin/rpm --dbpath /d -q libx > "$room/said" 2>&1 || status=$?
        if [ "$status" -eq 125 ]; then
            echo 'release/try.sh: an empty root is not tried, since none can be entered here'
        else
            printf '%s\n' 'libx-1.0~rc1-1.noarch' 'libx-1.0^git1-1.noarch' | cmp -s - "$room/said" || wrong "the answer is another, with status $status"
        fi
    fi
}
