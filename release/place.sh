# How install.sh puts files below its folder and takes them away: read by install.sh, not run.
#
# It wants prefix (the folder), room (a folder for its own notes) and fail, which says why and ends. What is said to be changed was changed
# by somebody else since it was installed.
#
# The list, libexec/juzkarg/installed, has a line for each file, link and folder that an installation put: `file DIGEST NAME`, `link DIGEST NAME`
# (the digest of the link's text) and `folder - NAME`. A name is one below the folder, so that the list stays right where the folder is moved.

list=libexec/juzkarg/installed
stage=.juzkarg-new

# The digest of what comes on standard input.
digest() {
    sum=$(sha256sum)
    printf '%s\n' "${sum%% *}"
}

# What stands at a path: `file DIGEST`, `link DIGEST`, or `other -` for all else.
state() {
    if [ -L "$1" ]; then
        printf 'link %s\n' "$(readlink -- "$1" | digest)"
    elif [ -f "$1" ]; then
        printf 'file %s\n' "$(digest < "$1")"
    else
        echo 'other -'
    fi
}

# The names in these lines of a list.
names_of() {
    sed 's/^[^ ]* [^ ]* //' "$1"
}

# Whether a name stays below the folder.
is_below() {
    case /$1/ in
        //* | *//* | */./* | */../*) return 1 ;;
    esac
}

# Copies the list of the last installation to room/old, where there is one; it is refused as a whole where a line leads out of the folder.
# (The first installer wrote whole paths and no digests.)
read_list() {
    [ -f "$prefix/$list" ] || return 0
    while IFS= read -r line; do
        case $line in
            "$prefix"//*) line="file ? ${line#"$prefix"//}" ;;
            "$prefix"/*) line="file ? ${line#"$prefix"/}" ;;
        esac
        name=${line#* }
        case $line in
            'folder - .') ;;
            'file '* | 'link '* | 'folder '*) is_below "${name#* }" || name= ;;
            *) name= ;;
        esac
        [ -n "$name" ] || fail "$prefix/$list names what isn't below $prefix, so nothing was changed; mend that line or remove the list: $line"
        printf '%s\n' "$line"
    done < "$prefix/$list" > "$room/old"
    sed -n -e 's/^file [^ ]* //p' -e 's/^link [^ ]* //p' "$room/old" | sort -u > "$room/old_names"
}

# Whether something stands at a path.
is_there() {
    [ -e "$1" ] || [ -L "$1" ]
}

is_folder() {
    [ -d "$1" ] && [ ! -L "$1" ]
}

# Whether the last installation put something at this name.
is_ours() {
    grep -qxF -e "$1" "$room/old_names"
}

# Whether what stands at this name is what the last installation put there.
is_unchanged() {
    grep -qxF -e "$(state "$prefix/$1") $1" -e "file ? $1" "$room/old"
}

# Makes a folder below the prefix and those above it, and notes those that weren't there.
make_folder() {
    [ ! -d "$prefix/$1" ] || return 0
    case $1 in
        */*) make_folder "${1%/*}" ;;
    esac
    mkdir -- "$prefix/$1" 2> /dev/null || cant_write "$1"
    printf 'folder - %s\n' "$1" >> "$room/made"
}

cant_write() {
    fail "$prefix/$1 can't be written; what was installed before is as it was (--prefix names another folder, such as ~/.local)"
}

# Sets waits: the path at which what will be moved to a name waits, in a folder beside it.
waits_for() {
    waits=$prefix/${1%/*}/$stage/${1##*/}
}

# Makes the folder of a name, and within it an empty one for what will be moved to the name.
make_stage() {
    waits_for "$1"
    make_folder "${1%/*}"
    if ! grep -qxF -e "${1%/*}" "$room/stages"; then
        printf '%s\n' "${1%/*}" >> "$room/stages"
        rm -rf -- "$prefix/${1%/*}/$stage"
        mkdir -- "$prefix/${1%/*}/$stage" 2> /dev/null || cant_write "$1"
    fi
}

# Lets the standard input wait for a name.
stage_file() {
    make_stage "$1"
    cat > "$waits" || cant_write "$1"
    printf '%s %s\n' "$(state "$waits")" "$1" >> "$room/new"
}

# Lets a link wait for a name: TEXT NAME.
stage_link() {
    make_stage "$2"
    ln -s -- "$1" "$waits" || cant_write "$2"
    printf '%s %s\n' "$(state "$waits")" "$2" >> "$room/new"
}

# Copies each file that was changed and will be replaced to a name beside it that is free.
keep_changed() {
    names_of "$room/new" | while IFS= read -r name; do
        if is_there "$prefix/$name" && ! is_unchanged "$name" && ! grep -qxF -e "$(state "$prefix/$name") $name" "$room/new"; then
            kept=$name~
            while is_there "$prefix/$kept"; do kept=$kept~; done
            cp -pP -- "$prefix/$name" "$prefix/$kept" || cant_write "$kept"
            echo "kept $prefix/$name, which was changed since it was installed, as $prefix/$kept"
        fi
    done
}

# Moves what waits for a name there. A link that stands there is replaced, and not followed. (One to a folder goes before: busybox's mv refuses it.)
place() {
    waits_for "$1"
    if [ -L "$prefix/$1" ] && [ -d "$prefix/$1" ]; then rm -f -- "$prefix/$1"; fi
    mv -fT -- "$waits" "$prefix/$1" || fail "$prefix/$1 can't be replaced: install again, or --uninstall"
}

# Moves all that waits to its place, and removes what the last installation had beside. Meanwhile the list names what both put, so that
# --uninstall is right after an end at any moment.
place_all() {
    keep_changed
    grep '^folder ' "$room/old" > "$room/lines" || true
    cat -- "$room/made" "$room/new" >> "$room/lines"
    waits_for "$list"
    { cat -- "$room/lines" > "$waits.last" && cat -- "$room/old" "$room/lines" > "$waits"; } || cant_write "$list"
    last=$waits.last
    place "$list"
    names_of "$room/new" > "$room/names"
    while IFS= read -r name; do place "$name"; done < "$room/names"
    grep -vxF -f "$room/names" "$room/old_names" > "$room/gone" || true
    remove_all "$room/gone"
    mv -fT -- "$last" "$prefix/$list"
}

# Removes the files of the last installation with these names, where they weren't changed.
remove_all() {
    while IFS= read -r name; do
        if is_unchanged "$name"; then
            rm -f -- "$prefix/$name" || fail "$prefix/$name can't be removed"
            printf '%s\n' "$name" >> "$room/removed"
        elif is_there "$prefix/$name"; then
            echo "kept $prefix/$name, which was changed since it was installed"
        fi
    done < "$1"
}

# Removes the folders that these lines of a list name, where they are empty: the inner ones first.
remove_folders() {
    sed -n 's/^folder - //p' "$1" | sort -ru | while IFS= read -r name; do
        rmdir -- "$prefix/${name%.}" 2> /dev/null || true
    done
}

# Removes what waits, or waited when an installation was killed.
remove_stages() {
    while IFS= read -r name; do
        rm -rf -- "$prefix/$name/$stage"
    done < "$room/stages"
}

# What an end at any moment leaves: nothing that waits, and no folder that was made in vain.
clean() {
    remove_stages
    remove_folders "$room/made"
    rm -rf -- "$room"
}
