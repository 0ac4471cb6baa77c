# What a word of a command line may be, for bash and zsh alike. The tables (_juzkarg_option and the lists) are made by completion/make.py.

# Reads the words of a command line, of which the last is the one that is completed: WORD.. CURRENT. Sets what (words, format, files, folders),
# prefix and piece, which the last word consists of, and list: what may stand for the piece, in lines, each perhaps with a tab and an explanation.
_juzkarg_plan() {
    [ -z "${ZSH_VERSION-}" ] || emulate -L sh
    local program=$1 table=rpm mode= takes= chosen= possible= used= folder= pending= ended= count=0 letters
    local kind= name= modes= value= arguments= common=
    possible=$_juzkarg_modes
    case $1 in
        *rpmdb) table=rpmdb ;;
    esac
    shift
    while [ $# -gt 1 ]; do
        _juzkarg_take "$1"
        shift
    done
    prefix= piece=$1 what=words list=
    _juzkarg_offer "$1"
    case $what in
        words | format) _juzkarg_keep ;;
    esac
}

# Reads one word that stands before the last, as the program does.
_juzkarg_take() {
    if [ -n "$pending" ]; then
        [ "$pending" != folders ] || folder=$1
        case $folder in
            '~/'*) folder=$HOME/${folder#??} ;;
        esac
        pending=
    elif [ -n "$ended" ]; then
        count=$((count + 1))
    else
        case $1 in
            --) ended=1 ;;
            --*=*)
                _juzkarg_note "${1%%=*}" || return 0
                [ "$value" != folders ] || folder=${1#*=}
                ;;
            --*)
                _juzkarg_note "$1" || return 0
                pending=$value
                ;;
            -?*) _juzkarg_letters "${1#-}" || return 0 ;;
            *) count=$((count + 1)) ;;
        esac
    fi
}

# Notes each of these letters as an option, where they are options.
_juzkarg_letters() {
    letters=$1
    while [ -n "$letters" ]; do
        _juzkarg_note "-${letters%"${letters#?}"}" || return 1
        letters=${letters#?}
    done
}

# Notes an option, where it is one: the modes that it leaves, and what the arguments are.
_juzkarg_note() {
    _juzkarg_option "$table $1" || return 1
    used="$used $name "
    _juzkarg_common
    possible=$common
    case $kind in
        mode) mode=$name takes=$arguments ;;
        selection) chosen=$arguments ;;
    esac
}

# Sets common to the modes that are possible and that the option may stand in.
_juzkarg_common() {
    local one
    common=
    for one in $modes; do
        case " $possible " in
            *" $one "*) common="$common $one" ;;
        esac
    done
}

# Whether an option may follow those that stand there.
_juzkarg_is_possible() {
    _juzkarg_option "$table $1" || return 1
    case "$used" in
        *" $name "*) return 1 ;;
    esac
    [ "$kind" != mode ] || [ -z "$mode" ] || return 1
    [ "$kind" != selection ] || [ -z "$chosen" ] || return 1
    _juzkarg_common
    [ -n "$common" ]
}

# The possible ones among these options, each after what stands before it: BEFORE OPTION..
_juzkarg_add_possible() {
    local before=$1
    shift
    while [ $# -gt 0 ]; do
        if _juzkarg_is_possible "$1"; then
            list="$list$before${1#"${before:+-}"}
"
        fi
        shift
    done
}

# What may stand in place of the last word.
_juzkarg_offer() {
    if [ -n "$pending" ]; then
        _juzkarg_value "$pending"
        return
    fi
    case $ended$1 in
        --*=*)
            prefix=${1%%=*}= piece=${1#*=} value=
            _juzkarg_option "$table ${1%%=*}" || true
            _juzkarg_value "$value"
            ;;
        -[!-]*)
            _juzkarg_letters "${1#-}" || return 0
            list="$1
"
            _juzkarg_add_possible "$1" $_juzkarg_short
            ;;
        -*) _juzkarg_add_options ;;
        *) _juzkarg_argument ;;
    esac
}

_juzkarg_add_options() {
    case $table in
        rpmdb) _juzkarg_add_possible '' $_juzkarg_rpmdb ;;
        *) _juzkarg_add_possible '' $_juzkarg_short $_juzkarg_rpm ;;
    esac
}

# An argument, which the selection or the mode says; where none may stand, an option.
_juzkarg_argument() {
    local wanted=$takes
    case $mode in
        '' | Query) wanted=${chosen:-$takes} ;;
    esac
    case $wanted in
        *,*)
            # (as many as are listed)
            while [ "$count" -gt 0 ]; do
                wanted=${wanted#*,}
                count=$((count - 1))
            done
            wanted=${wanted%%,*}
            ;;
    esac
    case $wanted in
        '' | none) [ -n "$ended" ] || _juzkarg_add_options ;;
        *) _juzkarg_value "$wanted" ;;
    esac
}

# A value or an argument of this kind.
_juzkarg_value() {
    case $1 in
        files | folders) what=$1 ;;
        format) _juzkarg_format ;;
        names) _juzkarg_ask '%{NAME}\n' ;;
        numbers) _juzkarg_ask '%{DBINSTANCE}\t%{NVRA}\n' ;;
        groups) _juzkarg_ask '%{GROUP}\n' ;;
        transactions) _juzkarg_ask '%{INSTALLTID}\n' ;;
        [A-Z]*) _juzkarg_ask "[%{$1}\\n]" ;;
    esac
}

# What the packages of the database that is asked have by this format; nothing where there is no such database.
_juzkarg_ask() {
    list=$(command "$program" ${folder:+--dbpath "$folder"} -qa --noindex --qf "$1" 2> /dev/null) || list=
}

# A tag or a formatter, where the text of a format ends within a tag or at the name of a condition.
_juzkarg_format() {
    what=format
    case $piece in
        *%'|'*)
            case ${piece##*%'|'} in
                *[!A-Za-z0-9_]*) ;;
                *)
                    _juzkarg_pass "${piece%"${piece##*%'|'}"}"
                    _juzkarg_tags '?{' '?{'
                    return
                    ;;
            esac
            ;;
    esac
    _juzkarg_is_in_tag || return 0
    _juzkarg_pass "${piece%"${piece##*\{}"}"
    case $piece in
        [=#]*) _juzkarg_pass "${piece%"${piece#?}"}" ;;
    esac
    case $piece in
        *:*)
            _juzkarg_pass "${piece%%:*}:"
            list=$(printf "%s}\n" $_juzkarg_formatters)
            ;;
        *) _juzkarg_tags '}' ':' ;;
    esac
}

# Moves the beginning of the piece to the prefix.
_juzkarg_pass() {
    prefix=$prefix$1 piece=${piece#"$1"}
}

# Whether the last brace of the piece begins a tag: after a percent that is no second one, and a width.
_juzkarg_is_in_tag() {
    local before=${piece%\{*}
    case $piece in
        *\{*) ;;
        *) return 1 ;;
    esac
    case ${piece##*\{} in
        *\}*) return 1 ;;
    esac
    while :; do
        case $before in
            *[0-9-]) before=${before%?} ;;
            *%%) before=${before%??} ;;
            *%) return 0 ;;
            *) return 1 ;;
        esac
    done
}

# The tags that begin as the piece does, in its letters. One alone is given with each of these ends: END END
_juzkarg_tags() {
    list=$(printf '%s\n' $_juzkarg_tags | piece=$piece first=$1 second=$2 awk '
        BEGIN {
            piece = ENVIRON["piece"]
            small = piece ~ /[a-z]/ && piece !~ /[A-Z]/
            lead = toupper(substr(piece, 1, 7)) == "RPMTAG_" ? substr(piece, 1, 7) : ""
        }
        { $0 = lead (small ? tolower($0) : $0) }
        index($0, piece) == 1 { found[++count] = $0 }
        END {
            whole = count == 1 || found[1] == piece
            if (whole) print found[1] ENVIRON["first"] (ENVIRON["first"] == ENVIRON["second"] ? "" : "\n" found[1] ENVIRON["second"])
            for (k = 1 + whole; k <= count; k++) print found[k]
        }')
}

# Leaves of the list what begins as the piece does, each once.
_juzkarg_keep() {
    list=$(printf '%s\n' "$list" | piece=$piece awk 'index($0, ENVIRON["piece"]) == 1 && $0 != "" && $0 !~ /^\(none\)/ && !seen[$0]++')
}
