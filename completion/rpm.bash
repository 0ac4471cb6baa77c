# bash completion of rpm and rpmdb
# Made by completion/make.py.

_juzkarg_modes='Query Addpkg Replacepkg Erasepkg Verify Initdb Rebuilddb Verifydb Exportdb Importdb Exercise Order Checkfiles Help Version'
_juzkarg_rpm='--query --addpkg --replacepkg --erasepkg --verify --all --file --group --package --whatprovides --whatrequires --whatconflicts --whatobsoletes --triggeredby --querybynumber --whatdir --tid --whatrecommends --list --qf --queryformat --after --noindex --nofiles --help --version --dbpath'
_juzkarg_short='-q -V -a -f -g -p -l'
_juzkarg_rpmdb='--initdb --rebuilddb --verifydb --exportdb --importdb --exercise --order --checkfiles --help --version --dbpath'
_juzkarg_formatters='string hex octal perms depflags fflags fstate day date shescape base64 arraysize'
_juzkarg_tags='SIGSIZE SIGMD5 SHA1HEADER SHA256HEADER NAME VERSION RELEASE EPOCH SUMMARY DESCRIPTION BUILDTIME BUILDHOST INSTALLTIME SIZE DISTRIBUTION VENDOR LICENSE PACKAGER GROUP SOURCE PATCH URL OS ARCH PREIN POSTIN PREUN POSTUN FILESIZES FILESTATES FILEMODES FILERDEVS FILEMTIMES FILEDIGESTS FILELINKTOS FILEFLAGS FILEUSERNAME FILEGROUPNAME SOURCERPM FILEVERIFYFLAGS ARCHIVESIZE PROVIDENAME REQUIREFLAGS REQUIRENAME REQUIREVERSION CONFLICTFLAGS CONFLICTNAME CONFLICTVERSION RPMVERSION TRIGGERSCRIPTS TRIGGERNAME TRIGGERVERSION TRIGGERFLAGS TRIGGERINDEX CHANGELOGTIME CHANGELOGNAME CHANGELOGTEXT PREINPROG POSTINPROG PREUNPROG POSTUNPROG OBSOLETENAME FILEDEVICES FILEINODES FILELANGS PROVIDEFLAGS PROVIDEVERSION OBSOLETEFLAGS OBSOLETEVERSION DIRINDEXES BASENAMES DIRNAMES OPTFLAGS DISTURL PAYLOADFORMAT PAYLOADCOMPRESSOR PAYLOADFLAGS INSTALLTID PLATFORM RECOMMENDNAME RECOMMENDVERSION RECOMMENDFLAGS NVR NVRA EVR NEVRA EPOCHNUM FILENAMES DBINSTANCE'

# What an option is: in which modes it may stand, what its value is, and what the arguments are that it asks for.
_juzkarg_option() {
    case $1 in
        'rpm --query' | 'rpm -q') kind=mode name=Query modes='Query' value= arguments=names ;;
        'rpm --addpkg') kind=mode name=Addpkg modes='Addpkg' value= arguments=files ;;
        'rpm --replacepkg') kind=mode name=Replacepkg modes='Replacepkg' value= arguments=numbers,files,none ;;
        'rpm --erasepkg') kind=mode name=Erasepkg modes='Erasepkg' value= arguments=numbers ;;
        'rpm --verify' | 'rpm -V') kind=mode name=Verify modes='Verify' value= arguments=none ;;
        'rpm --all' | 'rpm -a') kind=selection name=All modes='Query Verify' value= arguments=names ;;
        'rpm --file' | 'rpm -f') kind=selection name=Path modes='Query' value= arguments=files ;;
        'rpm --group' | 'rpm -g') kind=selection name=Group modes='Query' value= arguments=groups ;;
        'rpm --package' | 'rpm -p') kind=selection name=Package modes='Query' value= arguments=files ;;
        'rpm --whatprovides') kind=selection name=Provides modes='Query' value= arguments=PROVIDENAME ;;
        'rpm --whatrequires') kind=selection name=Requires modes='Query' value= arguments=REQUIRENAME ;;
        'rpm --whatconflicts') kind=selection name=Conflicts modes='Query' value= arguments=CONFLICTNAME ;;
        'rpm --whatobsoletes') kind=selection name=Obsoletes modes='Query' value= arguments=OBSOLETENAME ;;
        'rpm --triggeredby') kind=selection name=Trigger modes='Query' value= arguments=TRIGGERNAME ;;
        'rpm --querybynumber') kind=selection name=Number modes='Query' value= arguments=numbers ;;
        'rpm --whatdir') kind=selection name=Directory modes='Query' value= arguments=DIRNAMES ;;
        'rpm --tid') kind=selection name=Tid modes='Query' value= arguments=transactions ;;
        'rpm --whatrecommends') kind=selection name=Recommends modes='Query' value= arguments=RECOMMENDNAME ;;
        'rpm --list' | 'rpm -l') kind=option name=Lists modes='Query' value= arguments= ;;
        'rpm --qf' | 'rpm --queryformat') kind=option name=Format modes='Query' value=format arguments= ;;
        'rpm --after') kind=option name=After modes='Query' value=numbers arguments= ;;
        'rpm --noindex') kind=option name=Noindex modes='Query' value= arguments= ;;
        'rpm --nofiles') kind=option name=Nofiles modes='Verify' value= arguments= ;;
        'rpm --help') kind=mode name=Help modes='Help' value= arguments=none ;;
        'rpm --version') kind=mode name=Version modes='Version' value= arguments=none ;;
        'rpm --dbpath') kind=option name=Folder modes='Query Addpkg Replacepkg Erasepkg Verify Initdb Rebuilddb Verifydb Exportdb Importdb Exercise Order Checkfiles Help Version' value=folders arguments= ;;
        'rpmdb --initdb') kind=mode name=Initdb modes='Initdb' value= arguments=none ;;
        'rpmdb --rebuilddb') kind=mode name=Rebuilddb modes='Rebuilddb' value= arguments=none ;;
        'rpmdb --verifydb') kind=mode name=Verifydb modes='Verifydb' value= arguments=none ;;
        'rpmdb --exportdb') kind=mode name=Exportdb modes='Exportdb' value= arguments=none ;;
        'rpmdb --importdb') kind=mode name=Importdb modes='Importdb' value= arguments=none ;;
        'rpmdb --exercise') kind=mode name=Exercise modes='Exercise' value=number arguments=none ;;
        'rpmdb --order') kind=mode name=Order modes='Order' value= arguments=none ;;
        'rpmdb --checkfiles') kind=mode name=Checkfiles modes='Checkfiles' value= arguments=none ;;
        'rpmdb --help') kind=mode name=Help modes='Help' value= arguments=none ;;
        'rpmdb --version') kind=mode name=Version modes='Version' value= arguments=none ;;
        'rpmdb --dbpath') kind=option name=Folder modes='Query Addpkg Replacepkg Erasepkg Verify Initdb Rebuilddb Verifydb Exportdb Importdb Exercise Order Checkfiles Help Version' value=folders arguments= ;;
        *) return 1 ;;
    esac
}

# What a word of a command line may be, for bash and zsh alike. The tables (_juzkarg_option and the lists) are made by completion/make.py.

# Reads the words of a command line, of which the last is the one that is completed: WORD.. CURRENT. Sets what (words, format, files, folders),
# prefix and piece, which the last word consists of, and list: what may stand for the piece, in lines, each perhaps with a tab and an explanation.
_juzkarg_plan() {
    [ -z "${ZSH_VERSION-}" ] || emulate -L sh
    local program=$1 table=rpm mode= takes= chosen= possible= used= folder= pending= ended= count=0 letters
    local kind= name= modes= value= arguments= common=
    possible=$_juzkarg_modes
    case $1 in
        *rpmdb) table=rpmdb ;;
    esac
    shift
    while [ $# -gt 1 ]; do
        _juzkarg_take "$1"
        shift
    done
    prefix= piece=$1 what=words list=
    _juzkarg_offer "$1"
    case $what in
        words | format) _juzkarg_keep ;;
    esac
}

# Reads one word that stands before the last, as the program does.
_juzkarg_take() {
    if [ -n "$pending" ]; then
        [ "$pending" != folders ] || folder=$1
        case $folder in
            '~/'*) folder=$HOME/${folder#??} ;;
        esac
        pending=
    elif [ -n "$ended" ]; then
        count=$((count + 1))
    else
        case $1 in
            --) ended=1 ;;
            --*=*)
                _juzkarg_note "${1%%=*}" || return 0
                [ "$value" != folders ] || folder=${1#*=}
                ;;
            --*)
                _juzkarg_note "$1" || return 0
                pending=$value
                ;;
            -?*) _juzkarg_letters "${1#-}" || return 0 ;;
            *) count=$((count + 1)) ;;
        esac
    fi
}

# Notes each of these letters as an option, where they are options.
_juzkarg_letters() {
    letters=$1
    while [ -n "$letters" ]; do
        _juzkarg_note "-${letters%"${letters#?}"}" || return 1
        letters=${letters#?}
    done
}

# Notes an option, where it is one: the modes that it leaves, and what the arguments are.
_juzkarg_note() {
    _juzkarg_option "$table $1" || return 1
    used="$used $name "
    _juzkarg_common
    possible=$common
    case $kind in
        mode) mode=$name takes=$arguments ;;
        selection) chosen=$arguments ;;
    esac
}

# Sets common to the modes that are possible and that the option may stand in.
_juzkarg_common() {
    local one
    common=
    for one in $modes; do
        case " $possible " in
            *" $one "*) common="$common $one" ;;
        esac
    done
}

# Whether an option may follow those that stand there.
_juzkarg_is_possible() {
    _juzkarg_option "$table $1" || return 1
    case "$used" in
        *" $name "*) return 1 ;;
    esac
    [ "$kind" != mode ] || [ -z "$mode" ] || return 1
    [ "$kind" != selection ] || [ -z "$chosen" ] || return 1
    _juzkarg_common
    [ -n "$common" ]
}

# The possible ones among these options, each after what stands before it: BEFORE OPTION..
_juzkarg_add_possible() {
    local before=$1
    shift
    while [ $# -gt 0 ]; do
        if _juzkarg_is_possible "$1"; then
            list="$list$before${1#"${before:+-}"}
"
        fi
        shift
    done
}

# What may stand in place of the last word.
_juzkarg_offer() {
    if [ -n "$pending" ]; then
        _juzkarg_value "$pending"
        return
    fi
    case $ended$1 in
        --*=*)
            prefix=${1%%=*}= piece=${1#*=} value=
            _juzkarg_option "$table ${1%%=*}" || true
            _juzkarg_value "$value"
            ;;
        -[!-]*)
            _juzkarg_letters "${1#-}" || return 0
            list="$1
"
            _juzkarg_add_possible "$1" $_juzkarg_short
            ;;
        -*) _juzkarg_add_options ;;
        *) _juzkarg_argument ;;
    esac
}

_juzkarg_add_options() {
    case $table in
        rpmdb) _juzkarg_add_possible '' $_juzkarg_rpmdb ;;
        *) _juzkarg_add_possible '' $_juzkarg_short $_juzkarg_rpm ;;
    esac
}

# An argument, which the selection or the mode says; where none may stand, an option.
_juzkarg_argument() {
    local wanted=$takes
    case $mode in
        '' | Query) wanted=${chosen:-$takes} ;;
    esac
    case $wanted in
        *,*)
            # (as many as are listed)
            while [ "$count" -gt 0 ]; do
                wanted=${wanted#*,}
                count=$((count - 1))
            done
            wanted=${wanted%%,*}
            ;;
    esac
    case $wanted in
        '' | none) [ -n "$ended" ] || _juzkarg_add_options ;;
        *) _juzkarg_value "$wanted" ;;
    esac
}

# A value or an argument of this kind.
_juzkarg_value() {
    case $1 in
        files | folders) what=$1 ;;
        format) _juzkarg_format ;;
        names) _juzkarg_ask '%{NAME}\n' ;;
        numbers) _juzkarg_ask '%{DBINSTANCE}\t%{NVRA}\n' ;;
        groups) _juzkarg_ask '%{GROUP}\n' ;;
        transactions) _juzkarg_ask '%{INSTALLTID}\n' ;;
        [A-Z]*) _juzkarg_ask "[%{$1}\\n]" ;;
    esac
}

# What the packages of the database that is asked have by this format; nothing where there is no such database.
_juzkarg_ask() {
    list=$(command "$program" ${folder:+--dbpath "$folder"} -qa --noindex --qf "$1" 2> /dev/null) || list=
}

# A tag or a formatter, where the text of a format ends within a tag or at the name of a condition.
_juzkarg_format() {
    what=format
    case $piece in
        *%'|'*)
            case ${piece##*%'|'} in
                *[!A-Za-z0-9_]*) ;;
                *)
                    _juzkarg_pass "${piece%"${piece##*%'|'}"}"
                    _juzkarg_tags '?{' '?{'
                    return
                    ;;
            esac
            ;;
    esac
    _juzkarg_is_in_tag || return 0
    _juzkarg_pass "${piece%"${piece##*\{}"}"
    case $piece in
        [=#]*) _juzkarg_pass "${piece%"${piece#?}"}" ;;
    esac
    case $piece in
        *:*)
            _juzkarg_pass "${piece%%:*}:"
            list=$(printf "%s}\n" $_juzkarg_formatters)
            ;;
        *) _juzkarg_tags '}' ':' ;;
    esac
}

# Moves the beginning of the piece to the prefix.
_juzkarg_pass() {
    prefix=$prefix$1 piece=${piece#"$1"}
}

# Whether the last brace of the piece begins a tag: after a percent that is no second one, and a width.
_juzkarg_is_in_tag() {
    local before=${piece%\{*}
    case $piece in
        *\{*) ;;
        *) return 1 ;;
    esac
    case ${piece##*\{} in
        *\}*) return 1 ;;
    esac
    while :; do
        case $before in
            *[0-9-]) before=${before%?} ;;
            *%%) before=${before%??} ;;
            *%) return 0 ;;
            *) return 1 ;;
        esac
    done
}

# The tags that begin as the piece does, in its letters. One alone is given with each of these ends: END END
_juzkarg_tags() {
    list=$(printf '%s\n' $_juzkarg_tags | piece=$piece first=$1 second=$2 awk '
        BEGIN {
            piece = ENVIRON["piece"]
            small = piece ~ /[a-z]/ && piece !~ /[A-Z]/
            lead = toupper(substr(piece, 1, 7)) == "RPMTAG_" ? substr(piece, 1, 7) : ""
        }
        { $0 = lead (small ? tolower($0) : $0) }
        index($0, piece) == 1 { found[++count] = $0 }
        END {
            whole = count == 1 || found[1] == piece
            if (whole) print found[1] ENVIRON["first"] (ENVIRON["first"] == ENVIRON["second"] ? "" : "\n" found[1] ENVIRON["second"])
            for (k = 1 + whole; k <= count; k++) print found[k]
        }')
}

# Leaves of the list what begins as the piece does, each once.
_juzkarg_keep() {
    list=$(printf '%s\n' "$list" | piece=$piece awk 'index($0, ENVIRON["piece"]) == 1 && $0 != "" && $0 !~ /^\(none\)/ && !seen[$0]++')
}

# The completion of bash.

# Cuts a command line into words without their quotes. Sets words, quote (the one that is open at the end), expands (whether the shell would put
# something else in place of a part of the last word), and begun (a backslash at the end that quotes nothing yet).
_juzkarg_split() {
    local line=$1 at char word= has= escaped=
    words=() quote= expands=
    for ((at = 0; at < ${#line}; at++)); do
        char=${line:at:1}
        if [[ -n $escaped ]]; then
            # (between double quotes a backslash stands for itself but before these four)
            if [[ $quote == '"' && $char != [\\\"\$\`] ]]; then word+='\'; fi
            word+=$char escaped=
        elif [[ $char == '\' && $quote != "'" ]]; then
            escaped='\' has=1
        elif [[ $char == [\$\`] && $quote != "'" ]]; then
            word+=$char expands=1
        elif [[ -n $quote ]]; then
            if [[ $char == "$quote" ]]; then quote=; else word+=$char; fi
        elif [[ $char == [\'\"] ]]; then
            quote=$char has=1
        elif [[ $char == [[:blank:]] ]]; then
            if [[ -n $word$has ]]; then words+=("$word"); fi
            word= has= expands=
        else
            word+=$char
        fi
    done
    words+=("$word")
    begun=$escaped
}

# Prints what may stand on the line in place of what was typed of the last word: that itself, and the rest of each line of the list, quoted so that
# the shell takes it as it is. TYPED
_juzkarg_lines() {
    typed=${1%"$begun"} known=${words[-1]} before=$prefix quote=$quote what=$what LC_ALL=C awk '
        BEGIN { typed = ENVIRON["typed"]; known = length(ENVIRON["known"]) + 1; before = ENVIRON["before"]; quote = ENVIRON["quote"]; what = ENVIRON["what"] }
        $0 == "" { next }
        {
            sub(/\t.*/, "")
            rest = substr(before $0, known)
            if (quote == "\47") gsub(/\47/, "\47\\\\\47\47", rest)
            else if (quote == "\"") { gsub(/[\\"$`]/, "\\\\&", rest); gsub(/!/, "\"\47!\47\"", rest) }
            else if (what != "format") gsub(/[\001-\044\046-\052,;<>?[\\`{|}\177]/, "\\\\&", rest)
            if (quote typed == "") sub(/^~/, "\\~", rest)
            line = typed rest
            # (readline closes no quote behind one that stands there)
            print line (quote != "" && substr(line, length(line)) == quote ? quote : "")
        }' <<< "$list"
}

_juzkarg() {
    local what prefix piece list words quote expands begun lines
    COMPREPLY=()
    _juzkarg_split "${COMP_LINE:0:COMP_POINT}"
    _juzkarg_plan "${words[@]}"
    case $what in
        files) compopt -o default ;;
        folders) compopt -o dirnames ;;
        format) compopt -o nospace ;;
        words) [[ -z $expands ]] || return 0 ;;
    esac
    lines=$(_juzkarg_lines "$2")
    [[ -z $lines ]] || mapfile -t COMPREPLY <<< "$lines"
}

complete -F _juzkarg rpm rpmdb juzkarg-rpm juzkarg-rpmdb
