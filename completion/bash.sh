# The completion of bash.

# Cuts a command line into words without their quotes. Sets words, quote (the one that is open at the end), expands (whether the shell would put
# something else in place of a part of the last word), and begun (a backslash at the end that quotes nothing yet).
_juzkarg_split() {
    local line=$1 at char word= has= escaped=
    words=() quote= expands=
    for ((at = 0; at < ${#line}; at++)); do
        char=${line:at:1}
        if [[ -n $escaped ]]; then
            # (between double quotes a backslash stands for itself but before these four)
            if [[ $quote == '"' && $char != [\\\"\$\`] ]]; then word+='\'; fi
            word+=$char escaped=
        elif [[ $char == '\' && $quote != "'" ]]; then
            escaped='\' has=1
        elif [[ $char == [\$\`] && $quote != "'" ]]; then
            word+=$char expands=1
        elif [[ -n $quote ]]; then
            if [[ $char == "$quote" ]]; then quote=; else word+=$char; fi
        elif [[ $char == [\'\"] ]]; then
            quote=$char has=1
        elif [[ $char == [[:blank:]] ]]; then
            if [[ -n $word$has ]]; then words+=("$word"); fi
            word= has= expands=
        else
            word+=$char
        fi
    done
    words+=("$word")
    begun=$escaped
}

# Prints what may stand on the line in place of what was typed of the last word: that itself, and the rest of each line of the list, quoted so that
# the shell takes it as it is. TYPED
_juzkarg_lines() {
    typed=${1%"$begun"} known=${words[-1]} before=$prefix quote=$quote what=$what LC_ALL=C awk '
        BEGIN { typed = ENVIRON["typed"]; known = length(ENVIRON["known"]) + 1; before = ENVIRON["before"]; quote = ENVIRON["quote"]; what = ENVIRON["what"] }
        $0 == "" { next }
        {
            sub(/\t.*/, "")
            rest = substr(before $0, known)
            if (quote == "\47") gsub(/\47/, "\47\\\\\47\47", rest)
            else if (quote == "\"") { gsub(/[\\"$`]/, "\\\\&", rest); gsub(/!/, "\"\47!\47\"", rest) }
            else if (what != "format") gsub(/[\001-\044\046-\052,;<>?[\\`{|}\177]/, "\\\\&", rest)
            if (quote typed == "") sub(/^~/, "\\~", rest)
            line = typed rest
            # (readline closes no quote behind one that stands there)
            print line (quote != "" && substr(line, length(line)) == quote ? quote : "")
        }' <<< "$list"
}

_juzkarg() {
    local what prefix piece list words quote expands begun lines
    COMPREPLY=()
    _juzkarg_split "${COMP_LINE:0:COMP_POINT}"
    _juzkarg_plan "${words[@]}"
    case $what in
        files) compopt -o default ;;
        folders) compopt -o dirnames ;;
        format) compopt -o nospace ;;
        words) [[ -z $expands ]] || return 0 ;;
    esac
    lines=$(_juzkarg_lines "$2")
    [[ -z $lines ]] || mapfile -t COMPREPLY <<< "$lines"
}

complete -F _juzkarg rpm rpmdb juzkarg-rpm juzkarg-rpmdb
