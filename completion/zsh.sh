# The completion of zsh.

_juzkarg() {
    local what prefix piece list current=$PREFIX
    local -a given shown
    [[ -n $compstate[quote] ]] || current=${(Q)PREFIX}
    _juzkarg_plan "${(@Q)words[1,CURRENT-1]}" "$current"
    case $what in
        files | folders)
            [[ -z $prefix ]] || compset -P '*='
            if [[ $what == files ]]; then _files; else _files -/; fi
            return
            ;;
    esac
    shown=(${(f)list})
    given=("$prefix"${^shown%%$'\t'*})
    shown=("${(@)shown/$'\t'/  }")
    if [[ $what == format ]]; then
        compadd -S '' -d shown -a given
    else
        compadd -d shown -a given
    fi
}

_juzkarg "$@"
