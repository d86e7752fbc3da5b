# Completion of xensched's words in bash: read this file with `.` in ~/.bashrc, or have tools/install put it where bash-completion finds it.

# Whether the command of this name is the launcher, which has words of its own, and not the program.
_xensched_is_launcher() {
    local file head=""
    file=$(type -P -- "${1/#\~\//$HOME/}") || return
    IFS= read -r -n 2 head 2>/dev/null <"$file"
    [ "$head" = '#!' ]
}

# Offers nothing here, no file either.
_xensched_nothing() {
    compopt +o bashdefault +o default 2>/dev/null
}

_xensched_offer() {
    mapfile -t COMPREPLY < <(compgen -W "$1" -- "$2")
    _xensched_nothing
}

# Files are left to bash, which knows quotes, spaces, folders and variables.
_xensched() {
    local word=${COMP_WORDS[COMP_CWORD]} at=1 command options="" before i files=0 most=0 ended=""
    COMPREPLY=()
    if [[ ${COMP_WORDS[1]} == --@(old|trial) ]] && ((COMP_CWORD > 1)) && _xensched_is_launcher "$1"; then
        at=2
    fi
    if ((COMP_CWORD == at)); then
        before="run report watch check make load"
        if ((at == 1)) && _xensched_is_launcher "$1"; then
            before+=" --build --version --old --trial --help"
        fi
        _xensched_offer "$before" "$word"
        return
    fi
    command=${COMP_WORDS[at]}
    case $command in
    run | report) options="--ordered --events" most=2 ;;
    watch) options="--events" most=2 ;;
    check) options="--ordered" most=3 ;;
    esac
    for ((i = at + 1; i < COMP_CWORD; i++)); do
        before=${COMP_WORDS[i]}
        if [ -z "$ended" ] && [ "$before" = -- ]; then
            ended=yes
        elif [ -z "$ended" ] && [ "$before" = --events ]; then
            [ "${COMP_WORDS[i + 1]}" = = ] && ((i++))
            ((++i < COMP_CWORD)) || { _xensched_nothing; return; }
        elif [ -n "$ended" ] || [[ $before != -?* ]]; then
            ((files++))
        fi
    done
    if [ "$command" = make ] && ((files == 3)); then
        _xensched_offer "domains work" "$word"
    elif [ -z "$ended" ] && [[ $word == -* ]]; then
        _xensched_offer "$options" "$word"
    elif ((files >= most)); then
        _xensched_nothing
    fi
}
complete -o bashdefault -o default -F _xensched xensched ./xensched
