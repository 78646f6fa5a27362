# Completion of ob0 and its scripts for bash.

# Completes the word at the cursor to modules and folders.
_ob0_modules() {
    compopt -o filenames 2>/dev/null
    mapfile -t COMPREPLY < <(compgen -f -X '!*.@(ob0|mod|Mod)' -- "$1"; compgen -d -- "$1")
}

_ob0() {
    local word=${COMP_WORDS[COMP_CWORD]} before=${COMP_WORDS[COMP_CWORD - 1]} command="" at place=0
    COMPREPLY=()
    for ((at = 1; at < COMP_CWORD; at++)); do
        case ${COMP_WORDS[at]} in
            --calls | --turns | --clientProcessId | *[\<\>]) at=$((at + 1)) ;;
            -* | =) ;;
            *) if [[ -z $command ]]; then command=${COMP_WORDS[at]}; else place=$((place + 1)); fi ;;
        esac
    done
    # (a file after a redirection is completed as usual, like a file for which this function finds nothing)
    case $before in
        *[\<\>]) return ;;
    esac
    if [[ $command =~ ^(check|run|rename)$ && $place == 0 && $word != -* ]]; then
        _ob0_modules "$word"
        return
    fi
    compopt +o bashdefault +o default 2>/dev/null
    case $before in
        --calls | --turns | --clientProcessId) return ;;
    esac
    if [[ $word == -* ]]; then
        local options="-h --help"
        [[ -z $command ]] && options="$options -V --version"
        [[ $command == run ]] && options="--calls --turns $options"
        [[ $command == serve ]] && options="--stdio --clientProcessId $options"
        mapfile -t COMPREPLY < <(compgen -W "$options" -- "$word")
    elif [[ -z $command ]]; then
        mapfile -t COMPREPLY < <(compgen -W "serve check run rename help" -- "$word")
    elif [[ $command == help && $place == 0 ]]; then
        mapfile -t COMPREPLY < <(compgen -W "serve check run rename" -- "$word")
    fi
}

# Completes the word at the cursor to one of these options, or else to a module.
_ob0_options_or_modules() {
    local word=${COMP_WORDS[COMP_CWORD]}
    COMPREPLY=()
    case ${COMP_WORDS[COMP_CWORD - 1]} in
        *[\<\>]) return ;;
    esac
    if [[ $word == -* ]]; then
        mapfile -t COMPREPLY < <(compgen -W "$* -h --help -V --version" -- "$word")
    else
        _ob0_modules "$word"
    fi
}

_ob0_check() { _ob0_options_or_modules --hints --github --json; }
_ob0_format() { _ob0_options_or_modules --check --diff; }
_ob0_trace() { _ob0_options_or_modules --calls --program --turns; }
_ob0_rename() { _ob0_options_or_modules -i --in-place; }

_ob0_watch() {
    local word=${COMP_WORDS[COMP_CWORD]} first=1
    COMPREPLY=()
    if [[ ${COMP_WORDS[1]} == --report && $COMP_CWORD -gt 1 ]]; then
        first=3
    fi
    if ((COMP_CWORD < first)); then
        return # (the report's file is completed as usual)
    elif ((COMP_CWORD == first)) && [[ $word == -* ]]; then
        local options="--"
        ((first == 1)) && options="-- --report -h --help -V --version"
        mapfile -t COMPREPLY < <(compgen -W "$options" -- "$word")
    elif ((COMP_CWORD > first)) && [[ ${COMP_WORDS[first]} == -- ]]; then
        # (the words of another server are completed as usual)
        ((COMP_CWORD == first + 1)) && mapfile -t COMPREPLY < <(compgen -c -- "$word")
    else
        COMP_WORDS=(ob0 "${COMP_WORDS[@]:first}")
        COMP_CWORD=$((COMP_CWORD - first + 1))
        _ob0
    fi
}

shopt -s extglob
complete -o bashdefault -o default -F _ob0 ob0
complete -o bashdefault -o default -F _ob0_check ob0-check
complete -o bashdefault -o default -F _ob0_format ob0-format
complete -o bashdefault -o default -F _ob0_rename ob0-rename
complete -o bashdefault -o default -F _ob0_trace ob0-trace
complete -o bashdefault -o default -F _ob0_watch ob0-watch
