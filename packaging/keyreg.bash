# Completion of keyreg for bash.
_keyreg() {
    local word=${COMP_WORDS[COMP_CWORD]} before=${COMP_WORDS[COMP_CWORD - 1]} options
    local commands="init run import export report serve" IFS=$'\n'
    if ((COMP_CWORD == 1)); then
        COMPREPLY=($(compgen -W "${commands// /$IFS}$IFS--help$IFS--version" -- "$word"))
        return
    fi
    # bash takes `--file=PATH` for three words, and `--file=` for two.
    if [[ $word == = ]]; then
        word=
    elif [[ $before == = ]]; then
        before=${COMP_WORDS[COMP_CWORD - 2]}
    fi
    case $before in
    --file)
        # Names of files as bash itself completes them, with `~` and blanks.
        compopt -o default
        COMPREPLY=()
        return
        ;;
    --moment | --caller | --first | --days | --port | --exchanges) return ;;
    esac
    case ${COMP_WORDS[1]} in
    init | run | export) options="--file --help" ;;
    import) options="--file --moment --caller --first --help" ;;
    report) options="--file --days --help" ;;
    serve) options="--file --port --exchanges --help" ;;
    esac
    COMPREPLY=($(compgen -W "${options// /$IFS}" -- "$word"))
}
complete -F _keyreg keyreg
