#compdef keyreg
# Completion of keyreg for zsh.
_keyreg() {
    local -a commands
    commands=(
        'init:make an empty register in a file'
        'run:apply the request lines of standard input'
        'import:register a key for each row of a CSV'
        'export:write all keys as CSV'
        'report:write which keys are due for rotation'
        'serve:serve HTTP exchanges on 127.0.0.1'
    )
    # Braces are expanded among the words of an array, and in no other assignment.
    local -a help=('(- *)'{-h,--help}'[print help]')
    if ((CURRENT == 2)); then
        _describe command commands
        _arguments $help '(- *)'{-V,--version}'[print the version]'
        return
    fi
    local file='--file=[the file of the register]:file:_files'
    local command=$words[2]
    shift words
    ((CURRENT--))
    case $command in
    init | run | export) _arguments $file $help ;;
    import)
        _arguments $file '--moment=[seconds since 1970]:seconds:' '--caller=[who asks]:name:' \
            '--first=[request number of the first row]:number:' $help
        ;;
    report) _arguments $file '--days=[how many days ahead]:days:' $help ;;
    serve) _arguments $file '--port=[the port]:port:' '--exchanges=[how many to serve]:number:' $help ;;
    esac
}
_keyreg "$@"
