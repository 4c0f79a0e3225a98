# Completion for etpd, etpctl, etptool and colmjurr.

_etpd() {
    if [ "$COMP_CWORD" -eq 1 ]; then
        compopt -o filenames 2> /dev/null
        COMPREPLY=($(compgen -f -X '!*.toml' -- "$2") $(compgen -d -- "$2"))
    elif [ "$COMP_CWORD" -eq 2 ]; then
        COMPREPLY=($(compgen -W '127.0.0.1:9002' -- "$2"))
    fi
}

_etpctl() {
    case $COMP_CWORD in
        1) COMPREPLY=($(compgen -W 'ping spaces put get delete load range watch follow' -- "$2")) ;;
        4) [ "${COMP_WORDS[1]}" = put ] && COMPREPLY=($(compgen -f -- "$2")) && compopt -o filenames 2> /dev/null ;;
    esac
}

_etptool() {
    if [ "$COMP_CWORD" -eq 1 ]; then
        COMPREPLY=($(compgen -W 'replay show check capture generate' -- "$2"))
    elif [ "${COMP_WORDS[1]}" = replay ] && [ "$COMP_CWORD" -eq 2 ]; then
        compopt -o filenames 2> /dev/null
        COMPREPLY=($(compgen -f -X '!*.toml' -- "$2") $(compgen -d -- "$2"))
    fi
}

_colmjurr() {
    if [ "$COMP_CWORD" -eq 1 ]; then
        COMPREPLY=($(compgen -W 'ping spaces get put delete channels range follow load plot check-config catalog journal exporter bridge copy conformance' -- "$2"))
    elif [ "${COMP_WORDS[1]}" = journal ] && [ "$COMP_CWORD" -eq 2 ]; then
        COMPREPLY=($(compgen -W 'ls export' -- "$2"))
    else
        compopt -o filenames 2> /dev/null
        COMPREPLY=($(compgen -f -- "$2"))
    fi
}

complete -F _etpd etpd
# A URL has colons, which part words by default.
COMP_WORDBREAKS=${COMP_WORDBREAKS//:/}
complete -F _etpctl etpctl
complete -F _etptool etptool
complete -F _colmjurr colmjurr
