# shellcheck shell=bash

# Completes the words of clickctl in bash: its commands and options as it prints them, the file of
# `swap`, and for the other commands the handlers of the router that answers at the port.
_clickctl() {
    local command='' before=${COMP_WORDS[COMP_CWORD - 1]} at count=0
    local -a router=()
    COMPREPLY=()
    case $before in -p | --port | -h | --host | --timeout | --text | --count | --interval) return ;; esac
    # $count is the number of words after the command that are no options.
    for ((at = 1; at < COMP_CWORD; at++)); do
        case ${COMP_WORDS[at]} in
        -p | --port | -h | --host) router+=("${COMP_WORDS[at]}" "${COMP_WORDS[at + 1]}") at=$((at + 1)) ;;
        --timeout | --text | --count | --interval) at=$((at + 1)) ;;
        -*) ;;
        *) if [ -z "$command" ]; then command=${COMP_WORDS[at]}; else count=$((count + 1)); fi ;;
        esac
    done
    _clickctl_words "${COMP_WORDS[COMP_CWORD]}"
}

# _clickctl_words WORD: offers what may stand there, after $command and $count words more, of the
# router that the options $router name.
_clickctl_words() {
    local access=''
    case $command in read | watch | wait) access='read' ;; write) access='write' ;; esac
    case $command,$count,$1 in
    *,-*) _clickctl_offer "$(_clickctl_options)" "$1" ;;
    ,*) _clickctl_offer "$(_clickctl_help | sed -n 's/^    \([a-z]*\)  .*/\1/p') $(_clickctl_options)" "$1" ;;
    swap,0,*) mapfile -t COMPREPLY < <(compgen -f -- "$1") ;;
    list,*) _clickctl_offer "$(_clickctl_asks '')" "$1" ;;
    # These have a text or a value after the handler.
    write,0,*.* | wait,0,*.* | read,*.* | check,*.* | watch,*.*) _clickctl_offer "$(_clickctl_asks "$access" "${1%.*}")" "$1" ;;
    write,0,* | wait,0,* | read,* | check,* | watch,*)
        mapfile -t COMPREPLY < <(compgen -S . -W "$(_clickctl_asks '')" -- "$1")
        # The name of the handler follows the dot.
        compopt -o nospace 2> /dev/null || true ;;
    esac
}

_clickctl_offer() { mapfile -t COMPREPLY < <(compgen -W "$1" -- "$2"); }

_clickctl_help() { "${COMP_WORDS[0]}" ${command:+"$command"} --help 2> /dev/null; }

# _clickctl_options: prints the options that the command has.
_clickctl_options() { _clickctl_help | grep -o '^  --*[a-z]*\|, --[a-z]*' | tr -d ,; }

# _clickctl_asks ACCESS [ELEMENT]: prints the names of the router's elements, or of the handlers of
# one that a session can access in this way, `read` or `write`.
_clickctl_asks() {
    "${COMP_WORDS[0]}" "${router[@]}" --timeout 1 list "${@:2}" 2> /dev/null | sed -n "s/^\([^ ]*\) .*$1.*/\1/p"
}

complete -F _clickctl clickctl
