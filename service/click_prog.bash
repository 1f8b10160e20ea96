# shellcheck shell=bash

# Completes the words of click_prog in bash: the modes, the options of the mode, and for a few
# options a value. The options are those that the program itself prints.
_click_prog() {
    local command=${COMP_WORDS[0]} word=${COMP_WORDS[COMP_CWORD]} before=${COMP_WORDS[COMP_CWORD - 1]}
    local mode='' modes='' options
    COMPREPLY=()
    case $before in
    -e | -p | -n | -w | --rounds | --check | --link | --tell | --page | --in | --out | --idle) return ;;
    esac
    case ${COMP_WORDS[1]} in --calls | --pcap) mode=${COMP_WORDS[1]} ;; esac
    if [ "$COMP_CWORD" = 1 ]; then mode='' modes='--calls --pcap'; fi
    # The help has an option at the beginning of a line, such as `  -h, --help` or `      --live`.
    options=$("$command" ${mode:+"$mode"} --help 2>&1 | sed -n 's/^ \{2,6\}\(-[A-Za-z]\)\{0,1\}\(, \)\{0,1\}\(--[a-z-]*\)\{0,1\} .*/\1 \3/p')
    mapfile -t COMPREPLY < <(compgen -W "$modes $options" -- "$word")
}
complete -F _click_prog click_prog
