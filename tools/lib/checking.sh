# shellcheck shell=bash

# Defines what the test scripts in bash share: the paths of the programs, a temporary folder `work`,
# and the checks. Sourced by these scripts.
#
# A check that fails prints the expected and the actual value and exits with status 1. It calls
# `exit` itself and does not rely on `set -e`, which bash ignores in conditions and lists. Do not
# call a check in a subshell: `exit` would end only the subshell.
# The scripts that source this file read its variables.
# shellcheck disable=SC2034

top=$(dirname "$(dirname "$(dirname "$(readlink -f "${BASH_SOURCE[0]}")")")")
# The programs to check: the proved ones, or those that the variables PROGRAM, CALLS, PCAP and
# PLAYER name. The first argument of `calls` has to be --calls, and that of `pcap` --pcap.
# tools/lib/programs.py does this for the scripts in Python.
program=${PROGRAM:-$top/crates/click_prog/out/click_prog}
calls=${CALLS:-$program}
pcap=${PCAP:-$program}
player=${PLAYER:-$top/crates/click_player/out/click_player}
work=$(mktemp -d)
trap 'rm -rf "$work"' EXIT

# fail LINE..: prints the lines on standard error and exits with status 1.
fail() {
    printf '%s: ' "${0##*/}" >&2
    printf '%s\n' "$@" >&2
    exit 1
}

# is_built PROGRAM..: checks that each program exists.
is_built() {
    local needed
    for needed in "$@"; do
        if ! [ -x "$needed" ]; then fail "there is no $needed: ./test.sh builds it, and so does rt run in its crate's folder"; fi
    done
}

# ran COMMAND..: runs the command, and leaves its status in $status, its standard output in
# $work/out and its standard error in $work/err.
ran() {
    status=0
    "$@" > "$work/out" 2> "$work/err" || status=$?
}

# same WANTED CAME WHAT: checks that the two words are equal. WHAT names the check in the message.
same() {
    if [ "$1" != "$2" ]; then
        fail "$3" "wanted: $1" "came:   $2"
    fi
}

# same_status WANTED CAME WHAT: checks a status; the message also shows $work/err.
same_status() {
    if [ "$1" != "$2" ]; then
        fail "$3: wanted status $1, came $2" "$(head -c 300 "$work/err")"
    fi
}

# shown FILE: prints the first 1,000 bytes of the file, with control characters made visible.
shown() { head -c 1000 "$1" | cat -A; }

# same_bytes WANTED CAME WHAT: checks that the two files have the same bytes.
same_bytes() {
    if ! cmp -s "$1" "$2"; then
        fail "$3" "wanted:" "$(shown "$1")" "came:" "$(shown "$2")"
    fi
}

# begins FILE WHOLE WHAT: checks that the bytes of FILE are a prefix of those of WHOLE.
begins() {
    if ! head -c "$(stat -c %s "$1")" "$2" | cmp -s - "$1"; then
        fail "$3" "wanted the first bytes of:" "$(shown "$2")" "came:" "$(shown "$1")"
    fi
}

# is_empty FILE WHAT: checks that the file is empty.
is_empty() {
    if [ -s "$1" ]; then
        fail "$2: wanted nothing, came:" "$(shown "$1")"
    fi
}

# is_not_empty FILE WHAT: checks that the file is not empty.
is_not_empty() {
    if ! [ -s "$1" ]; then
        fail "$2: wanted some bytes, came none"
    fi
}
