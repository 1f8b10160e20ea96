# shellcheck shell=bash

# Defines what the scripts share that count instructions: a temporary folder `work`, the programs,
# the counting, and the rows of tables. Sourced by these scripts.
#
# A function that fails ends the script by `exit`. So call none of them in a subshell, except
# `ratio`: `exit` would end only the subshell. Results are left in variables.
# The scripts that source this file read its variables.
# shellcheck disable=SC2034

top=$(dirname "$(dirname "$(dirname "$(readlink -f "${BASH_SOURCE[0]}")")")")
# The programs to measure: the proved ones, or those that PROGRAM and PCAP name. The first argument
# of `pcap` has to be --pcap.
program=${PROGRAM:-$top/crates/click_prog/out/click_prog}
pcap=${PCAP:-$program}
work=$(mktemp -d)
trap 'rm -rf "$work"' EXIT

# fail LINE..: prints the lines on standard error and exits with status 1.
fail() {
    printf '%s: ' "$0" >&2
    printf '%s\n' "$@" >&2
    exit 1
}

# needs COMMAND..: checks that each command is installed.
needs() {
    local needed
    for needed in "$@"; do
        command -v "$needed" > /dev/null || fail "there is no $needed"
    done
}

# is_built PROGRAM..: checks that each program exists.
is_built() {
    local needed
    for needed in "$@"; do
        [ -x "$needed" ] || fail "there is no $needed: ./test.sh builds it, and so does rt run in its crate's folder"
    done
}

# drive_built: sets $drive to the path of the program bench/drive. That is DRIVE, or else one that
# is proved and built now, which can take an hour. Scripts that this one calls use the same program.
drive_built() {
    if [ -z "${DRIVE:-}" ]; then DRIVE=$("$top/bench/drive/build.sh" "$work/built") || fail 'bench/drive was not proved'; fi
    export DRIVE
    drive=$DRIVE
    is_built "$drive"
}

# peer NAME SOURCE: compiles plain Rust to $work/NAME.
peer() {
    rustc --edition 2024 -C opt-level=3 -C codegen-units=1 -C target-cpu=x86-64-v2 -o "$work/$1" "$2" || fail "rustc does not take $2"
}

# instructions COMMAND..: counts the instructions of a run into $counted, and leaves its outputs in
# $work/out and $work/err.
instructions() {
    valgrind --tool=callgrind --callgrind-out-file=/dev/null "$@" > "$work/out" 2> "$work/err" || fail "this fails: $*" "$(tail -n 5 "$work/err")"
    counted=$(sed -n 's/.*Collected : //p' "$work/err")
    [ -n "$counted" ] || fail "callgrind counted nothing of: $*"
}

# each TIMES COMMAND..: counts the instructions of one repetition into $counted. The command is run
# with TIMES and with twice TIMES as its last argument, so the start of the program cancels out.
each() {
    local times=$1 few
    shift
    instructions "$@" "$times"
    few=$counted
    instructions "$@" $((2 * times))
    difference "$few" "$times" "$*"
}

# each_line TIMES LINE COMMAND..: counts the instructions of one line into $counted. The command is
# run with the line TIMES times and twice as often on standard input.
each_line() {
    local times=$1 line=$2 few
    shift 2
    put_lines "$times" "$line"
    instructions "$@" < "$work/lines"
    few=$counted
    put_lines $((2 * times)) "$line"
    instructions "$@" < "$work/lines"
    difference "$few" "$times" "$line, $*"
}

# put_lines TIMES LINE: writes the line TIMES times to $work/lines.
put_lines() { yes "$2" 2> /dev/null | head -n "$1" > "$work/lines"; }

# difference FEW TIMES WHAT: sets $counted to the difference to FEW, divided by TIMES.
difference() {
    [ "$counted" -gt "$1" ] || fail "twice as many take no more: $3"
    counted=$(((counted - $1) / $2))
}

# ours: takes the last count and output as those of our program.
ours() {
    ours=$counted
    mv "$work/out" "$work/ours"
}

# same_answer WHAT: checks that the last output is that of our program, and not empty.
same_answer() {
    [ -s "$work/ours" ] || fail "$1: no answer"
    cmp -s "$work/ours" "$work/out" || fail "$1: the answers differ" "$(head -c 300 "$work/ours")" "$(head -c 300 "$work/out")"
}

# `beside WHAT GOAL`: prints a row with our count and the last count, of a peer whose output has to
# be the same.
beside() {
    same_answer "$1"
    row "$1" "$ours" "$counted" "$(ratio "$ours" "$counted")" "$2"
}

# ratio THESE THOSE: prints the ratio, or nothing if THOSE is empty.
ratio() { [ -z "$2" ] || awk "BEGIN { printf \"%.2f\", $1 / $2 }"; }

# row WHAT OURS PEER RATIO GOAL: prints a row of a table.
row() { printf '%-46s %10s %10s %7s   %s\n' "$@"; }

# table TITLE [OURS PEER RATIO]: prints the title and the heads of a table.
table() {
    printf '\n%s\n' "$1"
    row '' "${2:-ours}" "${3:-peer}" "${4:-ratio}" goal
}

# parts ALL [WORD..]: runs the functions that the words name, or all of ALL if there is no word.
parts() {
    local all=$1 part
    shift
    # shellcheck disable=SC2086
    if [ $# = 0 ]; then set -- $all; fi
    for part in "$@"; do
        [[ " $all " = *" $part "* ]] || fail "there is no part $part: $all"
        "$part"
    done
}
