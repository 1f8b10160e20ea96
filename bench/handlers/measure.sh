#!/usr/bin/env bash
# Counts the instructions of handlers and sessions, and checks the outputs.
#
#   bench/handlers/measure.sh [reads|sessions|pieces]..    measures these parts, or all
#
# `reads`: a read of a Counter's count by `step`, in routers of 3 and of 4,095 elements, compared
# with plain Rust (read.rs).
#
# `sessions`: lines of a session, with a book and at a live router, compared with plain Rust
# (session.rs), which can only read. Also counts their allocations.
#
# `pieces`: long sessions, compared with sessions of half the length.
#
# Needs rt, rustc, cc, valgrind, and the program, which ./test.sh builds. This is not a part of the
# gate.
set -eu
here="$(cd "$(dirname "$0")" && pwd)"
. "$here/../lib/counting.sh"
needs rustc cc valgrind
times=1024

reads() {
    local elements
    drive_built
    peer read "$here/read.rs"
    table 'Instructions of a read by step, compared with plain Rust with hash maps and boxed closures'
    for elements in 3 4095; do
        each $times "$drive" read "$elements"
        ours
        each $times "$work/read" read "$elements"
        beside "in a router of $elements elements" 'ours 800'
    done
}

# is_answered COUNT LINE ANSWER: checks that the output is the greeting, and the answer COUNT times.
is_answered() {
    printf 'Click::ControlSocket/1.3\r\n' > "$work/wanted"
    printf "$3%.0s" $(seq "$1") >> "$work/wanted"
    cmp -s "$work/wanted" "$work/out" || fail "$2 is answered otherwise:" "$(head -c 300 "$work/out")"
}

# session LINE ANSWER COMMAND..: counts the instructions of one such line into $counted.
session() {
    local line=$1 answer=$2
    shift 2
    each_line $times "$line" "$@"
    is_answered $((2 * times)) "$line" "$answer"
}

# requests LINE ANSWER COMMAND..: counts the allocations of one such line into $asked.
requests() {
    local line=$1 answer=$2 count few=
    shift 2
    for count in $times $((2 * times)); do
        put_lines "$count" "$line"
        LD_PRELOAD="$work/requests.so" "$@" < "$work/lines" > "$work/out" 9> "$work/requests" || fail "this fails: $*"
        is_answered "$count" "$line" "$answer"
        asked=$(cat "$work/requests")
        if [ -z "$few" ]; then few=$asked; fi
    done
    asked=$(ratio $((asked - few)) $times)
}

sessions() {
    local line answer goal book live theirs at_all=''
    is_built "$program"
    peer session "$here/session.rs"
    cc -O2 -shared -fPIC -o "$work/requests.so" "$here/requests.c" -ldl || fail 'requests.c does not compile'
    local kept=("$program" -e 'Idle -> c :: Counter -> s :: Switch -> Discard;')
    local stays=("${kept[@]}" --live)
    table "Instructions of a line of a session on standard input, compared with plain Rust, which can only read and keeps no book"
    while IFS='|' read -r line answer goal; do
        session "$line" "$answer" "${kept[@]}"
        book=$counted
        session "$line" "$answer" "${stays[@]}"
        live=$counted theirs=
        if [[ $line = READ* ]]; then
            session "$line" "$answer" "$work/session"
            theirs=$counted
        fi
        row "$line, with a book" "$book" "$theirs" "$(ratio "$book" "$theirs")" "$goal"
        row "$line, live" "$live" "$theirs" "$(ratio "$live" "$theirs")" ''
        row "$line, the part of the book" $((book - live)) '' '' ''
        requests "$line" "$answer" "${kept[@]}"
        at_all+="$line|$asked"
        requests "$line" "$answer" "${stays[@]}"
        at_all+="|$asked"$'\n'
    done << 'END'
READ c.count|200 Read handler 'c.count' OK\r\nDATA 1\r\n0|ours 3,500
WRITE s.switch 0|200 Write handler 's.switch' OK\r\n|
CHECKREAD c.count|200 Read handler 'c.count' OK\r\n|
READ c.none|511 No handler named 'c.none'\r\n|
END
    table 'Allocations of such a line' book live
    while IFS='|' read -r line book live; do
        row "$line" "$book" "$live" '' ''
    done <<< "${at_all%$'\n'}"
}

# Each of the following functions prints an input of a size: payload BYTES, line BYTES and short
# LINES.
payload() { # bytes
    echo "WRITEDATA c.reset_counts $1"
    head -c "$1" /dev/zero | tr '\0' x
}
line() { # bytes
    printf 'WRITE c.reset_counts '
    head -c "$(($1 - 21))" /dev/zero | tr '\0' x
    echo
}
short() { # lines
    yes QUI 2> /dev/null | head -n "$1"
}
# in_pieces WHAT SIZE PIECE: counts the instructions of a session over this input, in reads of at
# most PIECE bytes.
in_pieces() { # what, size, bytes of a piece
    "$1" "$2" > "$work/lines"
    PIECE=$3 LD_PRELOAD="$work/pieces.so" instructions "$program" -e 'Idle -> c :: Counter -> Discard;' < "$work/lines"
}
# pieces: measures a payload in pieces of 1, 7 and 4,096 bytes, a line byte by byte, and many short
# lines in large pieces, each compared with half as much.
pieces() {
    local what much piece half
    is_built "$program"
    cc -O2 -shared -fPIC -o "$work/pieces.so" "$here/pieces.c" -ldl || fail 'pieces.c does not compile'
    table 'Instructions of a session in pieces, compared with half as much' these half
    while read -r what much piece; do
        in_pieces "$what" $((much / 2)) "$piece"
        half=$counted
        in_pieces "$what" "$much" "$piece"
        row "$what of $much, in pieces of $piece" "$counted" "$half" "$(ratio "$counted" "$half")" ''
    done << 'END'
payload 1048576 1
payload 1048576 7
payload 1048576 4096
line 65536 1
short 100000 4096
END
}

parts 'reads sessions pieces' "$@"
