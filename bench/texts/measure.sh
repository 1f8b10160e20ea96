#!/usr/bin/env bash
# Counts the instructions from a text to a prepared router (`texts prepare` of bench/drive: parse,
# flatten, make, resolve) for a named element of a chain. That is the difference of a chain of 2,048
# elements and one of 1,024, for each element. Needs valgrind and rt. This is not a part of the
# gate.
set -eu
. "$(dirname "$(readlink -f "$0")")/../lib/counting.sh"
needs valgrind
drive_built

# prepared COUNT: counts the instructions of preparing a chain of this many elements into $counted.
prepared() {
    {
        printf 'Idle'
        printf ' -> n%d :: Null' $(seq $(($1 - 2)))
        printf ' -> Discard;'
    } > "$work/text"
    instructions "$drive" texts prepare < "$work/text"
    [ "$(cat "$work/out")" = prepared ] || fail "a chain of $1 elements is not prepared: $(head -c 300 "$work/out")"
}

table 'Instructions from a text to a prepared router'
prepared 1024
few=$counted
prepared 2048
difference "$few" 1024 'elements of a chain'
row 'for a named element of a chain' "$counted" '' '' 'ours 6,000'
