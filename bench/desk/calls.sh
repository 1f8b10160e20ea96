#!/usr/bin/env bash
# Counts the instructions of a call of one seat, at a desk with a book and at a live one. The calls
# are a Round as a driver makes it, in a router without a task, and a read and a write of a Counter.
# The last two are made as a session makes them, with the making of the call. Each count is the
# difference of two runs. Then measures the seconds and the memory of a million Rounds, less those
# of a run without Rounds.
#
# Needs rt, GNU time and valgrind. Nothing else should run in parallel. This is not a part of the
# gate.
set -eu
. "$(dirname "$(readlink -f "$0")")/../lib/counting.sh"
needs valgrind /usr/bin/time
drive_built

# answered DESK CALL: counts the instructions of one call into $counted.
answered() {
    each 10000 "$drive" desk "$1" "$2"
    [ "$(cat "$work/out")" = 20000 ] || fail "not every $2 was answered"
}

# used DESK COUNT: prints the seconds and the kilobytes of a run with this number of Rounds.
used() {
    # shellcheck disable=SC2069
    /usr/bin/time -f '%e %M' "$drive" desk "$1" round "$2" 2>&1 > "$work/out"
}

table 'Instructions for a call of one seat' book live live/book
for call in round read write; do
    answered book $call
    book=$counted
    answered live $call
    row "$call" "$book" "$counted" "$(ratio "$counted" "$book")" 0.5
done
for desk in book live; do
    none=$(used $desk 0) many=$(used $desk 1000000)
    awk "BEGIN { split(\"$none\", a); split(\"$many\", b); printf \"%s: %.2f s, %d KB for a million Rounds\\n\", \"$desk\", b[1] - a[1], b[2] - a[2] }"
done
