#!/usr/bin/env bash
# Counts the instructions of packets of 64 bytes through a feed. Put and draw at the ring are
# compared with plain Rust (peer), and one poll of 32 packets with 32 arrivals. Polls and arrivals
# include the making of the packets. Each count is the difference of two runs.
#
# Needs rt, rustc and valgrind. This is not a part of the gate.
set -eu
here="$(cd "$(dirname "$0")" && pwd)"
. "$here/../lib/counting.sh"
needs rustc valgrind
drive_built
peer peer "$here/peer/main.rs"

# answered ANSWER TIMES COMMAND..: counts the instructions of one repetition into $counted, and
# checks the output.
answered() {
    local answer=$1
    shift
    each "$@"
    [ "$(cat "$work/out")" = "$answer" ] || fail "not every packet came through: $*"
}

table 'Instructions for a packet of 64 bytes through a ring, compared with plain Rust; for 32 packets into a router, with 32 arrivals'
answered true 10000 "$drive" feeds ring
ours
answered true 10000 "$work/peer"
beside 'put and draw' 1.25
answered 64000 1000 "$drive" feeds polls
ours
answered 64000 1000 "$drive" feeds arrivals
beside 'one poll' 1.1
