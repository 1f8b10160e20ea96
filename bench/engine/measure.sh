#!/usr/bin/env bash
# Counts the instructions of a packet (or a round) through the engine, in Rattle and in plain Rust
# (peer, and fused for the gateway), and compares their outputs.
#
#   bench/engine/measure.sh [cases|long|far|plant]..    measures these parts, or all
#
# `long` counts packets of 1,500 bytes. `far` counts packets with and without 4,000 further
# elements. `plant` counts the making of plants of four sizes. Needs rt, rustc and valgrind. This is
# not a part of the gate.
set -eu
here="$(cd "$(dirname "$0")" && pwd)"
. "$here/../lib/counting.sh"
needs rustc valgrind
drive_built
rounds=1024 # a multiple of the entries of the table of routes

cases() {
    local named case goal
    peer peer "$here/peer/main.rs"
    peer fused "$here/fused/main.rs"
    table 'Instructions for a packet, compared with plain Rust'
    each $rounds "$drive" engine forward
    ours
    each $rounds "$work/fused"
    beside 'forward, to one loop fused by hand' 2.0
    for named in forward=0.80 chain=0.73 tee=0.93 sched=0.97 classifier=0.45 lookup=0.50 lookup-last=0.50; do
        case=${named%=*} goal=${named#*=}
        each $rounds "$drive" engine "$case"
        ours
        each $rounds "$work/peer" "$case"
        beside "$case, to boxed elements" "$goal"
    done
}

long() {
    local case
    peer peer "$here/peer/main.rs"
    table 'Instructions for a packet of 1,500 bytes, compared with plain Rust'
    for case in forward chain tee sched classifier; do
        each $rounds "$drive" engine "long-$case"
        ours
        each $rounds "$work/peer" "long-$case"
        beside "$case, to boxed elements" 1.0
    done
}

far() {
    local case
    table 'Instructions for a packet, with and without 4,000 further elements' with without
    for case in enter pull round; do
        each $rounds "$drive" engine "far-$case"
        ours
        each $rounds "$drive" engine "near-$case"
        beside "$case" ''
    done
}

plant() {
    local count half='' without
    table 'Instructions of making a plant, compared with half as many elements' these half
    for count in 512 1024 2048 4096; do
        instructions "$drive" engine net "$count"
        without=$counted
        instructions "$drive" engine plant "$count"
        difference "$without" 1 "a plant of $count elements"
        row "$count" "$counted" "$half" "$(ratio "$counted" "$half")" ''
        half=$counted
    done
}

parts 'cases long far plant' "$@"
