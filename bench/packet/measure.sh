#!/usr/bin/env bash
# Counts the instructions of one packet through `of` (or, in place, `copy_from`), `strip`,
# `prepend`, `header_good` and `set_ttl`, in Rattle and in plain Rust over an array. Needs rt, rustc
# and valgrind. This is not a part of the gate.
set -eu
here="$(cd "$(dirname "$0")" && pwd)"
work="$(mktemp -d)"
trap 'rm -rf "$work"' EXIT

mkdir "$work/crates"
cp -r "$here/../../crates/click_packet" "$work/crates/click_packet"
mkdir -p "$work/crates/measure/src"
cp "$here/main.rattle" "$work/crates/measure/src/main.rt" # the gate allows no .rt file outside crates/
printf 'click_packet: arrayvec thiserror\nmeasure: click_packet\n' > "$work/crates.txt"
cd "$work/crates/measure"
printf '64\n1\n0\n' | rt run > "$work/log" 2>&1 || { tail -20 "$work/log"; exit 1; }
rustc -C opt-level=2 -o "$work/plain" "$here/plain.rs"

# instructions PROGRAM SIZE IN_PLACE ROUNDS: prints the instructions of a run, and checks its
# output.
instructions() { # program, size, in place, rounds
    printf '%s\n%s\n%s\n' "$2" "$4" "$3" | valgrind --tool=callgrind --callgrind-out-file=/dev/null "$1" 2>&1 >"$work/good" |
        sed -n 's/.*Collected : //p'
    [ "$(cat "$work/good")" = "$4" ] || { echo "wrong answer" >&2; exit 1; }
}

for in_place in 0 1; do
    for size in 64 1500; do
        for program in "$work/crates/measure/out/measure" "$work/plain"; do
            few="$(instructions "$program" "$size" "$in_place" 100)"
            many="$(instructions "$program" "$size" "$in_place" 1100)"
            echo "$(basename "$program") $size bytes, in place $in_place: $(((many - few) / 1000)) instructions a packet"
        done
    done
done
