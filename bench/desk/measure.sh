#!/usr/bin/env bash
# Measures calls per second through the desk: rounds of a gateway (some 900 instructions each) by 1,
# 2, 4 and 8 drivers of click_prog, each in its own thread. They are compared with a router alone
# (`rounds` of bench/drive), and with plain Rust that keeps the same history behind a mutex (peer).
#
# Each figure is the best of several runs, less the time of a run without rounds. Runs are long, and
# the threads of the peer start together. Otherwise the first threads would end before the last ones
# start, and an uncontended mutex would be measured.
#
# Needs rt, rustc, and the program, which ./test.sh builds. Nothing else should run in parallel.
# This is not a part of the gate.
set -eu
here="$(cd "$(dirname "$0")" && pwd)"
work="$(mktemp -d)"
trap 'rm -rf "$work"' EXIT
rustc --edition 2024 -C opt-level=3 -C codegen-units=1 -C target-cpu=x86-64-v2 -o "$work/peer" "$here/peer/main.rs"
program=${PROGRAM:-$here/../../crates/click_prog/out/click_prog}
drive=${DRIVE:-$("$here/../drive/build.sh" "$work/built")}
calls=${CALLS_IN_ALL:-640000}

# The gateway of bench/engine.
# shellcheck disable=SC2046
printf -v bytes '%s' '\<4500 0040 0001 0000 4011 66a9 0a000001 0a010002 1000 0407 002c 0000' "$(printf ' %s' $(yes 07 | head -36))" '>'
text="InfiniteSource(\"$bytes\", -1, 1) -> CheckIPHeader -> GetIPAddress(16) -> StaticIPLookup(0.0.0.0/0 0, 10.0.0.0/8 0, 10.1.0.0/16 10.9.9.9 0, 192.168.0.0/16 0)
    -> DecIPTTL -> EtherEncap(0x0800, 1:1:1:1:1:1, 2:2:2:2:2:2) -> Queue(1000) -> Unqueue -> Counter -> Discard;"

alone() { "$drive" rounds "$1" <<< "$text"; }
desk() { "$program" -e "$text" -w "$2" --rounds "$1" < /dev/null; }
mutex() { "$work/peer" "$2" "$1"; }

# seconds COMMAND..: prints the shortest time of five runs.
seconds() {
    local best=1000 took began
    for _ in 1 2 3 4 5; do
        began=$EPOCHREALTIME
        "$@" > "$work/out"
        took=$(awk "BEGIN { print $EPOCHREALTIME - $began }")
        best=$(awk "BEGIN { print ($took < $best) ? $took : $best }")
    done
    echo "$best"
}

# rate NAME DRIVERS: prints thousands of calls per second. NAME is one of the three functions above.
rate() {
    local many none
    many=$(seconds "$1" $((calls / $2)) "$2")
    none=$(seconds "$1" 0 "$2")
    awk "BEGIN { printf \"%.0f\", $calls / ($many - $none) / 1000 }"
}

alone 1000 > "$work/alone"
[ "$(cat "$work/alone")" = 2000 ] || { echo 'the gateway does not run both tasks in each round' >&2; exit 1; }
step=$(rate alone 1)
echo "thousands of calls a second; step alone: $step"
printf '%8s %8s %8s %18s %18s\n' seats desk mutex 'desk/step alone' 'desk/mutex'
for seats in 1 2 4 8; do
    ours=$(rate desk $seats) theirs=$(rate mutex $seats)
    printf '%8s %8s %8s %18s %18s\n' $seats "$ours" "$theirs" "$(awk "BEGIN { printf \"%.2f\", $ours / $step }")" "$(awk "BEGIN { printf \"%.2f\", $ours / $theirs }")"
done
