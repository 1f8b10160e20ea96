#!/usr/bin/env bash
# Measures two links of the router, compared with `socat` and with a forwarder in plain Rust (peer)
# over the same kind of sockets. They are measured in turn, RUNS times (5 by default), for a second
# each; the figures are medians.
#
# Measured are packets per second of 64 and of 1,400 bytes, with 64 packets in transit, and the
# processor time of a packet. Then the round trip of one packet per millisecond is measured.
#
# Needs cc, rustc and the program, which ./test.sh builds, and uses socat if it is installed. This
# is not a part of the gate.
set -eu
here="$(cd "$(dirname "$0")" && pwd)"
work="$(mktemp -d)"
program=${PROGRAM:-$here/../../crates/click_prog/out/click_prog}
runs=${RUNS:-5}
running=()
trap 'kill "${running[@]}" 2> /dev/null || true; rm -rf "$work"' EXIT
cc -O2 -o "$work/load" "$here/load.c"
rustc --edition 2024 -C opt-level=3 -C codegen-units=1 -C target-cpu=x86-64-v2 -o "$work/peer" "$here/peer/main.rs"

# ports FIRST: prints the four ports from FIRST on, as HERE, THERE, OTHER_HERE and OTHER_THERE of
# load.
ports() { echo "$1 $(($1 + 1)) $(($1 + 2)) $(($1 + 3))"; }
first=$((20000 + RANDOM % 10000))
kinds=(router plain)
"$program" --live --link "a=$first,$((first + 1))" --link "b=$((first + 2)),$((first + 3))" \
    -e 'FromDevice(a) -> Queue(1000) -> ToDevice(b); FromDevice(b) -> Queue(1000) -> ToDevice(a);' -p $((first + 100)) < /dev/null &
running+=($!)
declare -A process=([router]=$!)
# shellcheck disable=SC2046
"$work/peer" $(ports $((first + 10))) &
running+=($!)
process[plain]=$!
if command -v socat > /dev/null; then
    kinds+=(socat)
    socat "UDP4-DATAGRAM:127.0.0.1:$((first + 21)),bind=127.0.0.1:$((first + 20))" "UDP4-DATAGRAM:127.0.0.1:$((first + 23)),bind=127.0.0.1:$((first + 22))" &
    running+=($!)
    process[socat]=$!
fi
sleep 1
declare -A base=([router]=$first [plain]=$((first + 10)) [socat]=$((first + 20)))

# ticks KIND: prints the processor time of the process so far, in hundredths of a second.
ticks() { sed 's/.*) //' "/proc/${process[$1]}/stat" | awk '{ print $12 + $13 }'; }

# median FILE COLUMN: prints the median of a column.
median() { sort -n -k "$2,$2" "$1" | awk -v column="$2" '{ all[NR] = $column } END { print all[int((NR + 1) / 2)] }'; }

# measured WORDS..: runs load with these arguments over each kind, in turn, RUNS times. Its output
# and the ticks of the process are lines of $work/KIND.
measured() {
    local kind run before
    rm -f "$work/router" "$work/plain" "$work/socat"
    for ((run = 0; run < runs; run++)); do
        for kind in "${kinds[@]}"; do
            # shellcheck disable=SC2086
            before=$(ticks $kind)
            # shellcheck disable=SC2046,SC2086
            echo "$("$work/load" $(ports "${base[$kind]}") "$@") $(($(ticks $kind) - before))" >> "$work/$kind"
        done
    done
}

# `beside COLUMN UNIT`: prints the median of the router, then those of the others with the ratios.
beside() {
    local column=$1 unit=$2 kind ours theirs
    ours=$(median "$work/router" "$column")
    printf '%s %s' "$ours" "$unit"
    for kind in "${kinds[@]:1}"; do
        theirs=$(median "$work/$kind" "$column")
        printf '; %s %s, %s' "$kind" "$theirs" "$(awk "BEGIN { printf \"%.2f\", $ours / $theirs }")"
    done
}

# each_took: prints the processor microseconds for a packet, of each kind.
each_took() {
    local kind
    for kind in "${kinds[@]}"; do printf ' %s %s' "$kind" "$(awk '{ came += $3; took += $4 } END { printf "%.1f", took * 10000 / came }' "$work/$kind")"; done
}

for size in 64 1400; do
    measured rate "$size" 1 64
    echo "$size bytes: $(beside 1 'packets a second'); lost $(awk '{ sum += $2 } END { print sum }' "$work/router")"
    echo "$size bytes, processor microseconds for a packet:$(each_took)"
done
measured trip 64 1000
echo "round trip of 64 bytes: median $(beside 1 microseconds); 99th percentile $(beside 2 microseconds)"
