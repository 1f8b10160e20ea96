#!/usr/bin/env bash
# Measures captures through click_prog --pcap and the gateway of examples/pcap. First counts the
# instructions for a packet of 60 bytes. Then measures the packets per second and the peak memory
# for captures of one and of two million packets. They are compared with `tcpdump -r - -w -`, which
# only copies a capture. Both are run in turn, RUNS times (5 by default); the figures are medians.
#
# Needs valgrind, python3, GNU time and the program, which ./test.sh builds, and uses tcpdump if it
# is installed. Nothing else should run in parallel. This is not a part of the gate.
set -eu
here="$(cd "$(dirname "$0")" && pwd)"
. "$here/../lib/counting.sh"
needs valgrind python3 /usr/bin/time
is_built "$pcap"
router=("$pcap" --pcap -e "$(cat "$top/examples/pcap/gateway.click")" --in eth0 --out eth1)

# capture THOUSANDS: writes a capture of this many thousand packets to $work/in.
capture() { python3 "$here/make.py" "$1" > "$work/in"; }

# went_through THOUSANDS: checks that the router reports all packets as written.
went_through() {
    grep -q "read ${1}000, left out 0, entered ${1}000, written ${1}000" "$work/err" || fail "not all ${1}000 packets went through: $(tail -n 1 "$work/err")"
}

# timed KIND COMMAND..: runs the command over the capture, and appends its seconds and its peak
# memory in KiB to $work/KIND.
timed() {
    local kind=$1
    shift
    /usr/bin/time -f '%e %M' -a -o "$work/$kind" "$@" < "$work/in" > "$work/out" 2> "$work/err" || fail "this fails: $*" "$(tail -n 1 "$work/err")"
}

# median KIND MILLIONS: prints thousands of packets per second, by the median of the seconds, and
# the greatest peak memory of all runs.
median() {
    sort -n "$work/$1" | awk -v count="$2" '{ all[NR] = $1; if ($2 > most) most = $2 } END { printf "%.0f %d\n", 1000 * count / all[int((NR + 1) / 2)], most }'
}

# of_packets: measures and prints the row of the instructions.
of_packets() {
    local few
    capture 1
    instructions "${router[@]}" < "$work/in"
    went_through 1
    few=$counted
    capture 11
    instructions "${router[@]}" < "$work/in"
    went_through 11
    difference "$few" 10000 'packets of a capture'
    row 'instructions for a packet' "$counted" '' '' 1270
}

# raced MILLIONS: measures and prints the rows of a capture of this many million packets.
raced() {
    local run mine its='' most its_most=''
    capture "${1}000"
    rm -f "$work/router" "$work/tcpdump"
    for ((run = 0; run < ${RUNS:-5}; run++)); do
        timed router "${router[@]}"
        went_through "${1}000"
        if [ "$has_peer" = yes ]; then
            timed tcpdump tcpdump -r - -w -
            cmp -s "$work/in" "$work/out" || fail 'tcpdump writes another capture than it reads'
        fi
    done
    read -r mine most <<< "$(median router "$1")"
    if [ "$has_peer" = yes ]; then read -r its its_most <<< "$(median tcpdump "$1")"; fi
    row "$1 million: thousands of packets a second" "$mine" "$its" "$(ratio "$mine" "$its")" 'at least 1.0'
    row "$1 million: peak memory, in KiB" "$most" "$its_most" "$(ratio "$most" "$its_most")" ''
}

has_peer=yes
command -v tcpdump > /dev/null || has_peer=no
table 'Captures through the gateway of examples/pcap, compared with tcpdump, which copies them'
if [ $has_peer = no ]; then echo 'tcpdump is not installed, so the router is compared with nothing.'; fi
of_packets
raced 1
raced 2
