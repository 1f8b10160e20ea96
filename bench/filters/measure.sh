#!/usr/bin/env bash
# Counts the instructions of a decision of IPFilter's rules (click_filter's Program::decide) and of
# libpcap's interpreter on the program that pcap_compile makes for the same rules. Both decide on the
# same 1,024 packets of 64 bytes, and have to take as many of them. What the loops take without a
# decision is subtracted.
#
#   bench/filters/measure.sh [filters|lists]..    measures these parts, or all
#
# `filters` has ten filters, and `lists` two lists of 200 rules. Needs rt, cc, libpcap's headers,
# python3 and valgrind. This is not a part of the gate.
set -eu
here="$(cd "$(dirname "$0")" && pwd)"
. "$here/../lib/counting.sh"
needs cc python3 valgrind
drive_built
packets=1024
passes=4

# passed COMMAND..: counts the instructions of a pass over all packets into $counted. The command is
# run with $passes and with twice $passes as its last argument, so its start cancels out.
passed() {
    local few
    instructions "$@" $passes < "$work/packets"
    few=$counted
    instructions "$@" $((2 * passes)) < "$work/packets"
    difference "$few" $passes "$*"
}

# for_each COUNT: prints the instructions for each packet.
for_each() { awk "BEGIN { printf \"%.1f\", $1 / $packets }"; }

# case_of CASE NAME GOAL: prints the row of a case.
case_of() {
    local rules expression those
    rules=$(python3 "$here/make.py" rules "$1") || fail "there are no rules $1"
    expression=$(python3 "$here/make.py" libpcap "$1") || fail "libpcap has no rules $1"
    passed "$drive" filters "$rules"
    ours
    passed "$work/peer" "$expression"
    same_answer "$2"
    ours=$((ours - our_loop)) those=$((counted - peer_loop))
    row "$2" "$(for_each $ours)" "$(for_each $those)" "$(ratio $ours $those)" "$3"
}

filters() {
    table 'Instructions for a decision, compared with libpcap' ours libpcap
    case_of port 'tcp dst port 80' 1.5
    case_of net 'src 10.0.0.0/8' 1.5
    case_of both 'src 10.0.0.0/8 && tcp dst port 80' 1.5
    case_of echo 'icmp type echo' 1.5
    case_of dns 'udp port 53' 1.5
    case_of syn 'tcp opt syn && not tcp opt ack' 1.5
    case_of host 'deny tcp port 22, allow host 10.0.0.2' 1.5
    case_of frag 'deny ip frag, allow all' 1.5
    case_of high 'tcp, or udp, dst port >= 1024' 1.5
    case_of firewall 'a firewall of ten rules' 1.5
}

lists() {
    table 'Instructions for a decision of 200 rules, compared with libpcap' ours libpcap
    case_of grouped '200 rules grouped by network' 3.0
    case_of mixed '200 rules mixed' 3.0
}

cc -O2 -o "$work/peer" "$here/peer.c" -lpcap || fail 'cc does not take peer.c: libpcap-dev has the headers'
python3 "$here/make.py" packets > "$work/packets"
passed "$drive" filters ''
ours
our_loop=$ours
passed "$work/peer" ''
same_answer 'the loops'
peer_loop=$counted
parts 'filters lists' "$@"
