#!/usr/bin/env bash
# Checks swaps at the limits: 4,096 elements are replaced by 4,096 others, and queues of 10,000
# packets are taken over. The expected packets and counts are computed here from the rule. A Queue
# or a FrontDropQueue takes over the first packets of the queue with its name and class, up to its
# capacity, and counts the others as drops. The program must have been built.
set -eu
. "$(dirname "$(readlink -f "$0")")/lib/checking.sh"
is_built "$calls"
export LC_ALL=C

# answered WHAT TEXT: checks that each call of $work/rows gets the reply after the tab of its line,
# from a router with this configuration. All calls together take at most two minutes.
answered() {
    is_not_empty "$work/rows" "the calls of $1"
    cut -f 1 "$work/rows" > "$work/sent"
    cut -f 2 "$work/rows" > "$work/wanted"
    ran timeout 120 "$calls" --calls -e "$2" < "$work/sent"
    if ! cmp -s "$work/wanted" "$work/out"; then
        fail "$1: calls, what was wanted, and what came, at the first difference" \
            "$(paste "$work/rows" "$work/out" | awk -F '\t' '$2 != $3 { print NR ": " substr($0, 1, 1000); exit }')"
    fi
    is_empty "$work/err" "standard error at $1"
    same_status 0 "$status" "$1"
    echo "$1: $(wc -l < "$work/rows") calls answered"
}

# Functions of the generators below, which write rows of calls and replies. Values are numbers in
# decimal digits.
functions='
function hex(text,  i, all) { for (i = 1; i <= length(text); i++) all = all "3" substr(text, i, 1); return all }
function row(call, reply) { printf "%s\t%s\n", call, reply }
function reads(name, number) { row("read " name, "value " hex(number)) }
function counts(queue, stored, drops, highwater) { reads(queue ".length", stored); reads(queue ".drops", drops); reads(queue ".highwater_length", highwater) }
'

# --- 4,096 elements to 4,096 others. ---
#
# The first configuration has 1,365 chains of three elements, and one more element. Each chain has
# its own devices and a queue for two packets. k mod 4 packets enter chain k.
#
# Its successor has the chains in reverse order. What a chain has there depends on k mod 8:
#
# 0, 1: the same queue with the same capacity.
#
# 2, 3: the same queue with a capacity of one.
#
# 4, 5: a queue of another name.
#
# 6, 7: a queue of the other class.

# elements first|others: prints one of these two configurations.
elements() {
    awk -v which="$1" 'BEGIN {
        for (k = 0; k < 1365; k++) {
            at = which == "first" ? k : 1364 - k
            kind = which == "first" ? 0 : at % 8
            name = kind == 4 || kind == 5 ? "r" : "q"
            class = kind == 6 || kind == 7 ? "FrontDropQueue" : "Queue"
            printf "FromDevice(d%d)->%s%d::%s(%d)->ToDevice(e%d);", at, name, at, class, kind == 2 || kind == 3 ? 1 : 2, at
        }
        printf "Idle;"
    }'
}
first=$(elements first)
others=$(elements others)
many=$(awk 'BEGIN { for (k = 0; k < 4096; k++) printf "Idle;" }')
{
    awk "$functions"'BEGIN {
        for (k = 0; k < 1365; k++) {
            for (i = 0; i < k % 4; i++) row(sprintf("arrive d%d %04x0%d", k, k, i), "entered 1")
            stored = k % 4 < 2 ? k % 4 : 2
            counts("q" k, stored, k % 4 - stored, stored)
        }
    }'
    # A swap to 4,097 elements is refused and changes nothing.
    printf 'swap %s\trefused Config 16 TooMany\n' "${others}Idle;"
    printf 'read q0.length\tvalue 30\nread q1364.length\tvalue 30\nread q1363.length\tvalue 32\nread q1363.drops\tvalue 31\n'
    printf 'swap %s\tdone\n' "$others"
    awk "$functions"'BEGIN {
        for (k = 0; k < 1365; k++) {
            stored = k % 4 < 2 ? k % 4 : 2
            room = k % 8 == 2 || k % 8 == 3 ? 1 : 2
            taken = k % 8 >= 4 ? 0 : stored < room ? stored : room
            lost = k % 8 >= 4 ? 0 : stored - taken
            name = (k % 8 == 4 || k % 8 == 5 ? "r" : "q") k
            counts(name, taken, lost, taken)
            row("read " (name ~ /^r/ ? "q" : "r") k ".length", "refused NoElement")
            for (i = 0; i < taken; i++) row("transmit e" k, sprintf("sent %04x0%d 0 0.0.0.0", k, i))
            row("transmit e" k, "sent none")
        }
    }'
    # After a swap to elements with other names and a swap back, every queue is empty.
    printf 'arrive d8 aa\tentered 1\nswap %s\tdone\nread list\tvalue %s\narrive d8 aa\tnodevice\ntransmit e8\tnodevice\n' "$many" \
        "$({ echo 4096; seq -f 'Idle@%.0f' 4096; } | od -An -v -tx1 | tr -d ' \n')"
    printf 'swap %s\tdone\n' "$first"
    awk "$functions"'BEGIN { for (k = 0; k < 1365; k++) counts("q" k, 0, 0, 0) }'
} > "$work/rows"
answered '4,096 elements and 4,096 others' "$first"

# --- 10,000 packets. --- Packet k has its number in three bytes, and k mod 5 bytes after them. The
# first three packets leave and others enter, so that the ring buffer of the queue wraps around.
# Then ten more packets find no room: a Queue drops them, and a FrontDropQueue drops its ten oldest.
# The packets are taken over by queues with the same capacity, less, more, and exactly enough. At
# the end each packet is pulled.

# taken_over CLASS: prints the rows of a queue of that class.
taken_over() {
    awk -v class="$1" "$functions"'
    function packet(k,  i, text) { text = sprintf("%06x", k); for (i = 0; i < k % 5; i++) text = text sprintf("%02x", k % 251); return text }
    function enter(from, to,  k, n, list) {
        for (k = from; k <= to; k += n) {
            list = packet(k)
            for (n = 1; n < 32 && k + n <= to; n++) list = list "," packet(k + n)
            row("poll a " list, "entered " n)
        }
    }
    function swap(room) { row("swap FromDevice(a) -> q :: " class "(" room ") -> ToDevice(b);", "done") }
    function leaves(k) { row("transmit b", "sent " packet(k) " 0 0.0.0.0") }
    BEGIN {
        enter(1, 9000); leaves(1); leaves(2); leaves(3)
        enter(9001, 10003); counts("q", 10000, 0, 10000)
        enter(10004, 10013); counts("q", 10000, 10, 10000)
        head = class == "Queue" ? 4 : 14
        swap(10000); counts("q", 10000, 0, 10000); reads("q.capacity", 10000)
        leaves(head); leaves(head + 1); counts("q", 9998, 0, 10000)
        enter(20001, 20002); counts("q", 10000, 0, 10000)
        swap(10000); counts("q", 10000, 0, 10000)
        leaves(head + 2); counts("q", 9999, 0, 10000)
        swap(9999); counts("q", 9999, 0, 9999)
        swap(6000); counts("q", 6000, 3999, 6000); reads("q.capacity", 6000)
        swap(9000); counts("q", 6000, 0, 6000); reads("q.capacity", 9000)
        enter(30001, 30001); counts("q", 6001, 0, 6001)
        swap(6001); counts("q", 6001, 0, 6001)
        for (k = 0; k < 6000; k++) leaves(head + 3 + k)
        leaves(30001); row("transmit b", "sent none"); counts("q", 0, 0, 6001)
        # A swap between packets that enter, a capacity of one, and ten thousand packets that are
        # pulled after a swap to the same configuration.
        enter(40001, 46001); swap(10000); enter(46002, 50000); swap(10000); counts("q", 10000, 0, 10000)
        swap(1); counts("q", 1, 9999, 1); leaves(40001); row("transmit b", "sent none")
        swap(10000); enter(50001, 60000); swap(10000); counts("q", 10000, 0, 10000)
        for (k = 50001; k <= 60000; k++) leaves(k)
        row("transmit b", "sent none")
    }'
}
for class in Queue FrontDropQueue; do
    taken_over "$class" > "$work/rows"
    answered "$class of 10,000 packets" "FromDevice(a) -> q :: $class(10000) -> ToDevice(b);"
done
