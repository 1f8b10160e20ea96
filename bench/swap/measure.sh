#!/usr/bin/env bash
# Counts the instructions of a swap by calls (click_prog --calls), as the difference of a run with
# the swap and a run without it. First for routers of 1,024, 2,048 and 4,096 elements, compared with
# half as many. Then for 1,000, 5,000 and 10,000 packets of 64 bytes in a Queue, whose successor has
# the same capacity, twice or half as much, or another name. The replies after the swap are checked.
#
# Needs valgrind, and the program, which ./test.sh builds. This is not a part of the gate.
set -eu
here="$(cd "$(dirname "$0")" && pwd)"
work="$(mktemp -d)"
trap 'rm -rf "$work"' EXIT
program="${PROGRAM:-$here/../../crates/click_prog/out/click_prog}"

# instructions TEXT: prints the instructions of a run with this configuration over the calls in
# $work/calls. Its output is in $work/printed.
instructions() {
    local counted
    counted="$(valgrind --tool=callgrind --callgrind-out-file=/dev/null "$program" --calls -e "$1" < "$work/calls" 2>&1 > "$work/printed" |
        sed -n 's/.*Collected : //p')"
    if [ -z "$counted" ]; then
        echo 'valgrind counted nothing' >&2
        return 1
    fi
    echo "$counted"
}

# ends_with LINE..: checks the last lines of the router's output.
ends_with() {
    printf '%s\n' "$@" > "$work/wanted"
    if ! tail -n $# "$work/printed" | cmp -s - "$work/wanted"; then
        echo "the router does not answer '$*' at the end, but '$(tail -n $# "$work/printed" | tr '\n' ' ')'" >&2
        return 1
    fi
}

# swap TEXT NEXT QUEUE LENGTH DROPS: prints the instructions of a swap from one configuration to the
# other after the calls in $work/before. Two reads after the swap are in both runs, so they cancel
# out. They check the length and the drops of the named queue.
swap() {
    local without with reads
    reads="read $3.length"$'\n'"read $3.drops"
    cat "$work/before" - > "$work/calls" <<< "$reads"
    without="$(instructions "$1")" || return 1
    cat "$work/before" - > "$work/calls" <<< "swap $2"$'\n'"$reads"
    with="$(instructions "$1")" || return 1
    ends_with "done" "$(value "$4")" "$(value "$5")" || return 1
    echo $((with - without))
}

# value NUMBER: prints the reply to a read of this number.
value() { printf 'value %s' "$(printf '%s' "$1" | od -An -tx1 | tr -d ' \n')"; }

ratio() { awk "BEGIN { printf \"%.2f\", $1 / $2 }"; }

row() { printf '%-10s %12s %12s %8s\n' "$@"; }

# elements COUNT: prints a configuration of this many elements, in chains of four with a named Queue
# each.
elements() {
    local chain
    printf 'Idle -> q :: Queue(4) -> Unqueue -> Discard;'
    for ((chain = 1; chain < $1 / 4; chain++)); do printf ' Idle -> q%d :: Queue(4) -> Unqueue -> Discard;' "$chain"; done
}

# queue NAME CAPACITY: prints a configuration with a Queue between two devices.
queue() { printf 'FromDevice(a) -> %s :: Queue(%d) -> ToDevice(b);' "$1" "$2"; }

echo 'instructions of a swap to a text of as many elements, with the preparing, compared with half as many'
row elements instructions '' ratio
: > "$work/before"
half=
for count in 1024 2048 4096; do
    text="$(elements "$count")"
    all="$(swap "$text" "$text" q 0 0)"
    row "$count" "$all" '' "$([ -z "$half" ] || ratio "$all" "$half")"
    half="$all"
done

echo
echo 'instructions of a swap with packets of 64 bytes in a Queue of 10,000 (larger: 5,000): for all, and for each packet that is taken over'
row case packets instructions each
for case in same larger smaller renamed; do
    before=10000 after=10000 name=q
    case $case in
    larger) before=5000 ;;
    smaller) after=5000 ;;
    renamed) name=r ;;
    esac
    none=
    for count in 0 1000 5000 10000; do
        if [ "$count" -gt "$before" ]; then continue; fi
        taken="$count" drops=0
        if [ "$count" -gt "$after" ]; then taken="$after" drops=$((count - after)); fi
        if [ "$name" = r ]; then taken=0; fi
        bytes="$(printf '07%.0s' $(seq 64))"
        for ((n = 0; n < count; n++)); do echo "arrive a $bytes"; done > "$work/before"
        all="$(swap "$(queue q "$before")" "$(queue "$name" "$after")" "$name" "$taken" "$drops")"
        if [ -z "$none" ]; then none="$all"; fi
        row "$case" "$count" "$all" "$([ "$taken" = 0 ] || ratio $((all - none)) "$taken")"
    done
done
