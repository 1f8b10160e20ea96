#!/usr/bin/env bash
# Checks swaps to faulty configurations: those of docs/FAULTS.md, of examples/faults.txt and of the
# faulty examples. Each is refused with its fault, by calls to a router with queued packets and in a
# session. The router is unchanged, and a swap to a good configuration succeeds.
#
# All faults have to occur except 6 TooLarge and 7 NoMemory. A text that is too large fits in no
# line of calls and in no payload, so tests/swaps.script checks that fault. tools/alloc_failures.py
# checks swaps that run out of memory. The programs must have been built.
set -eu
. "$(dirname "$(readlink -f "$0")")/lib/checking.sh"
is_built "$program" "$calls"
export LC_ALL=C
running='FromDevice(a) -> q :: Queue(2) -> ToDevice(b); FromDevice(c) -> n :: Null -> n; Idle -> s :: Switch(0) -> Discard; s [1] -> Discard;'
good='FromDevice(a) -> q :: Queue(5) -> ToDevice(b);'
: > "$work/seen"
tried=0

# code CELL: prints the code of a table's cell, which is in backquotes.
code() {
    local text=${1#*\`}
    printf '%s' "${text%\`*}"
}

# fault_rows PAGE: prints, for each row of docs/FAULTS.md, the number and name of the fault, its
# example and its line, separated by tabs. A row is
# `| number name | meaning | place | example | line | what to do |`. Example and line are in
# backquotes, in which a bar is written `\|`.
fault_rows() {
    local row fault example line
    while IFS= read -r row; do
        # A bar that separates cells becomes a byte that no cell has.
        IFS=$'\x1f' read -r _ fault _ _ example line _ < <(sed -e 's/\\|/\x1e/g' -e 's/|/\x1f/g' -e 's/\x1e/|/g' <<< "$row")
        printf '%s\t%s\t%s\n' "$(xargs <<< "$fault")" "$(code "$example")" "$(code "$line")"
    done < <(grep '^| [0-9]' "$1")
}

# fault_kinds: prints the number and the name of each fault in the code, one per line, in order.
fault_kinds() {
    sed -n 's/^ *[A-Za-z]*::[A-Za-z]* => "\([0-9]* [A-Za-z]*\)",$/\1/p' "$top"/crates/click_text/src/syntax.rt "$top"/crates/click_{scopes,expand,classes,ports}/src/fault.rt | sort -n -u
}

# hex TEXT: prints the bytes of the text in hex digits.
hex() { printf '%s' "$1" | od -An -v -tx1 | tr -d ' \n'; }

# Calls with their replies, after ` => `. Packets enter, the swap in the line SWAP is refused, and
# everything is unchanged. Then a good configuration is installed.
cat > "$work/rows" << E
arrive a 01 => entered 1
arrive a 02 => entered 1
arrive a 03 => entered 1
arrive c 00 => entered 1
write s.switch 1 => done
SWAP
read config => value $(hex "$running")
read overruns => value 31
read s.switch => value 31
read q.length => value 32
read q.drops => value 31
read q.highwater_length => value 32
read q.capacity => value 32
arrive a 04 => entered 1
read q.length => value 32
read q.drops => value 32
swap $good => done
read config => value $(hex "$good")
read overruns => value 31
read q.length => value 32
read q.drops => value 30
read q.highwater_length => value 32
read q.capacity => value 35
transmit b => sent 01 0 0.0.0.0
transmit b => sent 02 0 0.0.0.0
transmit b => sent none
E

# by_calls FAULT TEXT: checks that the text, one line, is refused with the fault, by the calls
# above.
by_calls() {
    local row
    while IFS= read -r row; do
        if [ "$row" = SWAP ]; then row="swap $2 => refused Config $1"; fi
        # A text may have ` => ` in it, but no reply has.
        printf '%s\n' "${row% => *}" >&3
        printf '%s\n' "${row##* => }" >&4
    done < "$work/rows" 3> "$work/sent" 4> "$work/wanted"
    ran "$calls" --calls -e "$running" < "$work/sent"
    same_bytes "$work/wanted" "$work/out" "the swap to: $2"
    is_empty "$work/err" "standard error at the swap to: $2"
    same_status 0 "$status" "the swap to: $2"
}

# read_as HANDLER VALUE: prints the reply of a session to a read of the handler.
read_as() { printf "200 Read handler '%s' OK\r\nDATA %s\r\n%s" "$1" "${#2}" "$2"; }

# by_session FAULT TEXT: checks that the text is refused with the fault in a session.
by_session() {
    {
        printf 'WRITE q.capacity 7\nWRITE s.switch 1\nWRITEDATA hotconfig %s\n%s' "${#2}" "$2"
        printf 'READ config\nREAD q.capacity\nREAD s.switch\nWRITEDATA hotconfig %s\n%s' "${#good}" "$good"
        printf 'READ config\nREAD q.capacity\nREAD s.switch\nQUIT\n'
    } > "$work/sent"
    {
        printf 'Click::ControlSocket/1.3\r\n'
        printf "200 Write handler '%s' OK\r\n" q.capacity s.switch
        printf "520-Write handler 'hotconfig' error:\r\n520 %s\r\n" "$1"
        read_as config "$running"
        read_as q.capacity 7
        read_as s.switch 1
        printf "200 Write handler 'hotconfig' OK\r\n"
        read_as config "$good"
        read_as q.capacity 5
        printf "510 No element named 's'\r\n200 Goodbye!\r\n"
    } > "$work/wanted"
    ran "$program" -e "$running" < "$work/sent"
    same_bytes "$work/wanted" "$work/out" "the session that writes to hotconfig: $2"
    is_empty "$work/err" "standard error at the session that writes to hotconfig: $2"
    same_status 0 "$status" "the session that writes to hotconfig: $2"
}

# refuses FAULT TEXT: checks both. By calls only texts of one line are tried, because a call is a
# line.
refuses() {
    local number name
    read -r number name _ <<< "$1"
    printf '%s %s\n' "$number" "$name" >> "$work/seen"
    case "$2" in
    *$'\n'*) several=$((several + 1)) ;;
    *) by_calls "$1" "$2" ;;
    esac
    by_session "$1" "$2"
    tried=$((tried + 1))
}

several=0
while IFS=$'\t' read -r fault example line; do
    case "$fault" in
    '6 TooLarge' | '7 NoMemory') ;;
    *) refuses "${line#click_prog: }" "$example" ;;
    esac
done < <(fault_rows "$top/docs/FAULTS.md")
while IFS=$'\t' read -r fault text; do
    refuses "$fault" "$text"
done < "$top/examples/faults.txt"
for file in "$top"/examples/*.fault; do
    # Other .fault files have what a run prints at its end.
    if ! grep -q '^click_prog: ' "$file"; then continue; fi
    line=$(cat "$file")
    refuses "${line#click_prog: }" "$(cat "${file%.fault}.click")"
done
if [ "$several" = 0 ]; then fail 'no faulty text of several lines was tried'; fi
fault_kinds | grep -v -x -e '6 TooLarge' -e '7 NoMemory' > "$work/kinds"
sort -u "$work/seen" | sort -n > "$work/numbers"
same_bytes "$work/kinds" "$work/numbers" 'the faults that swaps were refused with'

# A configuration as long as a payload can be is accepted, and a payload of one byte more is
# refused.
longest=$(printf 'Idle;%1048571s' '')
printf 'WRITEDATA hotconfig 1048576\n%sREAD list\nREAD config\nWRITEDATA hotconfig 1048577\n%s QUIT\n' "$longest" "$longest" > "$work/sent"
{
    printf "Click::ControlSocket/1.3\r\n200 Write handler 'hotconfig' OK\r\n"
    read_as list $'1\nIdle@1\n'
    read_as config "$longest"
    printf '500 Data too long\r\n'
} > "$work/wanted"
ran "$program" -e "$running" < "$work/sent"
same_bytes "$work/wanted" "$work/out" 'a text as long as a payload can be'
is_empty "$work/err" 'standard error at a text as long as a payload can be'
same_status 0 "$status" 'a text as long as a payload can be'
echo "$tried faulty texts: refused by swaps, which changed nothing"
