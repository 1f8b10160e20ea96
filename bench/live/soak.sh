#!/usr/bin/env bash
# Runs a live router for a long time and prints its memory every ten seconds. Eight clients in C
# make CALLS calls in all over TCP (1,000,000 by default), with swaps among them, while a driver
# always finds work. At the end prints the number of Rounds that the driver has made, which is the
# number of packets that they emitted.
#
# PROGRAM names another click_prog than the proved one. Needs cc. This is not a part of the gate.
#
#   bench/live/soak.sh [CALLS]
set -eu
here="$(cd "$(dirname "$0")" && pwd)"
program=${PROGRAM:-$here/../../crates/click_prog/out/click_prog}
calls=${1:-1000000}
work="$(mktemp -d)"
trap 'kill "$router" 2> /dev/null || true; rm -rf "$work"' EXIT
cc -O2 -pthread -o "$work/soak" "$here/soak.c"
text='InfiniteSource(ab, 4294967295, 1) -> c :: Counter -> q :: Queue(100) -> Unqueue -> Discard; Idle -> s :: Switch(0) -> Discard; s [1] -> Discard;'
other=${text/Queue(100)/Queue(200)}
port=$((20000 + RANDOM % 20000))
"$program" -e "$text" -p "$port" -n 8 -w 1 --live < /dev/null &
router=$!
sleep 1
# memory: prints the memory of the router, and the part of it that is not of the program's file.
memory() { awk '/^VmRSS:/ { all = $2 } /^RssAnon:/ { own = $2 } END { print all " kB, without the program file " own " kB" }' "/proc/$router/status"; }
started=$SECONDS
"$work/soak" "$port" $((calls / 8)) "$text" "$other" > "$work/said" &
clients=$!
while kill -0 "$clients" 2> /dev/null; do
    echo "$((SECONDS - started)) s: $(memory)"
    sleep 10
done
wait "$clients"
cat "$work/said"
echo "$((SECONDS - started)) s, at the end: $(memory)"
printf 'READ c.count\nQUIT\n' > "$work/last"
exec 3<> "/dev/tcp/127.0.0.1/$port"
cat "$work/last" >&3
# Reads the greeting, the first line of the reply, and the length of the value.
for _ in 1 2 3; do read -r line <&3; done
echo "Rounds made by the driver, a packet each: $(head -c "$(tr -cd 0-9 <<< "$line")" <&3)"
kill "$router"
wait "$router" || echo "ended by SIGTERM: status $?"
