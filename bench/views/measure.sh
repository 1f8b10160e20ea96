#!/usr/bin/env bash
# Measures checks of a handler per second while a seat makes swaps: by eight views on four threads,
# and by CheckRead calls of four seats on four threads. Each figure is the best of three runs, less
# a run of one check. Needs rt. Nothing else should run in parallel. This is not a part of the gate.
set -eu
here="$(cd "$(dirname "$0")" && pwd)"
work="$(mktemp -d)"
trap 'rm -rf "$work"' EXIT
drive=${DRIVE:-$("$here/../drive/build.sh" "$work/built")}

# rate CASE TIMES IN_ALL: prints thousands of checks per second, and checks that all were answered
# with yes.
rate() {
    local best=1000 none=1000 took began
    for _ in 1 2 3; do
        began=$EPOCHREALTIME
        "$drive" checks "$1" 1 > "$work/none"
        took=$(awk "BEGIN { print $EPOCHREALTIME - $began }")
        none=$(awk "BEGIN { print ($took < $none) ? $took : $none }")
        began=$EPOCHREALTIME
        "$drive" checks "$1" "$2" > "$work/out"
        took=$(awk "BEGIN { print $EPOCHREALTIME - $began }")
        [ "$(cut -d ' ' -f 1 "$work/out")" = "$3" ] || { echo "checks by $1: $(cat "$work/out"), and $3 should be yes" >&2; exit 1; }
        if awk "BEGIN { exit !($took < $best) }"; then best=$took; cp "$work/out" "$work/best"; fi
    done
    awk "BEGIN { printf \"%.0f\", $3 / ($best - $none) / 1000 }"
}

views=$(rate views 1000000 8000000) swaps_views=$(cut -d ' ' -f 2 "$work/best")
calls=$(rate calls 50000 200000) swaps_calls=$(cut -d ' ' -f 2 "$work/best")
echo "thousands of checks a second: by views $views (during $swaps_views swaps), by calls $calls (during $swaps_calls swaps), $(awk "BEGIN { printf \"%.1f\", $views / $calls }")"
