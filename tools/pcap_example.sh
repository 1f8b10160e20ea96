#!/usr/bin/env bash
# Checks click_prog --pcap with the example of docs/PCAP.md and with the captures that
# tools/pcap_example.py makes.
#
# The program must have been built. QUICK=1 leaves out the captures of a million packets. It also
# leaves out the check that each packet is written before the next one is sent. A wrapper that
# changes the output after the program has ended cannot pass that check.
#
#   tools/pcap_example.sh [PAGE]
set -eu
. "$(dirname "$(readlink -f "$0")")/lib/checking.sh"
is_built "$pcap"
page=$(readlink -f "${1:-$top/docs/PCAP.md}")
gateway=$top/examples/pcap/gateway.click
three=$top/examples/pcap/three.pcap

# The page's example: lines with `> ` are run, and all others have to be printed on standard error.
sed -n '/^An example/,/^## /s/^    //p' "$page" > "$work/example"
sed -n 's/^> //p' "$work/example" > "$work/sent"
sed '/^> /d' "$work/example" > "$work/wanted"
is_not_empty "$work/sent" "what $page runs"
ln -s "$top/examples" "$work/examples"
click_prog() { "$pcap" "$@"; }
cd "$work"
status=0
. "$work/sent" 2> "$work/err" || status=$?
same_status 0 "$status" "the example of $page"
same_bytes "$work/wanted" "$work/err" "the example of $page, on standard error"
is_not_empty "$work/out.pcap" "what the example of $page writes"
# The page shows the configuration that the example runs.
sed -n '/^The configuration/,/^An example/s/^    //p' "$page" > "$work/shown"
same_bytes "$gateway" "$work/shown" "the configuration that $page shows"
# Another run of the capture gives the same output, which tools/pcap_example.py checks.
cp "$work/out.pcap" "$work/came.pcap"
ran "$pcap" --pcap -e "$(cat "$gateway")" --in eth0 --out eth1 < "$three"
same_bytes "$work/came.pcap" "$work/out" "the example of $page, written"

# A capture of one packet of three bytes passes a queue unchanged.
ran "$pcap" --pcap -e 'FromDevice(eth0) -> Queue -> ToDevice(eth1);' --in eth0 --out eth1 < "$top/examples/pcap/abc.pcap"
same_status 0 "$status" 'a packet of three bytes'
same_bytes "$top/examples/pcap/abc.pcap" "$work/out" 'a packet of three bytes'

python3 -I "$top/tools/pcap_example.py" "$pcap" "$gateway" "$three" ${QUICK:+quick} || exit 1
