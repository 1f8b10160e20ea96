#!/usr/bin/env bash
# Checks the router between two Ethernets with a Linux host each: ARP, pings, traceroute, reports of
# errors, and a path MTU that the hosts find. The Ethernet address of a host changes, a swap keeps
# the addresses of the neighbours, and a flood does not delay pings. If there are no namespaces or no
# TAP device, prints so and checks nothing.
#
# The hosts are network namespaces with a TAP device each. hosts.py connects the devices with links
# of the router, and checks all frames. README.md describes the steps. Everything runs in new
# namespaces, so nothing is left behind. PROGRAM names another program than the proved one.
#
#   examples/ethernet/run.sh
set -eu
self=$(readlink -f "$0")
here=$(dirname "$self")
most_seconds=120
# In the new namespaces this script is the first process. Its files are on a tmpfs, which ends with
# them.
if [ "${1:-}" = inside ] && [ $$ = 1 ]; then
    mount -t tmpfs tmpfs /run
    ip link set lo up
    export TMPDIR=/run
    exec python3 "$here/hosts.py" "$PROGRAM" "$here/ethernet.click"
elif [ $# -gt 0 ]; then
    echo 'run.sh takes no arguments' >&2
    exit 2
fi
. "$here/../../tools/lib/checking.sh"
. "$here/../../tools/lib/namespaces.sh"

is_built "$program"
needs tap python3
needs_parameters
status=0
PROGRAM=$(readlink -f "$program") timeout $most_seconds "${namespaces[@]}" --net "$self" inside || status=$?
if [ $status = 124 ]; then fail "not done after $most_seconds s"; fi
exit $status
