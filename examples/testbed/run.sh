#!/usr/bin/env bash
# Starts a topology of routers and hosts, and checks it by pings, traceroutes and a flood. Swaps
# change routes while pings pass, and a router is killed and routed around. If there are no
# namespaces or no TUN device, prints so and checks nothing. The status is 5 then, and 0 for the
# tests of the gate.
#
# README.md describes topologies and steps, and `usage` below has the forms of the command. All
# processes and namespaces end with the script, also after Ctrl-C. PROGRAM names another program
# than the proved one.
set -eu
self=$(readlink -f "$0")
here=$(dirname "$self")
# In the new namespaces this script is the first process. Its files are on a tmpfs, which ends with
# them.
if [ "${1:-}" = inside ] && [ $$ = 1 ]; then
    shift
    mount -t tmpfs tmpfs /run
    export TMPDIR=/run
    ip link set lo up 2> /dev/null || true
    starter=testbed.py
    if [ -n "${WRONG_TESTBED:-}" ]; then starter=wrongs.py; fi
    if [ "$1" = live ]; then starter=live_test.py; fi
    exec python3 "$here/$starter" "$@"
fi

# usage: prints the forms of the command, and exits with status 2.
usage() {
    cat >&2 << 'E'
examples/testbed/run.sh TOPOLOGY..                   checks these topologies, one after another
examples/testbed/run.sh --keep TOPOLOGY              starts a topology, and runs until Ctrl-C
examples/testbed/run.sh --machine ADDRESS TOPOLOGY   starts its routers at this address likewise
examples/testbed/run.sh --text ROUTER TOPOLOGY       prints the configuration of a router
examples/testbed/run.sh --test [PART..]              runs the tests: topologies, line, ring, tree, live
examples/testbed/run.sh --wrongs [NAME..]            checks that wrong testbeds are refused
E
    exit 2
}

# starts NET MODE WORD..: runs testbed.py with these words in new namespaces. Leaves its status in
# $status. NET is --net for a network of its own, or empty. A signal ends all processes in them.
starts() {
    local net=$1 child
    status=0
    shift
    needs tun nsenter python3
    needs_parameters
    # What a user starts is in a user namespace. From there no other network than its own can be
    # entered.
    export HAS_USERS=
    if [ "$(id -u)" != 0 ]; then
        HAS_USERS=1
        if [ "$1" = machine ]; then fail '--machine needs root: its links are in the network of the machine'; fi
        net=--net
    fi
    # shellcheck disable=SC2086 # $net may be empty
    "${namespaces[@]}" $net "$self" inside "$1" "$(readlink -f "$program")" "${@:2}" 9< /proc &
    child=$!
    trap 'kill -KILL $child 2> /dev/null || true; exit 130' INT
    trap 'kill -KILL $child 2> /dev/null || true; exit 143' TERM HUP
    wait "$child" || status=$?
}

case ${1:-} in
--text)
    if [ $# != 3 ]; then usage; fi
    exec python3 "$here/testbed.py" text "$2" "$3"
    ;;
--keep | --machine | --test | --wrongs) ;;
'' | -*) usage ;;
esac
. "$here/../../tools/lib/checking.sh"
. "$here/../../tools/lib/namespaces.sh"
# shellcheck disable=SC2034 # left_out reads it
case ${1:-} in
--test | --wrongs) ;;
*) left_out_status=5 ;;
esac
is_built "$program"

# tests PART..: runs these parts of the test until one fails, or all. The line is checked with
# probe.py, and the ring and the tree with ping and traceroute if they are there.
tests() {
    local part
    status=0
    if [ $# = 0 ]; then set -- topologies line ring tree live; fi
    for part; do
        case $part in
        topologies) python3 "$here/topology_test.py" "$program" || status=$? ;;
        line) WITHOUT='ping traceroute' starts --net check "$here/line.topology" ;;
        ring | tree) starts --net check "$here/$part.topology" ;;
        live) starts --net live "$self" ;;
        *) usage ;;
        esac
        if [ "$status" != 0 ]; then break; fi
    done
}

case ${1:-}:$# in
--keep:2) starts '' keep "$2" ;;
--machine:3) starts '' machine "$2" "$3" ;;
--test:*) tests "${@:2}" ;;
--wrongs:*)
    needs tun nsenter python3
    needs_parameters
    status=0
    python3 "$here/wrongs.py" all "${@:2}" || status=$?
    ;;
-*) usage ;;
*) starts --net check "$@" ;;
esac
exit "$status"
