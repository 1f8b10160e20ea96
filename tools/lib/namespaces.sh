# shellcheck shell=bash

# Defines what the examples with Linux hosts share: how they are left out, and how they start in new
# namespaces. Sourced by these scripts.
# The scripts that source this file read its variables.
# shellcheck disable=SC2034

# The command that runs a program in new namespaces; `--net` before the program adds one of the
# network. All processes in them end with the first one, and that with this command.
namespaces=(unshare --mount --pid --fork --kill-child --mount-proc)
if [ "$(id -u)" != 0 ]; then namespaces+=(--user --map-root-user); fi

# The status of a script that is left out. The gate's scripts have status 0.
left_out_status=0

# left_out WHY: prints what is missing and exits with that status.
left_out() {
    echo "left out: $1"
    exit "$left_out_status"
}

# needs KIND PROGRAM..: leaves the script out if this machine lacks one of the programs. Likewise if
# it cannot make a device of the kind (tun or tap) in a namespace of its own.
needs() {
    local kind=$1 it
    shift
    for it in unshare ip "$@"; do
        if ! command -v "$it" > /dev/null; then left_out "there is no $it"; fi
    done
    if ! [ -c /dev/net/tun ] || ! [ -r /dev/net/tun ] || ! [ -w /dev/net/tun ]; then left_out '/dev/net/tun cannot be opened'; fi
    if ! "${namespaces[@]}" --net ip tuntap add dev probe mode "$kind" 2> /dev/null; then left_out "in a namespace of its own no ${kind^^} device can be made"; fi
}

# needs_parameters: leaves the script out if it cannot set parameters of the kernel in a namespace of
# its own.
needs_parameters() {
    if ! "${namespaces[@]}" --net sh -c 'echo 1 > /proc/sys/net/ipv4/ip_forward' 2> /dev/null; then left_out 'in a namespace of its own no parameter of the kernel can be set'; fi
}
