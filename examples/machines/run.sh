#!/usr/bin/env bash
# Checks the router between two virtual machines, outside the gate. Each runs Debian's kernel and
# busybox in QEMU, and its network card is connected straight to a link of the router. They find each
# other by ARP, ping, trace the route and fetch a file. If a program or the kernel is missing, prints
# so and checks nothing. README.md describes the steps.
#
#   examples/machines/run.sh [KERNEL.deb]
#
# KERNEL.deb is a package of a Linux kernel of Debian. Without it the script fetches the one that
# linux-image-cloud-amd64 names, with apt-get. PROGRAM names another program than the proved one.
set -eu
self=$(readlink -f "$0")
here=$(dirname "$self")
most_seconds=300
modules=(failover net_failover virtio_ring virtio virtio_pci_legacy_dev virtio_pci_modern_dev virtio_pci virtio_net)

# left_out WHY: prints what is missing and exits with status 0.
left_out() {
    echo "left out: $1"
    exit 0
}

# start_machine FOLDER ROLE NUMBER WORD..: starts a machine whose card sends to UDP port 5001 + 2 *
# NUMBER and receives from port 5002 + 2 * NUMBER. The words go to its command line. Its console is
# FOLDER/ROLE.log.
start_machine() {
    local folder=$1 role=$2 to=$((5001 + 2 * $3)) from=$((5002 + 2 * $3)) ether=02:00:00:00:0$3:aa
    shift 3
    qemu-system-x86_64 -accel tcg -m 192M -display none -no-reboot -monitor none -serial "file:$folder/$role.log" \
        -kernel "$folder/kernel" -initrd "$folder/initrd" -append "console=ttyS0 quiet panic=-1 role=$role $*" \
        -netdev "dgram,id=n,local.type=inet,local.host=127.0.0.1,local.port=$from,remote.type=inet,remote.host=127.0.0.1,remote.port=$to" \
        -device "virtio-net-pci,netdev=n,mac=$ether,romfile=" < /dev/null > "$folder/$role.out" 2>&1 &
}

# part NAME: prints what the left machine printed of this step, without line ends of terminals.
part() { sed -n "/^begin $1\$/,/^end $1 /p" "$folder/left.plain"; }

# saw NAME STATUS LINE..: checks the status of a step, and that it printed each line (a pattern of
# grep -E that has to match a whole line).
saw() {
    local name=$1 status=$2 line
    shift 2
    for line in "$@" "end $name $status"; do
        if ! part "$name" | grep -Eqx "$line"; then
            fail "step '$name' has no line '$line':" "$(part "$name")" "the whole console is:" "$(tail -n 60 "$folder/left.plain")"
        fi
    done
}

# check_all: checks what the left machine saw.
check_all() {
    saw arping 0 'Unicast reply from 10\.1\.0\.1 \[0?2:0?0:0?0:0?0:0?0:0?1\].*' 'Sent 3 probe.*' 'Received 3 (reply|response|replies|probe).*'
    saw near 0 '3 packets transmitted, 3 packets received, 0% packet loss'
    saw far 0 '3 packets transmitted, 3 packets received, 0% packet loss'
    saw across 0 '64 bytes from 10\.2\.0\.2: seq=4 ttl=63 .*' '5 packets transmitted, 5 packets received, 0% packet loss'
    saw traceroute 0 ' 1  10\.1\.0\.1 .*' ' 2  10\.2\.0\.2 .*'
    saw no_route 1 '1 packets transmitted, 0 packets received, 100% packet loss'
    saw file 0 "$(sha256sum < "$folder/root/file" | cut -d ' ' -f 1)  -"
    saw neighbours 0 '10\.1\.0\.1 dev eth0 lladdr 02:00:00:00:00:01 .*'
    if part neighbours | grep -q '10\.2\.0\.2'; then fail 'the left machine has the other one as its neighbour'; fi
}

# run_inside: starts the router and the machines, waits until the left one has ended, and checks.
run_inside() {
    local left
    folder=$2
    mount -t tmpfs tmpfs /run
    export TMPDIR=/run
    . "$here/../../tools/lib/checking.sh"
    ip link set lo up
    "$PROGRAM" -e "$(cat "$here/../ethernet/ethernet.click")" --live -p 7777 \
        --link eth0=5001,5002 --link eth1=5003,5004 < /dev/null > "$folder/router.log" 2>&1 &
    start_machine "$folder" right 1 address=10.2.0.2 gateway=10.2.0.1
    start_machine "$folder" left 0 address=10.1.0.2 gateway=10.1.0.1 far=10.2.0.1 peer=10.2.0.2
    left=$!
    wait "$left" || fail "QEMU ended with status $?: $(cat "$folder/left.out")"
    tr -d '\r' < "$folder/left.log" > "$folder/left.plain"
    check_all
    echo 'passed'
}

# make_initrd PACKAGE: makes the kernel and the root of the machines in $folder.
make_initrd() {
    local module found
    dpkg-deb -x "$1" "$folder/package"
    cp "$folder"/package/boot/vmlinuz-* "$folder/kernel"
    mkdir -p "$folder/root/bin" "$folder/root/modules"
    cp "$(command -v busybox)" "$folder/root/bin/busybox"
    cp "$here/init" "$folder/root/init"
    head -c 1000000 /dev/urandom > "$folder/root/file"
    # Some kernels have a module built in.
    for module in "${modules[@]}"; do
        found=$(find "$folder/package" -name "$module.ko*")
        case $found in
        *.ko) cp "$found" "$folder/root/modules/$module.ko" ;;
        *.xz) xz -dc "$found" > "$folder/root/modules/$module.ko" ;;
        *) continue ;;
        esac
        echo "$module.ko" >> "$folder/root/modules/order"
    done
    (cd "$folder/root" && find . | cpio --quiet -o -H newc) > "$folder/initrd"
}

# fetched: fetches the package of the kernel into $folder and prints its path.
fetched() {
    local name
    name=$(apt-cache depends linux-image-cloud-amd64 2> /dev/null | awk '/Depends: linux-image-/ { print $2; exit }')
    if [ -z "$name" ]; then return 1; fi
    (cd "$folder" && timeout 120 apt-get download -qq "$name" > /dev/null 2>&1) || return 1
    echo "$folder/$name"_*.deb
}

if [ "${1:-}" = inside ] && [ $$ = 1 ]; then
    run_inside "$@"
    exit 0
elif [ $# -gt 1 ]; then
    echo 'run.sh takes at most one argument, the package of a kernel' >&2
    exit 2
fi
. "$here/../../tools/lib/checking.sh"
is_built "$program"
for needed in qemu-system-x86_64 busybox cpio dpkg-deb unshare ip; do
    if ! command -v $needed > /dev/null; then left_out "there is no $needed"; fi
done
own=(unshare --net --mount --pid --fork --kill-child --mount-proc)
if [ "$(id -u)" != 0 ]; then own+=(--user --map-root-user); fi
if ! "${own[@]}" ip link set lo up 2> /dev/null; then left_out 'no namespaces can be made'; fi
folder=$work/machines
mkdir "$folder"
if [ $# = 1 ]; then package=$1; else package=$(fetched) || left_out 'the package of a kernel cannot be fetched'; fi
make_initrd "$package"
status=0
PROGRAM=$(readlink -f "$program") timeout $most_seconds "${own[@]}" "$self" inside "$folder" || status=$?
if [ $status = 124 ]; then fail "not done after $most_seconds s" "$(tail -n 20 "$folder/left.log")"; fi
exit $status
