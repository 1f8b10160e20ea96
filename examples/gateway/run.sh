#!/usr/bin/env bash
# Checks a firewall between two Linux networks: what its rules let through, keep in and keep out. A
# page is fetched over a swap, and another over a swap to stricter rules. If there are no namespaces
# or no TUN device, prints so and checks nothing.
#
# Each network is a network namespace with a TUN device, and socat connects the device with a link
# of the router. A control session makes the swaps while packets pass. README.md describes the
# steps. Everything runs in new namespaces, so nothing is left behind. PROGRAM names another program
# than the proved one.
#
#   examples/gateway/run.sh
set -eu
self=$(readlink -f "$0")
here=$(dirname "$self")
most_seconds=80
# In the new namespaces this script is the first process. Its files are on a tmpfs, which ends with
# them.
if [ "${1:-}" = inside ] && [ $$ = 1 ]; then
    mount -t tmpfs tmpfs /run
    export TMPDIR=/run
elif [ $# -gt 0 ]; then
    echo 'run.sh takes no arguments' >&2
    exit 2
fi
. "$here/../../tools/lib/checking.sh"
. "$here/../../tools/lib/namespaces.sh"

# Outside of the namespaces: checks that everything needed is installed, and starts the script in
# new namespaces.
if [ $# = 0 ]; then
    is_built "$program"
    needs tun nsenter socat ping curl python3
    status=0
    PROGRAM=$(readlink -f "$program") timeout $most_seconds "${namespaces[@]}" --net "$self" inside || status=$?
    if [ $status = 124 ]; then fail "not done after $most_seconds s"; fi
    exit $status
fi

# until_so WHAT COMMAND..: repeats the command until it succeeds, and fails with WHAT after 15
# seconds.
until_so() {
    local what=$1 ends=$((SECONDS + 15))
    shift
    until "$@" > /dev/null 2>&1; do
        if [ $SECONDS -gt $ends ]; then fail "$what" "the router said: $(tail -n 4 "$work/said")"; fi
        sleep 0.02
    done
}

# in_left, in_right COMMAND..: run the command in that network.
in_left() { nsenter --net=/run/netns/left "$@"; }
in_right() { nsenter --net=/run/netns/right "$@"; }

# is_bound PORT: succeeds if a process has this UDP port.
is_bound() { grep -qE "^ *[0-9]+: [0-9A-F]+:$(printf %04X "$1") " /proc/net/udp; }

# network NAME ADDRESS OTHERS HERE THERE: makes a network with one host. Its packets to the
# addresses OTHERS are sent as datagrams from the port THERE to the router's port HERE.
network() {
    ip netns add "$1"
    socat "TUN,tun-name=$1,iff-no-pi" "UDP4-DATAGRAM:127.0.0.1:$4,bind=127.0.0.1:$5" &
    # socat sets the flags of its device before it opens the port, and does not find a device that is
    # in another namespace.
    until_so "socat makes no TUN device for $1" is_bound "$5"
    ip link set "$1" netns "$1"
    # The kernel adds no IPv6 address.
    ip -n "$1" link set "$1" addrgenmode none
    ip -n "$1" address add "$2" dev "$1"
    ip -n "$1" link set "$1" up
    ip -n "$1" route add "$3" dev "$1"
}

# reply: reads a reply of the control session. Leaves its last line in $said, and the value of a
# read in $value.
reply() {
    local length
    IFS= read -r -t 10 said <&3 || fail 'the control session ended, or does not answer'
    said=${said%$'\r'}
    value=
    case $said in
    '200 Read handler'*)
        read -r -t 10 length <&3
        value=$(head -c "$(tr -cd 0-9 <<< "$length")" <&3)
        ;;
    ???-*) reply ;;
    esac
}
# asks COMMAND: sends a command and reads its reply.
asks() {
    printf '%s\n' "$1" >&3
    reply
}
# reads HANDLER: reads a handler, and checks that it can be read.
reads() {
    asks "READ $1"
    same "200 Read handler '$1' OK" "$said" "READ $1"
}
# swaps NAME: makes a swap to NAME.click.
swaps() {
    local text
    text=$(cat "$here/$1.click")
    printf 'WRITEDATA hotconfig %s\n%s' "$(printf %s "$text" | wc -c)" "$text" >&3
    reply
}

# pings COUNT WHAT: checks that each ping is answered, by a packet whose time to live is 63.
pings() {
    ran in_left ping -n -c "$1" -i 0.01 -W 2 10.2.0.2
    same_status 0 "$status" "$2: pings"
    same "$1" "$(grep -c '^64 bytes from 10\.2\.0\.2: .* ttl=63 ' "$work/out")" "$2: answers with a time to live of 63"
}

size_of() { stat -c %s "$1" 2> /dev/null || echo 0; }
has_bytes() { [ "$(size_of "$1")" -ge "$2" ]; }
fetches() { in_left curl --silent --show-error --max-time 30 "$@" http://10.2.0.2/page; }
# begins_fetch: begins a slow fetch, whose process is $fetch, and waits for some bytes of the page.
begins_fetch() {
    rm -f "$work/came"
    fetches --limit-rate 4M -o "$work/came" &
    fetch=$!
    until_so 'the fetch does not begin' has_bytes "$work/came" 2000000
}
# swaps_in_fetch NAME WHAT: makes a swap to NAME.click, and checks that it is accepted before the
# fetch is over. Leaves the number of bytes that came before it in $before.
swaps_in_fetch() {
    local after
    before=$(size_of "$work/came")
    swaps "$1"
    after=$(size_of "$work/came")
    same "200 Write handler 'hotconfig' OK" "$said" "$2"
    if [ "$after" -ge 10485760 ]; then fail "$2: the fetch was over before"; fi
}
# ends_fetch WHAT: waits for the end of the fetch, and checks the page.
ends_fetch() {
    status=0
    wait $fetch || status=$?
    same 0 $status "curl, $1"
    same_bytes "$work/pages/page" "$work/came" "the page that was fetched $1"
}
# is_kept COUNTER WHAT COMMAND..: checks that the command, a curl, gets no connection (28: the time
# is over), and that the counter counts its packets. Leaves their number in $kept.
is_kept() {
    local counter=$1 what=$2 earlier
    shift 2
    reads "$counter.count"
    earlier=$value
    ran "$@" --silent --show-error --connect-timeout 2 -o "$work/other"
    same_status 28 "$status" "$what"
    reads "$counter.count"
    kept=$((value - earlier))
    if [ $kept -lt 1 ]; then fail "$what: packets that $counter counts: $kept"; fi
}

# serves SIDE ADDRESS PORT: serves the page there.
serves() {
    "in_$1" python3 -m http.server "$3" --bind "$2" --directory "$work/pages" > "$work/served.$1.$3" 2>&1 &
    until_so "the page is not served at $2:$3" "in_$1" grep -q "$(printf ':%04X 00000000:0000 0A' "$3")" /proc/net/tcp
}
is_ready() { grep -q ':1E61 00000000:0000 0A' /proc/net/tcp && grep -q ':1389 ' /proc/net/udp && grep -q ':138B ' /proc/net/udp; }

# `tells PATTERN`: succeeds if the last line of each link matches the pattern.
tells() {
    local device
    for device in eth0 eth1; do
        tac "$work/said" | grep -m 1 "^link $device: " | grep -qx "link $device: $1"
    done
}

ip link set lo up
"$program" --live --link eth0=5001,5002 --link eth1=5003,5004 --tell 1 -p 7777 -e "$(cat "$here/gateway.click")" < /dev/null > "$work/said" 2>&1 &
router=$!
until_so 'the router does not come up' is_ready
exec 3<> /dev/tcp/127.0.0.1/7777
reply
same Click::ControlSocket/1.3 "$said" 'the greeting'
network left 10.1.0.2/16 10.2.0.0/16 5001 5002
network right 10.2.0.2/16 10.1.0.0/16 5003 5004

mkdir "$work/pages"
head -c 10485760 /dev/urandom > "$work/pages/page"
serves right 10.2.0.2 80
# Stands in for an SSH server.
serves right 10.2.0.2 22
serves left 10.1.0.2 80
ip -n right address add 10.2.0.3/16 dev right

pings 100 'the gateway'
echo 'ping: 100 of 100 answered, each with a time to live of 63'

reads kept_out.count
earlier=$value
ran in_right ping -n -c 3 -i 0.01 -W 1 10.1.0.2
same_status 1 "$status" 'pings from outside'
reads kept_out.count
same 3 $((value - earlier)) 'packets of pings from outside that are kept out'
echo 'pings from outside: none of 3 answered, 3 packets kept out'

is_kept kept_in 'curl at port 22' in_left curl http://10.2.0.2:22/page
echo "port 22: a host inside gets no connection ($kept packets kept in)"

# Its packets come from port 80, as replies do, but the first one has no ACK.
is_kept kept_out 'curl from outside' in_right curl --interface 10.2.0.3 --local-port 80 http://10.1.0.2/page
echo "from outside: no connection to a server inside, not from port 80 either ($kept packets kept out)"

begins_fetch
swaps_in_fetch longer_queues 'a swap in the middle of a fetch'
reads q0.capacity
same 1000 "$value" 'the capacity after the swap'
ends_fetch 'over a swap'
echo "curl: 10,485,760 bytes, equal to the page; the queues got another length after $before of them"

reads flatconfig
flat=$value
swaps faulty
same '520 31 Count at q1 outputs 0' "$said" 'a faulty swap'
reads flatconfig
same "$flat" "$value" 'the flat form after a refused swap'
pings 20 'after a refused swap'
echo 'a refused swap: 31 Count at q1 outputs 0; flatconfig is as before, and 20 of 20 pings are answered'

begins_fetch
swaps_in_fetch closed_port 'the swap to stricter rules'
is_kept kept_in 'curl under stricter rules' in_left curl http://10.2.0.2/page
pings 20 'under stricter rules'
ends_fetch 'over the swap to stricter rules'
echo "stricter rules after $before bytes: that page comes whole, no connection begins ($kept packets kept in), 20 of 20 pings are answered"

swaps gateway
same "200 Write handler 'hotconfig' OK" "$said" 'the swap back'
rm "$work/came"
ran fetches -o "$work/came"
same_status 0 "$status" 'curl after the swap back'
same_bytes "$work/pages/page" "$work/came" 'the page that was fetched again'
echo 'the first rules again: the whole page'

# A packet whose time to live is over is dropped silently.
ran in_left ping -n -t 1 -c 5 -i 0.01 -W 1 10.2.0.2
same_status 1 "$status" 'ping with a time to live of 1'
same '' "$(grep -i 'exceeded\|bytes from' "$work/out")" 'what answers a time to live of 1'
echo 'ping with a time to live of 1: no answer, nor one that says why'

clean='received [1-9][0-9]*, from elsewhere 0, too long 0, no room [0-9]*, no memory 0, entered [1-9][0-9]*, sent [1-9][0-9]*, failed 0'
until_so "no such line of each link: $clean" tells "$clean"
same 0 "$(grep -cv '^link eth[01]: ' "$work/said")" 'lines of the router that are not counts of a link'
tail -n 2 "$work/said"
asks QUIT
same '200 Goodbye!' "$said" 'QUIT'
kill $router
status=0
wait $router || status=$?
same 143 $status 'the status of the router that SIGTERM ends'
echo passed
