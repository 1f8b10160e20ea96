"""The steps of the testbed. Each checks a running topology, and prints a line."""

from __future__ import annotations

import signal
import socket
import subprocess
import threading
import time
from ipaddress import IPv4Address, IPv4Network
from multiprocessing import get_context

from bed import NO_PING_SECONDS, Bed, Host, Node, answers, output, read_pings, say, same, until
from linux_host import SECONDS
from sessions import Session, Wrong
from topology import Link
from trying import fail

# The minimum number of pings that are answered while routes change, and the seconds between two of
# them. After the last swap they may take as many seconds as PINGS_SECONDS.
PINGS, INTERVAL, PINGS_SECONDS = 1000, 0.002, 60
# The number of answers before the first swap, and after the last one.
AROUND = 50
# The seconds that a flood takes at least, its datagrams that come at least, and the maximum number
# of seconds until they came.
FLOOD_SECONDS, FLOOD_CAME, MAX_FLOOD_SECONDS = 3.0, 5000, 60.0
# The number of seconds without a packet after which none of the flood is left.
QUIET_SECONDS = 1.0
# The length of each of its datagrams, in bytes, and their port: discard (RFC 863).
FLOOD_BYTES, DISCARD = 200, 9
# The maximum number of seconds that a reply of a control session takes during a flood, and the
# minimum number of replies of each.
MAX_REPLY, MIN_REPLIES = 1.0, 10


def check_pings(bed: Bed, one: str, other: str, count: int, what: str) -> None:
    """Checks that each ping from a host to another one is answered once.

    The time to live of the answers shows the number of routers on the path back.
    """
    came = bed.hosts[one].ping(bed.topology.address(other), count)
    same(list(range(1, count + 1)), came.numbers, f"{what}: pings from {one} to {other} that are answered")
    same({64 - len(bed.path(other, one))}, came.lives, f"{what}: the time to live of the answers from {other} to {one}")


def check_traceroute(bed: Bed, one: str, other: str, what: str) -> None:
    """Checks the hops of a traceroute."""
    same(bed.hops(one, other), bed.hosts[one].traceroute(bed.topology.address(other)), f"{what}: traceroute from {one} to {other}")


def check_all_pings(bed: Bed) -> None:
    """Checks pings from each host to the next one, and from the first host to all routers' addresses."""
    hosts = list(bed.hosts)
    for one, other in zip(hosts, [*hosts[1:], hosts[0]]):
        check_pings(bed, one, other, 3, "at the beginning")
    count = 0
    for name in bed.nodes:
        for it in bed.topology.ports(name):
            came = bed.hosts[hosts[0]].ping(it.address(name))
            same([1], came.numbers, f"a ping from {hosts[0]} to {it.address(name)} of the router {name} that is answered")
            count += 1
    say(f"pings: {len(hosts)} hosts reach each other, and {count} addresses of {len(bed.nodes)} routers answer")


def check_traceroutes(bed: Bed) -> None:
    """Checks a traceroute in both directions between the two hosts."""
    one, other = bed.topology.farthest()
    for ends in ((one, other), (other, one)):
        check_traceroute(bed, *ends, "at the beginning")
        say(f"traceroute from {ends[0]} to {ends[1]}: {' '.join(bed.hops(*ends))}")


def hold_queue(bed: Bed, name: str, ends: tuple[str, str], pings: subprocess.Popen[str]) -> bool:
    """Holds back the packets between two hosts at a router, until a ping waits in a queue.

    Returns false if the packets do not pass this router. The next swap lets them go on.
    """
    to = next((other for one, other in (ends, ends[::-1]) if name in bed.path(one, other)), "")
    number = bed.topology.lookup(bed.tables, name, to) if to else None
    if number is None:
        return False
    at, node = bed.index(name, number), bed.nodes[name]
    node.write(f"hold{at}.switch", "-1")
    until(lambda: pings.poll() is not None or int(node.read(f"q{at}.length")), f"a ping waits in q{at} of {name}")
    if pings.poll() is not None:
        fail("the pings were over before the last swap", *output(pings)[-2:])
    return True


def find_detour(bed: Bed, one: str, other: str) -> dict[str, Link]:
    """Returns for each router its link to a host. The paths avoid the steps of the present one.

    If there is no other path, it stays. The routers are in the order of their distance from the host.
    """
    links = bed.topology.path(bed.tables, one, other)
    steps = frozenset(zip(bed.path(one, other), (it.number for it in links[1:])))
    return bed.topology.next_links(bed.topology.hosts[other], dear=steps)


def can_avoid(bed: Bed, name: str, ends: tuple[str, str]) -> bool:
    """Returns whether the two hosts reach each other without this router."""
    one, other = (bed.topology.hosts[it] for it in ends)
    return one.one in bed.topology.next_links(other, lost=name)


def reroute(bed: Bed, name: str, host: str, link: Link) -> None:
    """Gives a router a route to the address of a host, by a swap."""
    address, node = bed.topology.address(host), bed.nodes[name]
    bed.tables[name][IPv4Network(address)] = link.number
    node.swap(bed.text(name))
    same(bed.text(name), node.read("config"), f"the configuration of {name} after a swap")
    same(bed.lookup_value(name, host), node.read(f"rt.lookup {address}"), f"the route of {name} to {host} after a swap")


def end_pings(pings: subprocess.Popen[str], address: IPv4Address) -> int:
    """Ends the pings after PINGS answers and AROUND more of them, and returns their number.

    Checks that each ping before the last answer is answered exactly once.
    """
    wanted = max(PINGS, len(answers(pings)) + AROUND)
    until(lambda: pings.poll() is not None or len(answers(pings)) >= wanted, f"{wanted} pings are answered", PINGS_SECONDS)
    count = max(answers(pings))
    pings.send_signal(signal.SIGINT)
    numbers = read_pings(pings, address, count, PINGS_SECONDS).numbers
    same([], sorted(set(range(1, count + 1)) - set(numbers)), f"the pings of {count} that were lost during the swaps")
    same(count, len(numbers), f"the answers to {count} pings")
    same(True, count >= PINGS, f"whether {count} pings are at least {PINGS}")
    return count


def change_routes(bed: Bed) -> None:
    """Gives each router another route by a swap while pings pass, none of which may be lost.

    The new route is one to the host alone, before that to its network. A router gets it after those
    on its new path, so that there is no loop. At each router on the path a ping waits in a queue
    during the swap.
    """
    ends = one, other = bed.topology.farthest()
    before, address = bed.hops(one, other), bed.topology.address(other)
    links = {host: find_detour(bed, far, host) for far, host in (ends, ends[::-1])}
    pings = bed.hosts[one].start_pings(address, INTERVAL)
    until(lambda: len(answers(pings)) >= AROUND, f"the first {AROUND} pings are answered")
    swapped, waited = [], 0
    for host in (other, one):
        for name, it in links[host].items():
            if not it.is_edge:
                waited += hold_queue(bed, name, ends, pings)
                reroute(bed, name, host, it)
                swapped.append(name)
    same(set(bed.nodes), set(swapped), "the routers with a changed route")
    count = end_pings(pings, address)
    check_traceroute(bed, one, other, "after the swaps")
    path = f"the path is now {' '.join(bed.hops(one, other))}"
    if before == bed.hops(one, other):
        path = "there is no other path"
        same([], [it for it in bed.path(one, other)[1:-1] if can_avoid(bed, it, ends)], "the routers that the path after the swaps could avoid")
    say(f"{count:,} pings, and meanwhile {len(swapped)} swaps, {waited} of them with a ping in a queue: none lost; {path}")


def lose_router(bed: Bed) -> None:
    """Kills a router between the two hosts, and gives the others routes without it.

    If there is no such path, the nearest router has to report so. Then the router is started again.
    """
    ends = one, other = bed.topology.farthest()
    bed.install(bed.topology.tables())
    first, *rest = bed.path(one, other)
    inner = rest[:-1] or rest
    victim = next((it for it in inner if can_avoid(bed, it, ends)), inner[0])
    address = bed.topology.address(other)
    check_pings(bed, one, other, 3, f"before {victim} is killed")
    bed.nodes[victim].kill()
    same([], bed.hosts[one].ping(address, 3, NO_PING_SECONDS).numbers, f"the pings that are answered over {victim}, which was killed")
    bed.install(bed.topology.tables(lost=victim))
    if can_avoid(bed, victim, ends):
        check_pings(bed, one, other, 20, f"without {victim}")
        check_traceroute(bed, one, other, f"without {victim}")
        say(f"{victim} is killed: pings go around it, {' '.join(bed.hops(one, other))}")
    else:
        came = bed.hosts[one].ping(address, 3, NO_PING_SECONDS)
        report = (str(bed.topology.hosts[one].address(first)), "Destination Net Unreachable")
        same(([], {report}), (came.numbers, set(came.reports)), f"answers and reports for pings from {one} to {other} without {victim}")
        say(f"{victim} is killed: there is no path around it, and {first} reports that the network is unreachable")
    bed.tables = bed.topology.tables()
    bed.nodes[victim].start(bed.text(victim))
    bed.nodes[victim].connect()
    bed.install(bed.topology.tables())
    check_pings(bed, one, other, 20, f"with {victim} again")
    check_traceroute(bed, one, other, f"with {victim} again")
    say(f"{victim} is started again: pings take the first path")


class Asker(threading.Thread):
    """Sessions at a router, one after another, each with a read, until `is_over` is set."""

    def __init__(self, node: Node, is_over: threading.Event):
        super().__init__(daemon=True)
        self.node, self.is_over, self.waits, self.why = node, is_over, list[float](), ""

    def run(self) -> None:
        while not self.is_over.is_set():
            begin = time.monotonic()
            try:
                session = Session(self.node)
                session.read(b"rt.lookup 0.0.0.0")
                session.quit()
            except (Wrong, OSError) as error:
                self.why = f"{type(error).__name__} {error}"
                return
            self.waits.append(time.monotonic() - begin)
            time.sleep(0.02)


def send_flood(host: Host, address: str) -> None:
    """Sends datagrams as fast as it can, until the process is ended."""
    with host.inside():
        sending = socket.socket(socket.AF_INET, socket.SOCK_DGRAM)
    sending.connect((address, DISCARD))
    data = bytes(FLOOD_BYTES)
    while True:
        try:
            sending.send(data)
        except OSError:
            time.sleep(0.001)


def flood_host(bed: Bed) -> None:
    """Checks that the control sessions of all routers are served while a host floods another one."""
    one, other = bed.topology.farthest()
    taking = bed.hosts[other].open(socket.AF_INET, socket.SOCK_DGRAM)
    taking.bind((str(bed.topology.address(other)), DISCARD))
    is_over = threading.Event()
    sending = get_context("fork").Process(target=send_flood, args=(bed.hosts[one], str(bed.topology.address(other))), daemon=True)
    begin, before = time.monotonic(), bed.hosts[other].received()
    sending.start()
    asking = [Asker(it, is_over) for it in bed.nodes.values()]
    try:
        for it in asking:
            it.start()
        time.sleep(FLOOD_SECONDS)
        until(lambda: bed.hosts[other].received() - before >= FLOOD_CAME, f"{FLOOD_CAME} datagrams of a flood come to {other}", MAX_FLOOD_SECONDS)
        until(lambda: all(len(it.waits) >= MIN_REPLIES or it.why for it in asking), f"each control session is served {MIN_REPLIES} times", MAX_FLOOD_SECONDS)
    finally:
        is_over.set()
        sending.kill()
        sending.join()
        for it in asking:
            it.join(SECONDS)
    came, seconds = bed.hosts[other].received() - before, time.monotonic() - begin
    for it in asking:
        if it.why or it.is_alive() or max(it.waits) > MAX_REPLY:
            longest = f"one was served after {max(it.waits, default=0):.2f} s, and at most {MAX_REPLY:g} s are allowed"
            fail(f"the control sessions of {it.node.name} during a flood: {it.why or longest}")
    most = max(max(it.waits) for it in asking)
    say(f"a flood at {other}: {came:,} datagrams came in {seconds:.1f} s; {sum(len(it.waits) for it in asking)} control sessions, the slowest of {1000 * most:.0f} ms")
    until_quiet(bed.hosts[other])
    taking.close()
    check_pings(bed, one, other, 20, "after the flood")


def until_quiet(host: Host) -> None:
    """Blocks until no packet has come to a host for a second, and none waits at a link."""
    ends = time.monotonic() + MAX_FLOOD_SECONDS
    count, since = -1, time.monotonic()
    while time.monotonic() - since < QUIET_SECONDS and time.monotonic() < ends:
        now = host.received()
        if now != count or not is_drained():
            count, since = now, time.monotonic()
        time.sleep(0.05)


def is_drained() -> bool:
    """Returns whether no UDP socket of this network namespace has datagrams that wait."""
    with open("/proc/net/udp", encoding="ascii") as rows:
        return all(row.split()[4].endswith(":00000000") for row in list(rows)[1:])


def check_counts(bed: Bed) -> None:
    """Checks that the links had only datagrams of their peers, none of them too long, and no failure."""
    before = {name: len(node.counts()) for name, node in bed.nodes.items()}
    zeros = ("from elsewhere", "too long", "no memory", "failed")
    for name, node in bed.nodes.items():
        ports = len(bed.topology.ports(name))
        # Two counts of each link, the second of which was made later than now.
        until(lambda node=node, wanted=before[name] + 2 * ports: len(node.counts()) >= wanted, f"{name} prints the counts of its links")
        lines = node.counts()[-ports:]
        wrong = [it for it in lines if any(f", {zero} 0" not in it for zero in zeros)]
        if wrong or [it.split(":")[0] for it in lines] != [f"link eth{at}" for at in range(ports)]:
            fail(f"the counts of {name}, of which {', '.join(zeros)} have to be 0", *lines)
    say(f"the counts of {sum(len(bed.topology.ports(it)) for it in bed.nodes)} ends of links: {', '.join(zeros)} are 0")


STEPS = (check_all_pings, check_traceroutes, change_routes, lose_router, flood_host, check_counts)
