"""Reads topologies, gives each link its addresses, and computes the routes.

README.md describes the lines of a topology. The first line that is wrong raises Faulty, with a text
FILE:LINE: and the reason.
"""

from __future__ import annotations

import re
from dataclasses import dataclass, field
from ipaddress import AddressValueError, IPv4Address, IPv4Network
from typing import NamedTuple

# A name of a router or a host. Linux allows 15 characters in the name of a device.
NAME = re.compile(r"[a-z][a-z0-9_-]{0,14}")
# Names that Linux has for devices, and for all of them.
NO_NAMES = ("lo", "all", "default")
# The maximum number of links of a router, of routers, and of links between routers. A host has one.
MAX_PORTS, MAX_ROUTERS, MAX_LINKS = 16, 200, 250
# The address of a router that its line does not name.
HERE = IPv4Address("127.0.0.1")
# The networks of the links between routers, and of those to hosts: the third byte is the number of
# the link among its kind, from 1 on.
BETWEEN, EDGES = "10.0.{}.0/30", "10.1.{}.0/30"
# The first UDP port of a link, and the control port of the first router.
FIRST_PORT, CONTROL_PORT = 20000, 21000

# The routes of a router: the number of the link for each network that is not its neighbour.
Table = dict[IPv4Network, int]


class Faulty(Exception):
    """A topology that is refused; the text says where and why."""


class Link(NamedTuple):
    """A link between two routers, or from a router (`one`) to a host (`other`).

    The first address of its network is that of `one`, and the second that of `other`.
    """

    number: int
    one: str
    other: str
    network: IPv4Network
    is_edge: bool
    line: int

    def far(self, name: str) -> str:
        """Returns the other end."""
        return self.one if name == self.other else self.other

    def address(self, name: str) -> IPv4Address:
        """Returns the address of an end in the link's network."""
        return self.network[1 if name == self.one else 2]

    def port(self, name: str) -> int:
        """Returns the UDP port of an end, above the first one of the topology."""
        return 2 * self.number + (name == self.other)


@dataclass
class Topology:
    """Routers with the addresses of their machines, and links in the order of the lines."""

    file: str
    routers: dict[str, IPv4Address] = field(default_factory=dict)
    links: list[Link] = field(default_factory=list)

    @property
    def hosts(self) -> dict[str, Link]:
        """Returns the link of each host."""
        return {it.other: it for it in self.links if it.is_edge}

    def ports(self, router: str) -> list[Link]:
        """Returns the links of a router. Its device eth0 is the first one, and so on."""
        return [it for it in self.links if router in (it.one, it.other)]

    def address(self, host: str) -> IPv4Address:
        return self.hosts[host].address(host)

    def control_port(self, router: str) -> int:
        """Returns the control port of a router, above that of the first one."""
        return list(self.routers).index(router)

    def next_links(self, target: Link, lost: str = "", dear: frozenset[tuple[str, int]] = frozenset()) -> dict[str, Link]:
        """Returns for each router its link on the shortest path to the network of a link.

        A router without a path is missing. A path has no router `lost`. A step from a router by a
        link counts as one, or as more than a whole path if it is in `dear`. If two paths are equal,
        the link of the earlier line is taken.
        """
        far = {name: 0 for name in (target.one, target.other) if name in self.routers and name != lost}
        steps = [(name, it) for it in self.links if not it.is_edge for name in (it.one, it.other) if lost not in (it.one, it.other)]

        def length(name: str, it: Link) -> int:
            return far[it.far(name)] + (len(self.routers) + 1 if (name, it.number) in dear else 1)

        for _ in self.routers:
            for name, it in steps:
                if it.far(name) in far:
                    far[name] = min(far.get(name, length(name, it)), length(name, it))
        links = {}
        for name in sorted(far, key=lambda name: far[name]):
            nearest = (it for at, it in steps if at == name and it.far(name) in far and length(name, it) == far[name])
            links[name] = target if far[name] == 0 else next(nearest)
        return links

    def tables(self, lost: str = "") -> dict[str, Table]:
        """Returns the routes of each router, without the router `lost`."""
        tables: dict[str, Table] = {name: {} for name in self.routers if name != lost}
        for target in self.links:
            for name, it in self.next_links(target, lost).items():
                if it != target:
                    tables[name][target.network] = it.number
        return tables

    def path(self, tables: dict[str, Table], one: str, other: str) -> list[Link]:
        """Returns the links from a host to another one by these routes, up to a router without a route."""
        edge, end = self.hosts[one], self.hosts[other]
        at, links = edge.one, [edge]
        while at != end.one and len(links) <= len(self.routers):
            number = self.lookup(tables, at, other)
            if number is None:
                return links
            links.append(self.links[number])
            at = links[-1].far(at)
        return [*links, end]

    def lookup(self, tables: dict[str, Table], router: str, host: str) -> int | None:
        """Returns the number of the link by which a router sends to a host, or None."""
        edge = self.hosts[host]
        if edge.one == router:
            return edge.number
        table = tables.get(router, {})
        return table.get(IPv4Network(self.address(host)), table.get(edge.network))

    def routers_on(self, links: list[Link]) -> list[str]:
        """Returns the routers on a path that begins with the link of a host."""
        routers = [links[0].one]
        for it in links[1:]:
            if not it.is_edge:
                routers.append(it.far(routers[-1]))
        return routers

    def farthest(self) -> tuple[str, str]:
        """Returns the two hosts with the most routers between them; of equal ones, the first."""
        tables, hosts = self.tables(), list(self.hosts)
        pairs = [(one, other) for at, one in enumerate(hosts) for other in hosts[at + 1 :]]
        return max(pairs, key=lambda it: len(self.path(tables, *it)))


class Reader:
    """A topology of which some lines are read."""

    def __init__(self, file: str):
        self.topology, self.line = Topology(file), 0

    def refuse(self, why: str) -> Faulty:
        return Faulty(f"{self.topology.file}:{self.line}: {why}")

    def need(self, holds: bool, why: str) -> None:
        if not holds:
            raise self.refuse(why)

    def read(self, text: str) -> None:
        """Reads a line. Words after `#` are ignored."""
        self.line += 1
        words = text.split("#")[0].split()
        if words:
            kinds = {"router": self.router, "link": self.link, "host": self.host}
            self.need(words[0] in kinds, f"'{words[0]}' is not router, link or host")
            kinds[words[0]](words[1:])

    def new_name(self, name: str) -> None:
        self.need(bool(NAME.fullmatch(name)), f"'{name}' is not a name: a letter a to z, then up to 14 of a to z, 0 to 9, '_' and '-'")
        self.need(name not in NO_NAMES, f"'{name}' is a name of Linux for devices")
        self.need(name not in self.topology.routers and name not in self.topology.hosts, f"'{name}' is the name of an earlier line")

    def known(self, name: str) -> None:
        self.need(name in self.topology.routers, f"no earlier line has a router '{name}'")
        self.need(len(self.topology.ports(name)) < MAX_PORTS, f"'{name}' has more than {MAX_PORTS} links")

    def router(self, words: list[str]) -> None:
        self.need(len(words) == 1 or (len(words) == 3 and words[1] == "at"), "a router's line is: router NAME [at ADDRESS]")
        self.new_name(words[0])
        self.need(len(self.topology.routers) < MAX_ROUTERS, f"there are more than {MAX_ROUTERS} routers")
        self.topology.routers[words[0]] = self.machine(words[2]) if words[2:] else HERE

    def machine(self, text: str) -> IPv4Address:
        """Reads the address of a machine."""
        try:
            it = IPv4Address(text)
        except AddressValueError:
            raise self.refuse(f"'{text}' is not an IPv4 address") from None
        self.need(0 < it.packed[0] < 224, f"'{text}' is not an address that a machine may have")
        return it

    def link(self, words: list[str]) -> None:
        self.need(len(words) in (2, 3), "a link's line is: link ROUTER ROUTER [NETWORK]")
        one, other, *given = words
        self.known(one)
        self.known(other)
        self.need(one != other, f"a link from '{one}' to itself")
        self.add(one, other, given, is_edge=False)

    def host(self, words: list[str]) -> None:
        self.need(len(words) in (2, 3), "a host's line is: host NAME ROUTER [NETWORK]")
        self.new_name(words[0])
        self.known(words[1])
        self.add(words[1], words[0], words[2:], is_edge=True)

    def add(self, one: str, other: str, given: list[str], is_edge: bool) -> None:
        """Adds a link, with the given network or one that its number makes."""
        links = self.topology.links
        count = 1 + sum(it.is_edge == is_edge for it in links)
        self.need(count <= MAX_LINKS, f"there are more than {MAX_LINKS} {'hosts' if is_edge else 'links'}")
        network = self.network(given[0] if given else (EDGES if is_edge else BETWEEN).format(count))
        for it in links:
            self.need(not it.network.overlaps(network), f"the network {network} overlaps with {it.network} of line {it.line}")
        links.append(Link(len(links), one, other, network, is_edge, self.line))

    def network(self, text: str) -> IPv4Network:
        try:
            it = IPv4Network(text)
        except ValueError as error:
            raise self.refuse(f"'{text}' is not a network: {error}") from None
        self.need("/" in text and it.prefixlen <= 30, f"'{text}' has no room for two hosts; use a length of at most 30")
        is_usual = 0 < it[0].packed[0] and it[-1].packed[0] < 224 and not it.overlaps(IPv4Network("127.0.0.0/8"))
        self.need(is_usual, f"'{text}' has addresses that no host may have")
        return it

    def end(self) -> Topology:
        """Returns the topology, in which each router has to reach each other one."""
        it = self.topology
        if len({edge.one for edge in it.hosts.values()}) < 2:
            raise Faulty(f"{it.file}: the hosts are at fewer than two routers")
        first = next(iter(it.hosts.values()))
        for name in it.routers:
            if name not in it.next_links(first):
                raise Faulty(f"{it.file}: there is no path from the router '{name}' to the host '{first.other}'")
        return it


def read(file: str) -> Topology:
    """Reads a topology, or raises Faulty."""
    try:
        with open(file, encoding="ascii") as it:
            lines = it.read().splitlines()
    except UnicodeDecodeError:
        raise Faulty(f"{file}: has bytes that are not ASCII") from None
    except OSError as error:
        raise Faulty(f"{file}: {error.strerror}") from None
    reader = Reader(file)
    for line in lines:
        reader.read(line)
    return reader.end()
