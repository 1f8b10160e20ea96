"""Writes the configuration of a router of a topology."""

from __future__ import annotations

from topology import Table, Topology

HEAD = """\
// The router {name} of {file}, by examples/testbed.
//
{ports}

// Makes ICMPError and ICMPPingResponder visible.
require(gateway);

// The datagrams that arrive at a device, where the router has the address $ip. Those that go on, the
// answers to pings and the reports of errors leave with the paint $colour.
elementclass In {{ $device, $ip, $colour |
  // No host has a source whose first byte is 0, 127, or 224 to 255 (RFC 1812, section 5.3.7).
  FromDevice($device) -> CheckIPHeader({own})
    -> martian :: Classifier(12/00, 12/7f, 12/e0%e0, -) -> Discard;
  martian [1] -> Discard;
  martian [2] -> Discard;
  martian [3] -> Paint($colour) -> GetIPAddress(16) -> here :: StaticIPLookup(0.0.0.0/0 0, {own_routes});

  // Datagrams to others.
  here [0] -> ttl :: DecIPTTL -> output;
  ttl [1] -> ICMPError($ip, timeexceeded) -> output;

  // Datagrams to the router: pings, other ICMP messages, UDP (17 or hexadecimal 11), and the rest.
  here [1] -> ping :: ICMPPingResponder -> output;
  ping [1] -> protocol :: Classifier(9/01, 9/11, -) -> Discard;
  protocol [1] -> ICMPError($ip, unreachable, 3) -> output;
  protocol [2] -> ICMPError($ip, unreachable, 2) -> output;
}}

// The routes. Output N leads to ethN, and output {last} to no device.
rt :: StaticIPLookup(
{routes});
"""
PORT = """
in{at} :: In(eth{at}, {ip}, {at}) -> rt;
rt [{at}] -> q{at} :: Queue(1000) -> hold{at} :: PullSwitch(0) -> ToDevice(eth{at});
"""
TAIL = """
// A datagram without a route: the report has the address of the device where it arrived.
rt [{last}] -> {tees} -> Discard;
{reports}
"""


def entries(topology: Topology, router: str, table: Table) -> list[str]:
    """Returns the entries of the routes, each with the index of its output.

    The rest of a neighbouring network has no route, so that no datagram goes to and fro in it.
    """
    ports = topology.ports(router)
    outputs = {it.number: at for at, it in enumerate(ports)}
    routes = []
    for at, it in enumerate(ports):
        routes += [f"{it.address(it.far(router))} {at}", f"{it.network} {len(ports)}"]
    for network, number in table.items():
        it = topology.links[number]
        routes.append(f"{network} {it.address(it.far(router))} {outputs[number]}")
    return [*routes, f"0.0.0.0/0 {len(ports)}"]


def text_of(topology: Topology, router: str, table: Table) -> str:
    """Returns the configuration of a router with these routes."""
    ports = topology.ports(router)
    own = [str(it.address(router)) for it in ports]
    lines = [f"//     eth{at}: {own[at]}, to {it.far(router)} at {it.address(it.far(router))}" for at, it in enumerate(ports)]
    words = {
        "name": router,
        "file": topology.file.split("/")[-1],
        "ports": "\n".join(lines),
        "own": " ".join(own),
        "own_routes": ", ".join(f"{it} 1" for it in own),
        "routes": ",\n".join(f"    {it}" for it in entries(topology, router, table)),
        "last": len(ports),
        "tees": " -> ".join(f"none{at} :: PaintTee({at})" for at in range(len(ports))),
        "reports": "\n".join(f"none{at} [1] -> ICMPError({ip}, unreachable, 0) -> rt;" for at, ip in enumerate(own)),
    }
    middle = "".join(PORT.format(at=at, ip=ip) for at, ip in enumerate(own))
    return HEAD.format(**words) + middle + TAIL.format(**words)
