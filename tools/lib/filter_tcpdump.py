"""Asks tcpdump for the truth of patterns, for tools/filters.py.

A tree is translated with all its parentheses, because in libpcap `and` and `or` bind alike. Only
plain packets are compared: of others, such as packets that are cut off, libpcap decides otherwise.
"""

from __future__ import annotations

import shutil
import struct
import subprocess

CONTRARY = {"or": "and", "and": "or"}
# Bytes of the transport header that are read, by the number of the protocol.
READ = {6: 14, 17: 4, 1: 1}
FIELDS = {"ttl": "ip[8]", "tos": "ip[1]", "dscp": "ip[1] >> 2", "ecn": "ip[1] & 3", "len": "ip[2:2]", "id": "ip[4:2]", "hl": "ip[0] & 15", "vers": "ip[0] >> 4"}
RAW = 101
# The bits of the fragment word that make a fragment: MF and the offset.
FRAGMENT = 0x3FFF


def is_installed() -> bool:
    return shutil.which("tcpdump") is not None


def is_plain(packet: bytes) -> bool:
    """Returns whether libpcap and the specification agree on a packet.

    No packet has protocol 132, so that it does not matter whether a pattern has `port` alone.
    """
    if len(packet) < 20 or packet[0] >> 4 != 4 or packet[0] & 15 < 5 or len(packet) < 4 * (packet[0] & 15) or packet[9] == 132:
        return False
    is_first = int.from_bytes(packet[6:8], "big") & 0x1FFF == 0
    return not is_first or len(packet) >= 4 * (packet[0] & 15) + READ.get(packet[9], 0)


def dotted(address: int) -> str:
    return ".".join(map(str, address.to_bytes(4, "big")))


def direction_of(word: str) -> str:
    return f"src {word} dst" if word in CONTRARY else word


def ports_of(protocol: str, direction: str, relation: str, number: int) -> str:
    """Returns the comparison of the ports of one protocol."""
    source, destination = (f"({protocol}[{at}:2] {relation} {number})" for at in (0, 2))
    if direction not in CONTRARY:
        return source if direction == "src" else destination
    joined = CONTRARY[direction] if relation == "!=" else direction
    return f"({source} {joined} {destination})"


def test_of(kind: str, *values) -> str:
    """Returns the expression of a test."""
    if kind == "all":
        return "len >= 0" if values[0] else "len < 0"
    if kind == "net":
        direction, address, mask = values
        return f"{direction_of(direction)} net {dotted(address)} mask {dotted(mask)}"
    if kind == "port":
        protocol, direction, relation, number = values
        if relation == "=":
            return f"{protocol} {direction_of(direction)} port {number}".lstrip()
        return " or ".join(ports_of(it, direction, relation, number) for it in ([protocol] if protocol else ["tcp", "udp"]))
    if kind == "field":
        return f"({FIELDS[values[0]]}) {values[1]} {values[2]}"
    if kind == "frag":
        return f"ip[6:2] & {FRAGMENT:#x} {'!=' if values[0] else '='} 0"
    return {"proto": "ip proto {}", "type": "icmp[0] {} {}", "opt": "tcp[13] & {} != 0"}[kind].format(*values)


def expression_of(tree: tuple) -> str:
    """Returns the expression of libpcap that means the same as a tree."""
    if tree[0] == "not":
        return f"(not {expression_of(tree[1])})"
    if tree[0] in ("and", "or"):
        return f"({f' {tree[0]} '.join(map(expression_of, tree[1]))})"
    return f"({test_of(*tree)})"


def chosen(tree: tuple, packets: list[bytes]) -> set[int]:
    """Returns the indices of the packets for which tcpdump takes a tree for true.

    Each packet has its index as its time, by which it is known in what tcpdump writes. The optimizer
    is off: that of libpcap 1.10.3 takes `(not (src and dst net 0.0.0.0 mask 0.0.0.1)) and (not (src
    or dst net 0.0.0.0 mask 0.0.0.1))` for true if only the destination is odd.
    """
    capture = [struct.pack("<IHHiIII", 0xA1B2C3D4, 2, 4, 0, 0, 65_535, RAW)]
    capture += [struct.pack("<IIII", at, 0, len(it), len(it)) + it for at, it in enumerate(packets)]
    words = ["tcpdump", "-O", "-n", "-r", "-", "-w", "-", expression_of(tree)]
    ran = subprocess.run(words, input=b"".join(capture), capture_output=True, timeout=120, check=False)
    if b"expression rejects all packets" in ran.stderr:
        return set()
    if ran.returncode:
        raise OSError(f"tcpdump fails: {ran.stderr.decode()[-300:]}: {words[-1]}")
    found, at = set(), 24
    while at < len(ran.stdout):
        index, _, size = struct.unpack_from("<III", ran.stdout, at)
        found.add(index)
        at += 16 + size
    return found
