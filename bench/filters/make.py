#!/usr/bin/env python3
"""Makes what bench/filters/measure.sh measures: packets, lists of rules, and their translations.

    make.py packets           writes 1,024 packets of 64 bytes, from a fixed seed
    make.py rules CASE        prints the rules of a case, with commas between them
    make.py libpcap CASE      prints the expression of libpcap that is true where they allow

Needs tools/lib.
"""

from __future__ import annotations

import os
import random
import sys

sys.dont_write_bytecode = True
sys.path.append(f"{os.path.dirname(os.path.realpath(__file__))}/../../tools/lib")
from filter_model import DROP, Model
from filter_tcpdump import expression_of

PACKETS, SIZE, SEED = 1024, 64, 228
TCP, UDP, ICMP, GRE = 6, 17, 1, 47
PORTS = (80, 80, 443, 22, 53, 25, 123, 8080)
SYN, ACK, SYN_ACK, FIN_ACK, PUSH = 0x02, 0x10, 0x12, 0x11, 0x18
NETWORKS, PORTS_OF_NETWORK, RULES = 20, 10, 200

FIREWALL = (
    "deny ip frag",
    "deny src 127.0.0.0/8",
    "allow dst 10.0.0.0/8 && tcp opt ack",
    "allow icmp type echo",
    "allow icmp type echo-reply",
    "allow udp port 53",
    "allow src 10.0.0.0/8 && tcp dst port 80",
    "allow src 10.0.0.0/8 && tcp dst port 443",
    "allow src 10.1.0.0/16 && tcp dst port 22",
    "deny all",
)
CASES = {
    "port": "allow tcp dst port 80",
    "net": "allow src 10.0.0.0/8",
    "both": "allow src 10.0.0.0/8 && tcp dst port 80",
    "echo": "allow icmp type echo",
    "dns": "allow udp port 53",
    "syn": "allow tcp opt syn && not tcp opt ack",
    "host": "deny tcp port 22, allow host 10.0.0.2",
    "frag": "deny ip frag, allow all",
    "high": "allow tcp dst port >= 1024 or udp dst port >= 1024",
    "firewall": ", ".join(FIREWALL),
}


def packet(rng: random.Random) -> bytes:
    """Returns a packet: TCP, UDP, ICMP or GRE, some of them fragments or with options."""
    protocol = rng.choices((TCP, UDP, ICMP, GRE), (60, 25, 10, 5))[0]
    word = rng.choices((0, 0x4000, 0x2000, rng.randint(1, 0x1FFF)), (50, 42, 3, 5))[0]
    words = 5 if rng.random() < 0.95 else rng.randint(6, 10)
    ends = [address(rng), address(rng)]
    low, high = rng.choice(PORTS), rng.randint(1024, 65_535)
    ports = [low, high] if rng.random() < 0.4 else [high, low] if rng.random() < 0.9 else [high, rng.randint(1024, 65_535)]
    head = bytes((0x40 | words, 0)) + b"".join(it.to_bytes(2, "big") for it in (SIZE, rng.getrandbits(16), word))
    head += bytes((rng.choice((64, 63, 128)), protocol, 0, 0)) + b"".join(ends) + bytes(4 * (words - 5))
    if protocol == ICMP:
        body = bytes((rng.choice((8, 0, 3)), 0, 0, 0))
    else:
        body = b"".join(it.to_bytes(2, "big") for it in ports) + rng.randbytes(9) + bytes((rng.choice((ACK, ACK, PUSH, SYN, SYN_ACK, FIN_ACK)),))
    return (head + body + bytes(SIZE))[:SIZE]


def address(rng: random.Random) -> bytes:
    """Returns an address, often of 10.0.0.0/8."""
    kind = rng.random()
    if kind < 0.1:
        return bytes((10, 0, 0, 2))
    if kind < 0.6:
        return bytes((10, rng.randrange(25), rng.getrandbits(8), rng.getrandbits(8)))
    return rng.randbytes(4)


def grouped() -> str:
    """Returns 200 rules, each about a network and a port; those of a network follow each other."""
    rng = random.Random(SEED)
    ports = [[rng.choice((rng.choice(PORTS), rng.randint(1, 9999))) for _ in range(PORTS_OF_NETWORK)] for _ in range(NETWORKS)]
    return ", ".join(f"{rng.choice(('allow', 'deny'))} src 10.{net}.0.0/16 && {rng.choice(('tcp', 'udp'))} dst port {port}" for net in range(NETWORKS) for port in ports[net])


def mixed() -> str:
    """Returns 200 rules of several kinds, in no order."""
    rng = random.Random(SEED)

    def port() -> int:
        return rng.choice(PORTS) if rng.random() < 0.1 else rng.randint(1, 9999)

    def net() -> str:
        return f"10.{rng.randrange(2 * NETWORKS)}.0.0/16"

    def pattern() -> str:
        kinds = (
            f"src {net()} && tcp dst port {port()}",
            f"host 10.{rng.randrange(NETWORKS)}.{rng.getrandbits(8)}.{rng.getrandbits(8)}",
            f"src 172.{rng.getrandbits(8)}.{rng.getrandbits(8)}.0/24",
            f"udp port {rng.randint(1, 9999)}",
            f"dst {net()} && tcp opt syn && not tcp opt ack",
            f"src {net()} && icmp type {rng.randrange(16)}",
            f"dst {net()} && tcp dst port {port()} && not src 192.168.{rng.getrandbits(8)}.0/24",
        )
        return rng.choice(kinds)

    return ", ".join(f"{rng.choice(('allow', 'deny'))} {pattern()}" for _ in range(RULES))


def rules_of(case: str) -> str:
    return {"grouped": grouped, "mixed": mixed}[case]() if case not in CASES else CASES[case]


def libpcap_of(rules: str) -> str:
    """Returns the expression that is true for the packets that the rules do not drop."""
    model, expression = Model(), "(len < 0)"
    for text in reversed(rules.split(",")):
        output, tree = model.rule(text)
        one = expression_of(tree)
        expression = f"((not {one}) and {expression})" if output == DROP else f"({one} or {expression})"
    return expression


def main(what: str, case: str = "") -> None:
    if what == "packets":
        rng = random.Random(SEED)
        sys.stdout.buffer.write(b"".join(packet(rng) for _ in range(PACKETS)))
    else:
        rules = rules_of(case)
        print(rules if what == "rules" else libpcap_of(rules), end="")


if __name__ == "__main__":
    main(*sys.argv[1:])
