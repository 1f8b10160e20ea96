"""Makes random patterns and packets for tools/filters.py.

A pattern and its packets take their numbers from one pool, so that a test is true for about half of
the packets.
"""

from __future__ import annotations

import random
from typing import NamedTuple

from filter_model import CONSTANTS, FIELDS, FLAGS, PORTS, PROTOCOLS, RELATIONS, TYPES, Model

# Fragment words: DF, the first fragment, later fragments, among them offsets whose low byte or high
# bits are 0, and the reserved flag.
WORDS = (0x4000, 0x2000, 0x0001, 0x2001, 0x00B9, 0x0100, 0x1000, 0x1F00, 0x2100, 0x1FFF, 0x6000, 0x8000)
SPELLINGS = {"and": ("and", "&&"), "or": ("or", "||"), "not": ("not", "!"), "=": ("=", "==")}
SPACES = (" ", "  ", "\t", "\r", "\v", "\f", " /* x, (y */ ")


class Pool(NamedTuple):
    """The numbers of some patterns and of their packets."""

    addresses: list[int]
    ports: list[int]
    protocols: list[int]
    types: list[int]
    fields: dict[str, list[int]]


def pool(rng: random.Random) -> Pool:
    return Pool(
        [rng.getrandbits(32) for _ in range(2)],
        [rng.choice([rng.randrange(65_536), rng.randrange(1200), rng.choice(list(PORTS.values())), rng.choice([0, 65_535])]) for _ in range(2)],
        [rng.choice([*PROTOCOLS.values(), rng.randrange(256)])],
        [rng.choice([*TYPES.values(), rng.randrange(256)])],
        {name: [rng.randint(0, most) for _ in range(2)] for name, most in FIELDS.items()},
    )


class Patterns:
    """Makes patterns: each as its tree and the tokens of its text."""

    def __init__(self, rng: random.Random, numbers: Pool):
        self.rng, self.pool = rng, numbers

    def pattern(self, depth: int) -> tuple[tuple, list[str]]:
        """Returns a pattern in which parentheses and `not` are nested at most `depth` times."""
        return self.chain("or", lambda: self.chain("and", lambda: self.negation(depth)))

    def chain(self, word, part):
        parts = [part() for _ in range(self.rng.choice([1, 1, 1, 2, 2, 3]))]
        tokens = parts[0][1]
        for _, more in parts[1:]:
            tokens = [*tokens, self.spelled(word), *more]
        return (parts[0][0] if len(parts) == 1 else (word, tuple(tree for tree, _ in parts))), tokens

    def spelled(self, word):
        return self.rng.choice(SPELLINGS.get(word, (word,)))

    def negation(self, depth):
        kind = self.rng.randrange(10) if depth else 9
        if kind < 2:
            tree, tokens = self.negation(depth - 1)
            return ("not", tree), [self.spelled("not"), *tokens]
        if kind < 4:
            tree, tokens = self.pattern(depth - 1)
            return tree, ["(", *tokens, ")"]
        return self.test()

    def test(self):
        kinds = (self.net, self.net, self.port, self.port, self.port, self.field, self.flag, self.icmp_type, self.protocol, self.fragment, self.constant)
        return self.rng.choice(kinds)()

    def constant(self):
        word = self.rng.choice([*CONSTANTS])
        return ("all", CONSTANTS[word]), [word]

    def direction(self):
        kind = self.rng.choice(["", "src", "dst", "or", "and"])
        tokens = ["src", self.spelled(kind), "dst"] if kind in ("or", "and") else [kind] if kind else []
        return kind or "or", tokens

    def address(self):
        return self.rng.choice(self.pool.addresses) ^ self.rng.choice([0, 0, 1 << self.rng.randrange(32)])

    def dotted(self, address):
        return ".".join(self.rng.choice(["{}", "{}", "{}", "{:03}"]).format(it) for it in address.to_bytes(4, "big"))

    def net(self):
        """Returns a host, a prefix, or an address with a mask, each with or without its word."""
        (direction, tokens), address, kind = self.direction(), self.address(), self.rng.randrange(3)
        if kind == 0:
            words, mask = [*self.rng.choice([[], ["host"]]), self.dotted(address)], 0xFFFFFFFF
        elif kind == 1:
            length = self.rng.choice([0, 1, 2, 3, 8, 31, 32, self.rng.randint(0, 32)])
            mask = (0xFFFFFFFF << (32 - length)) & 0xFFFFFFFF
            words = [*self.rng.choice([[], ["net"]]), f"{self.dotted(address)}/{length}"]
        else:
            mask = self.rng.choice([0, 1, 0xFF00FF00, 0xFFFF0000, self.rng.getrandbits(32) & self.rng.getrandbits(32)])
            words = ["net", self.dotted(address), "mask", self.dotted(mask)]
        return ("net", direction, address & mask, mask), [*tokens, *words]

    def number(self, value, names=None):
        """Returns a spelling of a number: a name, or decimal or hexadecimal digits."""
        known = [name for name, it in (names or {}).items() if it == value]
        if known and self.rng.random() < 0.5:
            return self.rng.choice(known)
        return self.rng.choice(["{}", "{}", "0{}", "000{}", "0x{:x}", "0x{:X}", "0x0{:x}"]).format(value)

    def compared(self, values, most, names=None):
        """Returns a relation, a number, and their tokens."""
        relation = self.rng.choice(["", "=", *RELATIONS])
        value = min(max(self.rng.choice(values) + self.rng.choice([-1, 0, 0, 0, 0, 1]), 0), most)
        return relation or "=", value, [*([self.spelled(relation)] if relation else []), self.number(value, names)]

    def port(self):
        protocol, (direction, words) = self.rng.choice(["", "tcp", "udp"]), self.direction()
        relation, value, tokens = self.compared(self.pool.ports, 65_535, PORTS)
        return ("port", protocol, direction, relation, value), [*([protocol] if protocol else []), *words, "port", *tokens]

    def icmp_type(self):
        relation, value, tokens = self.compared(self.pool.types, 255, TYPES)
        return ("type", relation, value), ["icmp", "type", *tokens]

    def field(self):
        name = self.rng.choice([*FIELDS])
        relation, value, tokens = self.compared(self.pool.fields[name], FIELDS[name])
        return ("field", name, relation, value), ["ip", name, *tokens]

    def flag(self):
        word = self.rng.choice([*FLAGS])
        return ("opt", FLAGS[word]), ["tcp", "opt", word]

    def protocol(self):
        if self.rng.random() < 0.5:
            word = self.rng.choice(["tcp", "udp", "icmp"])
            return ("proto", PROTOCOLS[word]), [word]
        value = self.rng.choice([6, 17, 1, *self.pool.protocols])
        return ("proto", value), ["ip", "proto", self.number(value, PROTOCOLS)]

    def fragment(self):
        word = self.rng.choice(["frag", "unfrag"])
        return ("frag", word == "frag"), ["ip", word]


def written(rng: random.Random, tokens: list[str]) -> str:
    """Returns a text of these tokens, with white space where two of them would meet, or anywhere."""
    text = ""
    for token in tokens:
        meets = text and (text[-1].isalnum() or text[-1] in "-./") and (token[0].isalnum() or token[0] in "-./")
        if meets or (text[-1:] in ("!", "<", ">", "=", "&", "|") and token[0] in "=&|") or rng.random() < 0.7:
            text += rng.choice(SPACES) if rng.random() < 0.2 else " "
        text += token
    return text


def asked_in(tree: tuple) -> list[int]:
    """Returns the protocols that the tests of a tree ask for."""
    if tree[0] == "not":
        return asked_in(tree[1])
    if tree[0] in ("and", "or"):
        return [it for part in tree[1] for it in asked_in(part)]
    asked = {"port": {"tcp": [6], "udp": [17], "": [6, 17]}.get(tree[1], []), "type": [1], "opt": [6], "proto": [tree[1]]}
    return asked.get(tree[0], [])


class Packets:
    """Makes packets: fragments, with options, too short, and of all protocols.

    Most have a protocol that one of the trees asks for.
    """

    def __init__(self, rng: random.Random, numbers: Pool, trees: list[tuple]):
        self.random = rng.random
        self.protocols = [6, 6, 6, 17, 17, 1, 132, *numbers.protocols]
        self.asked = [it for tree in trees for it in asked_in(tree)] or self.protocols
        self.addresses, self.flips = numbers.addresses, [0] * 64 + [1, 1 << 31] * 16 + [1 << it for it in range(32)]
        self.ports = [it.to_bytes(2, "big") for it in near(numbers.ports, 65_535)]
        self.types = near(numbers.types, 255)
        self.fields = {name: near(values, FIELDS[name]) for name, values in numbers.fields.items()}

    def pick(self, values):
        """Returns one of the values. This is faster than `choice`."""
        return values[int(self.random() * len(values))]

    def below(self, count: int) -> int:
        return int(self.random() * count)

    def address(self) -> bytes:
        return (self.pick(self.addresses) ^ self.pick(self.flips)).to_bytes(4, "big")

    def packet(self) -> bytes:
        kind = self.random()
        words = 5 if kind < 0.55 else 15 if kind < 0.65 else self.below(16)
        protocol = self.pick(self.asked if self.random() < 0.7 else self.protocols)
        options = b"".join([self.pick(self.ports) for _ in range(2 * max(words - 5, 0))])
        body = self.transport(protocol)
        packet = self.header(words, protocol, 20 + len(options) + len(body)) + options + body
        return packet if self.random() < 0.82 else packet[: self.cut(len(packet), 4 * words)]

    def header(self, words, protocol, length) -> bytes:
        pick, fields, kind = self.pick, self.fields, self.random()
        version = 4 if kind < 0.92 else 6 if kind < 0.95 else self.below(16)
        tos = pick(fields["tos"]) if kind < 0.5 else pick(fields["dscp"]) << 2 | pick(fields["ecn"])
        kind = self.random()
        total = pick(fields["len"]) if kind < 0.5 else length if kind < 0.9 else 20 + self.below(max(length - 20, 1))
        word = 0 if self.random() < 0.65 else pick(WORDS)
        begin = (version << 28 | words << 24 | tos << 16 | total).to_bytes(4, "big") + (pick(fields["id"]) << 16 | word).to_bytes(4, "big")
        return begin + bytes((pick(fields["ttl"]), protocol, 0, 0)) + self.address() + self.address()

    def transport(self, protocol) -> bytes:
        """Returns a transport header, with some bytes behind it."""
        begin = self.pick(self.ports) + self.pick(self.ports)
        if protocol == 1:
            begin = bytes((self.pick(self.types),)) + begin[1:]
        return begin + bytes(9) + bytes((self.pick((0x02, 0x12, 0x10, self.below(256))),)) + bytes(self.below(6))

    def cut(self, length, begin) -> int:
        """Returns where a packet ends that is too short: near an end of a part, or anywhere."""
        return self.pick((self.below(length + 1), self.below(22), begin + self.pick((0, 1, 2, 3, 4, 13, 14))))


def near(values: list[int], most: int) -> list[int]:
    """Returns numbers that are often the values, and else next to them."""
    return [min(max(it + by, 0), most) for it in values for by in (-1, 0, 0, 0, 0, 1)]


def mutated(rng: random.Random, tokens: list[str], words: list[str]) -> list[str]:
    """Returns the tokens with one deleted, doubled, replaced, or exchanged with another one."""
    at, other, kind = rng.randrange(len(tokens)), rng.randrange(len(tokens)), rng.randrange(4)
    if kind == 0:
        return tokens[:at] + tokens[at + 1 :]
    if kind == 1:
        return [*tokens[: at + 1], *tokens[at:]]
    changed = list(tokens)
    if kind == 2:
        changed[at] = rng.choice(words)
    else:
        changed[at], changed[other] = changed[other], changed[at]
    return changed


# Texts that the language refuses, or accepts though they look wrong.
TEXTS = (
    "", " ", "()", "tcp", "tcp and", "and tcp", "not", "tcp udp", "(tcp) udp", "tcp (udp)", "TCP", "tcp or or udp", "not not tcp", "!!tcp", "! !(! tcp)",
    "src 10.0.0.1 dst port 80", "tcp src 10.0.0.1", "port 80 or 81", "tcp port 80 or 81", "dst tcp port 80", "dst or src 10.0.0.1", "dst and src port 80",
    "dst or src port 80", "src or 10.0.0.1", "src and port 80", "src || dst port 80", "src && dst 10.0.0.1", "src not dst port 80", "src src 10.0.0.1",
    "host 10.0.0.0/8", "net 10.0.0.1", "src net 10.0.0.1", "10.0.0.0 mask 255.0.0.0", "net 10.0.0.0/8 mask 255.0.0.0", "net 10.0.0.1 mask 255.0.255.0",
    "host 10.0.0.0 mask 255.0.0.0", "host = 10.0.0.1", "host != 10.0.0.1", "net = 10.0.0.0/8", "10.0.0.0/33", "10.0.0.0/032", "10.0.0.0/", "10.0.0.0/0x8",
    "10.0.0", "10.0.0.0.0", "10.0.0.256", "10.0.0.0001", "010.000.00.1", "10.0.0.-1", "0x0a.0.0.1", "host host", "host localhost", "net 10.0.0.0/8/8",
    "ack", "type echo", "proto tcp", "ip", "ip tcp", "ip host 10.0.0.1", "ip net 10.0.0.0/8", "ip port 80", "ip ect", "ip ce", "tcp win 5", "ip proto = 6",
    "ip proto 6", "ip proto 256", "ip proto 0", "ip proto foo", "ip proto http", "ip frag = 1", "ip unfrag and ip frag", "not ip unfrag", "icmp echo",
    "icmp type", "icmp type echo", "icmp type = echo", "icmp type http", "icmp type -1", "tcp opt = syn", "tcp opt", "tcp opt ece", "udp opt syn", "opt syn",
    "tcp opt syn ack", "tcp opt !syn", "port echo", "port = echo", "port != ssh", "port < ssh", "port =< 80", "port => 80", "port <> 80", "port = = 80",
    "port ! = 80", "port !80", "port not 80", "port 80-81", "port 80.", "port -", "port", "port tcp", "port redirect", "port Ssh", "port 0x", "port 0X50",
    "port 0x50", "port 50x", "port 0x00050", "port 010", "port +80", "port 8 0", "src port", "udp src and dst port rip", "icmp port 80", "tcp udp port 80",
    "tcp port & 7 = 3", "tcp & udp", "tcp | udp", "tcp &&& udp", "tcp ||| udp", "a ? b : c", "tcp;udp", "'tcp'", '"tcp"', "tcp_", "port $x", "transp", "ether",
    "-", "- or -", "not -", "--", "any", "true", "false", "none", "all all", "ip hl 15", "ip vers", "ip ttl >= 0", "port > 65535", "ip dscp ect", "ip ttl http",
    "tcp /* and */ udp", "tcp/**/or/* or */udp", "por/**/t 80", "port>=80", "port!=80", "port==80", "(port)80", "ip ttl(5)", "!(tcp)&&(udp)||-", "tcp-", "tcp.",
)  # fmt: skip
ACTIONS = ("allow", "deny", "drop", "0", "1", "007", "0x2", "255", "0xfF", "256", "0x100", "-1", "-", "Allow", "accept", "allow allow", "", "!", "(", "0X1", "1.0", "+1")


def limits() -> list[str]:
    """Returns texts at the limits of numbers and of what may be open."""
    texts = []
    for name, most in [("port", 65_535), ("udp dst port !=", 65_535), ("ip proto", 255), ("icmp type <", 255), *((f"ip {it} =", most) for it, most in FIELDS.items())]:
        texts += [f"{name} {it}" for it in (0, most, f"{most:#x}", most + 1, f"{most + 1:#x}", f"0000000{most}", most + 2**16, 2**32, 2**64, "9" * 40)]
    for count in (Model.most_open, Model.most_open + 1):
        texts += [f"{'(' * count}tcp{')' * count}", f"{'!' * count}tcp", f"{'not ' * count}tcp", f"{'!(' * (count // 2)}{'!' * (count % 2)}tcp{')' * (count // 2)} or {'!' * 32}udp"]
    return texts
