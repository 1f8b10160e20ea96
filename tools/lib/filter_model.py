"""Models the patterns of IPFilter and IPClassifier, for tools/filters.py.

The model was written from a description of the rule language, and not from the router's code. A
text becomes a tree, and a tree becomes a function from the parts of a packet to its truth. The
trees are tuples:

    ("all", is_true)                                  a constant
    ("net", direction, address, mask)                 an address
    ("proto", number)
    ("port", protocol, direction, relation, number)   the protocol is "tcp", "udp" or ""
    ("type", relation, number)                        an ICMP type
    ("opt", bit)                                      a flag of TCP
    ("field", name, relation, number)                 a number of the fixed header
    ("frag", is_fragment)
    ("not", tree), ("and", (tree, ..)), ("or", (tree, ..))

Each method of Model decides one thing, so that tools/lib/filter_wrongs.py can replace it by a wrong
one.
"""

from __future__ import annotations

import operator
import re
from typing import Callable, NamedTuple

MOST_OPEN, MOST_TESTS, MOST_ARGUMENTS, MOST_OUTPUT = 32, 4096, 256, 255
DROP = -1

PORTS = {
    "echo": 7, "discard": 9, "daytime": 13, "chargen": 19, "ftp-data": 20, "ftp": 21, "ssh": 22, "telnet": 23,
    "smtp": 25, "dns": 53, "domain": 53, "bootps": 67, "bootpc": 68, "tftp": 69, "finger": 79, "http": 80, "www": 80,
    "pop3": 110, "sunrpc": 111, "auth": 113, "nntp": 119, "ntp": 123, "netbios-ns": 137, "netbios-dgm": 138,
    "netbios-ssn": 139, "snmp": 161, "snmp-trap": 162, "irc": 194, "imap3": 220, "https": 443, "rip": 520,
    "route": 520, "imaps": 993, "pop3s": 995,
}  # fmt: skip
PROTOCOLS = {
    "icmp": 1, "igmp": 2, "ipip": 4, "tcp": 6, "egp": 8, "igp": 9, "udp": 17, "dccp": 33, "ipv6": 41, "rsvp": 46,
    "gre": 47, "esp": 50, "ah": 51, "eigrp": 88, "ospf": 89, "pim": 103, "vrrp": 112, "l2tp": 115, "sctp": 132,
    "udplite": 136,
}  # fmt: skip
TYPES = {
    "echo-reply": 0, "unreachable": 3, "sourcequench": 4, "redirect": 5, "echo": 8, "routeradvert": 9,
    "routersolicit": 10, "timex": 11, "paramprob": 12, "timestamp": 13, "timestamp-reply": 14, "inforeq": 15,
    "inforeply": 16, "maskreq": 17, "maskreply": 18,
}  # fmt: skip
FLAGS = {"fin": 0x01, "syn": 0x02, "rst": 0x04, "psh": 0x08, "ack": 0x10, "urg": 0x20}
CONSTANTS = {"all": True, "any": True, "true": True, "-": True, "none": False, "false": False}
# The greatest value of each field.
FIELDS = {"ttl": 255, "tos": 255, "dscp": 63, "ecn": 3, "len": 65_535, "id": 65_535, "hl": 15, "vers": 15}
RELATIONS = {"=": operator.eq, "!=": operator.ne, "<": operator.lt, "<=": operator.le, ">": operator.gt, ">=": operator.ge}
SAME = {"&&": "and", "||": "or", "!": "not", "==": "="}
TOKEN = re.compile(r"[ \t\n\r\v\f]*(?:(&&|\|\||==|!=|<=|>=|[()!=<>]|[A-Za-z0-9./-]+)|$)")
WORD = re.compile(r"[A-Za-z0-9./-]+")
ADDRESS = re.compile(r"(\d{1,3})\.(\d{1,3})\.(\d{1,3})\.(\d{1,3})", re.ASCII)


class Fault(Exception):
    """A text that is not a rule; the router refuses it with 26."""


class Parts(NamedTuple):
    """The parts of a packet. A part that is not there is None."""

    addresses: tuple[int | None, int | None]
    protocol: int | None
    # The two ports, whatever the protocol is.
    ports: tuple[int | None, int | None]
    flags: int | None
    type: int | None
    fields: dict[str, int | None]
    word: int | None


class Model:
    """The meaning of texts and of packets."""

    most_open = MOST_OPEN
    most = {"port": 65_535, "proto": 255, "type": 255, **FIELDS}

    # ---- Texts

    def tokens(self, text: str) -> list[str]:
        """Returns the tokens of a text, each in its first spelling."""
        text = re.sub(r"/\*.*?\*/|//[^\n]*", " ", text, flags=re.DOTALL)
        found, at = [], 0
        while at < len(text):
            token = TOKEN.match(text, at)
            if not token:
                raise Fault(f"byte {text[at]!r}")
            if token[1]:
                found.append(SAME.get(token[1], token[1]))
            at = token.end()
        return found

    def pattern(self, text: str) -> tuple:
        """Returns the tree of a pattern."""
        return self.parsed(self.tokens(text))

    def rule(self, text: str) -> tuple[int, tuple]:
        """Returns the output, or DROP, and the tree of an argument of IPFilter."""
        tokens = self.tokens(text)
        if not tokens or not WORD.fullmatch(tokens[0]):
            raise Fault("no action")
        return self.action(tokens[0]), self.parsed(tokens[1:])

    def parsed(self, tokens: list[str]) -> tuple:
        return Parsing(self, tokens).whole()

    def action(self, word: str) -> int:
        if word == "allow":
            return 0
        return DROP if word in ("deny", "drop") else self.number(word, MOST_OUTPUT)

    def number(self, word: str, most: int, names: dict[str, int] | None = None) -> int:
        """Returns the number of a word, at most `most`."""
        if names and word in names:
            return names[word]
        if re.fullmatch(r"[0-9]+", word):
            value = self.decimal(word)
        elif re.fullmatch(r"0x[0-9A-Fa-f]+", word):
            value = int(word[2:], 16)
        else:
            raise Fault(f"no number: {word}")
        if value > most:
            raise Fault(f"too great: {word}")
        return value

    def decimal(self, word: str) -> int:
        return int(word)

    def address(self, word: str) -> int:
        numbers = ADDRESS.fullmatch(word)
        if not numbers or any(int(it) > 255 for it in numbers.groups()):
            raise Fault(f"no address: {word}")
        return int.from_bytes(bytes(int(it) for it in numbers.groups()), "big")

    def prefix_mask(self, length: int) -> int:
        return (0xFFFFFFFF << (32 - length)) & 0xFFFFFFFF

    def prefix(self, word: str) -> tuple[int, int]:
        """Returns the address and the mask of a prefix."""
        address, slash, length = word.partition("/")
        if not slash or not re.fullmatch(r"[0-9]+", length) or int(length) > 32:
            raise Fault(f"no prefix: {word}")
        return self.masked(self.address(address), self.prefix_mask(int(length)))

    def masked(self, address: int, mask: int) -> tuple[int, int]:
        return address & mask, mask

    # ---- Packets

    def parts(self, packet: bytes) -> Parts:
        word = self.word(packet)
        begin = self.transport(packet, word)
        return Parts(
            (number(packet, 12, 4), number(packet, 16, 4)),
            number(packet, 9, 1),
            (number(packet, begin, 2), number(packet, None if begin is None else begin + 2, 2)),
            number(packet, None if begin is None else begin + 13, 1),
            number(packet, begin, 1),
            self.fields(packet),
            word,
        )

    def word(self, packet: bytes) -> int | None:
        """Returns the fragment word: three flags, and the fragment offset."""
        return number(packet, 6, 2)

    def fields(self, packet: bytes) -> dict[str, int | None]:
        first, tos = number(packet, 0, 1), number(packet, 1, 1)
        return {
            "vers": None if first is None else first >> 4,
            "hl": None if first is None else first & 15,
            "tos": tos,
            "dscp": None if tos is None else tos >> 2,
            "ecn": None if tos is None else tos & 3,
            "len": number(packet, 2, 2),
            "id": number(packet, 4, 2),
            "ttl": number(packet, 8, 1),
        }

    def transport(self, packet: bytes, word: int | None) -> int | None:
        """Returns where the transport header begins, or None if it is not there."""
        if not packet or word is None or word & 0x1FFF or packet[0] & 15 < 5:
            return None
        return 4 * (packet[0] & 15)

    # ---- Truth. The tests of the transport header ask for its protocol.

    def truth(self, tree: tuple) -> Callable[[Parts], bool]:
        """Returns the function that says whether a tree is true for the parts of a packet."""
        kind = tree[0]
        if kind == "not":
            return self.negated(self.truth(tree[1]))
        if kind in ("and", "or"):
            return self.joined_all(kind, [self.truth(it) for it in tree[1]])
        return getattr(self, f"test_{kind}")(*tree[1:])

    def negated(self, inner: Callable) -> Callable:
        return lambda it: not inner(it)

    def joined_all(self, kind: str, inner: list[Callable]) -> Callable:
        if kind == "and":
            return lambda it: all(one(it) for one in inner)
        return lambda it: any(one(it) for one in inner)

    def compared(self, relation: str, wanted: int) -> Callable[[int | None], bool]:
        """Returns the comparison with a number; it is false for a part that is not there."""
        relates = RELATIONS[relation]
        return lambda found: found is not None and relates(found, wanted)

    def ends(self, direction: str, relation: str) -> Callable[[bool, bool], bool]:
        """Returns how the outcomes for source and destination are joined."""
        if relation == "!=":
            direction = {"or": "and", "and": "or"}.get(direction, direction)
        return {"src": lambda a, _: a, "dst": lambda _, b: b, "or": lambda a, b: a or b, "and": lambda a, b: a and b}[direction]

    def test_all(self, is_true: bool) -> Callable:
        return lambda _: is_true

    def test_net(self, direction: str, address: int, mask: int) -> Callable:
        joined = self.ends(direction, "=")
        return lambda it: joined(*(end is not None and end & mask == address for end in it.addresses))

    def test_proto(self, wanted: int) -> Callable:
        compared = self.compared("=", wanted)
        return lambda it: compared(it.protocol)

    def with_ports(self, protocol: str) -> tuple[int, ...]:
        """Returns the protocols whose ports are compared."""
        return {"tcp": (6,), "udp": (17,), "": (6, 17)}[protocol]

    def test_port(self, protocol: str, direction: str, relation: str, wanted: int) -> Callable:
        joined, compared, protocols = self.ends(direction, relation), self.compared(relation, wanted), self.with_ports(protocol)

        def is_true(it: Parts) -> bool:
            source, destination = it.ports if it.protocol in protocols else (None, None)
            return joined(compared(source), compared(destination))

        return is_true

    def test_type(self, relation: str, wanted: int) -> Callable:
        compared = self.compared(relation, wanted)
        return lambda it: compared(it.type if it.protocol == 1 else None)

    def test_opt(self, bit: int) -> Callable:
        return lambda it: it.protocol == 6 and it.flags is not None and it.flags & bit != 0

    def test_field(self, name: str, relation: str, wanted: int) -> Callable:
        compared = self.compared(relation, wanted)
        return lambda it: compared(it.fields[name])

    def test_frag(self, is_fragment: bool) -> Callable:
        return lambda it: (it.word is not None and it.word & 0x3FFF != 0) == is_fragment

    # ---- Lists of rules

    def decides(self, rules: list[tuple[int, Callable]], parts: Parts) -> int:
        """Returns the output of the first rule whose pattern is true, or DROP."""
        for output, is_true in rules:
            if is_true(parts):
                return output
        return DROP


def number(packet: bytes, at: int | None, size: int) -> int | None:
    """Returns the number in `size` bytes from `at` on, or None if one of them is not there."""
    if at is None or at + size > len(packet):
        return None
    return int.from_bytes(packet[at : at + size], "big")


def tests_in(tree: tuple) -> int:
    """Returns the number of tests of a tree."""
    if tree[0] == "not":
        return tests_in(tree[1])
    return sum(map(tests_in, tree[1])) if tree[0] in ("and", "or") else 1


class Parsing:
    """The tokens of one pattern, from left to right.

    `open` is the number of parentheses and of `not` that are open.
    """

    def __init__(self, model: Model, tokens: list[str]):
        self.model, self.rest, self.open = model, tokens[::-1], 0

    def peek(self, back: int = 1) -> str:
        """Returns the next token, or a later one, or an empty text behind the last."""
        return self.rest[-back] if back <= len(self.rest) else ""

    def takes(self, *words: str) -> str:
        """Takes the next token if it is one of these. Returns it, or an empty text."""
        return self.rest.pop() if self.peek() in words and self.rest else ""

    def take(self) -> str:
        if not self.rest:
            raise Fault("the end")
        return self.rest.pop()

    def whole(self) -> tuple:
        tree = self.disjunction()
        if self.rest:
            raise Fault(f"more: {self.peek()}")
        return tree

    def disjunction(self) -> tuple:
        return self.chain("or", self.conjunction)

    def conjunction(self) -> tuple:
        return self.chain("and", self.negation)

    def chain(self, word: str, part: Callable[[], tuple]) -> tuple:
        trees = [part()]
        while self.takes(word):
            trees.append(part())
        return trees[0] if len(trees) == 1 else (word, tuple(trees))

    def opens(self) -> None:
        self.open += 1
        if self.open > self.model.most_open:
            raise Fault("too deep")

    def negation(self) -> tuple:
        if self.takes("not"):
            self.opens()
            tree = ("not", self.negation())
        elif self.takes("("):
            self.opens()
            tree = self.disjunction()
            if not self.takes(")"):
                raise Fault("no )")
        else:
            return self.test()
        self.open -= 1
        return tree

    def test(self) -> tuple:
        word = self.take()
        if word in CONSTANTS:
            return ("all", CONSTANTS[word])
        if word in ("tcp", "udp"):
            return self.transport_test(word)
        if word == "icmp":
            return self.icmp_test()
        if word == "ip":
            return self.ip_test()
        self.rest.append(word)
        direction = self.direction()
        return self.port_test("", direction) if self.takes("port") else self.net_test(direction)

    def direction(self) -> str:
        """Takes a direction, if there is one; without one it is `src or dst`."""
        word = self.takes("src", "dst")
        if word == "src" and self.peek() in ("or", "and") and self.peek(2) == "dst":
            word = self.take()
            self.take()
        return word or "or"

    def transport_test(self, protocol: str) -> tuple:
        if protocol == "tcp" and self.takes("opt"):
            flag = self.take()
            if flag not in FLAGS:
                raise Fault(f"no flag: {flag}")
            return ("opt", FLAGS[flag])
        if self.peek() not in ("src", "dst", "port"):
            return ("proto", PROTOCOLS[protocol])
        direction = self.direction()
        if not self.takes("port"):
            raise Fault("no port")
        return self.port_test(protocol, direction)

    def relation(self) -> str:
        return self.takes(*RELATIONS) or "="

    def value(self, kind: str, names: dict[str, int] | None = None) -> int:
        return self.model.number(self.take(), self.model.most[kind], names)

    def port_test(self, protocol: str, direction: str) -> tuple:
        return ("port", protocol, direction, self.relation(), self.value("port", PORTS))

    def icmp_test(self) -> tuple:
        if not self.takes("type"):
            return ("proto", PROTOCOLS["icmp"])
        return ("type", self.relation(), self.value("type", TYPES))

    def ip_test(self) -> tuple:
        word = self.take()
        if word == "proto":
            return ("proto", self.value("proto", PROTOCOLS))
        if word in ("frag", "unfrag"):
            return ("frag", word == "frag")
        if word not in FIELDS:
            raise Fault(f"no field: {word}")
        return ("field", word, self.relation(), self.value(word))

    def net_test(self, direction: str) -> tuple:
        """Reads an address or a prefix, with or without its word."""
        model, kind = self.model, self.takes("host", "net")
        word = self.take()
        if kind == "host" or (not kind and "/" not in word):
            return ("net", direction, model.address(word), 0xFFFFFFFF)
        if kind == "net" and self.takes("mask"):
            return ("net", direction, *model.masked(model.address(word), model.address(self.take())))
        return ("net", direction, *model.prefix(word))
