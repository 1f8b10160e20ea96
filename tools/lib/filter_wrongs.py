"""Has wrong models of patterns, for `tools/filters.py --wrong`.

Each of them reads a text or a packet wrongly in one way. The comparison with the router has to
notice each.
"""

from __future__ import annotations

from typing import Callable

from filter_model import DROP, Fault, Model, Parsing, number


def changed_parts(**changes: Callable) -> type[Model]:
    """Returns a model that changes parts of each packet; a change gets all parts."""

    class Changed(Model):
        def parts(self, packet):
            it = super().parts(packet)
            return it._replace(**{name: change(it) for name, change in changes.items()})

    return Changed


def beginning(place: Callable) -> type[Model]:
    """Returns a model that has another begin of the transport header."""

    class Beginning(Model):
        def transport(self, packet, word):
            return place(packet, word) if packet and word is not None else None

    return Beginning


def lawful(packet: bytes) -> int | None:
    """Returns the length of a lawful header, or None."""
    return 4 * (packet[0] & 15) if packet[0] & 15 >= 5 else None


class PrefixShort(Model):
    def prefix_mask(self, length):
        return super().prefix_mask(max(length - 1, 0))


class MaskIgnored(Model):
    def masked(self, address, mask):
        return address, mask


class LastMatch(Model):
    def decides(self, rules, parts):
        return super().decides(rules[::-1], parts)


class NothingIsAllowed(Model):
    """Takes output 0 if no rule is true."""

    def decides(self, rules, parts):
        return next((output for output, is_true in rules if is_true(parts)), 0)


class DenyGoesOn(Model):
    def decides(self, rules, parts):
        return super().decides([it for it in rules if it[0] != DROP], parts)


def parsing(kind: type[Parsing]) -> type[Model]:
    """Returns a model that parses patterns in another way."""

    class Other(Model):
        def parsed(self, tokens):
            return kind(self, tokens).whole()

    return Other


class BindsAlike(Parsing):
    """Reads `and` and `or` from left to right, as libpcap does."""

    def disjunction(self):
        tree = self.negation()
        while word := self.takes("and", "or"):
            tree = (word, (tree, self.negation()))
        return tree


class NotIsLooser(Parsing):
    """Reads `not a and b` as `not (a and b)`."""

    def negation(self):
        if not self.takes("not"):
            return super().negation()
        self.opens()
        tree = ("not", self.conjunction())
        self.open -= 1
        return tree


class OrBindsTighter(Parsing):
    def disjunction(self):
        return self.chain("and", self.conjunction)

    def conjunction(self):
        return self.chain("or", self.negation)


class TakesAnyDirection(Parsing):
    """Takes `dst or src` as a direction too."""

    def direction(self):
        if self.peek() == "dst" and self.peek(2) in ("or", "and") and self.peek(3) == "src":
            self.take()
            word = self.take()
            self.take()
            return word
        return super().direction()


class TakesMoreValues(Parsing):
    """Takes `port 80 or 81`."""

    def port_test(self, protocol, direction):
        trees = [super().port_test(protocol, direction)]
        while self.peek() == "or" and self.peek(2).isdigit():
            self.take()
            trees.append(super().port_test(protocol, direction))
        return trees[0] if len(trees) == 1 else ("or", tuple(trees))


class TakesNetAddress(Parsing):
    """Takes `net 10.0.0.1` for a host."""

    def net_test(self, direction):
        if self.peek() == "net" and self.peek(2).count(".") == 3 and "/" not in self.peek(2) and self.peek(3) != "mask":
            self.take()
        return super().net_test(direction)


class Juxtaposes(Parsing):
    """Takes tests without a word between them as joined by `and`."""

    def conjunction(self):
        trees = [self.negation()]
        while self.takes("and") or self.peek() not in ("", "or", ")"):
            trees.append(self.negation())
        return trees[0] if len(trees) == 1 else ("and", tuple(trees))


class AbsentIsZero(Model):
    def compared(self, relation, wanted):
        right = super().compared(relation, wanted)
        return lambda found: right(0 if found is None else found)


class NotOfAbsentIsFalse(Model):
    """Has a third value, of tests whose part is not there; `not` of it is false."""

    def negated(self, inner):
        return lambda it: inner(it) is False

    def compared(self, relation, wanted):
        right = super().compared(relation, wanted)
        return lambda found: None if found is None else right(found)

    def joined_all(self, kind, inner):
        right = super().joined_all(kind, inner)
        return lambda it: None if not right(it) and any(one(it) is None for one in inner) else right(it)


class UnequalEither(Model):
    def ends(self, direction, relation):
        return super().ends(direction, "=")


class RelationsBoth(Model):
    """Asks both ports for `<=` and `>=`, as Click does."""

    def ends(self, direction, relation):
        if direction == "or" and relation in ("<=", ">="):
            direction = "and"
        return super().ends(direction, relation)


class SctpHasPorts(Model):
    def with_ports(self, protocol):
        return (*super().with_ports(protocol), *([] if protocol else [132]))


class AnyProtocolHasPorts(Model):
    """Reads the ports of any protocol if the test names none."""

    def with_ports(self, protocol):
        return super().with_ports(protocol) if protocol else tuple(range(256))


class OnlyThisFlag(Model):
    def test_opt(self, bit):
        return lambda it: it.protocol == 6 and it.flags == bit


class UnfragIsThere(Model):
    """Takes `ip unfrag` for false if the packet has no fragment word."""

    def test_frag(self, is_fragment):
        right = super().test_frag(is_fragment)
        return lambda it: it.word is not None and right(it)


class FragmentByOffset(Model):
    """Does not take the first fragment for a fragment."""

    def test_frag(self, is_fragment):
        return lambda it: (it.word is not None and it.word & 0x1FFF != 0) == is_fragment


class DontFragmentIsFragment(Model):
    def test_frag(self, is_fragment):
        return lambda it: (it.word is not None and it.word & 0x7FFF != 0) == is_fragment


class Octal(Model):
    def decimal(self, word):
        return int(word, 8) if word.startswith("0") and all(it in "01234567" for it in word) else int(word)


class PaddingIsCut(Model):
    """Takes what is behind the total length for absent."""

    def parts(self, packet):
        total = number(packet, 2, 2)
        return super().parts(packet[:total] if total and total >= 20 else packet)


class WholeTransport(Model):
    """Takes the source port for absent if the destination port is."""

    def parts(self, packet):
        it = super().parts(packet)
        return it._replace(ports=(None, None)) if it.ports[1] is None else it


class WholeHeader(Model):
    """Takes the parts of a header that is cut off for absent."""

    def parts(self, packet):
        return super().parts(packet if len(packet) >= 20 else b"")


class MoreOpen(Model):
    most_open = 33


class FewerOpen(Model):
    most_open = 31


class GreaterPorts(Model):
    most = {**Model.most, "port": 65_536}


class SmallerPorts(Model):
    most = {**Model.most, "port": 65_534}


class GreaterDscp(Model):
    most = {**Model.most, "dscp": 255}


class ForgetsFaults(Model):
    """Takes a number that is too great by its low bits."""

    def number(self, word, most, names=None):
        try:
            return super().number(word, most, names)
        except Fault:
            if word.isdigit():
                return int(word) & 0xFF
            raise


def header_at_zero_to_fifteen(packet: bytes, word: int) -> int | None:
    return None if word & 0x1FFF else 4 * (packet[0] & 15)


WRONGS: dict[str, type[Model]] = {
    "the source is read as the destination": changed_parts(addresses=lambda it: (it.addresses[1], it.addresses[1])),
    "the ports are exchanged": changed_parts(ports=lambda it: it.ports[::-1]),
    "a prefix is a bit short": PrefixShort,
    "bits outside the mask count": MaskIgnored,
    "later fragments have ports": beginning(lambda packet, _: lawful(packet)),
    "only the low byte of the offset is tested": beginning(lambda packet, word: None if word & 0xFF else lawful(packet)),
    "only the high bits of the offset are tested": beginning(lambda packet, word: None if word & 0x1F00 else lawful(packet)),
    "the flag MF hides the transport header": beginning(lambda packet, word: None if word & 0x3FFF else lawful(packet)),
    "options are read as ports": beginning(lambda packet, word: None if word & 0x1FFF or packet[0] & 15 < 5 else 20),
    "a header of 60 bytes is refused": beginning(lambda packet, word: None if word & 0x1FFF or packet[0] & 15 == 15 else lawful(packet)),
    "a header of 20 bytes is refused": beginning(lambda packet, word: None if word & 0x1FFF or packet[0] & 15 == 5 else lawful(packet)),
    "a header below 20 bytes has ports behind it": beginning(header_at_zero_to_fifteen),
    "other versions have no ports": beginning(lambda packet, word: None if word & 0x1FFF or packet[0] >> 4 != 4 else lawful(packet)),
    "the last match decides": LastMatch,
    "a packet without a match is allowed": NothingIsAllowed,
    "the rules behind a deny decide": DenyGoesOn,
    "and binds like or": parsing(BindsAlike),
    "or binds tighter than and": parsing(OrBindsTighter),
    "not binds looser than and": parsing(NotIsLooser),
    "an absent part is read as zero": AbsentIsZero,
    "not of an absent part is false": NotOfAbsentIsFalse,
    "!= is true for either port": UnequalEither,
    "<= and >= ask both ports": RelationsBoth,
    "SCTP has ports": SctpHasPorts,
    "each protocol has ports": AnyProtocolHasPorts,
    "a flag has to be alone": OnlyThisFlag,
    "unfrag asks for the fragment word": UnfragIsThere,
    "a first fragment is no fragment": FragmentByOffset,
    "DF is a fragment": DontFragmentIsFragment,
    "leading zeros are octal": Octal,
    "padding is absent": PaddingIsCut,
    "half of the ports is absent": WholeTransport,
    "a header that is cut off is absent": WholeHeader,
    "33 may be open": MoreOpen,
    "only 31 may be open": FewerOpen,
    "65536 is a port": GreaterPorts,
    "65535 is no port": SmallerPorts,
    "dscp has eight bits": GreaterDscp,
    "numbers are cut to their low bits": ForgetsFaults,
    "dst or src is a direction": parsing(TakesAnyDirection),
    "a test has more than one value": parsing(TakesMoreValues),
    "net takes an address": parsing(TakesNetAddress),
    "tests stand next to each other": parsing(Juxtaposes),
}
