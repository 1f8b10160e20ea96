#!/usr/bin/env python3
"""Compares what IPFilter and IPClassifier decide with a model of their rule language, and with
tcpdump if it is installed. Patterns and packets are random, from a fixed seed.

    tools/filters.py [--patterns N] [--packets N] [--seed N] [--texts N] [--wrong]

By default there are 60 configurations of three patterns, with 200 packets each. There are also
1,500 texts, most of them wrong: in a pattern, a token is deleted, doubled, replaced, or exchanged
with another one. The router has to refuse a text with 26 if and only if the model refuses it. With
--wrong the router is compared with wrong models, each of which has to be noticed.

The program must have been built. PROGRAM or CALLS names another program to check. A failure is
printed, and ends the script with status 1.
"""

from __future__ import annotations

import argparse
import os
import random
import re
import subprocess
import sys
from typing import Callable, Iterable, Iterator, NamedTuple
from unittest import mock

sys.dont_write_bytecode = True
sys.path.append(f"{os.path.dirname(os.path.realpath(__file__))}/lib")
import filter_tcpdump as tcpdump
from filter_cases import ACTIONS, TEXTS, Packets, Patterns, limits, mutated, pool, written
from filter_model import CONSTANTS, DROP, FIELDS, FLAGS, MOST_TESTS, Fault, Model, tests_in
from filter_wrongs import WRONGS
from programs import path_of
from trying import begun

PROGRAM = path_of("click_prog --calls")
SEED = 61
# The numbers of packets in a poll, and of configurations in a run of the program.
POLL, BATCH = 32, 20
# Each packet has a reply for each element, or less.
ELEMENTS = 3
SECONDS = 600
# What the elements that come before the filters paint.
FILTERED, CLASSIFIED, LISTED = 1, 10, 20
WORDS = ("(", ")", "!", "not", "&&", "and", "||", "or", "=", "==", "!=", "<", "<=", ">", ">=", "src", "dst", "host", "net", "mask", "tcp", "udp", "icmp", "ip",
         "proto", "port", "type", "opt", "frag", "unfrag", "80", "0x50", "010", "256", "65536", "http", "echo", "1.2.3.4", "1.2.3.0/24", "1.2.3.4/33", "allow", *CONSTANTS, *FIELDS, *FLAGS)  # fmt: skip
# Elements, the outputs that are connected, and the reply.
COUNTS = (
    ("IPFilter(allow tcp, 2 udp, deny -)", (0, 1, 2), "done"),
    ("IPFilter(allow tcp, 2 udp, deny -)", (0, 1), "refused Config 31 Count at f outputs 2"),
    ("IPFilter(allow tcp, 2 udp, deny -)", (0, 1, 2, 3), "refused Config 31 Count at f outputs 4"),
    ("IPFilter(allow tcp, 2 udp, deny -)", (0, 2), "refused Config 32 Unused at f output 1"),
    ("IPFilter(255 tcp)", range(256), "done"),
    ("IPFilter(drop tcp)", (), "done"),
    ("IPFilter(drop tcp)", (0,), "refused Config 31 Count at f outputs 1"),
    ("IPClassifier(tcp, udp)", (0, 1), "done"),
    ("IPClassifier(tcp, udp)", (0,), "refused Config 31 Count at f outputs 1"),
    ("IPClassifier(tcp, udp)", (0, 1, 2), "refused Config 31 Count at f outputs 3"),
    ("IPFilter()", (), "refused Config 21 ArgumentCount in f"),
    ("IPClassifier(/* none */)", (0,), "refused Config 21 ArgumentCount in f"),
    (f"IPFilter({', '.join(['deny -'] * 256)})", (), "done"),
    (f"IPFilter({', '.join(['deny -'] * 257)})", (), "refused Config 21 ArgumentCount in f"),
)
# Wrong translations for tcpdump: what is replaced, and by what.
WRONG_TRANSLATIONS = {
    "all packets are plain": ("is_plain", lambda packet: len(packet) > 0),
    "libpcap joins != as =": ("CONTRARY", {"or": "or", "and": "and"}),
    "the reserved flag is a fragment": ("FRAGMENT", 0xBFFF),
}


class Wrong(Exception):
    """A difference; the text says what differs."""


class Case(NamedTuple):
    """A configuration with its packets.

    `texts` has three patterns, `trees` their trees. `rules` has the actions of a list of rules, as
    outputs or DROP, each with the index of its pattern.
    """

    texts: list[str]
    trees: list[tuple]
    rules: list[tuple[int, int]]
    packets: list[bytes]


def case_of(seed: int, at: int, count: int) -> Case:
    """Returns the case of this number, which depends on nothing else."""
    rng = random.Random(f"{seed} {at}")
    numbers = pool(rng)
    patterns = Patterns(rng, numbers)
    made = [patterns.pattern(rng.choice([0, 1, 2, 2, 3, 5])) for _ in range(3)]
    trees, texts = [tree for tree, _ in made], [written(rng, tokens) for _, tokens in made]
    rules = [(rng.choice([DROP, DROP, 0, 1, 2]), it) for it in rng.choices(range(3), k=rng.randint(2, 5))]
    packets = Packets(rng, numbers, trees)
    return Case(texts, trees, rules, [packets.packet() for _ in range(count)])


def configuration(case: Case) -> str:
    """Returns a configuration in which each filter paints the packets that it lets through."""
    first, second, _ = case.texts
    words = {DROP: "deny", 0: "allow", 1: "1", 2: "0x02"}
    rules = ", ".join(f"{words[output]} {case.texts[at]}" for output, at in case.rules)
    listed = range(max((output for output, _ in case.rules), default=DROP) + 1)
    return (
        f"require(gateway); FromDevice(a) -> t :: Tee({ELEMENTS}); q :: Queue({ELEMENTS * POLL}) -> ToDevice(b);"
        f" t [0] -> IPFilter(allow {first}, deny all) -> Paint({FILTERED}) -> q;"
        f" t [1] -> c :: IPClassifier({first}, {second}, -);"
        + "".join(f" c [{it}] -> Paint({CLASSIFIED + it}) -> q;" for it in range(3))
        + f" t [2] -> l :: IPFilter({rules});"
        + "".join(f" l [{it}] -> Paint({LISTED + it}) -> q;" for it in listed)
    )


def calls_of(case: Case) -> Iterator[str]:
    """Returns the lines that install a case and send its packets."""
    yield f"swap {configuration(case)}"
    for at in range(0, len(case.packets), POLL):
        some = case.packets[at : at + POLL]
        yield f"poll a {','.join(it.hex() or '-' for it in some)}"
        yield from ["transmit b"] * (ELEMENTS * len(some))


def answers(lines: list[str]) -> list[str]:
    """Returns the replies of the program to these calls."""
    words = [PROGRAM, "--calls", "-e", "Idle -> Discard;"]
    try:
        ran = subprocess.run(words, input="".join(f"{it}\n" for it in lines).encode(), capture_output=True, timeout=SECONDS, check=False)
    except subprocess.TimeoutExpired:
        raise Wrong(f"the calls did not end in {SECONDS} s") from None
    replies = ran.stdout.decode().split("\n")[:-1]
    if (ran.returncode, ran.stderr, len(replies)) != (0, b"", len(lines)):
        raise Wrong(f"{len(lines)} calls got status {ran.returncode}, {len(replies)} replies and {ran.stderr[-200:]!r}")
    return replies


class Decisions(NamedTuple):
    """What a model decides on a case: of each packet the paints of what is let through."""

    painted: list[list[int]]
    decided: int


def modelled(model: Model, case: Case) -> Decisions:
    trees = [model.pattern(it) for it in case.texts]
    truths = [model.truth(it) for it in trees]
    filtered = [(0, truths[0]), (DROP, lambda _: True)]
    classified = [(0, truths[0]), (1, truths[1]), (2, lambda _: True)]
    listed = [(output, truths[at]) for output, at in case.rules]
    lists = ((FILTERED, filtered), (CLASSIFIED, classified), (LISTED, listed))

    def paints(packet: bytes) -> list[int]:
        parts = model.parts(packet)
        decided = ((paint, model.decides(rules, parts)) for paint, rules in lists)
        return [paint + output for paint, output in decided if output != DROP]

    return Decisions([paints(it) for it in case.packets], ELEMENTS * len(case.packets))


def expected(case: Case, decisions: Decisions) -> Iterator[str]:
    """Returns the replies to the lines of a case."""
    yield "done"
    for at in range(0, len(case.packets), POLL):
        some = list(zip(case.packets, decisions.painted))[at : at + POLL]
        sent = [f"sent {packet.hex() or '-'} {paint} 0.0.0.0" for packet, paints in some for paint in paints]
        yield f"entered {len(some)}"
        yield from sent
        yield from ["sent none"] * (ELEMENTS * len(some) - len(sent))


def same_replies(case: Case, wanted: list[str], came: list[str]) -> None:
    """Checks the replies to the lines of a case, and names the first packet that differs."""
    for one, other in zip(wanted, came):
        if one != other:
            raise Wrong(f"the replies differ:\n  the model:  {one}\n  the router: {other}\n  {configuration(case)}")


class Batch(NamedTuple):
    """Some cases, and the router's replies to each."""

    cases: list[Case]
    replies: list[list[str]]


def batches(options: argparse.Namespace) -> Iterator[Batch]:
    """Sends all cases to the router, some to each program."""
    for begin in range(0, options.patterns, BATCH):
        cases = [case_of(options.seed, at, options.packets) for at in range(begin, min(begin + BATCH, options.patterns))]
        calls = [list(calls_of(it)) for it in cases]
        replies, at = answers([line for lines in calls for line in lines]), 0
        came = []
        for lines in calls:
            came.append(replies[at : at + len(lines)])
            at += len(lines)
        yield Batch(cases, came)


def compare(model: Model, batch: Batch) -> list[Decisions]:
    """Checks that the router decides as a model does, and returns the decisions on each case."""
    decided = []
    for case, came in zip(batch.cases, batch.replies):
        try:
            decisions = modelled(model, case)
        except Fault as fault:
            raise Wrong(f"the model refuses a pattern: {fault}: {configuration(case)}") from None
        same_replies(case, list(expected(case, decisions)), came)
        decided.append(decisions)
    return decided


def compare_trees(batch: Batch) -> None:
    """Checks that the model reads the trees that were written."""
    for case in batch.cases:
        if [Model().pattern(it) for it in case.texts] != case.trees:
            raise Wrong(f"the model reads another tree than was written: {case.texts}")


def compare_tcpdump(case: Case, decisions: Decisions) -> int:
    """Checks that tcpdump decides as the router on plain packets.

    `decisions` are those of the router. Returns the number of decisions that were compared.
    """
    count, plain = 0, [at for at, it in enumerate(case.packets) if tcpdump.is_plain(it)]
    for at in (0, 1):
        wanted = tcpdump.chosen(case.trees[at], [case.packets[it] for it in plain])
        for nth, place in enumerate(plain):
            truth = truth_of(at, decisions.painted[place])
            if truth is not None and truth != (nth in wanted):
                raise Wrong(f"tcpdump differs: it says {nth in wanted} of {case.packets[place].hex()}: {case.texts[at]}\n  {tcpdump.expression_of(case.trees[at])}")
            count += truth is not None
    return count


def truth_of(at: int, paints: list[int]) -> bool | None:
    """Returns the truth of the first pattern, or of the second one if it is known."""
    if at == 0:
        return FILTERED in paints
    return None if CLASSIFIED in paints else CLASSIFIED + 1 in paints


class Text(NamedTuple):
    """A text with its class: an argument of IPFilter or of IPClassifier."""

    text: str
    has_action: bool


def texts_of(options: argparse.Namespace) -> list[Text]:
    """Returns texts that are wrong, or nearly."""
    rng = random.Random(f"{options.seed} texts")
    texts = [Text(it, False) for it in (*TEXTS, *limits())]
    texts += [Text(f"{it}{more}", True) for it in ACTIONS for more in (" tcp", "", "(tcp)", "!tcp", "/**/tcp", " /* x */ -")]
    for count in (MOST_TESTS - 1, MOST_TESTS):
        texts.append(Text(" or ".join(["-"] * count), False))
    while len(texts) < options.texts:
        tokens = Patterns(rng, pool(rng)).pattern(rng.choice([0, 0, 1, 2]))[1]
        if len(tokens) <= 40:
            changed = mutated(rng, tokens, list(WORDS))
            action = rng.choice(["", "", "allow ", "deny "])
            texts.append(Text(action + (written(rng, changed) if changed else ""), bool(action)))
    return texts


def is_nested(text: str) -> bool:
    """Returns whether parentheses match; otherwise they end the argument, or do not."""
    depth = 0
    for it in re.sub(r"/\*.*?\*/", " ", text):
        depth += {"(": 1, ")": -1}.get(it, 0)
        if depth < 0:
            return False
    return depth == 0


def output_of(model: Model, it: Text) -> int | None:
    """Returns the output of a text by the model, DROP, or None if the model refuses it."""
    try:
        output, tree = model.rule(it.text) if it.has_action else (0, model.pattern(it.text))
    except Fault:
        return None
    # The other argument has a test too.
    return output if tests_in(tree) < MOST_TESTS else None


def swap_to(element: str, outputs: Iterable[int]) -> str:
    """Returns the swap that installs an element with these outputs connected."""
    return f"swap require(gateway); FromDevice(a) -> f :: {element};" + "".join(f" f [{at}] -> Discard;" for at in outputs)


def swap_of(it: Text, output: int | None) -> str:
    """Returns the swap that installs an element with this text and another argument.

    It has the outputs that the model expects, or one.
    """
    if it.has_action:
        return swap_to(f"IPFilter({it.text}, deny -)", range(1 if output is None else output + 1))
    return swap_to(f"IPClassifier({it.text}, -)", range(2))


class Asked:
    """The router's replies to swaps. A swap is sent once."""

    def __init__(self):
        self.known: dict[str, str] = {}

    def answers(self, swaps: list[str]) -> list[str]:
        unknown = [it for it in dict.fromkeys(swaps) if it not in self.known]
        self.known.update(zip(unknown, answers(unknown) if unknown else []))
        return [self.known[it] for it in swaps]


def compare_texts(model: Model, texts: list[Text], asked: Asked) -> int:
    """Checks that the router refuses exactly the texts that a model refuses.

    Returns the number of refused ones.
    """
    outputs = [output_of(model, it) for it in texts]
    replies = asked.answers([swap_of(it, output) for it, output in zip(texts, outputs)])
    for it, output, reply in zip(texts, outputs, replies):
        wanted = "refused Config 26 BadEntry in f" if output is None else "done"
        if not is_nested(it.text):
            wanted, reply = "refused", reply.split(" ")[0]
        if wanted != reply:
            raise Wrong(f"a text differs: {it.text[:300]!r}\n  the model:  {wanted}\n  the router: {reply}")
    return sum(it is None for it in outputs)


def compare_counts() -> None:
    """Checks the number of arguments and of connected outputs."""
    replies = answers([swap_to(element, outputs) for element, outputs, _ in COUNTS])
    for (element, outputs, wanted), reply in zip(COUNTS, replies):
        if wanted != reply:
            raise Wrong(f"{element[:100]} with outputs {list(outputs)}:\n  wanted {wanted}\n  came   {reply}")


def checked(options: argparse.Namespace) -> None:
    """Compares the router with the model and with tcpdump, and checks counts."""
    compare_counts()
    is_installed, decided, passed, plain = tcpdump.is_installed(), 0, 0, 0
    for nth, batch in enumerate(batches(options), 1):
        compare_trees(batch)
        for case, decisions in zip(batch.cases, compare(Model(), batch)):
            decided += decisions.decided
            passed += sum(FILTERED in it for it in decisions.painted)
            plain += compare_tcpdump(case, decisions) if is_installed else 0
        if nth * BATCH % 100 == 0:
            print(f"{nth * BATCH} configurations: {decided} decisions, {plain} of tcpdump", flush=True)
    texts = texts_of(options)
    refused, packets = compare_texts(Model(), texts, Asked()), options.patterns * options.packets
    print(f"filters: {decided} decisions of {ELEMENTS * options.patterns} elements on {packets} packets are those of the model")
    print(f"`allow P, deny all` lets {100 * passed / packets:.0f} of 100 packets through")
    print(f"{plain} decisions on plain packets are those of tcpdump" if is_installed else "left out: tcpdump is not installed")
    print(f"{refused} of {len(texts)} texts are refused, as by the model")


def is_noticed(name: str, check: Callable[[], object]) -> None:
    """Checks that a check fails, and prints how."""
    try:
        check()
    except Wrong as difference:
        print(f"{name}: {str(difference).split(':')[0]}")
        return
    raise Wrong(f"this is not noticed: {name}")


def compare_kept(model: Model, kept: list[Batch], texts: list[Text], asked: Asked) -> list[Decisions]:
    """Compares the replies of some batches, and those to the texts, with a model."""
    decided = [it for batch in kept for it in compare(model, batch)]
    compare_texts(model, texts, asked)
    return decided


def wrong(options: argparse.Namespace) -> None:
    """Checks that the right model is right, and that each wrong one is noticed."""
    kept, texts, asked = list(batches(options)), texts_of(options), Asked()
    decided = compare_kept(Model(), kept, texts, asked)
    for name, model in WRONGS.items():
        is_noticed(name, lambda model=model: compare_kept(model(), kept, texts, asked))
    cases = [it for batch in kept for it in batch.cases]
    changes = WRONG_TRANSLATIONS if tcpdump.is_installed() else {}
    for name, (attribute, value) in changes.items():
        with mock.patch.object(tcpdump, attribute, value):
            is_noticed(name, lambda: [compare_tcpdump(*it) for it in zip(cases, decided)])
    print(f"filters: {len(WRONGS)} wrong models and {len(changes)} wrong translations are noticed")


def main(words: list[str]) -> int:
    options = argparse.ArgumentParser(description="Compares filters with a model and with tcpdump.")
    for name, value in (("patterns", 60), ("packets", 200), ("seed", SEED), ("texts", 1500)):
        options.add_argument(f"--{name}", type=int, default=value)
    options.add_argument("--wrong", action="store_true")
    given = options.parse_args(words)
    if not os.access(PROGRAM, os.X_OK):
        print(f"filters.py: there is no {PROGRAM}: ./test.sh builds it, and so does rt run in its crate's folder", file=sys.stderr)
        return 1
    try:
        (wrong if given.wrong else checked)(given)
    except (Wrong, OSError) as error:
        print(f"filters.py: {error}", file=sys.stderr)
        return 1
    return 0


if __name__ == "__main__":
    begun(main)
