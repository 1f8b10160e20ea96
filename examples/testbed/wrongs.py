#!/usr/bin/env python3
"""Checks that wrong testbeds are refused, each by the check that is there for it.

    wrongs.py all [NAME..]       runs run.sh with each of the wrong testbeds, or with these
    wrongs.py check PROGRAM ..   is testbed.py, with the fault that WRONG_TESTBED names

A wrong testbed has a fault in a configuration, in a swap or in the testbed itself. Its run has to end
with status 1 and a message that names the check. So does a test of the scripts with a wrong script.
"""

from __future__ import annotations

import os
import re
import shutil
import signal
import socket
import subprocess
import sys
import tempfile
import threading
import time
from concurrent.futures import ThreadPoolExecutor
from typing import Callable, NamedTuple

sys.dont_write_bytecode = True
import bed
import steps
import testbed
from programs import TOP
from topology import Table, Topology
from trying import begun, fail, program

HERE = os.path.dirname(os.path.realpath(__file__))
# The number of wrong testbeds that run at the same time.
JOBS = 2
# The seconds that a router does not run, during which its control sessions wait.
STOPPED = 2.0


def edit(old: str, new: str, router: str = "") -> Callable[[], None]:
    """Returns a fault: another text in the configuration of one router, or of all."""

    def change() -> None:
        real = bed.text_of

        def wrong(it: Topology, name: str, table: Table) -> str:
            text = real(it, name, table)
            if router in ("", name) and old not in text:
                sys.exit(f"the configuration of {name} has no {old}")
            return text.replace(old, new) if router in ("", name) else text

        bed.text_of = wrong

    return change


def loses_one_in(count: int) -> str:
    """Returns a text that drops each packet with this number before the queue q0."""
    carried = "".join(f"every [{at}] -> q0; " for at in range(count - 1))
    return f"rt [0] -> every :: RoundRobinSwitch; {carried}every [{count - 1}] -> Discard; q0 ::"


def renames_queues() -> None:
    """Makes each swap over a configuration with other names of its queues."""
    real = bed.Node.swap

    def swap(node: bed.Node, text: str) -> None:
        real(node, re.sub(r"\bq(\d)", r"other\1", text))
        real(node, text)

    bed.Node.swap = swap


def swaps_nothing() -> None:
    real = bed.Node.swap
    bed.Node.swap = lambda node, _: real(node, node.read("config"))


def swaps_backwards() -> None:
    """Gives the routers their new routes in the opposite order, so that there are loops."""
    real = steps.find_detour
    steps.find_detour = lambda *words: dict(reversed(real(*words).items()))


def changes_no_path() -> None:
    steps.find_detour = lambda it, _, host: it.topology.next_links(it.topology.hosts[host])


def keeps_routes() -> None:
    """Leaves the router that was killed in the routes of the others."""
    real = Topology.tables
    Topology.tables = lambda it, lost="": {name: table for name, table in real(it).items() if name != lost}


def kills_nothing() -> None:
    bed.Node.kill = lambda node: None


def sends_nothing() -> None:
    steps.MAX_FLOOD_SECONDS = 3.0
    steps.send_flood = lambda host, address: time.sleep(1000)


def stops_a_router() -> None:
    """Stops the second router for a while during the flood."""
    real = steps.flood_host

    def flood(it: bed.Bed) -> None:
        process = list(it.nodes.values())[1].process
        assert process
        for seconds, what in ((0.5, signal.SIGSTOP), (0.5 + STOPPED, signal.SIGCONT)):
            threading.Timer(seconds, os.kill, (process.pid, what)).start()
        real(it)

    steps.STEPS = testbed.STEPS = tuple(flood if step is real else step for step in steps.STEPS)


def has_a_stranger() -> None:
    """Sends a datagram to a link from a port that is not its peer's."""
    real = steps.check_counts

    def counts(it: bed.Bed) -> None:
        link = it.topology.links[0]
        with socket.socket(socket.AF_INET, socket.SOCK_DGRAM) as stranger:
            stranger.sendto(b"strange", it.end_of(link, link.one))
        real(it)

    testbed.STEPS = tuple(counts if step is real else step for step in steps.STEPS)


def ends_pings_early() -> None:
    """Ends the pings after a second, while the swaps are still made."""
    real_pings, real_swap = bed.Host.start_pings, bed.Node.swap

    def start_pings(host: bed.Host, *words: object) -> subprocess.Popen[str]:
        pings = real_pings(host, *words)
        threading.Timer(1.0, pings.terminate).start()
        return pings

    def swap(node: bed.Node, text: str) -> None:
        time.sleep(0.5)
        real_swap(node, text)

    bed.Host.start_pings, bed.Node.swap = start_pings, swap


class Wrong(NamedTuple):
    """A wrong testbed: its topology, a part of the message that refuses it, and its fault."""

    topology: str
    message: str
    fault: Callable[[], None]


WRONGS = {
    "a route to the wrong side": Wrong("ring", "at the beginning: pings from left to right", edit("10.1.2.0/30 10.0.2.2 1", "10.1.2.0/30 10.0.1.1 0", "r2")),
    "no route back": Wrong("line", "at the beginning: pings from left to right", edit("10.1.1.0/30 10.0.1.1 0", "10.1.1.0/30 2", "b")),
    "a time to live that is not decremented": Wrong("line", "the time to live of the answers", edit("DecIPTTL", "CheckLength(1600)")),
    "a router that answers no ping": Wrong("line", "10.0.1.2 of the router b that is answered", edit("ICMPPingResponder", "CheckLength(0)", "b")),
    "reports from another address": Wrong("line", "at the beginning: traceroute from left to right", edit("ICMPError($ip, timeexceeded)", "ICMPError(10.9.9.9, timeexceeded)", "b")),
    "answers that come twice": Wrong("line", "at the beginning: pings from left to right", edit("rt [0] -> q0 ::", "rt [0] -> twice :: Tee(2) -> q0; twice [1] -> q0; q0 ::", "b")),
    "a packet in a hundred that is lost": Wrong("line", "that were lost during the swaps", edit("rt [0] -> q0 ::", loses_one_in(100), "b")),
    "swaps that rename queues": Wrong("line", "that were lost during the swaps", renames_queues),
    "swaps that change nothing": Wrong("line", "the configuration of b after a swap", swaps_nothing),
    "swaps in an order with loops": Wrong("ring", "that were lost during the swaps", swaps_backwards),
    "swaps after the last ping": Wrong("ring", "the pings were over before the last swap", ends_pings_early),
    "a path that the swaps do not change": Wrong("ring", "the routers that the path after the swaps could avoid", changes_no_path),
    "a killed router that is not routed around": Wrong("ring", "without r2: pings from left to right", keeps_routes),
    "a router that is not killed": Wrong("ring", "answered over r2, which was killed", kills_nothing),
    "no report without a path": Wrong("line", "answers and reports for pings from left to right without b", edit("none1 [1] -> ICMPError", "none1 [1] -> Discard; Idle -> ICMPError")),
    "no flood": Wrong("line", "datagrams of a flood come to right", sends_nothing),
    "control sessions that wait": Wrong("line", "the control sessions of b during a flood", stops_a_router),
    "a stranger at a link": Wrong("line", "the counts of a, of which from elsewhere", has_a_stranger),
}


class WrongScript(NamedTuple):
    """A wrong script: the part of the test that refuses it, a part of the message, the file and the edit."""

    part: str
    message: str
    file: str
    old: str
    new: str


WRONG_SCRIPTS = {
    "paths that are not the shortest": WrongScript("topologies", "the routers from", "examples/testbed/topology.py", "in dear else 1)", "in dear else 9 - it.number)"),
    "topologies that overlap": WrongScript("topologies", "why this topology is refused", "examples/testbed/topology.py", "not it.network.overlaps(network)", "True"),
    "a topology that passes unchecked": WrongScript("topologies", "without namespaces", "examples/testbed/run.sh", "left_out_status=5", "left_out_status=0"),
    "processes that are left": WrongScript("live", "no process is left after signal", "tools/lib/namespaces.sh", " --kill-child", ""),
    "links between other ports": WrongScript("live", "whether a ping from left to right is answered", "examples/testbed/bed.py", "={here},{there}", "={here},{there[:-1]}9"),
    "a host that cannot be entered": WrongScript("live", "whether a ping from left to right is answered", "examples/testbed/testbed.py", "--net=/run/netns/{name}", "--net=/proc/self/ns/net"),
}


def refusal(words: list[str], message: str, name: str, **variables: str) -> str:
    """Runs a command; returns why it was not refused with this message, or nothing."""
    did = subprocess.run(words, env={**os.environ, **variables}, capture_output=True, text=True, check=False)
    if did.returncode != 1 or not re.search(message, did.stderr):
        return f"{name}: wanted status 1 and a message with: {message}\n  came status {did.returncode} and: {did.stderr[-500:]}"
    return ""


def script_refusal(name: str) -> str:
    """Runs a test with a wrong script, in a copy of the scripts."""
    wrong = WRONG_SCRIPTS[name]
    with tempfile.TemporaryDirectory() as top:
        for folder in ("examples/testbed", "examples/ethernet", "tools"):
            shutil.copytree(f"{TOP}/{folder}", f"{top}/{folder}")
        with open(f"{top}/{wrong.file}", encoding="ascii") as it:
            text = it.read()
        if wrong.old not in text:
            return f"{name}: {wrong.file} has no {wrong.old}"
        with open(f"{top}/{wrong.file}", "w", encoding="ascii") as it:
            it.write(text.replace(wrong.old, wrong.new))
        return refusal([f"{top}/examples/testbed/run.sh", "--test", wrong.part], wrong.message, name, PROGRAM=program("click_prog"))


def is_refused(name: str) -> str:
    """Runs what is wrong by this name; returns why it was not refused as it has to be, or nothing."""
    if name in WRONG_SCRIPTS:
        return script_refusal(name)
    wrong = WRONGS[name]
    return refusal([f"{HERE}/run.sh", f"{HERE}/{wrong.topology}.topology"], wrong.message, name, WRONG_TESTBED=name)


def main(words: list[str]) -> int:
    if words[:1] != ["all"]:
        WRONGS[os.environ["WRONG_TESTBED"]].fault()
        return testbed.main(words)
    names = words[1:] or [*WRONGS, *WRONG_SCRIPTS]
    with ThreadPoolExecutor(JOBS) as pool:
        found = [it for it in pool.map(is_refused, names) if it]
    if found:
        fail(*found)
    print(f"wrong testbeds: {len(names)} refused, each by its check")
    return 0


if __name__ == "__main__":
    begun(main)
