#!/usr/bin/env python3
"""Starts a topology of routers and hosts, and checks it or leaves it running.

    testbed.py text NODE TOPOLOGY                  prints the configuration of a router
    testbed.py check PROGRAM TOPOLOGY..            starts each topology, checks it and ends it
    testbed.py keep PROGRAM TOPOLOGY               starts a topology, and runs until Ctrl-C
    testbed.py machine PROGRAM ADDRESS TOPOLOGY    starts the routers of one machine, until Ctrl-C

run.sh calls it, for all but `text` in new namespaces. README.md describes the steps. The exit status
is 0 if each step passed, 1 if one failed, and 2 for a topology or words that are wrong.
"""

from __future__ import annotations

import os
import shutil
import signal
import sys
import time
from ipaddress import AddressValueError, IPv4Address
from types import FrameType
from typing import NoReturn

sys.dont_write_bytecode = True
from bed import Bed, free_ports, missing_tools, say
from configuration import text_of
from sessions import Wrong
from steps import STEPS
from topology import Faulty, Topology, read
from trying import begun, fail

# The maximum number of seconds of the checks of a topology.
MAX_SECONDS = 180


def check(program: str, topology: Topology) -> None:
    """Starts a topology, checks it and ends it."""
    begin, bed = time.monotonic(), Bed(program, topology)
    signal.alarm(MAX_SECONDS)
    links = sum(not it.is_edge for it in topology.links)
    try:
        bed.start()
        say(f"{topology.file}: {len(bed.nodes)} routers, {links} links and {len(bed.hosts)} hosts")
        for step in STEPS:
            step(bed)
        bed.end()
    except (Wrong, OSError) as error:
        fail(f"{type(error).__name__}: {error}")
    signal.alarm(0)
    say(f"{topology.file}: passed in {time.monotonic() - begin:.0f} s")


def keep(bed: Bed) -> None:
    """Starts a topology, prints how to reach its routers and hosts, and runs until a signal."""
    bed.start()
    # Descriptor 9 is the folder /proc of the machine, where this process has another number.
    enter = f"nsenter --target {os.readlink('/proc/self/fd/9/self')} --mount"
    # The network of a user's testbed is not that of the machine.
    enter_network = ""
    if os.environ.get("HAS_USERS"):
        enter += " --user --preserve-credentials"
        enter_network = f"{enter} --net "
    for name, node in bed.nodes.items():
        neighbours = " ".join(f"eth{at}:{it.far(name)}" for at, it in enumerate(bed.topology.ports(name)))
        say(f"router {name}: {enter_network}nc 127.0.0.1 {node.port}, devices {neighbours}")
    for name, host in bed.hosts.items():
        say(f"host {name}, {host.address}: {enter} nsenter --net=/run/netns/{name} bash")
    say("running; Ctrl-C ends it")
    while all(it.process and it.process.poll() is None for it in bed.nodes.values()):
        time.sleep(0.2)
    ended = [name for name, it in bed.nodes.items() if it.process and it.process.poll() is not None]
    fail(f"a router ended: {' '.join(ended)}")


def machine_of(topology: Topology, text: str) -> IPv4Address:
    """Returns the address of a machine that the topology names, or exits with status 2."""
    try:
        it = IPv4Address(text)
    except AddressValueError:
        refuse(f"'{text}' is not an IPv4 address")
    if it not in topology.routers.values():
        refuse(f"{topology.file} has no router at {it}")
    return it


def refuse(why: str) -> NoReturn:
    print(why, file=sys.stderr)
    sys.exit(2)


def interrupted(number: int, _: FrameType | None) -> NoReturn:
    """Ends the script on a signal. All processes of the namespaces end with it."""
    sys.exit(128 + number)


def too_slow(*_: object) -> NoReturn:
    fail(f"not done after {MAX_SECONDS} s")


def main(words: list[str]) -> int:
    for it in (signal.SIGINT, signal.SIGTERM):
        signal.signal(it, interrupted)
    signal.signal(signal.SIGALRM, too_slow)
    mode, *rest = words
    try:
        topologies = [read(it) for it in (rest[1:] if mode == "check" else rest[-1:])]
    except Faulty as faulty:
        refuse(str(faulty))
    first = topologies[0]
    if mode == "text":
        if rest[0] not in first.routers:
            refuse(f"{first.file} has no router '{rest[0]}'")
        print(text_of(first, rest[0], first.tables()[rest[0]]), end="")
    elif mode == "keep":
        keep(Bed(rest[0], first, ports=free_ports(first)))
    elif mode == "machine":
        keep(Bed(rest[0], first, machine=machine_of(first, rest[1])))
    else:
        for it in missing_tools():
            say(f"probe.py sends the packets of {it}" if shutil.which(it) else f"left out: there is no {it}; probe.py sends its packets")
        for it in topologies:
            check(rest[0], it)
    return 0


if __name__ == "__main__":
    begun(main)
