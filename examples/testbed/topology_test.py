#!/usr/bin/env python3
"""Checks topologies without starting them: which are refused and why, the paths of the shipped ones,
the words of run.sh, and its status if it can start nothing.

    topology_test.py PROGRAM
"""

from __future__ import annotations

import os
import subprocess
import sys
import tempfile

sys.dont_write_bytecode = True
HERE = os.path.dirname(os.path.realpath(__file__))
sys.path[1:1] = [f"{HERE}/../../tools/lib"]
from topology import MAX_LINKS, MAX_PORTS, MAX_ROUTERS, Faulty, read
from trying import begun, fail, same

ENDS = "router a; router b; link a b; host left a; host right b"
# Topologies that are refused, each with the text after its name. `;` stands for the end of a line.
REFUSED = (
    ("switch a", ":1: 'switch' is not router, link or host"),
    ("# a line;;router", ":3: a router's line is: router NAME [at ADDRESS]"),
    ("router a on 127.0.0.2", ":1: a router's line is: router NAME [at ADDRESS]"),
    ("router a at home", ":1: 'home' is not an IPv4 address"),
    ("router a at 0.1.2.3", ":1: '0.1.2.3' is not an address that a machine may have"),
    ("router a at 224.0.0.1", ":1: '224.0.0.1' is not an address that a machine may have"),
    ("router a;host lo a", ":2: 'lo' is a name of Linux for devices"),
    ("router all", ":1: 'all' is a name of Linux for devices"),
    ("router A", ":1: 'A' is not a name: a letter a to z, then up to 14 of a to z, 0 to 9, '_' and '-'"),
    ("router a2345678901234567", ":1: 'a2345678901234567' is not a name: a letter a to z, then up to 14 of a to z, 0 to 9, '_' and '-'"),
    ("router a;router a", ":2: 'a' is the name of an earlier line"),
    ("router a;host a a", ":2: 'a' is the name of an earlier line"),
    (f"{ENDS};router left", ":6: 'left' is the name of an earlier line"),
    ("router a;link a", ":2: a link's line is: link ROUTER ROUTER [NETWORK]"),
    ("router a;router b;link a b 10.0.0.0/30 10.0.1.0/30", ":3: a link's line is: link ROUTER ROUTER [NETWORK]"),
    ("router a;link a b", ":2: no earlier line has a router 'b'"),
    ("router a;link a a", ":2: a link from 'a' to itself"),
    ("router a;host left", ":2: a host's line is: host NAME ROUTER [NETWORK]"),
    ("router a;host left b", ":2: no earlier line has a router 'b'"),
    (f"{ENDS};link a left", ":6: no earlier line has a router 'left'"),
    ("router a;router b;link a b 10.0.0.0", ":3: '10.0.0.0' has no room for two hosts; use a length of at most 30"),
    ("router a;router b;link a b 10.0.0.0/31", ":3: '10.0.0.0/31' has no room for two hosts; use a length of at most 30"),
    ("router a;router b;link a b 10.0.0.1/30", ":3: '10.0.0.1/30' is not a network: 10.0.0.1/30 has host bits set"),
    ("router a;router b;link a b here", ":3: 'here' is not a network: Expected 4 octets in 'here'"),
    ("router a;router b;link a b 127.1.0.0/30", ":3: '127.1.0.0/30' has addresses that no host may have"),
    ("router a;router b;link a b 0.0.0.0/8", ":3: '0.0.0.0/8' has addresses that no host may have"),
    ("router a;router b;link a b 224.0.0.0/30", ":3: '224.0.0.0/30' has addresses that no host may have"),
    ("router a;router b;link a b;link a b 10.0.1.0/29", ":4: the network 10.0.1.0/29 overlaps with 10.0.1.0/30 of line 3"),
    ("router a;router b;link a b 10.1.1.0/30;host left a", ":4: the network 10.1.1.0/30 overlaps with 10.1.1.0/30 of line 3"),
    ("router a;router b;" + "link a b;" * (MAX_PORTS + 1), f":{MAX_PORTS + 3}: 'a' has more than {MAX_PORTS} links"),
    (";".join(f"router r{at}" for at in range(MAX_ROUTERS + 1)), f":{MAX_ROUTERS + 1}: there are more than {MAX_ROUTERS} routers"),
    ("router a\u00e4", ": has bytes that are not ASCII"),
    ("", ": the hosts are at fewer than two routers"),
    ("router a;host left a;host right a", ": the hosts are at fewer than two routers"),
    ("router a;router b;router c;link a b;host left a;host right b", ": there is no path from the router 'c' to the host 'left'"),
)
# The routers on the path from a host to another one, in the shipped topologies.
PATHS = {
    "line": {("left", "right"): "a b c", ("right", "left"): "c b a"},
    "ring": {("left", "right"): "r1 r2 r3 r4 r5", ("right", "left"): "r5 r4 r3 r2 r1"},
    "tree": {("ann", "bob"): "w1 west w2", ("bob", "cat"): "w2 west root east e1", ("dan", "cat"): "e2 east e1"},
}
# The routers between the two farthest hosts of a topology without a router.
LOST = {("ring", "r3"): "r1 r8 r7 r6 r5", ("ring", "r8"): "r1 r2 r3 r4 r5"}
# What a traceroute shows from left to right in the ring.
RING = "10.1.1.1 10.0.1.2 10.0.2.2 10.0.3.2 10.0.4.2 10.1.2.2"


def check_refused() -> None:
    with tempfile.TemporaryDirectory() as folder:
        file = f"{folder}/a.topology"
        for text, why in REFUSED:
            with open(file, "w", encoding="utf-8") as it:
                it.write(text.replace(";", "\n"))
            came = ""
            try:
                read(file)
            except Faulty as faulty:
                came = str(faulty)
            same(file + why, came, f"why this topology is refused: {text[:200]}")
        same(True, len({text for text, _ in REFUSED}) == len(REFUSED), "whether the topologies differ")
    # A router has no more than MAX_PORTS links, so the maximum number of links needs more routers.
    text = ["router a0"] + [f"router a{at}\nlink a{at - 1} a{at}" for at in range(1, 60)]
    text += [f"link a{at - 1} a{at}" for at in range(1, 60) for _ in range(5)]
    with tempfile.NamedTemporaryFile("w", suffix=".topology") as many:
        many.write("\n".join(text))
        many.flush()
        try:
            read(many.name)
            fail("more than the maximum number of links is accepted")
        except Faulty as faulty:
            same(True, str(faulty).endswith(f": there are more than {MAX_LINKS} links"), f"why too many links are refused: {faulty}")


def check_paths() -> None:
    for name, pairs in PATHS.items():
        it = read(f"{HERE}/{name}.topology")
        for ends, wanted in pairs.items():
            same(wanted, " ".join(it.routers_on(it.path(it.tables(), *ends))), f"the routers from {ends[0]} to {ends[1]} in {name}.topology")
    for (name, lost), wanted in LOST.items():
        it = read(f"{HERE}/{name}.topology")
        same(wanted, " ".join(it.routers_on(it.path(it.tables(lost), *it.farthest()))), f"the routers of {name}.topology without {lost}")
    ring = read(f"{HERE}/ring.topology")
    links = ring.path(ring.tables(), "left", "right")
    hops = [str(it.address(at)) for at, it in zip(ring.routers_on(links), links)]
    same(RING, " ".join([*hops, str(ring.address("right"))]), "the addresses from left to right in ring.topology")


def check_words(program: str) -> None:
    """Checks statuses and messages of run.sh, and that a configuration that it prints is accepted."""
    run, line = f"{HERE}/run.sh", f"{HERE}/line.topology"
    for given, wanted in (
        ([], "examples/testbed/run.sh TOPOLOGY"),
        (["--text", "b"], "examples/testbed/run.sh TOPOLOGY"),
        (["--nothing"], "examples/testbed/run.sh TOPOLOGY"),
        (["--text", "d", line], f"{line} has no router 'd'"),
        (["--text", "b", "/nowhere"], "/nowhere: No such file or directory"),
    ):
        did = subprocess.run([run, *given], capture_output=True, text=True, check=False)
        same((2, "", True), (did.returncode, did.stdout, did.stderr.startswith(wanted)), f"status, output and message of run.sh {' '.join(given)}: {did.stderr}")
    text = subprocess.run([run, "--text", "b", line], capture_output=True, text=True, check=True).stdout
    did = subprocess.run([program, "-e", text], input="READ rt.lookup 10.1.2.2\nQUIT\n", capture_output=True, text=True, check=False)
    same((0, True), (did.returncode, "\n1 10.0.2.2200 Goodbye!" in did.stdout), f"a router with the configuration of b: {did.stdout} {did.stderr}")


def check_left_out(program: str) -> None:
    """Checks the status of run.sh where no namespaces can be made."""
    line = f"{HERE}/line.topology"
    with tempfile.TemporaryDirectory() as folder:
        with open(f"{folder}/unshare", "w", encoding="ascii") as it:
            it.write("#!/bin/sh\nexit 1\n")
        os.chmod(f"{folder}/unshare", 0o755)
        variables = {**os.environ, "PATH": f"{folder}:{os.environ['PATH']}", "PROGRAM": program}
        for given, wanted in (([line], 5), ([line, line], 5), (["--keep", line], 5), (["--machine", "127.0.0.1", line], 5), (["--test", "line"], 0)):
            did = subprocess.run([f"{HERE}/run.sh", *given], env=variables, capture_output=True, text=True, check=False)
            same((wanted, True), (did.returncode, did.stdout.startswith("left out: ")), f"status and output of run.sh {' '.join(given)} without namespaces: {did.stdout} {did.stderr}")


def main(given: list[str]) -> int:
    check_refused()
    check_paths()
    check_words(given[0])
    check_left_out(given[0])
    print(f"{len(REFUSED) + 1} topologies are refused, and the paths of {len(PATHS)} are right")
    return 0


if __name__ == "__main__":
    begun(main)
