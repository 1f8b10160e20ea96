"""Starts the routers and the hosts of a topology, and gives them commands."""

from __future__ import annotations

import json
import os
import re
import shutil
import signal
import socket
import subprocess
import sys
import tempfile
import time
from ipaddress import IPv4Address
from typing import Callable, NamedTuple

HERE = os.path.dirname(os.path.realpath(__file__))
sys.path[1:1] = [f"{HERE}/../../tools", f"{HERE}/../../tools/lib"]
from configuration import text_of
from linux_host import SECONDS, TUN, Address, LinuxHost
from sessions import Session
from topology import CONTROL_PORT, FIRST_PORT, Link, Table, Topology
from trying import fail

# The maximum number of seconds until a router is ready.
START_SECONDS = 20
# The maximum number of seconds of a few pings that are answered, and that of those that are not.
PING_SECONDS, NO_PING_SECONDS = 20, 2
# The number of control sessions that a router serves at the same time.
SESSIONS = 8
# The line of an answer to a ping, and that of a report of an error about one.
ANSWER = re.compile(r"\d+ bytes from (\S+): icmp_seq=(\d+) ttl=(\d+) time=")
REPORT = re.compile(r"From (\S+):? icmp_seq=(\d+) (.*)")
# A hop of a traceroute.
HOP = re.compile(r" *(\d+)  (\S+)")
# Sends what ping and traceroute send, on a machine without them.
PROBE = f"{HERE}/probe.py"


def say(text: str) -> None:
    print(text, flush=True)


def same(wanted: object, came: object, what: str) -> None:
    """Checks that two values are equal."""
    if wanted != came:
        fail(what, f"wanted: {wanted}", f"came:   {came}")


def until(holds: Callable[[], object], what: str, seconds: float = SECONDS) -> None:
    """Blocks until the condition holds, or fails after as many seconds."""
    ends = time.monotonic() + seconds
    while not holds():
        if time.monotonic() > ends:
            fail(f"{what}: not so after {seconds:g} s")
        time.sleep(0.005)


def missing_tools() -> list[str]:
    """Returns which of ping and traceroute this machine lacks, or the variable WITHOUT names."""
    return [it for it in ("ping", "traceroute") if not shutil.which(it) or it in os.environ.get("WITHOUT", "").split()]


def command_of(name: str) -> list[str]:
    """Returns the first words of a command: ping or traceroute, or probe.py instead of it."""
    return [sys.executable, PROBE, name] if name in missing_tools() else [name]


class Pinged(NamedTuple):
    """The output of ping: the number and the time to live of each answer, and the reports of errors."""

    numbers: list[int]
    lives: set[int]
    reports: list[tuple[str, str]]


class Host(LinuxHost):
    """A host of the topology. A process of its own carries its packets."""

    def __init__(self, bed: Bed, name: str):
        link = bed.topology.hosts[name]
        super().__init__(name, TUN, bed.end_of(link, name), bed.end_of(link, link.one))
        self.address = link.address(name)
        self.set_parameter("ipv4/icmp_ratemask", 0)
        self.configure("link", "set", "lo", "up")
        self.configure("address", "add", f"{self.address}/{link.network.prefixlen}", "dev", name)
        self.configure("link", "set", name, "up")
        self.configure("route", "add", "default", "via", str(link.address(link.one)))
        self.carrier = os.fork()
        if not self.carrier:
            signal.signal(signal.SIGINT, signal.SIG_IGN)
            for it in self.carry_all():
                it.join()
            os._exit(1)

    def end(self) -> None:
        os.kill(self.carrier, signal.SIGKILL)
        os.waitpid(self.carrier, 0)
        super().end()

    def start(self, *words: str) -> subprocess.Popen[str]:
        """Starts a command in the host's namespace, with its output in a file."""
        out = tempfile.TemporaryFile("w+")
        it = subprocess.Popen(["nsenter", f"--net=/run/netns/{self.name}", *words], stdin=subprocess.DEVNULL, stdout=out, stderr=subprocess.STDOUT, text=True)
        it.stdout = out
        return it

    def start_pings(self, to: IPv4Address, interval: float) -> subprocess.Popen[str]:
        """Starts pings, which SIGINT ends."""
        return self.start(*command_of("ping"), "-n", "-c", "1000000", "-i", str(interval), str(to))

    def ping(self, to: IPv4Address, count: int = 1, seconds: int = PING_SECONDS) -> Pinged:
        """Sends pings until `count` are answered, a report of an error comes, or the seconds are over.

        If an answer is late or lost, more pings than `count` are sent: ping does not wait for it.
        """
        interval = "0.01" if seconds == PING_SECONDS else "0.2"
        it = self.start(*command_of("ping"), "-n", "-c", str(count), "-i", interval, "-w", str(seconds), str(to))
        return read_pings(it, to, count, seconds)

    def traceroute(self, to: IPv4Address) -> list[str]:
        """Returns the addresses of the hops; `*` for one that does not answer."""
        it = self.start(*command_of("traceroute"), "-n", "-q", "1", "-N", "1", "-w", "2", "-m", "64", str(to))
        return [match[2] for line in wait_for(it, 200) if (match := HOP.match(line))]

    def received(self) -> int:
        """Returns the number of packets that came to the host."""
        (device,) = json.loads(self.configure("-json", "-stats", "link", "show", "dev", self.name))
        return int(device["stats64"]["rx"]["packets"])


def output(it: subprocess.Popen[str]) -> list[str]:
    """Returns the lines that a command has written so far."""
    assert it.stdout
    return os.pread(it.stdout.fileno(), 1 << 24, 0).decode().splitlines()


def answers(it: subprocess.Popen[str]) -> list[int]:
    """Returns the numbers of the answers that ping has printed so far."""
    return [int(match[2]) for line in output(it) if (match := ANSWER.match(line))]


def wait_for(it: subprocess.Popen[str], seconds: float) -> list[str]:
    """Blocks until a command ends, and returns its lines."""
    try:
        it.wait(seconds)
    except subprocess.TimeoutExpired:
        it.kill()
        fail(f"this did not end in {seconds:g} s: {it.args}", *output(it)[-5:])
    return output(it)


def read_pings(it: subprocess.Popen[str], to: IPv4Address, count: int, seconds: float) -> Pinged:
    """Blocks until ping ends, and returns what it printed about the first pings to this address."""
    lines = wait_for(it, seconds + START_SECONDS)
    answers = [match for line in lines if (match := ANSWER.match(line)) and match[1] == str(to) and int(match[2]) <= count]
    reports = [(match[1], match[3]) for line in lines if (match := REPORT.match(line))]
    return Pinged([int(match[2]) for match in answers], {int(match[3]) for match in answers}, reports)


class Node:
    """A router process with a control session."""

    def __init__(self, bed: Bed, name: str):
        self.bed, self.name, self.log = bed, name, tempfile.TemporaryFile()
        self.port = bed.control_port(name)
        self.process: subprocess.Popen[bytes] | None = None

    def words(self, text: str) -> list[str]:
        """Returns the command of the router."""
        links = []
        for at, it in enumerate(self.bed.topology.ports(self.name)):
            here, there = (f"{ip}:{port}" for ip, port in (self.bed.end_of(it, self.name), self.bed.end_of(it, it.far(self.name))))
            links += ["--link", f"eth{at}={here},{there}"]
        tell = ["--tell", "1"] if links else []
        return [self.bed.program, "--live", *links, *tell, "-p", str(self.port), "-n", str(SESSIONS), "-e", text]

    def start(self, text: str) -> None:
        """Starts the process. Call `is_ready` before `session` is used."""
        self.process = subprocess.Popen(self.words(text), stdin=subprocess.DEVNULL, stdout=self.log, stderr=self.log, start_new_session=True)

    def connect(self) -> None:
        """Blocks until the router serves, and opens its session."""
        until(self.is_ready, f"the router {self.name} does not come up; it printed {self.lines()}", START_SECONDS)
        self.session = Session(self)

    def is_ready(self) -> bool:
        """Returns whether the control port and all links are open; fails if the process ended."""
        assert self.process
        if self.process.poll() is not None:
            fail(f"the router {self.name} ended with status {self.process.returncode}", *self.lines())
        with open("/proc/net/tcp", encoding="ascii") as tcp, open("/proc/net/udp", encoding="ascii") as datagrams:
            here = tcp.read() + datagrams.read()
        ports = [self.bed.end_of(it, self.name)[1] for it in self.bed.topology.ports(self.name)]
        return all(f":{port:04X} " in here for port in (self.port, *ports))

    def lines(self) -> list[str]:
        """Returns the lines that the process wrote."""
        return os.pread(self.log.fileno(), 1 << 20, 0).decode().splitlines()

    def counts(self) -> list[str]:
        """Returns the lines with the counts of links that the process wrote."""
        return [it for it in self.lines() if it.startswith("link ")]

    def read(self, handler: str) -> str:
        return self.session.read(handler.encode()).decode()

    def write(self, handler: str, text: str) -> None:
        _, lines, _ = self.session.write(handler.encode(), text.encode())
        same([f"200 Write handler '{handler}' OK\r\n".encode()], lines, f"the reply of {self.name} to a write of {handler}")

    def swap(self, text: str) -> None:
        self.write("hotconfig", text)

    def kill(self) -> None:
        """Kills the process, as a crash would end it."""
        assert self.process
        self.process.kill()
        self.process.wait(SECONDS)

    def end(self) -> None:
        """Ends the session and then the process, by SIGTERM."""
        assert self.process
        self.session.quit()
        self.process.terminate()
        same(-signal.SIGTERM, self.process.wait(SECONDS), f"the status of {self.name}, which SIGTERM ends")


class Bed:
    """The routers and the hosts of a topology, or those at one machine.

    `tables` has the routes that each router has at present. `ports` is added to each UDP and control
    port.
    """

    def __init__(self, program: str, it: Topology, machine: IPv4Address | None = None, ports: int = 0):
        self.program, self.topology, self.first = program, it, ports
        self.tables: dict[str, Table] = it.tables()
        self.nodes = {name: Node(self, name) for name, at in it.routers.items() if machine in (None, at)}
        self.hosts: dict[str, Host] = {}

    def end_of(self, link: Link, name: str) -> Address:
        """Returns the address and the UDP port of an end of a link."""
        return str(self.topology.routers[name if name in self.topology.routers else link.one]), FIRST_PORT + self.first + link.port(name)

    def control_port(self, router: str) -> int:
        return CONTROL_PORT + self.first + self.topology.control_port(router)

    def text(self, router: str) -> str:
        return text_of(self.topology, router, self.tables.get(router, {}))

    def start(self) -> None:
        self.hosts = {name: Host(self, name) for name, it in self.topology.hosts.items() if it.one in self.nodes}
        for name, node in self.nodes.items():
            node.start(self.text(name))
        for node in self.nodes.values():
            node.connect()

    def end(self) -> None:
        """Ends all routers, each of which has to run, and removes the hosts."""
        for node in self.nodes.values():
            node.end()
        for host in self.hosts.values():
            host.end()

    def install(self, tables: dict[str, Table]) -> None:
        """Makes a swap to these routes on each router of `tables`."""
        self.tables = tables
        for name in tables:
            self.nodes[name].swap(self.text(name))

    def lookup_value(self, router: str, host: str) -> str | None:
        """Returns the value that `rt.lookup` of a router has to have for a host.

        It is None if the router has no route to the host.
        """
        number = self.topology.lookup(self.tables, router, host)
        if number is None:
            return None
        it, at = self.topology.links[number], self.index(router, number)
        return f"{at}" if it.is_edge else f"{at} {it.address(it.far(router))}"

    def index(self, router: str, number: int) -> int:
        """Returns N of the device ethN of a router that has this link."""
        return [it.number for it in self.topology.ports(router)].index(number)

    def path(self, one: str, other: str) -> list[str]:
        """Returns the routers on the path between two hosts, by the present routes."""
        return self.topology.routers_on(self.topology.path(self.tables, one, other))

    def hops(self, one: str, other: str) -> list[str]:
        """Returns what a traceroute has to show.

        That is the address at which each router gets the datagrams, and then that of the host.
        """
        links, hops = self.topology.path(self.tables, one, other), []
        for name, it in zip(self.path(one, other), links):
            hops.append(str(it.address(name)))
        return [*hops, str(self.topology.address(other))]


def free_ports(it: Topology) -> int:
    """Returns a number to add to all ports, so that they are free on this machine."""
    wanted = [CONTROL_PORT + at for at in range(len(it.routers))] + [FIRST_PORT + at for at in range(2 * len(it.links))]
    for first in range(0, 40000, 2000):
        if all(is_free(port + first) for port in wanted):
            return first
    fail("this machine has too few free ports")


def is_free(port: int) -> bool:
    """Returns whether no socket of this machine has the port, for TCP and for UDP."""
    for kind in (socket.SOCK_STREAM, socket.SOCK_DGRAM):
        with socket.socket(socket.AF_INET, kind) as it:
            if kind == socket.SOCK_STREAM:
                # As a router does: a connection that has ended does not occupy the port.
                it.setsockopt(socket.SOL_SOCKET, socket.SO_REUSEADDR, 1)
            try:
                it.bind(("0.0.0.0", port))
            except OSError:
                return False
    return True
