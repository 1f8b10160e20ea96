#!/usr/bin/env python3
"""Runs two Linux hosts with the router between them, and checks each packet that the hosts get.

    hosts.py PROGRAM CONFIGURATION

run.sh starts it in new namespaces. README.md describes the steps. The first failure is printed with
what was expected and what came, and ends the script with status 1.
"""

from __future__ import annotations

import contextlib
import errno
import os
import signal
import socket
import statistics
import struct
import subprocess
import sys
import tempfile
import threading
import time
from typing import Callable, NamedTuple, NoReturn, TypeVar

sys.dont_write_bytecode = True
TOOLS = f"{os.path.dirname(os.path.realpath(__file__))}/../../tools"
sys.path[1:1] = [TOOLS, f"{TOOLS}/lib"]
from linux_host import SECONDS, TAP, LinuxHost
from packets import (
    BROADCAST,
    ECHO_REPLY,
    EXPERIMENT,
    HOST,
    ICMP,
    NET,
    NO_ETHER,
    PARAMETER_PROBLEM,
    PORT,
    PROTOCOL,
    QUENCH,
    REDIRECT,
    REPLY,
    REQUEST,
    TIMESTAMP,
    TIME_EXCEEDED,
    TOO_LONG,
    UDP,
    UNREACHABLE,
    arp,
    carried,
    datagram_of,
    destination,
    echo,
    echo_reply,
    ether,
    forwarded,
    frame_of,
    icmp,
    ip,
    is_arp,
    is_ip,
    report,
    source,
    udp,
)
from sessions import Session, Wrong
from trying import begun, fail

Found = TypeVar("Found")

# The maximum number of seconds until the router is ready.
START_SECONDS = 20
# The control port of the router. It is in a namespace of its own, like the ports of the links.
CONTROL_PORT = 7777
# The maximum number of bytes of a datagram that a link can carry. A frame of a link has at most 1,600
# bytes, of which its header takes 14.
MAX_DATAGRAM = 1586
# The maximum number of bytes of a datagram that the router forwards.
MTU = 1500
# The numbers of bytes that pings have: none, an odd number, the usual one, and the most.
SIZES = (0, 1, 56, MTU - 28)
# The number of addresses of an ARPQuerier's table.
PLACES = 256
# The types of ICMP messages that are errors.
ERRORS = (UNREACHABLE, QUENCH, REDIRECT, TIME_EXCEEDED, PARAMETER_PROBLEM)
# Addresses that are not one host's.
NO_HOSTS = ("0.0.0.0", "127.0.0.1", "224.0.0.9", "240.0.0.1", "255.255.255.255", "10.1.0.0", "10.1.255.255", "10.2.0.0", "10.2.255.255")
# An address in the network of `left` that no host has.
NEIGHBOUR = ip("10.1.0.78")
# The maximum number of pings of a flood that are on their way, and the number that are answered
# before, between and after the swaps.
WINDOW, PINGS = 20, 500
# The number of datagrams to unknown addresses, and how many of them are sent between two pings.
UNKNOWN, BETWEEN = 10_000, 50
# The limit of the median time of a ping during that flood, in seconds.
MAX_MEDIAN = 0.5
# The number of bytes that are fetched over TCP.
FETCHED = 1_000_000
# Constants of Linux that Python does not name.
IP_MTU_DISCOVER, IP_RECVERR, IP_MTU, PMTUDISC_WANT, PMTUDISC_DO = 10, 11, 14, 1, 2


def said(text: str) -> None:
    print(text, flush=True)


def hex_lines(packets: list[bytes]) -> str:
    return "".join(f"\n    {it.hex()}" for it in packets) or " nothing"


def same(wanted: object, came: object, what: str) -> None:
    """Checks that two values are equal. Packets are printed in hexadecimal digits."""
    if wanted != came:
        shown = [it.hex() if isinstance(it, bytes) else str(it) for it in (wanted, came)]
        fail(what, f"wanted: {shown[0]}", f"came:   {shown[1]}")


def same_packets(wanted: list[bytes], came: list[bytes], what: str) -> None:
    """Checks that two lists have the same packets, in order."""
    if wanted != came:
        fail(what, f"wanted:{hex_lines(wanted)}", f"came:{hex_lines(came)}")


class Frame(NamedTuple):
    """A frame of a host: whether the host sent it, and its bytes."""

    is_sent: bool
    data: bytes


class Station(NamedTuple):
    """The addresses of a host, or of the router in an Ethernet."""

    ether: bytes
    ip: bytes


def station(ether_text: str, ip_text: str) -> Station:
    return Station(ether(ether_text), ip(ip_text))


class Host(LinuxHost):
    """A Linux host with a TAP device, which is connected to a link of the router.

    `frames` has the frames that the host sent or got, in order.
    """

    def __init__(self, name: str, own: Station, router: Station, here: int, there: int):
        super().__init__(name, TAP, ("127.0.0.1", there), ("127.0.0.1", here))
        self.own, self.router, self.here, self.there = own, router, here, there
        self.frames: list[Frame] = []
        self.changed = threading.Condition()
        self.ever = Watch(self)
        self.start()
        self.carry_all()
        # A socket that sends datagrams with their headers, and one that sends frames.
        self.raw = self.open(socket.AF_INET, socket.SOCK_RAW, socket.IPPROTO_RAW)
        self.wire = self.open(socket.AF_PACKET, socket.SOCK_RAW, 0)
        self.wire.bind((name, 0))

    def start(self) -> None:
        """Gives the device its addresses and a default route."""
        address, gateway = socket.inet_ntoa(self.own.ip), socket.inet_ntoa(self.router.ip)
        self.set_parameter("ipv4/conf/all/arp_notify", 0)
        # On a slow machine the kernel must not ask again, so that the frames are the same each time.
        self.set_parameter(f"ipv4/neigh/{self.name}/retrans_time_ms", 1000 * SECONDS)
        self.set_parameter(f"ipv4/neigh/{self.name}/base_reachable_time_ms", 1000 * 3600)
        self.configure("link", "set", self.name, "address", self.own.ether.hex(":"), "mtu", str(MAX_DATAGRAM))
        self.configure("address", "add", f"{address}/16", "dev", self.name)
        self.configure("link", "set", "lo", "up")
        self.configure("link", "set", self.name, "up")
        self.configure("route", "add", "default", "via", gateway)

    def carry(self, is_sent: bool, data: bytes, to: Callable[[bytes], int]) -> None:
        """Records a frame and carries it on. One that is lost is seen in the counts of the link."""
        with self.changed:
            self.frames.append(Frame(is_sent, data))
            self.changed.notify_all()
        super().carry(is_sent, data, to)

    def send(self, datagram: bytes) -> None:
        """Sends a datagram with its header; the host's kernel routes it and does ARP."""
        self.raw.sendto(datagram, (socket.inet_ntoa(destination(datagram)), 0))

    def put(self, frame: bytes) -> None:
        """Sends a frame."""
        self.wire.send(frame)

    def watch(self) -> Watch:
        return Watch(self)

    def to_router(self, datagram: bytes) -> bytes:
        return frame_of(self.router.ether, self.own.ether, datagram)

    def from_router(self, datagram: bytes) -> bytes:
        return frame_of(self.own.ether, self.router.ether, datagram)

    def answers(self, *frames: bytes, since: Watch | None = None) -> list[bytes]:
        """Sends frames, and returns the IP frames that come before the reply to a last ping.

        The router takes the packets of a link in order, so these are all answers to the frames.
        With `since`, these are all IP frames that came since then.
        """
        watch = since or self.watch()
        for frame in frames:
            self.put(frame)
        last = datagram_of(self.own.ip, self.router.ip, ICMP, echo(0xFFFF, b"the last ping"))
        self.put(self.to_router(last))
        reply = self.from_router(echo_reply(last))
        watch.gets(reply, f"{self.name}: a ping of the router")
        came = [it for it in watch.frames(False) if is_ip(it)]
        return came[: came.index(reply)]


class Watch:
    """The frames of a host from a moment on."""

    def __init__(self, host: Host):
        self.host, self.begin = host, len(host.frames)

    def all(self) -> list[Frame]:
        return self.host.frames[self.begin :]

    def frames(self, is_sent: bool) -> list[bytes]:
        return [it.data for it in self.all() if it.is_sent == is_sent]

    def queries(self) -> list[bytes]:
        """Returns the addresses that the router asked for by ARP."""
        return [it[38:42] for it in self.frames(False) if is_arp(it) and it[21] == REQUEST and it[6:12] == self.host.router.ether]

    def until(self, found: Callable[[], Found | None], missed: Callable[[], NoReturn]) -> Found:
        """Returns the first result of `found` that is not None, or calls `missed` after SECONDS."""
        ends = time.monotonic() + SECONDS
        with self.host.changed:
            while (it := found()) is None:
                if time.monotonic() > ends:
                    missed()
                self.host.changed.wait(0.2)
        return it

    def gets(self, frame: bytes, what: str) -> None:
        """Checks that the host gets this frame."""

        def missed() -> NoReturn:
            fail(f"{what}: {self.host.name} did not get a frame in {SECONDS} s", f"wanted:\n    {frame.hex()}", f"came:{hex_lines(self.frames(False)[-12:])}")

        self.until(lambda: True if frame in self.frames(False) else None, missed)

    def answer(self, datagram: bytes, what: str) -> bytes:
        """Returns the first frame with this datagram that the host gets, to any Ethernet address."""

        def missed() -> NoReturn:
            fail(f"{what}: {self.host.name} did not get a datagram in {SECONDS} s", f"wanted:\n    {datagram.hex()}", f"came:{hex_lines(self.frames(False)[-12:])}")

        return self.until(lambda: next((it for it in self.frames(False) if it[14:] == datagram), None), missed)

    def sends(self, is_wanted: Callable[[bytes], bool], what: str) -> bytes:
        """Returns the first datagram of this kind that the host sends."""

        def missed() -> NoReturn:
            fail(f"{what}: {self.host.name} did not send it in {SECONDS} s", f"sent:{hex_lines(self.frames(True)[-12:])}")

        return self.until(lambda: next((it[14:] for it in self.frames(True) if is_ip(it) and is_wanted(it[14:])), None), missed)


class Router:
    """The program with the configuration, and a control session."""

    def __init__(self, program: str, text: str):
        self.port, self.said = CONTROL_PORT, tempfile.TemporaryFile()
        links = ["--link", "eth0=5001,5002", "--link", "eth1=5003,5004"]
        words = [program, "--live", *links, "--tell", "1", "-p", str(self.port), "-e", text]
        self.process = subprocess.Popen(words, stdin=subprocess.DEVNULL, stdout=self.said, stderr=self.said)
        ends = time.monotonic() + START_SECONDS
        while not self.is_ready():
            if self.process.poll() is not None or time.monotonic() > ends:
                fail("the router does not come up", f"it said: {self.lines()}")
            time.sleep(0.02)
        self.session = Session(self)

    @staticmethod
    def is_ready() -> bool:
        """Returns whether the control port and both links are open."""
        with open("/proc/net/tcp", encoding="ascii") as tcp, open("/proc/net/udp", encoding="ascii") as datagrams:
            ports = tcp.read() + datagrams.read()
        return all(f":{port:04X} " in ports for port in (CONTROL_PORT, 5001, 5003))

    def lines(self) -> list[str]:
        """Returns the lines that the program wrote."""
        return os.pread(self.said.fileno(), 1 << 20, 0).decode().splitlines()

    def count(self, counter: str) -> int:
        return int(self.session.read(f"{counter}.count".encode()))

    def swap(self, text: str, what: str) -> None:
        """Makes a swap, which has to succeed."""
        _, lines, _ = self.session.write(b"hotconfig", text.encode())
        same([b"200 Write handler 'hotconfig' OK\r\n"], lines, what)

    def end(self) -> None:
        """Ends the session and then the program, by SIGTERM."""
        self.session.quit()
        self.process.terminate()
        same(-signal.SIGTERM, self.process.wait(SECONDS), "the status of the router that SIGTERM ends")


def ping(one: Host, to: bytes, number: int, data: bytes = b"") -> bytes:
    """Returns an echo request from a host to an address."""
    return datagram_of(one.own.ip, to, ICMP, echo(number, data), number=number)


def data_of(size: int) -> bytes:
    """Returns bytes that differ from their neighbours."""
    return bytes(at % 251 for at in range(size))


# The steps. Each checks the frames that it names byte by byte, and prints a line.


def meeting(host: Host) -> None:
    """Checks the first ping of the router, before which both sides ask for Ethernet addresses."""
    watch, own, router = host.watch(), host.own, host.router
    request = ping(host, router.ip, 1, b"the first ping")
    host.send(request)
    wanted = [
        Frame(True, arp(BROADCAST, REQUEST, own, (NO_ETHER, router.ip))),
        Frame(False, arp(own.ether, REPLY, router, own)),
        Frame(True, host.to_router(request)),
        Frame(False, arp(BROADCAST, REQUEST, router, (NO_ETHER, own.ip))),
        Frame(True, arp(router.ether, REPLY, own, router)),
        Frame(False, host.from_router(echo_reply(request))),
    ]
    what = f"the first ping of the router by {host.name}"

    def missed() -> NoReturn:
        fail(f"{what}: not done in {SECONDS} s", f"wanted:{spoken(wanted)}", f"came:{spoken(watch.all())}")

    watch.until(lambda: True if len(watch.all()) >= len(wanted) else None, missed)
    if watch.all() != wanted:
        fail(what, f"wanted:{spoken(wanted)}", f"came:{spoken(watch.all())}")
    said(f"{host.name}: ARP in both directions, and the first ping is answered")


def spoken(frames: list[Frame]) -> str:
    """Returns lines with the frames that a host sent (>) and got (<)."""
    return "".join(f"\n    {'>' if it.is_sent else '<'} {it.data.hex()}" for it in frames)


def arping(host: Host, other: Host) -> None:
    """Checks ARP requests that are written by hand.

    The router answers for its address in this Ethernet only: not for another one's, and not for a
    host of the other network.
    """
    own, router = host.own, host.router
    probe = Station(own.ether, bytes(4))
    asked = {
        "for its address": ((BROADCAST, REQUEST, own, (NO_ETHER, router.ip)), own),
        "for its address, sent to it alone": ((router.ether, REQUEST, own, (NO_ETHER, router.ip)), own),
        "for its address, by a host that has none": ((BROADCAST, REQUEST, probe, (NO_ETHER, router.ip)), probe),
        "for a neighbour": ((BROADCAST, REQUEST, own, (NO_ETHER, ip("10.1.0.77"))), None),
        "for its address in the other network": ((BROADCAST, REQUEST, own, (NO_ETHER, other.router.ip)), None),
        "for a host of the other network": ((BROADCAST, REQUEST, own, (NO_ETHER, other.own.ip)), None),
    }
    for what, (request, asker) in asked.items():
        watch = host.watch()
        same_packets([], host.answers(arp(*request)), f"datagrams that answer an ARP request {what}")
        wanted = [arp(asker.ether, REPLY, router, asker)] if asker else []
        same_packets(wanted, [it for it in watch.frames(False) if is_arp(it)], f"what answers an ARP request {what}")
    said("arping: answered for the router's address, by broadcast and alone, and for no other")


def pings_of_router(hosts: tuple[Host, ...]) -> None:
    for host in hosts:
        for other in hosts:
            for size in SIZES:
                request = ping(host, other.router.ip, 2, data_of(size))
                what = f"a ping of {socket.inet_ntoa(other.router.ip)} by {host.name}, with {size} bytes"
                same_packets([host.from_router(echo_reply(request))], host.answers(host.to_router(request)), what)
    said("pings of both addresses of the router, from both hosts: answered")


def ping_across(one: Host, other: Host, request: bytes, what: str) -> None:
    """Checks that a ping reaches the other host, and that its answer comes back."""
    watch, watch_other = one.watch(), other.watch()
    one.send(request)
    watch_other.gets(other.from_router(forwarded(request)), what)
    answer = watch_other.sends(lambda it: it[9] == ICMP and carried(it)[0] == ECHO_REPLY, what)
    same(icmp(ECHO_REPLY, 0, carried(request)[4:]), carried(answer), f"{what}: the answer of {other.name}")
    watch.gets(one.from_router(forwarded(answer)), what)


def pings_across(hosts: tuple[Host, Host]) -> None:
    watches = [it.watch() for it in hosts]
    for one, other in (hosts, hosts[::-1]):
        for size in SIZES:
            request = ping(one, other.own.ip, 3, data_of(size))
            ping_across(one, other, request, f"a ping of {other.name} by {one.name}, with {size} bytes")
    same_packets([], [it for watch in watches for it in watch.queries()], "addresses that the router asked for meanwhile")
    said("pings across, in both directions: answered, with the time to live decremented")


def udp_socket(host: Host, to: bytes, port: int, ttl: int = 64) -> socket.socket:
    """Returns a UDP socket that is connected to a port and that reports each ICMP error."""
    it = host.open(socket.AF_INET, socket.SOCK_DGRAM)
    it.setsockopt(socket.IPPROTO_IP, IP_RECVERR, 1)
    it.setsockopt(socket.IPPROTO_IP, socket.IP_TTL, ttl)
    it.connect((socket.inet_ntoa(to), port))
    return it


def protocol_socket(host: Host, to: bytes) -> socket.socket:
    """Returns a socket of the protocol for experiments."""
    it = host.open(socket.AF_INET, socket.SOCK_RAW, EXPERIMENT)
    it.setsockopt(socket.IPPROTO_IP, IP_RECVERR, 1)
    it.connect((socket.inet_ntoa(to), 0))
    return it


def error_of(sending: socket.socket, what: str) -> str:
    """Returns the name of the error that the kernel reports at a socket."""
    try:
        got = sending.recv(2048)
    except socket.timeout:
        fail(f"{what}: the kernel reports no error in {SECONDS} s")
    except OSError as error:
        return errno.errorcode.get(error.errno or 0, str(error))
    fail(f"{what}: wanted an error, came {len(got)} bytes")


def is_refused(host: Host, sending: socket.socket, error: str, wanted: tuple[int, int], what: str) -> None:
    """Checks that the router answers a datagram by this report, and that the kernel reads it so.

    `wanted` is the type and the code, and `error` the name of the kernel's error.
    """
    watch = host.watch()
    sending.send(b"a datagram for nobody" * 30)
    sent = watch.sends(lambda it: it[9] in (UDP, EXPERIMENT), what)
    watch.gets(host.from_router(report(host.router.ip, sent, *wanted)), what)
    same(error, error_of(sending, what), f"{what}: the error at the socket")


def is_refused_across(one: Host, other: Host, sending: socket.socket, error: str, wanted: tuple[int, int], what: str) -> None:
    """Checks that the other host refuses a datagram, and that its report comes back."""
    watch, watch_other = one.watch(), other.watch()
    sending.send(b"a datagram for nobody" * 30)
    sent = watch.sends(lambda it: it[9] in (UDP, EXPERIMENT), what)
    watch_other.gets(other.from_router(forwarded(sent)), what)
    answer = watch_other.sends(lambda it: it[9] == ICMP, what)
    same((other.own.ip, one.own.ip, wanted), (source(answer), destination(answer), tuple(carried(answer)[:2])), f"{what}: source, destination, type and code")
    watch.gets(one.from_router(forwarded(answer)), what)
    same(error, error_of(sending, what), f"{what}: the error at the socket")


def traceroute(one: Host, other: Host) -> None:
    """Checks the two hops of a traceroute, by UDP and by pings."""
    what = f"traceroute from {one.name}"
    is_refused(one, udp_socket(one, other.own.ip, 33434, 1), "EHOSTUNREACH", (TIME_EXCEEDED, 0), f"{what}, the first hop")
    is_refused_across(one, other, udp_socket(one, other.own.ip, 33435, 2), "ECONNREFUSED", (UNREACHABLE, PORT), f"{what}, the second hop")
    request = datagram_of(one.own.ip, other.own.ip, ICMP, echo(4), ttl=1)
    same_packets([one.from_router(report(one.router.ip, request, TIME_EXCEEDED, 0))], one.answers(one.to_router(request)), f"{what} by pings, the first hop")
    ping_across(one, other, datagram_of(one.own.ip, other.own.ip, ICMP, echo(5), ttl=2), f"{what} by pings, the second hop")
    said(f"traceroute from {one.name}: first the router at {socket.inet_ntoa(one.router.ip)}, then {other.name}")


def unreachable(one: Host, other: Host) -> None:
    """Checks the reports that a network, a host, a protocol or a port is unreachable."""
    for to, wanted, error, what in (
        ("192.0.2.1", NET, "ENETUNREACH", "a network without a route"),
        ("10.2.0.99", HOST, "EHOSTUNREACH", "a host that is out of service"),
        ("10.1.0.1", PORT, "ECONNREFUSED", "a port of the router"),
        ("10.2.0.1", PORT, "ECONNREFUSED", "a port of the router's other address"),
    ):
        is_refused(one, udp_socket(one, ip(to), 9), error, (UNREACHABLE, wanted), what)
    is_refused(one, protocol_socket(one, one.router.ip), "ENOPROTOOPT", (UNREACHABLE, PROTOCOL), "a protocol of the router")
    said("the router reports: net, host, protocol and port unreachable")
    across = "as the far host reports it"
    # Behind the far host is a network, none of whose hosts can be reached.
    other.set_parameter("ipv4/ip_forward", 1)
    other.configure("route", "add", "unreachable", "10.3.0.0/16")
    is_refused_across(one, other, udp_socket(one, ip("10.3.0.9"), 9), "EHOSTUNREACH", (UNREACHABLE, HOST), f"a host, {across}")
    is_refused_across(one, other, protocol_socket(one, other.own.ip), "ENOPROTOOPT", (UNREACHABLE, PROTOCOL), f"a protocol, {across}")
    is_refused_across(one, other, udp_socket(one, other.own.ip, 9), "ECONNREFUSED", (UNREACHABLE, PORT), f"a port, {across}")
    other.set_parameter("ipv4/ip_forward", 0)
    said(f"{other.name} reports: host, protocol and port unreachable")


def redirected(host: Host, other: Host) -> None:
    """Checks that a datagram to a neighbour gets a redirect, and goes on."""
    watch, watch_other = host.watch(), other.watch()
    sent = datagram_of(host.own.ip, NEIGHBOUR, UDP, udp(9))
    # The router decrements the time to live before it finds that the datagram leaves where it came.
    wanted = [host.from_router(report(host.router.ip, forwarded(sent), REDIRECT, 1, NEIGHBOUR))]
    same_packets(wanted, host.answers(host.to_router(sent)), "what answers a datagram to a neighbour")
    same_packets([NEIGHBOUR], watch.queries(), "addresses that the router asks for")
    # The sender of the redirect has to be in the same network, and the header has no options.
    stranger = datagram_of(ip("10.3.0.9"), NEIGHBOUR, UDP, udp(9))
    optional = datagram_of(host.own.ip, NEIGHBOUR, UDP, udp(9), options=b"\x01" * 4)
    same_packets([], host.answers(*map(host.to_router, (stranger, optional))), "what answers two datagrams that get no redirect")
    same_packets([], other.answers(since=watch_other), f"what {other.name} gets meanwhile")
    said("a datagram to a neighbour: redirected, and queried for")


def too_long(host: Host, datagram: bytes) -> bytes:
    """Returns the frame with the report that a host's datagram is too long."""
    return host.from_router(report(host.router.ip, forwarded(datagram), UNREACHABLE, TOO_LONG, struct.pack(">HH", 0, MTU)))


def path_mtu(one: Host, other: Host) -> None:
    """Checks that hosts find the path MTU: by TCP, by UDP without fragments, and by UDP with them."""
    fetched(one, other)
    what = f"a datagram of {MAX_DATAGRAM} bytes"
    getting = other.open(socket.AF_INET, socket.SOCK_DGRAM)
    getting.bind((socket.inet_ntoa(other.own.ip), 5000))
    sending = udp_socket(one, other.own.ip, 5000)
    sending.setsockopt(socket.IPPROTO_IP, IP_MTU_DISCOVER, PMTUDISC_DO)
    same(MAX_DATAGRAM, sending.getsockopt(socket.IPPROTO_IP, IP_MTU), "the path MTU before")
    long, fits = bytes(MAX_DATAGRAM - 28), bytes(MTU - 28)
    watch = one.watch()
    sending.send(long)
    sent = watch.sends(lambda it: it[9] == UDP, what)
    same(MAX_DATAGRAM, len(sent), "the length of the datagram")
    # The router decrements the time to live before it finds that the datagram is too long.
    watch.gets(too_long(one, sent), what)
    same("EMSGSIZE", error_of(sending, what), "the error at the socket")
    same(MTU, sending.getsockopt(socket.IPPROTO_IP, IP_MTU), "the path MTU after the report")
    try:
        sending.send(long)
        fail("a second datagram of that length is sent")
    except OSError as error:
        same(errno.EMSGSIZE, error.errno, "the error of a second datagram of that length")
    sending.send(fits)
    same(fits, received(getting, f"a datagram of {MTU} bytes"), "what arrives")
    one_more = datagram_of(one.own.ip, other.own.ip, UDP, udp(5000, bytes(MTU - 27)))
    same_packets([too_long(one, one_more)], one.answers(one.to_router(one_more)), f"what answers a datagram of {MTU + 1} bytes")
    watch_other = other.watch()
    sending.setsockopt(socket.IPPROTO_IP, IP_MTU_DISCOVER, PMTUDISC_WANT)
    sending.send(long)
    same(long, received(getting, "a datagram in two fragments"), "what arrives")
    same(2, len([it for it in watch_other.frames(False) if is_ip(it) and it[23] == UDP]), "the number of fragments")
    said(f"path MTU: {MTU} in both directions, by UDP and by TCP; {FETCHED:,} bytes fetched")


def not_forwarded(host: Host) -> None:
    """Checks that a datagram to a neighbour that is not forwarded is reported, and not redirected.

    A redirect is made only if the datagram is forwarded (RFC 1812, section 5.2.7.2).
    """
    expired = datagram_of(host.own.ip, NEIGHBOUR, UDP, udp(9), ttl=1)
    long = datagram_of(host.own.ip, NEIGHBOUR, UDP, udp(9, bytes(MTU - 27)))
    wanted = [host.from_router(report(host.router.ip, expired, TIME_EXCEEDED, 0)), too_long(host, long)]
    same_packets(wanted, host.answers(*map(host.to_router, (expired, long))), "what answers two datagrams that are not forwarded")
    said("two datagrams to a neighbour that are not forwarded: reported, and not redirected")


def received(getting: socket.socket, what: str) -> bytes:
    try:
        return getting.recv(2048)
    except socket.timeout:
        fail(f"{what} did not arrive in {SECONDS} s")


def fetched(one: Host, other: Host) -> None:
    """Fetches bytes over TCP from the other host, which finds the path MTU meanwhile."""
    page = os.urandom(FETCHED)
    listening = other.open(socket.AF_INET, socket.SOCK_STREAM)
    listening.bind((socket.inet_ntoa(other.own.ip), 80))
    listening.listen()
    fetching = one.open(socket.AF_INET, socket.SOCK_STREAM)
    fetching.connect((socket.inet_ntoa(other.own.ip), 80))
    serving, _ = listening.accept()
    same(MAX_DATAGRAM, serving.getsockopt(socket.IPPROTO_IP, IP_MTU), f"the path MTU of {other.name} before")
    serving.settimeout(SECONDS)

    def serve() -> None:
        serving.sendall(page)
        serving.shutdown(socket.SHUT_WR)

    threading.Thread(target=serve, daemon=True).start()
    came = b""
    try:
        while piece := fetching.recv(1 << 16):
            came += piece
    except socket.timeout:
        fail(f"{len(came)} bytes of {FETCHED} came, and then none in {SECONDS} s")
    same(FETCHED, len(came), "the number of bytes that were fetched")
    same(True, came == page, "whether these are the bytes that were sent")
    same(MTU, serving.getsockopt(socket.IPPROTO_IP, IP_MTU), f"the path MTU of {other.name} after")
    # The last packet of the connection is an acknowledgement for the side that closes later.
    fetching.close()
    ends = time.monotonic() + SECONDS
    while connections(one):
        if time.monotonic() > ends:
            fail(f"a connection of {one.name} is not closed in {SECONDS} s", *connections(one))
        time.sleep(0.01)


def connections(host: Host) -> list[str]:
    """Returns the rows about TCP connections in the host's kernel."""
    with host.inside(), open("/proc/thread-self/net/tcp", encoding="ascii") as rows:
        return rows.read().splitlines()[1:]


def unanswered(host: Host, other: Host) -> None:
    """Checks that ICMP errors, fragments, broadcasts and the like are not answered."""
    own, far, router = host.own.ip, other.own.ip, host.router.ip
    watch, watch_other = host.watch(), other.watch()
    expired = datagram_of(own, far, UDP, udp(9), ttl=1)
    control = host.from_router(report(router, expired, TIME_EXCEEDED, 0))
    same_packets([control], host.answers(host.to_router(expired)), "what answers a datagram whose time to live is over")
    about: dict[str, bytes] = {}
    for kind in ERRORS:
        message = icmp(kind, 0, bytes(4) + expired)
        long = icmp(kind, 0, bytes(4) + expired + bytes(MTU))
        for place, datagram in {
            "whose time to live is over": datagram_of(own, far, ICMP, message, ttl=1),
            "without a route": datagram_of(own, ip("192.0.2.1"), ICMP, message),
            "to a host out of service": datagram_of(own, ip("10.2.0.99"), ICMP, message),
            "to a neighbour": datagram_of(own, NEIGHBOUR, ICMP, message),
            "to the router": datagram_of(own, router, ICMP, message),
            "that is too long": datagram_of(own, far, ICMP, long),
        }.items():
            about[f"an ICMP error of type {kind} {place}"] = host.to_router(datagram)
    about["a ping with IP options"] = host.to_router(datagram_of(own, router, ICMP, echo(1), options=b"\x01" * 4))
    about["a ping with a wrong checksum"] = host.to_router(datagram_of(own, router, ICMP, echo(1)[:-1] + b"\x02"))
    about["a ping in fragments"] = host.to_router(datagram_of(own, router, ICMP, echo(1), fragment=0x2000))
    about["an ICMP message that is neither an error nor a ping"] = host.to_router(datagram_of(own, router, ICMP, icmp(TIMESTAMP, 0, bytes(16))))
    about["an ICMP message without a type"] = host.to_router(datagram_of(own, far, ICMP, b"", ttl=1))
    about["a later fragment"] = host.to_router(datagram_of(own, far, UDP, udp(9), ttl=1, fragment=1))
    about["a broken header"] = host.to_router(expired[:10] + bytes(2) + expired[12:])
    about["a broadcast frame"] = frame_of(BROADCAST, host.own.ether, expired)
    about["a multicast frame"] = frame_of(ether("01:00:5e:00:00:09"), host.own.ether, expired)
    about["a frame to another station"] = frame_of(ether("02:00:00:00:00:77"), host.own.ether, expired)
    for it in (*NO_HOSTS, "10.1.0.1", "10.2.0.1"):
        about[f"the source {it}"] = host.to_router(datagram_of(ip(it), far, UDP, udp(9)))
        about[f"the source {it}, and a time to live that is over"] = host.to_router(datagram_of(ip(it), far, UDP, udp(9), ttl=1))
    for it in NO_HOSTS:
        about[f"the destination {it}"] = host.to_router(datagram_of(own, ip(it), UDP, udp(9)))
        about[f"the destination {it}, and a time to live that is over"] = host.to_router(datagram_of(own, ip(it), UDP, udp(9), ttl=1))
    for what, frame in about.items():
        same_packets([], host.answers(frame), f"what answers {what}")
    # The ICMP errors to a neighbour are forwarded, and each of them repeats the query.
    same_packets([NEIGHBOUR] * len(ERRORS), watch.queries(), "addresses that the router asked for meanwhile")
    same_packets([], other.answers(since=watch_other) + watch_other.queries(), f"what {other.name} gets meanwhile")
    said(f"{len(about)} packets that may not be answered: no answer")


def changes_ether(one: Host, other: Host) -> None:
    """Checks that a host with another Ethernet address is reached as soon as it announces it."""
    old, new = other.own, Station(ether("02:00:00:00:00:cc"), other.own.ip)
    watch, watch_other = one.watch(), other.watch()
    other.configure("link", "set", other.name, "address", new.ether.hex(":"))
    lost = ping(one, new.ip, 6, b"to the old address")
    one.send(lost)
    watch_other.gets(other.from_router(forwarded(lost)), "a ping before the announcement")
    # The announcement is a request for the host's own address (RFC 5227, section 3). The ping after
    # it shows that the router has received it.
    request = ping(other, other.router.ip, 8, b"after the announcement")
    other.own = new
    other.put(arp(BROADCAST, REQUEST, new, (NO_ETHER, new.ip)))
    other.put(other.to_router(request))
    reply = watch_other.answer(echo_reply(request), f"a ping of the router by {other.name}, after its announcement")
    same(other.from_router(echo_reply(request)), reply, f"the answer to a ping of the router by {other.name}, after its announcement")
    ping_across(one, other, ping(one, new.ip, 7, b"to the new address"), "a ping after the announcement")
    came = [it for it in watch.frames(False) if is_ip(it) and source(it[14:]) == new.ip]
    same(1, len(came), "the number of answers to the ping before the announcement and to the one after it")
    same_packets([], watch.queries() + watch_other.queries(), "addresses that the router asked for meanwhile")
    said(f"{other.name} has {new.ether.hex(':')} instead of {old.ether.hex(':')}: reached after its announcement, without a query")


class Flood(threading.Thread):
    """Pings from one host to another, up to WINDOW on their way at the same time, until `stop`.

    `answered` has the numbers of the answers, in the order in which they came.
    """

    def __init__(self, one: Host, other: Host):
        super().__init__(daemon=True)
        self.pings, self.sent, self.is_over = one.open(socket.AF_INET, socket.SOCK_RAW, ICMP), 0, False
        self.pings.connect((socket.inet_ntoa(other.own.ip), 0))
        self.answered: list[int] = []

    def run(self) -> None:
        with contextlib.suppress(socket.timeout):
            while not self.is_over or len(self.answered) < self.sent:
                while not self.is_over and self.sent - len(self.answered) < WINDOW:
                    self.pings.send(echo(self.sent % 0x10000, b"one of a flood", identifier=8))
                    self.sent += 1
                message = carried(self.pings.recv(2048))
                if (message[0], message[4:6]) == (ECHO_REPLY, b"\0\x08"):
                    self.answered.append(int.from_bytes(message[6:8], "big"))

    def reach(self, count: int) -> None:
        """Blocks until as many pings are answered."""
        while len(self.answered) < count:
            if not self.is_alive():
                fail(f"a flood of pings stopped: {self.sent} sent, {len(self.answered)} answered, and no answer in {SECONDS} s")
            time.sleep(0.001)

    def end(self) -> None:
        """Checks that each ping was answered exactly once."""
        self.is_over = True
        self.join()
        same((self.sent, self.sent), (len(self.answered), len(set(self.answered))), "a flood of pings: answers, and different ones")


def to_unknown(one: Host, number: int) -> bytes:
    """Returns a datagram to an address of 10.2.0.0/16 that no host has."""
    return datagram_of(one.own.ip, bytes([10, 2, 16 + number // 250, 1 + number % 250]), ICMP, echo(number))


def unknown(one: Host, other: Host, router: Router) -> None:
    """Checks that datagrams to many addresses without a host are counted, and do not delay pings."""
    counters = ("datagrams", "resolved", "queries")
    before = [router.count(f"right/{it}") for it in counters]
    known, watch = set(other.ever.queries()), other.watch()
    times: list[float] = []
    for n in range(UNKNOWN):
        one.send(to_unknown(one, n))
        if n % BETWEEN == BETWEEN - 1:
            begin = time.monotonic()
            ping_across(one, other, ping(one, other.own.ip, n, b"in a flood"), "a ping in a flood to unknown addresses")
            times.append(time.monotonic() - begin)
    asked = watch.queries()
    same(PLACES, len(known) + len(asked), f"the number of addresses in the table of {other.name}'s Ethernet")
    same(len(asked), len(set(asked) - known), "the number of addresses that are asked for once")
    counted = [router.count(f"right/{it}") - at for it, at in zip(counters, before)]
    same([UNKNOWN + len(times), len(times), len(asked)], counted, f"counts of {', '.join(counters)}")
    median = statistics.median(times)
    if median > MAX_MEDIAN:
        fail(f"the median time of a ping in a flood: wanted at most {MAX_MEDIAN} s, came {median:.3f} s")
    said(f"{UNKNOWN:,} datagrams to unknown addresses: counted; {len(asked)} queries; pings across take {1000 * median:.1f} ms")


def swaps(one: Host, other: Host, router: Router, text: str) -> None:
    """Checks that swaps in a flood of pings lose none of them, and keep the tables of addresses.

    The table of `right` is full. It has a datagram that waits for each address without a host.
    """
    watches = [one.watch(), other.watch()]
    flood = Flood(one, other)
    flood.start()
    flood.reach(PINGS)
    longer = text.replace("Queue(200)", "Queue(400)")
    router.swap(longer, "a swap to longer queues")
    same(b"400", router.session.read(b"right/out.capacity"), "the capacity after the swap")
    flood.reach(len(flood.answered) + PINGS)
    flat = router.session.read(b"flatconfig").decode()
    same("require(gateway);", flat.splitlines()[0], "the first line of flatconfig")
    router.swap(flat, "a swap to flatconfig")
    flood.reach(len(flood.answered) + PINGS)
    same_packets([], [it for watch in watches for it in watch.queries()], "addresses that the router asked for after a swap")
    flood.end()
    # A host takes one of the addresses, and gets the datagram that waited for it.
    watch, taken = other.watch(), destination(to_unknown(one, 0))
    other.put(arp(other.router.ether, REPLY, Station(other.own.ether, taken), other.router))
    watch.gets(other.from_router(forwarded(to_unknown(one, 0))), "the datagram that waited during the swaps")
    # A new address finds no place, and a query for an address in the table is repeated.
    one.send(to_unknown(one, UNKNOWN))
    one.send(to_unknown(one, 1))
    ping_across(one, other, ping(one, other.own.ip, 9), "a ping after the swaps")
    same_packets([destination(to_unknown(one, 1))], watch.queries(), "addresses that the router asks for after the swaps")
    said(f"two swaps in a flood of {flood.sent:,} pings: all answered, and no ARP query; the table is kept")


def lost_at(port: int) -> int:
    """Returns the number of datagrams that the kernel dropped because this UDP port's buffer was full."""
    with open("/proc/net/udp", encoding="ascii") as rows:
        return next(int(row.split()[-1]) for row in rows if row.split()[1] == f"0100007F:{port:04X}")


def counts(hosts: tuple[Host, Host], router: Router) -> None:
    """Checks that the counts of the links agree with the frames of the hosts, and show no loss.

    The router does not see what the kernel drops. TCP makes it send less after such a loss.
    """
    wanted = []
    for host, device in zip(hosts, ("eth0", "eth1")):
        entered = len(host.ever.frames(True)) - lost_at(host.here)
        left = len(host.ever.frames(False)) + lost_at(host.there)
        wanted.append(f"link {device}: received {entered}, from elsewhere 0, too long 0, no room 0, no memory 0, entered {entered}, sent {left}, failed 0")
    ends = time.monotonic() + SECONDS
    while router.lines()[-2:] != wanted:
        if time.monotonic() > ends:
            fail("the counts of the links", f"wanted: {wanted}", f"came:   {router.lines()[-2:]}")
        time.sleep(0.05)
    same([], [it for it in router.lines() if not it.startswith("link eth")], "lines of the router that are not counts of a link")
    for line in wanted:
        said(line)


def main(words: list[str]) -> int:
    program, path = words
    with open(path, encoding="ascii") as it:
        text = it.read()
    router = Router(program, text)
    left = Host("left", station("02:00:00:00:00:aa", "10.1.0.2"), station("02:00:00:00:00:01", "10.1.0.1"), 5001, 5002)
    right = Host("right", station("02:00:00:00:00:bb", "10.2.0.2"), station("02:00:00:00:00:02", "10.2.0.1"), 5003, 5004)
    # The kernel of `right` reports errors without a limit of their rate.
    right.set_parameter("ipv4/icmp_ratemask", 0)
    try:
        meeting(left)
        meeting(right)
        arping(left, right)
        pings_of_router((left, right))
        pings_across((left, right))
        traceroute(left, right)
        traceroute(right, left)
        unreachable(left, right)
        redirected(left, right)
        path_mtu(left, right)
        not_forwarded(left)
        unanswered(left, right)
        changes_ether(left, right)
        unknown(left, right, router)
        swaps(left, right, router, text)
        counts((left, right), router)
        router.end()
    except Wrong as wrong:
        fail(str(wrong))
    said("passed")
    return 0


if __name__ == "__main__":
    begun(main)
