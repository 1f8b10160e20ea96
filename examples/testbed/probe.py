#!/usr/bin/env python3
"""Sends what ping and traceroute send, on a machine without them, and prints what they print.

    probe.py ping -n -c COUNT -i SECONDS [-w SECONDS] ADDRESS
    probe.py traceroute -n -q 1 -N 1 -w SECONDS -m HOPS ADDRESS

Only these options are read. The datagrams are ICMP echo requests, also those of traceroute. The exit
status is 0 if the address answered or SIGINT ended ping, and 1 if not.
"""

from __future__ import annotations

import os
import socket
import sys
import time
from typing import NamedTuple

sys.dont_write_bytecode = True
sys.path.append(f"{os.path.dirname(os.path.realpath(__file__))}/../ethernet")
from packets import ECHO, ECHO_REPLY, TIME_EXCEEDED, UNREACHABLE, carried, echo, source

UNREACHABLE_NAMES = ("Destination Net Unreachable", "Destination Host Unreachable", "Destination Protocol Unreachable", "Destination Port Unreachable")


class Answer(NamedTuple):
    """An answer: its type and code, the number of the request, its sender, its time to live and length."""

    kind: int
    code: int
    number: int
    sender: str
    ttl: int
    length: int


class Prober:
    """A socket that sends echo requests with an identifier of its own."""

    def __init__(self, address: str):
        self.socket = socket.socket(socket.AF_INET, socket.SOCK_RAW, socket.IPPROTO_ICMP)
        self.address, self.identifier = address, os.getpid() % 0x10000
        self.begun: dict[int, float] = {}

    def send(self, number: int, ttl: int = 64) -> None:
        self.socket.setsockopt(socket.IPPROTO_IP, socket.IP_TTL, ttl)
        self.begun[number] = time.monotonic()
        self.socket.sendto(echo(number, bytes(56), self.identifier), (self.address, 0))

    def answer(self, seconds: float) -> Answer | None:
        """Returns the next answer to one of the requests, or None after as many seconds."""
        ends = time.monotonic() + seconds
        while (left := ends - time.monotonic()) > 0:
            self.socket.settimeout(left)
            try:
                datagram = self.socket.recv(2048)
            except TimeoutError:
                return None
            message = carried(datagram)
            # A report quotes the request after its own eight bytes.
            about = message if message[0] == ECHO_REPLY else carried(message[8:]) if message[0] in (TIME_EXCEEDED, UNREACHABLE) else b""
            if about[:1] in (bytes([ECHO_REPLY]), bytes([ECHO])) and int.from_bytes(about[4:6], "big") == self.identifier:
                return Answer(message[0], message[1], int.from_bytes(about[6:8], "big"), socket.inet_ntoa(source(datagram)), datagram[8], len(message))
        return None

    def milliseconds(self, number: int) -> float:
        return 1000 * (time.monotonic() - self.begun[number])


def ping(address: str, count: int, interval: float, seconds: float) -> int:
    """Sends pings until as many are answered.

    With a number of seconds, it also ends after these, and after a report of an error.
    """
    prober, answered, number, ends = Prober(address), 0, 0, time.monotonic() + (seconds or 3600)
    following = time.monotonic()
    while time.monotonic() < ends:
        if time.monotonic() >= following:
            number, following = number + 1, following + interval
            prober.send(number)
        it = prober.answer(max(0.0, following - time.monotonic()))
        if it and it.kind == ECHO_REPLY:
            answered += 1
            print(f"{it.length} bytes from {it.sender}: icmp_seq={it.number} ttl={it.ttl} time={prober.milliseconds(it.number):.3f} ms", flush=True)
            if answered == count:
                return 0
        elif it:
            what = UNREACHABLE_NAMES[it.code] if it.kind == UNREACHABLE and it.code < len(UNREACHABLE_NAMES) else "Time to live exceeded"
            print(f"From {it.sender} icmp_seq={it.number} {what}", flush=True)
            if seconds:
                return 1
    return 1


def traceroute(address: str, hops: int, wait: float) -> int:
    prober = Prober(address)
    for ttl in range(1, hops + 1):
        prober.send(ttl, ttl)
        it = prober.answer(wait)
        print(f"{ttl:2}  {it.sender}  {prober.milliseconds(ttl):.3f} ms" if it else f"{ttl:2}  *", flush=True)
        if it and it.kind != TIME_EXCEEDED:
            return 0
    return 1


def main(words: list[str]) -> int:
    tool, *rest = words
    options, address = dict(zip(rest[1:-1:2], rest[2:-1:2])), rest[-1]
    if tool == "ping":
        try:
            return ping(address, int(options["-c"]), float(options["-i"]), float(options.get("-w", 0)))
        except KeyboardInterrupt:
            return 0
    return traceroute(address, int(options["-m"]), float(options["-w"]))


if __name__ == "__main__":
    sys.exit(main(sys.argv[1:]))
