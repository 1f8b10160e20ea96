"""Builds packets: those that the hosts of the example send, and those that the router has to send.

A datagram is an IPv4 datagram without an Ethernet header, and a frame has one. All are bytes.
"""

from __future__ import annotations

import socket
import struct

# Protocols (RFC 1700), and a protocol number that is for experiments (RFC 3692).
ICMP, UDP, EXPERIMENT = 1, 17, 253
# Opcodes of ARP (RFC 826).
REQUEST, REPLY = 1, 2
# Types of ICMP messages (RFC 792).
ECHO_REPLY, UNREACHABLE, QUENCH, REDIRECT, ECHO = 0, 3, 4, 5, 8
TIME_EXCEEDED, PARAMETER_PROBLEM, TIMESTAMP = 11, 12, 13
# Codes of the type UNREACHABLE.
NET, HOST, PROTOCOL, PORT, TOO_LONG = 0, 1, 2, 3, 4
BROADCAST, NO_ETHER = b"\xff" * 6, bytes(6)
# The number of bytes of a datagram that a report of the router quotes at most, so that the report
# has at most 576 bytes (RFC 1812, section 4.3.2.3).
MAX_QUOTED = 548
# The first byte of the type of service of a report: precedence 6 (RFC 1812, section 4.3.2.5), and
# below it the five lower bits of the datagram's.
CONTROL, LOWER = 0xC0, 0x1F


def ip(text: str) -> bytes:
    return socket.inet_aton(text)


def ether(text: str) -> bytes:
    return bytes.fromhex(text.replace(":", ""))


def checksum(data: bytes) -> int:
    """Returns the checksum of IP and ICMP (RFC 1071)."""
    data += bytes(len(data) % 2)
    total = sum(struct.unpack(f">{len(data) // 2}H", data))
    while total >> 16:
        total = (total & 0xFFFF) + (total >> 16)
    return ~total & 0xFFFF


def with_sum(data: bytes, at: int) -> bytes:
    """Returns the bytes with their checksum at an offset."""
    data = data[:at] + bytes(2) + data[at + 2 :]
    return data[:at] + struct.pack(">H", checksum(data)) + data[at + 2 :]


def frame_of(to: bytes, sender: bytes, datagram: bytes) -> bytes:
    """Returns the Ethernet frame of a datagram (RFC 894)."""
    return to + sender + b"\x08\x00" + datagram


def is_ip(frame: bytes) -> bool:
    return frame[12:14] == b"\x08\x00"


def is_arp(frame: bytes) -> bool:
    return frame[12:14] == b"\x08\x06"


def arp(to: bytes, opcode: int, sender: tuple[bytes, bytes], target: tuple[bytes, bytes]) -> bytes:
    """Returns the frame of an ARP packet. Sender and target have an Ethernet and an IP address."""
    kinds = struct.pack(">HHHBBH", 0x0806, 1, 0x0800, 6, 4, opcode)
    return to + sender[0] + kinds + b"".join(sender + target)


def datagram_of(
    source: bytes,
    destination: bytes,
    protocol: int,
    data: bytes,
    ttl: int = 64,
    service: int = 0,
    number: int = 1,
    fragment: int = 0,
    options: bytes = b"",
) -> bytes:
    """Returns a datagram. `fragment` has the flags and the offset, and `number` the identification."""
    length = 20 + len(options)
    front = struct.pack(">BBHHHBBH", 0x40 + length // 4, service, length + len(data), number, fragment, ttl, protocol, 0)
    return with_sum(front + source + destination + options, 10) + data


def icmp(kind: int, code: int, rest: bytes) -> bytes:
    """Returns an ICMP message. `rest` is what follows the checksum."""
    return with_sum(bytes([kind, code, 0, 0]) + rest, 2)


def echo(number: int, data: bytes = b"", identifier: int = 7) -> bytes:
    return icmp(ECHO, 0, struct.pack(">HH", identifier, number) + data)


def udp(port: int, data: bytes = b"") -> bytes:
    """Returns a UDP datagram from port 4000. It has no checksum, which UDP permits."""
    return struct.pack(">HHHH", 4000, port, 8 + len(data), 0) + data


def source(datagram: bytes) -> bytes:
    return datagram[12:16]


def destination(datagram: bytes) -> bytes:
    return datagram[16:20]


def carried(datagram: bytes) -> bytes:
    """Returns what a datagram carries."""
    return datagram[datagram[0] % 16 * 4 : int.from_bytes(datagram[2:4], "big")]


def forwarded(datagram: bytes) -> bytes:
    """Returns the datagram as a router sends it on, with its time to live decremented."""
    length = datagram[0] % 16 * 4
    return with_sum(datagram[:8] + bytes([datagram[8] - 1]) + datagram[9:length], 10) + datagram[length:]


def echo_reply(request: bytes) -> bytes:
    """Returns the router's reply to an echo request.

    The reply keeps the type of service and the identification (RFC 1122, section 3.2.2.6).
    """
    message = icmp(ECHO_REPLY, 0, carried(request)[4:])
    return datagram_of(destination(request), source(request), ICMP, message, service=request[1], number=int.from_bytes(request[4:6], "big"))


def report(own: bytes, datagram: bytes, kind: int, code: int, further: bytes = bytes(4)) -> bytes:
    """Returns the router's report of an error about a datagram (RFC 792; RFC 1812, section 4.3)."""
    message = icmp(kind, code, further + datagram[:MAX_QUOTED])
    return datagram_of(own, source(datagram), ICMP, message, service=CONTROL | datagram[1] & LOWER, number=0)
