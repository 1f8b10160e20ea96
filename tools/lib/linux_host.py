"""Defines Linux hosts for the examples: network namespaces, each with a TUN or TAP device whose
packets are the datagrams of a link.

The script that uses them runs in a mount namespace of its own, where `ip netns` may write below
/run.
"""

from __future__ import annotations

import contextlib
import ctypes
import fcntl
import os
import socket
import struct
import subprocess
import sys
import threading
from typing import Callable, Iterator

sys.path.append(os.path.dirname(os.path.realpath(__file__)))
from trying import fail

# The maximum number of seconds until something that is expected has come.
SECONDS = int(os.environ.get("SECONDS_TO_WAIT", "10"))
# The kinds of devices: bare IP packets, and Ethernet frames.
TUN, TAP = 1, 2
# Constants of Linux that Python does not name.
CLONE_NEWNET, TUNSETIFF, IFF_NO_PI = 0x40000000, 0x400454CA, 0x1000
LIBC = ctypes.CDLL(None, use_errno=True)

# An IPv4 address and a UDP port.
Address = tuple[str, int]


def run(*words: str) -> str:
    """Runs a command, which has to succeed, and returns its output."""
    did = subprocess.run(words, stdout=subprocess.PIPE, stderr=subprocess.STDOUT, check=False)
    if did.returncode:
        fail(f"status {did.returncode} of: {' '.join(words)}", did.stdout.decode().strip())
    return did.stdout.decode()


def enter(space: int) -> None:
    """Moves this thread into a network namespace."""
    if LIBC.setns(space, CLONE_NEWNET):
        raise OSError(ctypes.get_errno(), "setns")


class LinuxHost:
    """A network namespace with a device, which is connected to a link of a router.

    The device has the name of the host and no address. `here` is the address of the link's
    datagrams at the host, and `there` at the router. Nothing is carried before `carry_all`.
    """

    def __init__(self, name: str, kind: int, here: Address, there: Address):
        self.name = name
        self.home = os.open("/proc/self/ns/net", os.O_RDONLY)
        run("ip", "netns", "add", name)
        self.space = os.open(f"/run/netns/{name}", os.O_RDONLY)
        with self.inside():
            self.device = os.open("/dev/net/tun", os.O_RDWR)
            fcntl.ioctl(self.device, TUNSETIFF, struct.pack("16sH22x", name.encode(), kind | IFF_NO_PI))
        self.link = socket.socket(socket.AF_INET, socket.SOCK_DGRAM)
        self.link.setsockopt(socket.SOL_SOCKET, socket.SO_RCVBUF, 1 << 22)
        self.link.bind(here)
        self.link.connect(there)
        self.set_parameter("ipv6/conf/all/disable_ipv6", 1)

    def configure(self, *words: str) -> str:
        """Runs a command of ip in the host's namespace, and returns its output."""
        return run("ip", "-n", self.name, *words)

    def set_parameter(self, name: str, value: int) -> None:
        """Sets a parameter of the host's kernel. One that this kernel does not have is left out."""
        with self.inside(), contextlib.suppress(FileNotFoundError), open(f"/proc/sys/net/{name}", "w", encoding="ascii") as it:
            it.write(str(value))

    @contextlib.contextmanager
    def inside(self) -> Iterator[None]:
        """Lets this thread act in the host's namespace: a socket that it opens there stays there."""
        enter(self.space)
        try:
            yield
        finally:
            enter(self.home)

    def open(self, *kinds: int) -> socket.socket:
        """Returns a socket of the host."""
        with self.inside():
            it = socket.socket(*kinds)
        it.settimeout(SECONDS)
        return it

    def carry_all(self) -> list[threading.Thread]:
        """Starts two threads that carry packets between the device and the link, and returns them."""
        threads = [threading.Thread(target=work, daemon=True) for work in (self.carry_out, self.carry_in)]
        for it in threads:
            it.start()
        return threads

    def carry_out(self) -> None:
        """Carries the packets that the host sends to the link of the router."""
        while True:
            self.carry(True, os.read(self.device, 2048), self.link.send)

    def carry_in(self) -> None:
        """Carries the packets of the link to the host."""
        while True:
            with contextlib.suppress(ConnectionRefusedError):
                self.carry(False, self.link.recv(2048), lambda data: os.write(self.device, data))

    def carry(self, is_sent: bool, data: bytes, to: Callable[[bytes], int]) -> None:
        """Carries a packet on. One that is lost is seen in the counts of the link."""
        del is_sent
        with contextlib.suppress(OSError):
            to(data)

    def end(self) -> None:
        """Removes the device and the namespace. No thread may carry packets any more."""
        for it in (self.device, self.space, self.home):
            os.close(it)
        self.link.close()
        run("ip", "netns", "delete", self.name)
