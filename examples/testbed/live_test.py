#!/usr/bin/env python3
"""Checks topologies that are left running: on one machine, and on two.

    live_test.py live PROGRAM RUN

run.sh --test starts it in new namespaces, with its own path as RUN. The two machines are network
namespaces with a cable (a pair of veth devices) between them. If none can be made, prints so.
"""

from __future__ import annotations

import os
import re
import signal
import subprocess
import sys
import tempfile

sys.dont_write_bytecode = True
HERE = os.path.dirname(os.path.realpath(__file__))
sys.path[1:1] = [f"{HERE}/../../tools", f"{HERE}/../../tools/lib"]
from bed import until
from linux_host import run
from sessions import Session
from trying import begun, fail, same

# The line of a router, and that of a host.
ROUTER = re.compile(r"router (\w+): nc 127\.0\.0\.1 (\d+),")
HOST = re.compile(r"host (\w+), (\S+): (.*) bash")
LAST = "running; Ctrl-C ends it"
# The namespaces of two machines, and their addresses in machines.topology.
MACHINES = {"one": "10.99.0.1", "two": "10.99.0.2"}


class Live:
    """A topology that run.sh leaves running, in a process group of its own."""

    def __init__(self, words: list[str], space: str = ""):
        self.out = tempfile.TemporaryFile("w+")
        inside = ["nsenter", f"--net=/run/netns/{space}"] if space else []
        self.process = subprocess.Popen([*inside, *words], stdin=subprocess.DEVNULL, stdout=self.out, stderr=self.out, start_new_session=True)
        until(lambda: LAST in self.text() or self.process.poll() is not None, f"this topology is running: {' '.join(words)}", 30)
        if self.process.poll() is not None:
            fail(f"this ended with status {self.process.returncode}: {' '.join(words)}", self.text())
        self.routers = [(match[1], int(match[2])) for line in self.text().splitlines() if (match := ROUTER.match(line))]
        self.hosts = {match[1]: (match[2], match[3]) for line in self.text().splitlines() if (match := HOST.match(line))}

    def text(self) -> str:
        return os.pread(self.out.fileno(), 1 << 20, 0).decode()

    def ping(self, host: str, address: str, seconds: int = 10) -> bool:
        """Returns whether a ping from a host is answered, by the command that is printed for it."""
        words = [*self.hosts[host][1].split(), sys.executable, f"{HERE}/probe.py", "ping", "-n", "-c", "1", "-i", "0.2", "-w", str(seconds), address]
        return subprocess.run(words, capture_output=True, check=False).returncode == 0


class Port:
    """What a session needs to know of a router."""

    def __init__(self, port: int):
        self.port = port


def programs() -> int:
    """Returns the number of processes of these namespaces that are routers or testbeds."""
    count = 0
    for number in filter(str.isdigit, os.listdir("/proc")):
        try:
            with open(f"/proc/{number}/cmdline", "rb") as it:
                words = it.read()
        except OSError:
            continue
        count += int(number) != os.getpid() and (b"--live" in words or b"testbed.py" in words)
    return count


def check_one_machine(script: str) -> None:
    """Checks sessions and pings of a topology that is left running, and its end by Ctrl-C and SIGTERM."""
    for number, to_group in ((signal.SIGINT, True), (signal.SIGTERM, False)):
        live = Live([script, "--keep", f"{HERE}/line.topology"])
        same([("a", 21000), ("b", 21001), ("c", 21002)], live.routers, "the routers that are printed, with their ports")
        for name, port in live.routers:
            session = Session(Port(port))
            same(f"// The router {name} of line.topology", session.read(b"config").decode().split(",")[0], f"the configuration at the control port of {name}")
            session.quit()
        same(["10.1.1.2", "10.1.2.2"], [address for address, _ in live.hosts.values()], "the addresses of the hosts that are printed")
        same(True, live.ping("left", "10.1.2.2"), "whether a ping from left to right is answered")
        same(False, live.ping("left", "10.1.9.9"), "whether a ping to a network that is not there is answered")
        same(True, programs() > 3, "whether routers are running")
        (os.killpg if to_group else os.kill)(live.process.pid, number)
        same(128 + number, live.process.wait(10), f"the status of a topology that signal {number} ends")
        until(lambda: programs() == 0, f"no process is left after signal {number}")
    print("a topology is left running: its routers and hosts are reached, and Ctrl-C and SIGTERM end it")


def check_two_topologies(script: str) -> None:
    """Checks that two topologies run on one machine at the same time."""
    lines = [Live([script, "--keep", f"{HERE}/line.topology"]) for _ in range(2)]
    same([21000, 23000], [it.routers[0][1] for it in lines], "the control ports of two routers a")
    same([True, True], [it.ping("right", "10.1.1.2") for it in lines], "whether pings in both topologies are answered")
    for it in lines:
        it.process.terminate()
        it.process.wait(10)
    print("two topologies run at the same time, on different ports")


def check_two_machines(script: str) -> None:
    """Checks a ping between two machines, each of which runs its part of a topology."""
    for name in MACHINES:
        run("ip", "netns", "add", name)
        run("ip", "-n", name, "link", "set", "lo", "up")
    cable = ["ip", "-n", "one", "link", "add", "cable", "type", "veth", "peer", "name", "cable", "netns", "two"]
    if subprocess.run(cable, capture_output=True, check=False).returncode:
        print("left out: two machines, because no veth devices are available")
        return
    for name, address in MACHINES.items():
        run("ip", "-n", name, "address", "add", f"{address}/24", "dev", "cable")
        run("ip", "-n", name, "link", "set", "cable", "up")
    one, two = (Live([script, "--machine", address, f"{HERE}/machines.topology"], name) for name, address in MACHINES.items())
    same((["left"], ["right"]), (list(one.hosts), list(two.hosts)), "the hosts of each machine")
    same((True, True), (one.ping("left", "10.1.2.2"), two.ping("right", "10.1.1.2")), "whether pings between two machines are answered")
    two.process.terminate()
    same(128 + signal.SIGTERM, two.process.wait(10), "the status of a machine that SIGTERM ends")
    same(False, one.ping("left", "10.1.2.2", 1), "whether a ping to a machine that ended is answered")
    one.process.terminate()
    one.process.wait(10)
    print("two machines: each runs its part of a topology, and pings between them are answered")


def main(words: list[str]) -> int:
    os.environ["PROGRAM"] = words[1]
    check_one_machine(words[2])
    check_two_topologies(words[2])
    check_two_machines(words[2])
    return 0


if __name__ == "__main__":
    begun(main)
