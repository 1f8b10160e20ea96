#!/usr/bin/env python3
"""Measures the memory of a router over swaps that change the capacities of queues, the processor
time of such swaps, and the packets that are lost meanwhile.

    bench/swap/memory.py [full|empty|time|packets ..]

Each measurement is made twice: as the C library decides which blocks it takes from the system, and
as it does with the variable that docs/OPERATING.md names. `full` makes 24 swaps of 64 full queues, and `empty` 2,000
swaps of 64 empty ones. Four sessions make them in turn. `time` makes 200 swaps of a queue with
5,000 packets, and of an empty one, between the capacities 5,000 and 9,999. `packets` sends 50,000 datagrams of 64
bytes, 10,000 per second, over two links next to 0, 1 and 8 full queues. Every 50 ms a swap changes
the capacities of all queues between 5,000 and 9,999.

The program must have been built. PROGRAM names another one.
"""

from __future__ import annotations

import os
import random
import socket
import sys
import threading
import time
from contextlib import ExitStack
from unittest.mock import patch

sys.dont_write_bytecode = True
TOP = os.path.dirname(os.path.dirname(os.path.dirname(os.path.realpath(__file__))))
sys.path[1:1] = [f"{TOP}/tools", f"{TOP}/tools/lib"]
from hostile import until
from service import LARGE, Live, queues_of, returning_variable, swap_to
from sessions import Session

QUEUES, SESSIONS = 64, 4
# The number of packets that enter each full queue.
PACKETS = 2 * LARGE
DATAGRAMS, PER_SECOND, DATAGRAM = 50_000, 10_000, b"x" * 64


def wait_until_full(session: Session, capacities: list[int]) -> None:
    for at, capacity in enumerate(capacities):
        until(lambda at=at, capacity=capacity: session.read(b"q%d.length" % at) == b"%d" % capacity, f"q{at} does not fill", 120)


def peak(live: Live) -> int:
    """Returns the greatest memory so far, in kB."""
    with open(f"/proc/{live.process.pid}/status", encoding="ascii") as rows:
        return next(int(row.split()[1]) for row in rows if row.startswith("VmHWM:"))


def swapped(session: Session, text: str) -> float:
    """Makes a swap and returns how long it took."""
    began = time.monotonic()
    swap_to(session, text)
    return time.monotonic() - began


def grows(swaps: int, packets: int) -> None:
    """Prints the memory before, during and after swaps among capacities of 100 to 9,999."""
    draw, capacities, seconds = random.Random(7), [LARGE] * QUEUES, []
    with Live(SESSIONS, "-w", "1", text=queues_of(capacities, packets)) as live:
        sessions = [Session(live) for _ in range(SESSIONS)]
        for at in range(swaps + 1):
            if at:
                capacities = [draw.randint(100, LARGE) for _ in capacities]
                seconds.append(swapped(sessions[at % SESSIONS], queues_of(capacities, packets)))
            if packets:
                wait_until_full(sessions[0], capacities)
            if not at:
                first = live.resources().memory
        last, most = live.resources().memory, peak(live)
        swap_to(sessions[0], queues_of([10] * QUEUES, packets))
        time.sleep(0.5)
        print(f"    {first} kB at first, {last} after {swaps} swaps, {most} at most, {live.resources().memory} with capacities of 10; a swap took {sum(seconds) / swaps:.4f} s, at most {max(seconds):.4f}")


def processor_seconds(live: Live) -> float:
    with open(f"/proc/{live.process.pid}/stat", encoding="ascii") as it:
        fields = it.read().rsplit(")", 1)[1].split()
    return (int(fields[11]) + int(fields[12])) / os.sysconf("SC_CLK_TCK")


def spends(packets: int) -> None:
    """Prints the processor time of a swap that changes the capacity of a queue with these packets."""
    with Live(1, "-w", "1", text=queues_of([LARGE], packets)) as live:
        session = Session(live)
        wait_until_full(session, [packets])
        # A source that has ended does not fill the queue again.
        swaps = [queues_of([capacity], 0) for capacity in (5_000, LARGE)]
        began = processor_seconds(live)
        for at in range(200):
            swap_to(session, swaps[at % 2])
        print(f"    {packets} packets: {(processor_seconds(live) - began) / 200 * 1000:.2f} ms of the processor for a swap")
        wait_until_full(session, [packets])


def text_with_links(full: int, capacity: int) -> str:
    return f"FromDevice(a) -> q :: Queue({capacity}) -> ToDevice(b); FromDevice(b) -> Discard; {queues_of([capacity] * full, PACKETS)}"


def loses(full: int) -> None:
    """Prints how many datagrams are lost over swaps, with this number of full queues."""
    with ExitStack() as all_of_them:
        left, right, here, there = (all_of_them.enter_context(socket.socket(socket.AF_INET, socket.SOCK_DGRAM)) for _ in range(4))
        for it in (left, right, here, there):
            it.bind(("127.0.0.1", 0))
        to = here.getsockname()
        links = [f"a={to[1]},{left.getsockname()[1]}", f"b={there.getsockname()[1]},{right.getsockname()[1]}"]
        here.close(), there.close()
        right.setsockopt(socket.SOL_SOCKET, socket.SO_RCVBUF, 1 << 22)
        right.settimeout(2)
        live = all_of_them.enter_context(Live(2, "-w", "1", "--link", links[0], "--link", links[1], text=text_with_links(full, LARGE)))
        wait_until_full(Session(live), [LARGE] * full)
        came, seconds, is_over = [0], [], threading.Event()

        def receives() -> None:
            try:
                while right.recv(2048):
                    came[0] += 1
            except TimeoutError:
                pass

        def swaps() -> None:
            session = Session(live)
            while not is_over.wait(0.05):
                seconds.append(swapped(session, text_with_links(full, LARGE if len(seconds) % 2 else 5_000)))

        threads = [threading.Thread(target=it) for it in (receives, swaps)]
        for it in threads:
            it.start()
        began = time.monotonic()
        for at in range(DATAGRAMS):
            left.sendto(DATAGRAM, to)
            if at % 20 == 0:
                time.sleep(max(0.0, began + at / PER_SECOND - time.monotonic()))
        is_over.set()
        for it in threads:
            it.join()
        print(f"    {full} full queues: {DATAGRAMS - came[0]} of {DATAGRAMS} lost; {len(seconds)} swaps took {sum(seconds) / len(seconds):.4f} s, at most {max(seconds):.4f}")


def main(words: list[str]) -> None:
    for name in words or ("full", "empty", "time", "packets"):
        for variables in ({}, returning_variable()):
            print(f"{name}, with {variables or 'the defaults of the C library'}", flush=True)
            with patch.dict(os.environ, variables):
                if name == "packets":
                    for full in (0, 1, 8) * 3:
                        loses(full)
                elif name == "time":
                    for packets in (0, 5_000) * 3:
                        spends(packets)
                else:
                    grows(*((24, PACKETS) if name == "full" else (2000, 0)))


if __name__ == "__main__":
    main(sys.argv[1:])
