#!/usr/bin/env python3
"""Checks that the router serves sessions over TCP for a long time. No reply is lost when a session
ends, also if its client goes on sending. A client that keeps its session waiting is ended after
the time of --idle, and a slow one is not. A session goes on if the process is stopped and continued.
Peers are probed, so that TCP finds one that went away.
After 2,000 sessions that end in many ways the program has the memory, descriptors and threads that
it had after the first hundred. If the operator asks for it, a swap to smaller queues returns the
memory of the large ones.

    tools/service.py [CASE..]

The program must have been built. PROGRAM names another program to check. Each case starts the
program on a free port of 127.0.0.1 and ends within some ten seconds. A failure is printed, and ends
the script with status 1.
"""
from __future__ import annotations

import contextlib
import ctypes
import errno
import os
import re
import signal
import socket
import stat
import struct
import subprocess
import sys
import time
from typing import Callable, NamedTuple
from unittest.mock import patch

sys.dont_write_bytecode = True
sys.path.append(f"{os.path.dirname(os.path.realpath(__file__))}/lib")
from hostile import Listening, until
from programs import TOP, path_of
from sessions import GREETING, SECONDS, Session, Wrong, all_at_once

PROGRAM = path_of("click_prog")
TEXT = "Idle -> c :: Counter -> Discard;"
# A configuration whose text fills the buffers of a connection after some reads.
LONG_TEXT = f"{TEXT} // {'x' * 100_000}"
VALUE = b"200 Read handler 'c.count' OK\r\nDATA 1\r\n0"
GOODBYE = b"200 Goodbye!\r\n"
TOO_LONG = b"500 Data too long\r\n"
# A payload that is one byte too long, with its line.
LONG_WRITE = b"WRITEDATA hotconfig 1048577\n" + b"x" * 1_048_577
# The seconds of --idle, and the seconds that a busy machine may need in addition.
IDLE, SLACK = 1, 1.5
# The seconds for which an ended session waits until its client closes, and the number of bytes of
# the client that it discards. PIECE is the number of bytes that a client sends at a time.
DISCARD_SECONDS, DISCARD_BYTES, PIECE = 2, 2_097_152, 262_144
# The number of clients that quit before the process is stopped.
QUITTERS = 3
# The numbers of session slots, of sessions in the first wave, of all sessions, and of further waves.
SLOTS, FIRST, ALL, WAVES = 64, 100, 2000, 4
# The maximum growth of memory after the first wave, and over swaps of queues, in kB.
MAX_GROWTH_KB = 2048
# The options of TCP that find a peer that went away: their levels and names in Linux, and their
# values (docs/CONTROL.md). The times are in seconds.
KEEPALIVE = {
    "whether peers are probed": (socket.SOL_SOCKET, socket.SO_KEEPALIVE, 1),
    "the time before the first probe": (socket.IPPROTO_TCP, socket.TCP_KEEPIDLE, 60),
    "the time between probes": (socket.IPPROTO_TCP, socket.TCP_KEEPINTVL, 15),
    "the number of probes": (socket.IPPROTO_TCP, socket.TCP_KEEPCNT, 4),
}
# The number of the system call pidfd_getfd (Linux 5.6).
PIDFD_GETFD = 438
# The number of queues that are filled, their capacities, and the bytes that a packet of a queue
# takes (docs/CONTROL.md says about 1.7 kB).
FILLED, LARGE, SMALL, PLACE_BYTES = 8, 9_999, 10, 1_700
# The number of queues that stay empty, and of the swaps that change their capacities.
EMPTY, SWAPS = 64, 100


class Resources(NamedTuple):
    """The resources of a process; the memory is in kB."""

    memory: int
    descriptors: int
    threads: int


class Router(Listening):
    """A router that listens for a number of sessions, and is stopped at the end of a block."""

    def __init__(self, text: str, sessions: int, *options: str):
        super().__init__(PROGRAM, text, sessions, *options)

    def __enter__(self) -> Router:
        return self

    def __exit__(self, *_error: object) -> None:
        self.stop()

    def connect(self) -> socket.socket:
        """Returns a connection whose session may not have begun yet."""
        return socket.create_connection(("127.0.0.1", self.port), timeout=SECONDS)

    def serves_one(self) -> None:
        """Checks that the router serves a session, once it has a slot for it."""
        session = Session(self)
        same(b"0", session.read(b"c.count"), "READ c.count")
        session.quit()

    def resources(self) -> Resources:
        folder = f"/proc/{self.process.pid}"
        with open(f"{folder}/status", encoding="ascii") as rows:
            memory = next(int(row.split()[1]) for row in rows if row.startswith("VmRSS:"))
        return Resources(memory, len(os.listdir(f"{folder}/fd")), len(os.listdir(f"{folder}/task")))


class Live(Router):
    """A live router."""

    def __init__(self, slots: int, *options: str, text: str = TEXT):
        super().__init__(text, slots, "--live", *options)


def rest_of(peer: socket.socket) -> bytes:
    """Returns what comes until the router shuts down its side of the connection."""
    pieces = []
    while piece := peer.recv(65536):
        pieces.append(piece)
    return b"".join(pieces)


def same(wanted: bytes, came: bytes, what: str) -> None:
    if wanted != came:
        raise Wrong(f"{what}: wanted {len(wanted)} bytes that end with {wanted[-60:]!r}, came {len(came)} with {came[-60:]!r}")


def takes(least: float, most: float, what: str, work: Callable[[], None]) -> None:
    """Checks that the work takes this number of seconds, or up to SLACK more."""
    began = time.monotonic()
    work()
    seconds = time.monotonic() - began
    if not least <= seconds <= most + SLACK:
        raise Wrong(f"{what} took {seconds:.2f} s, and not {least} to {most + SLACK} s")


def replies() -> None:
    """Checks that no reply is lost if a session ends while bytes of its client are unread."""
    endings = {LONG_WRITE: TOO_LONG, b"QUIT\n" + b"READ c.count\n" * 20_000: GOODBYE}

    def talks() -> None:
        for sent, last in endings.items():
            for _ in range(10):
                with live.connect() as peer:
                    peer.sendall(b"READ c.count\n" * 3 + sent)
                    same(GREETING + VALUE * 3 + last, rest_of(peer), "a session that ends early")

    with Live(8) as live:
        all_at_once([talks] * 10)


def limits() -> None:
    """Checks that an ended session waits for its client for a bounded time and number of bytes."""
    with Live(1) as live:
        with live.connect() as stays:
            stays.sendall(b"QUIT\n")
            same(GREETING + GOODBYE, rest_of(stays), "QUIT")
            takes(DISCARD_SECONDS - SLACK, DISCARD_SECONDS, "the session after one that does not close", live.serves_one)
        with live.connect() as goes_on:
            goes_on.sendall(b"QUIT\n")
            same(GREETING + GOODBYE, rest_of(goes_on), "QUIT")
            sent, most = sent_until_refused(goes_on), DISCARD_BYTES + 3 * PIECE
            if not DISCARD_BYTES <= sent <= most:
                raise Wrong(f"a client could send {sent} bytes after QUIT, and not {DISCARD_BYTES} to {most}")
            takes(0, 1, "the session after one that goes on", live.serves_one)


def waiting_bytes(peer: socket.socket) -> int:
    """Returns how many bytes that the client sent are in the buffers of its connection."""
    ends = [f"{port:04X}" for _, port in (peer.getsockname(), peer.getpeername())]
    count = 0
    with open("/proc/net/tcp", encoding="ascii") as rows:
        for row in list(rows)[1:]:
            local, remote, queues = (row.split()[at].split(":") for at in (1, 2, 4))
            if [local[1], remote[1]] == ends:
                count += int(queues[0], 16)
            elif [remote[1], local[1]] == ends:
                count += int(queues[1], 16)
    return count


def sent_until_refused(peer: socket.socket) -> int:
    """Sends without end, and returns the number of bytes that were sent when the router refused.

    Each piece is sent only after the router took all of the one before.
    """
    sent = 0
    try:
        while True:
            sent += peer.send(b"x" * PIECE)
            until(lambda: waiting_bytes(peer) == 0, "the router does not take what a client sends")
    except (ConnectionResetError, BrokenPipeError):
        return sent
    except OSError as error:
        # The connection has no peer any more.
        if error.errno == errno.ENOTCONN:
            return sent
        raise


def silent() -> None:
    """Checks that clients that send nothing end, and that an operator is served then."""
    with Live(SLOTS, "--idle", str(IDLE)) as live:
        began = time.monotonic()
        peers = []
        for at in range(SLOTS):
            peers.append(Session(live).socket)
            # Half of them stay in a payload.
            if at % 2:
                peers[at].sendall(b"WRITEDATA hotconfig 100\nIdle")
        takes(0, IDLE, "the session of an operator", live.serves_one)
        if time.monotonic() < began + IDLE:
            raise Wrong("an operator was served while silent clients had all sessions")
        for peer in peers:
            same(b"", rest_of(peer), "a silent client")


def unread() -> None:
    """Checks that a client that takes none of its replies is ended."""
    with Live(1, "--idle", str(IDLE), text=LONG_TEXT) as live, live.connect() as peer:
        peer.settimeout(IDLE / 2)
        try:
            while True:
                peer.sendall(b"READ config\n" * 100)
        except (TimeoutError, ConnectionResetError, BrokenPipeError):
            pass  # the router waits until the client takes its replies, or has ended the session
        # A write of which a part was taken is continued by another one, so the limit applies twice.
        takes(0, 2 * IDLE, "the session after a client that never reads", live.serves_one)


def slow() -> None:
    """Checks that clients that are slow, but within a limit of two seconds, are served to the end."""
    pause = 0.5

    def sends_slowly() -> None:
        with live.connect() as peer:
            for byte in b"READ c.c":
                peer.sendall(bytes([byte]))
                time.sleep(pause)
            peer.sendall(b"ount\nQUIT\n")
            same(GREETING + VALUE + GOODBYE, rest_of(peer), "a client that sends slowly")

    def reads_slowly() -> None:
        count, value = 100, b"200 Read handler 'config' OK\r\nDATA %d\r\n%s" % (len(LONG_TEXT), LONG_TEXT.encode())
        wanted, came = GREETING + value * count + GOODBYE, b""
        with live.connect() as peer:
            peer.sendall(b"READ config\n" * count + b"QUIT\n")
            for _ in range(8):
                time.sleep(pause)
                came += peer.recv(300_000)
            same(wanted, came + rest_of(peer), "a client that reads slowly")

    with Live(2, "--idle", "2", text=LONG_TEXT) as live:
        all_at_once([sends_slowly, reads_slowly])


def pause(live: Live, times: int) -> None:
    """Stops the process and continues it, `times` times."""
    for number in (signal.SIGSTOP, signal.SIGCONT) * times:
        time.sleep(0.1)
        live.process.send_signal(number)
    time.sleep(0.1)


def stopped() -> None:
    """Checks that sessions go on where they waited when the process is stopped and continued.

    Linux interrupts a read or a write with a time limit then (signal(7)).
    """
    count, value = 100, b"200 Read handler 'config' OK\r\nDATA %d\r\n%s" % (len(LONG_TEXT), LONG_TEXT.encode())
    with Live(2, text=LONG_TEXT) as live:
        with live.connect() as silent_one, live.connect() as reader:
            # Its buffers hold less than all replies, so a write of the router blocks.
            reader.setsockopt(socket.SOL_SOCKET, socket.SO_RCVBUF, 65536)
            reader.sendall(b"READ config\n" * count + b"QUIT\n")
            # The first time may end a write that took a part of its bytes.
            pause(live, 4)
            silent_one.sendall(b"READ c.count\nQUIT\n")
            same(GREETING + VALUE + GOODBYE, rest_of(silent_one), "a client that was silent")
            same(GREETING + value * count + GOODBYE, rest_of(reader), "a client that reads late")
        # A loaded machine may stop the process before the router discards, so several clients quit.
        for _ in range(QUITTERS):
            with live.connect() as leaver:
                leaver.sendall(b"QUIT\n")
                same(GREETING + GOODBYE, rest_of(leaver), "a client that quits")
                pause(live, 1)
                # The router still discards what the client sends, and does not reset the connection.
                for _ in range(2):
                    leaver.sendall(b"READ c.count\n")
                    time.sleep(0.1)


def unlimited() -> None:
    """Checks that with --idle 0, and without --live, a silent client is not ended."""
    with Live(1, "--idle", "0") as live, Router(TEXT, 1) as books:
        sessions = [Session(live), Session(books)]
        time.sleep(3 * IDLE)
        for session in sessions:
            same(b"0", session.read(b"c.count"), "a client that was silent")
            session.quit()


def talks_as(live: Router, nth: int) -> None:
    """Begins a session and ends it in one of six ways, of which the last one has 5 to 9 reads."""
    way = nth % 10
    with live.connect() as peer:
        if way == 0:
            same(GREETING, rest_of(peer), "a silent client")
        elif way == 1:
            peer.sendall(b"WRITEDATA hotconfig 100\nIdle")
        elif way == 2:
            # Closes with a reset.
            peer.setsockopt(socket.SOL_SOCKET, socket.SO_LINGER, struct.pack("ii", 1, 0))
        elif way == 3:
            peer.sendall(LONG_WRITE)
            same(GREETING + TOO_LONG, rest_of(peer), "a payload that is too long")
        elif way == 4:
            peer.sendall(b"WRITEDATA hotconfig %d\n%sQUIT\n" % (len(TEXT), TEXT.encode()))
            same(GREETING + b"200 Write handler 'hotconfig' OK\r\n" + GOODBYE, rest_of(peer), "a swap")
        else:
            peer.sendall(b"READ c.count\n" * way + b"QUIT\nREAD c.count\n")
            same(GREETING + VALUE * way + GOODBYE, rest_of(peer), "a session that ends early")


def many() -> None:
    """Checks that sessions that have ended leave no memory, descriptor or thread behind."""
    with Live(SLOTS, "--idle", str(IDLE)) as live:
        descriptors = live.resources().descriptors

        def wave(count: int) -> Resources:
            parts = [lambda at=at: [talks_as(live, nth) for nth in range(at, count, SLOTS)] for at in range(SLOTS)]
            all_at_once(parts)
            until(lambda: live.resources().descriptors == descriptors, f"{count} sessions leave descriptors behind")
            return live.resources()

        first = last = wave(FIRST)
        for _ in range(WAVES):
            last = wave((ALL - FIRST) // WAVES)
    if last.threads != first.threads:
        raise Wrong(f"threads after {FIRST} sessions: {first}; after {ALL}: {last}")
    if last.memory > first.memory + MAX_GROWTH_KB:
        raise Wrong(f"memory after {FIRST} sessions: {first}; after {ALL}: {last}")


def keepalive() -> None:
    """Checks the options that find a client that went away, at the connection of a session."""
    for options in ([], ["--live", "--idle", "0"]):
        with Router(TEXT, 1, *options) as router, router.connect() as peer:
            same(GREETING, peer.recv(len(GREETING)), "the greeting")
            with connection_of(router.process.pid, peer) as connection:
                for what, (level, name, wanted) in KEEPALIVE.items():
                    came = connection.getsockopt(level, name)
                    if came != wanted:
                        raise Wrong(f"{what}: wanted {wanted}, came {came}")


def connection_of(process: int, peer: socket.socket) -> socket.socket:
    """Returns a copy of the socket by which a process is connected with this peer."""
    system, handle = ctypes.CDLL(None, use_errno=True), os.pidfd_open(process)
    try:
        for name in os.listdir(f"/proc/{process}/fd"):
            copy = system.syscall(PIDFD_GETFD, handle, int(name), 0)
            if copy < 0:
                raise OSError(ctypes.get_errno(), "the descriptors of the program cannot be copied")
            if not stat.S_ISSOCK(os.fstat(copy).st_mode):
                os.close(copy)
                continue
            found = socket.socket(fileno=copy)
            with contextlib.suppress(OSError):
                if found.getpeername() == peer.getsockname():
                    return found
            found.close()
    finally:
        os.close(handle)
    raise Wrong("the program has no connection with the client")


def returning_variable() -> dict[str, str]:
    """Returns the variable that returns memory, as OPERATING.md gives it."""
    with open(f"{TOP}/docs/OPERATING.md", encoding="utf-8") as it:
        found = re.search(r"^A line `(MALLOC_MMAP_THRESHOLD_)=(\d+)` in NAME.conf", it.read(), re.M)
    if not found:
        raise Wrong("docs/OPERATING.md names no MALLOC_MMAP_THRESHOLD_")
    return {found[1]: found[2]}


def queues_of(capacities: list[int], packets: int) -> str:
    """Returns queues of these capacities, each with its own packets, which stay in it."""
    row = "InfiniteSource(ab, {}, 64) -> q{} :: Queue({}) -> PullSwitch(-1) -> Unqueue -> Discard;"
    return "".join(row.format(packets, at, capacity) for at, capacity in enumerate(capacities))


def swap_to(session: Session, text: str) -> None:
    number, lines, _ = session.write(b"hotconfig", text.encode())
    if number != 200:
        raise Wrong(f"a swap: {lines!r}")


def queues() -> None:
    """Checks that a swap to smaller queues returns the memory of the large ones, full or empty."""
    small, large = (queues_of([capacity] * FILLED, 2 * LARGE) for capacity in (SMALL, LARGE))

    def fills(capacity: int) -> int:
        for at in range(FILLED):
            until(lambda at=at: session.read(b"q%d.length" % at) == b"%d" % capacity, f"q{at} does not fill")
        return live.resources().memory

    with patch.dict(os.environ, returning_variable()):
        live = Live(1, "-w", "1", text=small)
    with live:
        session = Session(live)
        before, needed = fills(SMALL), FILLED * LARGE * PLACE_BYTES // 1024
        for _ in range(3):
            swap_to(session, large)
            grown = fills(LARGE) - before
            if not 0.9 * needed < grown < 1.1 * needed:
                raise Wrong(f"full queues took {grown} kB, and not about {needed} kB")
            swap_to(session, small)
            fills(SMALL)
            until(lambda: live.resources().memory <= before + MAX_GROWTH_KB, f"a swap to small queues does not return the memory of {grown} kB")
        for at in range(SWAPS):
            swap_to(session, queues_of([100 + (at * 7919 + nth * 104729) % 9900 for nth in range(EMPTY)], 0))
        after = live.resources().memory
        if after > before + MAX_GROWTH_KB:
            raise Wrong(f"{SWAPS} swaps of empty queues took {after - before} kB")


CASES = {case.__name__: case for case in (replies, limits, silent, unread, slow, stopped, unlimited, keepalive, many, queues)}


def main(words: list[str]) -> int:
    if not os.access(PROGRAM, os.X_OK):
        print(f"service.py: there is no {PROGRAM}: ./test.sh builds it, and so does rt run in its crate's folder", file=sys.stderr)
        return 1
    for name in words or CASES:
        try:
            CASES[name]()
        except (Wrong, OSError, AttributeError, ValueError, subprocess.TimeoutExpired) as error:
            print(f"service.py: {name}: {error}", file=sys.stderr)
            return 1
    print(f"sessions of a service: {', '.join(words or CASES)}: passed")
    return 0


if __name__ == "__main__":
    sys.exit(main(sys.argv[1:]))
