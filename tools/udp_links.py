#!/usr/bin/env python3
"""Checks links from outside, with plain UDP sockets. Of 200,000 packets, half in each direction,
each comes out exactly once and in order, or is counted as dropped. Other cases have datagrams of
all lengths and from other senders, links at 127.0.0.2, an endless source and a missing peer. There
are also isolated packets, which are carried at once, a swap that removes a device, a flood, and an
idle router. Runs end with full feeds, with packets that come last and while packets come without a
pause, and go on without memory for packets. A receiver ends if its socket fails. The counts are
printed every second, even if no process reads them.

    tools/udp_links.py [CASE..]

The program must have been built. PROGRAM names another program to check, and PACKETS another number
of packets than 200,000. Each case starts the program on free ports of 127.0.0.1 and ends within
some 12 seconds. A failure is printed, and ends the script with status 1.

Three cases preload a library into the program, which the C compiler cc makes. The case `blocked`
runs in a network namespace of its own, and is left out if none with veth is available.

The program is not to blame for datagrams that the kernel drops when a socket's buffer is full. The
kernel counts them for each socket, and the checks add this count.
"""
import fcntl
import multiprocessing
import os
import re
import signal
import socket
import statistics
import struct
import subprocess
import sys
import tempfile
import threading
import time
from collections import namedtuple

sys.dont_write_bytecode = True
sys.path.append(f"{os.path.dirname(os.path.realpath(__file__))}/lib")
from hostile import Pipes, listeners, until
from programs import path_of
from sessions import GREETING, SECONDS, Session, Wrong, free_port

PROGRAM = path_of("click_prog")
HOST = "127.0.0.1"
# Another address of this host, for links and peers.
OTHER = "127.0.0.2"
# The maximum number of bytes of a packet, and of packets in a feed.
LONGEST, PLACES = 1600, 1024
# The minimum number of reads that a session gets answered during a flood of three seconds, and the
# maximum seconds that a read takes. Each call of the forwarder holds the router for milliseconds,
# but the forwarder yields to waiting threads first.
FEWEST_READS, LONGEST_WAIT = 50, 2
# The maximum number of seconds until the program ends while it has an endless source.
LONGEST_END = 5
# The maximum number of seconds that peers take for all their packets, on a busy machine.
LONGEST_WORK = 120
# The number of isolated packets, the seconds between two of them, and the limit of their median time
# in seconds. A busy machine delays packets, and so a higher median is measured again, up to TRIES.
ISOLATED, INTERVAL, MAX_MEDIAN, TRIES = 60, 0.03, 0.009, 5
# The number of seconds without a packet after which no more packets are expected.
QUIET = 5
# The maximum number of packets on their way in each direction: fewer than a feed, a queue of the
# text and a socket's buffer hold.
WINDOW = 100
FORK = multiprocessing.get_context("fork")

Counts = namedtuple("Counts", "received elsewhere long room memory entered sent failed")
LINE = re.compile(
    rb"link (\S+): received (\d+), from elsewhere (\d+), too long (\d+), no room (\d+), no memory (\d+), entered (\d+), sent (\d+), failed (\d+)\n"
)


def same(wanted, came, what):
    """Checks that two values are equal."""
    if wanted != came:
        raise Wrong(f"{what}: wanted {wanted!r:.400}, came {came!r:.400}")


def bound(port=0, host=HOST):
    """Returns a UDP socket with a receive buffer of 4 MB, or as much of it as the system allows."""
    it = socket.socket(socket.AF_INET, socket.SOCK_DGRAM)
    it.setsockopt(socket.SOL_SOCKET, socket.SO_RCVBUF, 1 << 22)
    it.bind((host, port))
    it.settimeout(SECONDS)
    return it


def udp_row(port, host=HOST):
    """Returns the kernel's row about the UDP socket of this port, or None if there is none."""
    address = int.from_bytes(socket.inet_aton(host), "little")
    with open("/proc/net/udp", encoding="ascii") as rows:
        return next((row.split() for row in rows if row.split()[1] == f"{address:08X}:{port:04X}"), None)


def lost_at(port):
    """Returns the number of datagrams that the kernel dropped because this socket was full."""
    return int(udp_row(port)[12])


def is_heard(link):
    """Returns whether no datagram waits at this link's socket."""
    return udp_row(link.here, link.host)[4].endswith(":00000000")


class Link:
    """A link of the program: a device, the local port of the program, and a socket for the peer.

    Both are at one address. If `is_open` is false, no socket is open at the peer's port. `there`
    names another address for the peer.
    """

    def __init__(self, device, there=None, is_open=True, host=HOST):
        free = bound(host=host)
        self.device, self.host, self.here = device, host, free.getsockname()[1]
        self.socket = bound(host=host)
        self.port = self.socket.getsockname()[1]
        self.there = there or self.place(self.port)
        free.close()
        if not is_open:
            self.socket.close()

    def place(self, port):
        """Returns a port as an option names it: alone for 127.0.0.1, else with its address."""
        return str(port) if self.host == HOST else f"{self.host}:{port}"

    def word(self):
        """Returns the argument of the option --link."""
        return f"{self.device}={self.place(self.here)},{self.there}"

    def give(self, packet):
        """Sends a datagram to the link."""
        self.socket.sendto(packet, (self.host, self.here))

    def take(self):
        """Receives a datagram from the link and checks where it comes from."""
        packet, sender = self.socket.recvfrom(65536)
        same((self.host, self.here), sender, f"where a datagram of {self.device} comes from")
        return packet


class Talk(Session):
    """A control session over pipes or a socket, with a program that is running."""

    def __init__(self, stream):
        self.socket, self.rest = stream, b""
        same(GREETING, self.line(), "the greeting")

    def swap(self, text):
        same(200, self.write(b"hotconfig", text.encode())[0], f"a swap to {text}")


class PortTaken(Wrong):
    """The program ended before it listened, most likely because another process took a free port."""


class Router:
    """The program with these links and a session.

    With a port the session is over TCP. Otherwise it is on standard input and output, and the
    program ends with it.
    """

    def __init__(self, text, links, *options, port=None, said=subprocess.PIPE, env=None):
        words = [PROGRAM, "--live", "-e", text, *options]
        for link in links:
            words += ["--link", link.word()]
        if port:
            words += ["-p", str(port), "-n", "4"]
        self.links = links
        self.process = subprocess.Popen(words, stdin=subprocess.PIPE, stdout=subprocess.PIPE, stderr=said, env=env)
        try:
            if port:
                until(lambda: listeners(port) or self.process.poll() is not None, "the program does not listen")
                if self.process.poll() is not None:
                    raise PortTaken(f"the program ended with status {self.process.returncode} before it listened at port {port}")
                self.session = Talk(socket.create_connection((HOST, port), timeout=SECONDS))
            else:
                self.session = self.piped()
            until(lambda: all(udp_row(it.here, it.host) for it in links), "a link has no socket")
        except BaseException:
            self.stop()
            raise

    def piped(self):
        """Returns the session on standard input and output."""
        try:
            return Talk(Pipes(self.process))
        except Wrong as error:
            if self.process.wait(SECONDS) == 4:
                raise PortTaken(f"{error}, and the program has status 4") from error
            raise

    def __enter__(self):
        return self

    def __exit__(self, *_):
        self.stop()

    def stop(self):
        self.process.kill()
        for pipe in (self.process.stdin, self.process.stdout, self.process.stderr):
            if pipe:
                pipe.close()
        self.process.wait()

    def is_idle(self, what):
        """Checks that the program uses at most 0.2 s of processor time in one second."""

        def ticks():
            with open(f"/proc/{self.process.pid}/stat", encoding="ascii") as row:
                return sum(map(int, row.read().rsplit(")", 1)[1].split()[11:13]))

        time.sleep(0.2)
        before = ticks()
        time.sleep(1)
        took = (ticks() - before) / os.sysconf("SC_CLK_TCK")
        if took > 0.2:
            raise Wrong(f"in an idle second {what} the program used {took} s of processor time")

    def ends(self):
        """Ends the session on standard input, and so the program. Returns the counts of each link.

        Checks that they are all that the program prints.
        """
        until(lambda: all(is_heard(it) for it in self.links), "a link does not read its datagrams")
        return self.ends_now(b"QUIT\n")

    def ends_now(self, sent, late=lambda: None):
        """Ends the session by these bytes, which are swaps and QUIT, and calls `late`.

        Returns the counts of each link, as `ends` does.
        """
        self.session.socket.sendall(sent)
        late()
        try:
            out, said = self.process.communicate(timeout=SECONDS)
        except subprocess.TimeoutExpired:
            raise Wrong("the program does not end with its session")
        replies = b"200 Write handler 'hotconfig' OK\r\n" * sent.count(b"WRITEDATA hotconfig") + b"200 Goodbye!\r\n"
        same((replies, 0), (self.session.rest + out, self.process.returncode), "the end, and its status")
        tellings = tellings_of(said, self.links)
        same(1, len(tellings), "how many times the program prints its counts")
        return tellings[0]


def tellings_of(said, links):
    """Returns the counts of each link, for each time that the program printed them.

    Checks that the program printed one line for each link, in order, and nothing else.
    """
    same([], [it for it in said.splitlines(True) if not LINE.fullmatch(it)], "lines of standard error that are not counts of a link")
    rows = [LINE.fullmatch(it).groups() for it in said.splitlines(True)]
    same([it.device.encode() for it in links] * (len(rows) // len(links)), [row[0] for row in rows], "the devices of the lines")
    counts = [Counts(*map(int, row[1:])) for row in rows]
    return [counts[at:at + len(links)] for at in range(0, len(counts), len(links))]


def entering(count, sent=0):
    """Returns the counts of a link that received `count` packets, all of which entered."""
    return Counts(count, 0, 0, 0, 0, count, sent, 0)


def leaving(sent, failed=0):
    """Returns the counts of a link that received nothing."""
    return Counts(0, 0, 0, 0, 0, 0, sent, failed)


def adds_up(counts):
    """Checks that each received datagram entered or is counted as dropped."""
    same(counts.received, counts.elsewhere + counts.long + counts.room + counts.memory + counts.entered, f"received, against dropped and entered, in {counts}")


def at_once(*works):
    """Runs each of these in its own process, in parallel, and returns their results."""

    def run(work, answers):
        try:
            answers.send((True, work()))
        except Exception as error:
            answers.send((False, f"{type(error).__name__}: {error}"))

    ends, started = time.monotonic() + LONGEST_WORK, []
    for work in works:
        ours, theirs = FORK.Pipe(False)
        process = FORK.Process(target=run, args=(work, theirs), daemon=True)
        process.start()
        started.append((process, ours))
    try:
        found = []
        for _, answers in started:
            if not answers.poll(max(0, ends - time.monotonic())):
                raise Wrong("a peer does not end")
            is_good, answer = answers.recv()
            if not is_good:
                raise Wrong(answer)
            found.append(answer)
        return found
    finally:
        for process, _ in started:
            process.kill()
            process.join()


# Packets that identify themselves


def packet_of(way, number):
    """Returns the packet of this direction and number: 12 to 99 bytes, which depend on both."""
    return struct.pack(">4sQ", way.encode().ljust(4), number) + bytes((number + at) % 256 for at in range(number % 88))


def gives_all(link, way, count, rate, reached=None):
    """Sends `count` packets at no more than this rate per second. Returns the seconds that it took.

    If given, `reached` holds the number of the last packet that the receiver got. At most WINDOW
    packets are then on their way, so that a busy machine slows the test down and loses no packets.
    If the receiver gets nothing for a second, the packets on their way are lost, and the next window
    begins.
    """
    packets, began, passed = [packet_of(way, it) for it in range(count)], time.monotonic(), 0
    for number, packet in enumerate(packets):
        early = began + number / rate - time.monotonic()
        if early > 0.001:
            time.sleep(early)
        waits_until = time.monotonic() + 1
        while reached and number - max(passed, reached.value) > WINDOW:
            if time.monotonic() > waits_until:
                passed = number
            time.sleep(0.0005)
        link.give(packet)
    return time.monotonic() - began


def takes_all(link, way, count, reached=None):
    """Receives packets until no more come, and returns their number.

    Checks that each packet is unchanged, that none comes twice, and that they come in order.
    Stores the number of the last packet in `reached`, if given.
    """
    # The sender first makes all packets, which takes long if the processors are busy.
    link.socket.settimeout(SECONDS)
    came, next_one = 0, 0
    try:
        while next_one < count:
            packet = link.take()
            if not came:
                link.socket.settimeout(QUIET)
            number = struct.unpack(">4sQ", packet[:12])[1] if len(packet) >= 12 else -1
            if number < next_one or packet != packet_of(way, number):
                raise Wrong(f"{way}: {packet!r} came, but packet {next_one} or a later one was expected")
            came, next_one = came + 1, number + 1
            if reached:
                reached.value = number
    except TimeoutError:
        pass
    return came


def gives_heard(link, packets):
    """Sends packets, and waits after every 50 and the last one until the program has read them."""
    count = len(packets)
    for number, packet in enumerate(packets):
        link.give(packet)
        if number % 50 == 49 or number == count - 1:
            until(lambda: is_heard(link), "a link does not read its datagrams")


def is_carried(source, sink, numbers, way="one"):
    """Sends packets one at a time, and checks that each comes out."""
    for number in numbers:
        source.give(packet_of(way, number))
        same(packet_of(way, number), sink.take(), f"packet {number} of those that are sent one at a time")


PLAIN = "FromDevice(a) -> c :: Counter -> q :: Queue(1000) -> ToDevice(b);"


# Cases


def carrying():
    """Checks 200,000 packets, half in each direction, at up to 10,000 per second and direction.

    Each packet comes out exactly once and in order, or is in exactly one count.
    """
    text = "FromDevice(a) -> ca :: Counter -> qb :: Queue(1000) -> ToDevice(b); FromDevice(b) -> cb :: Counter -> qa :: Queue(1000) -> ToDevice(a);"
    a, b, count, rate = Link("a"), Link("b"), int(os.environ.get("PACKETS", "200000")) // 2, 10_000
    ab, ba = FORK.Value("q", 0, lock=False), FORK.Value("q", 0, lock=False)
    with Router(text, [a, b]) as router:
        taking = [lambda: takes_all(b, "ab", count, ab), lambda: takes_all(a, "ba", count, ba)]
        giving = [lambda: gives_all(a, "ab", count, rate, ab), lambda: gives_all(b, "ba", count, rate, ba)]
        came = dict(zip("ba", at_once(*taking, *giving)))
        lost = {port: lost_at(port) for link in (a, b) for port in (link.here, link.port)}
        drops = {it: int(router.session.read(b"q%s.drops" % it.encode())) for it in "ab"}
        counted = {it: int(router.session.read(b"c%s.count" % it.encode())) for it in "ab"}
        counts = dict(zip("ab", router.ends()))
    for here, there, source, sink in (("a", "b", a, b), ("b", "a", b, a)):
        what = f"from {here} to {there}, with {counts}, {lost}, {drops}"
        adds_up(counts[here])
        same(count, counts[here].received + lost[source.here], f"what was sent {what}")
        same((0, 0, 0), counts[here][1:3] + counts[here][4:5], f"from elsewhere, too long and no memory {what}")
        same(counts[here].entered, counted[here], f"what entered {what}")
        same(counts[here].entered, drops[there] + counts[there].sent + counts[there].failed, f"what entered, against dropped, sent and failed {what}")
        same(counts[there].sent, came[there] + lost[sink.port], f"what was sent, and what came {what}")
        if came[there] < count * 9 // 10:
            raise Wrong(f"of {count} packets only {came[there]} came {what}")


def isolated():
    """Checks that an isolated packet wakes the forwarder thread, and so takes less than 9 ms.

    That is the median of 60 packets. The forwarder thread alone, which sleeps up to 20 ms, would
    take longer. In one order of the links, a sweep comes to the device that a packet leaves by
    before it comes to the one that it enters by. So it takes two sweeps.
    """
    for names in ("ab", "ba"):
        links = {it: Link(it) for it in names}
        with Router(PLAIN, list(links.values())):
            medians = []
            while not medians or medians[-1] >= MAX_MEDIAN:
                if len(medians) == TRIES:
                    found = ", ".join(f"{1000 * it:.1f}" for it in medians)
                    raise Wrong(f"isolated packets take {found} ms by the median of {ISOLATED}, and not less than {1000 * MAX_MEDIAN:.0f} ms, with the links {', '.join(names)}")
                medians.append(statistics.median(seconds_of(links["a"], links["b"], number) for number in range(ISOLATED)))


def seconds_of(source, sink, number):
    """Returns the seconds that a packet takes after a pause."""
    time.sleep(INTERVAL)
    began = time.monotonic()
    is_carried(source, sink, [number])
    return time.monotonic() - began


def sizes():
    """Checks datagrams of all lengths and from other senders, with exact counts."""
    a, b, other = Link("a"), Link("b"), bound()
    with Router(PLAIN, [a, b]) as router:
        for size in (0, 1, LONGEST, 0, LONGEST + 1, 65_507, LONGEST):
            packet = bytes(at % 251 for at in range(size))
            a.give(packet)
            if size <= LONGEST:
                same(packet, b.take(), f"a datagram of {size} bytes")
        for size in (0, 5, LONGEST + 1):
            other.sendto(b"x" * size, (HOST, a.here))
        other.sendto(b"y", (HOST, b.here))
        # A datagram from the peer of another link is from elsewhere too.
        a.socket.sendto(b"z", (HOST, b.here))
        is_carried(a, b, range(20))
        router.is_idle("with nothing to do")
        same(b"25", router.session.read(b"c.count"), "the packets that the router counts")
        same([Counts(30, 3, 2, 0, 0, 25, 0, 0), Counts(2, 2, 0, 0, 0, 0, 25, 0)], router.ends(), "the counts")


def addresses():
    """Checks links at 127.0.0.2: they listen at no other address.

    A datagram from the peer's port at another address does not enter.
    """
    a, b = Link("a", host=OTHER), Link("b", host=OTHER)
    with Router(PLAIN, [a, b]) as router, bound(a.port) as stranger:
        for link in (a, b):
            same(None, udp_row(link.here), f"what is at {HOST}, and not at {OTHER}, for {link.device}")
        stranger.sendto(b"x", (OTHER, a.here))
        is_carried(a, b, range(20))
        same([Counts(21, 1, 0, 0, 0, 20, 0, 0), leaving(20)], router.ends(), "the counts")


def endless():
    """Checks that a run with an endless source, whose packets leave by a link, ends with its
    session.

    It ends within seconds, with its status and its counts.
    """
    a, b = Link("a"), Link("b")
    with Router("FromDevice(a) -> c :: Counter -> Discard; s :: InfiniteSource(ab) -> q :: Queue -> ToDevice(b);", [a, b]) as router:
        session = router.session
        a.give(b"a packet")
        until(lambda: session.read(b"c.count") == b"1", "a packet does not enter while the source emits packets")
        made = int(session.read(b"s.count"))
        until(lambda: int(session.read(b"s.count")) > made + 10_000, "the source ends")
        same(b"ab", b.take(), "a packet of the source")
        began = time.monotonic()
        counts, out = router.ends()
        seconds = time.monotonic() - began
    if seconds > LONGEST_END:
        raise Wrong(f"with an endless source the program ends only after {seconds:.1f} s")
    same((entering(1), leaving(out.sent)), (counts, out), "the counts")
    if out.sent < 9_000:
        raise Wrong(f"of more than 10,000 packets of a source only {out.sent} were sent")


def nobody():
    """Checks that failed sends stop neither later packets nor other links.

    No socket is open at the peer of one link, and the system refuses to send over another one.
    """
    a, b, c, d = Link("a"), Link("b", is_open=False), Link("c"), Link("d", there="255.255.255.255:9")
    text = f"{PLAIN} FromDevice(c) -> n :: Counter -> p :: Queue -> ToDevice(d);"
    with Router(text, [a, b, c, d]) as router:
        session = router.session
        for number in range(20):
            a.give(packet_of("one", number))
            c.give(packet_of("two", number))
            wanted = [b"%d" % (number + 1), b"0"] * 2
            until(lambda: [session.read(it) for it in (b"c.count", b"q.length", b"n.count", b"p.length")] == wanted, f"packet {number} is not sent")
        b.socket = bound(b.port)
        is_carried(a, b, range(20, 60))
        wanted = [entering(60), leaving(60), entering(20), leaving(0, 20)]
        same(wanted, router.ends(), "the counts")


def refused():
    """Checks the message and the status for two links of one device, a taken port, and a fault."""
    a, other = Link("a"), Link("a")
    taken, holder = Link("b"), Link("c")
    taken.here = holder.port
    for links, text, status, line in (
        ([a, other], PLAIN, 2, "click_prog: --link: the device 'a' is given twice; each device can have one link"),
        ([a, taken], PLAIN, 4, f"click_prog: link b: cannot open a socket at {HOST}:{taken.here}: Address already in use (os error 98)"),
        ([a], "FromDevice(a) -> Nothing;", 1, "click_prog: 11 UnknownName at 1:18"),
    ):
        words = [PROGRAM, "--live", "-e", text, *(word for it in links for word in ("--link", it.word()))]
        ended = subprocess.run(words, input=b"READ c.count\n", capture_output=True, timeout=SECONDS, check=False)
        same((status, b"", f"{line}\n".encode()), (ended.returncode, ended.stdout, ended.stderr), f"status, output and error of {' '.join(words[3:])}")


def away():
    """Checks a swap that removes a device while ten times as many packets come as its feed has
    places.

    After a swap that restores the device, exactly the packets in the feed enter.
    """
    a, b, count = Link("a"), Link("b"), 10 * PLACES
    with Router(PLAIN, [a, b]) as router:
        is_carried(a, b, range(10))
        router.session.swap("Idle -> q :: Queue(2000) -> ToDevice(b);")
        seconds = gives_all(a, "away", count, 20_000)
        same(b"0", router.session.read(b"q.length"), "the packets that entered without a device")
        router.is_idle("with a full feed and no device for it")
        lost = lost_at(a.here)
        router.session.swap("FromDevice(a) -> c :: Counter -> q :: Queue(2000) -> ToDevice(b);")
        until(lambda: int(router.session.read(b"c.count")) >= PLACES, f"the feed did not keep {PLACES} packets")
        came = takes_all(b, "away", count)
        same((PLACES, b"0"), (came, router.session.read(b"q.drops")), f"how many of {count} packets came, and the queue's drops")
        is_carried(a, b, range(10))
        entered = PLACES + 20
        wanted = Counts(count + 20 - lost, 0, 0, count - lost - PLACES, 0, entered, 0, 0)
        same([wanted, leaving(entered)], router.ends(), f"the counts, after {count} packets in {seconds:.2f} s of which the kernel dropped {lost}")


def flooded(link, packet, seconds, sender=None):
    """Sends a packet as fast as possible for some seconds, and returns how often it was sent."""
    count, ends = 0, time.monotonic() + seconds
    sender = sender or link.socket
    while time.monotonic() < ends:
        for _ in range(64):
            sender.sendto(packet, (HOST, link.here))
        count += 64
    return count


def settled(counted):
    """Returns a count when it has not changed for a second, as on a machine with other work."""
    count, since = counted(), time.monotonic()
    while time.monotonic() - since < 1:
        time.sleep(0.1)
        if count != (count := counted()):
            since = time.monotonic()
    return count


def slow_text(places=10, sink="b"):
    """Returns a configuration that copies each packet some four thousand times, and stores it in a
    queue of this capacity before a device.

    That takes 100 microseconds or more for a long packet.
    """
    chain = "FromDevice(a) -> c :: Counter" + "".join(f" -> t{k} :: Tee(240); t{k}" for k in range(16)) + f" -> q :: Queue({places}) -> ToDevice({sink}); d :: Discard;"
    return chain + "".join(f" t{k} [{n}] -> d;" for k in range(16) for n in range(1, 240))


def flood():
    """Checks a flood of ten times as many packets as the router can take, with other senders.

    A session is answered during the flood, each datagram is counted, and later packets are carried.
    """
    a, b, stranger = Link("a"), Link("b"), bound()
    waits, is_over = [], threading.Event()
    with Router(slow_text(), [a, b]) as router:

        def asks():
            while not is_over.is_set():
                began = time.monotonic()
                router.session.read(b"c.count")
                waits.append(time.monotonic() - began)
                time.sleep(0.002)

        asking = threading.Thread(target=asks)
        asking.start()
        try:
            long = b"f" * LONGEST
            *known, strange = at_once(lambda: flooded(a, long, 3), lambda: flooded(a, long, 3), lambda: flooded(a, b"strange", 3, stranger))
        finally:
            is_over.set()
            asking.join()
        before = settled(lambda: int(router.session.read(b"c.count")))
        lost = lost_at(a.here)
        with_all = sum(known) + strange
        if sum(known) < 10 * before:
            raise Wrong(f"{sum(known)} packets in 3 seconds are no flood, because {before} were taken")
        if len(waits) < FEWEST_READS or max(waits) > LONGEST_WAIT:
            raise Wrong(f"during the flood {len(waits)} reads were answered, one after {max(waits, default=0):.3f} s")
        b.socket.settimeout(0.2)
        try:
            while True:
                same(long, b.take(), "a packet of the flood")
        except TimeoutError:
            b.socket.settimeout(SECONDS)
        is_carried(a, b, range(100))
        router.is_idle("after a flood")
        counts, out = router.ends()
    adds_up(counts)
    same(with_all + 100, counts.received + lost, f"what was sent, by {counts} and {lost} that the kernel dropped")
    same((0, 0, before + 100), (counts.long, counts.memory, counts.entered), f"too long, no memory and entered in {counts}")
    if not 0 < counts.elsewhere <= strange or counts.room == 0:
        raise Wrong(f"{strange} datagrams were from elsewhere, and the feed was full: {counts}")
    same(True, 100 < out.sent <= counts.entered, f"{out.sent} sent of {counts.entered} that entered")


def telling():
    """Checks sixteen links in a ring, with --tell 1 and sessions over TCP.

    The counts of each link are printed every second and match the packets. SIGTERM ends the
    program.
    """
    links = [Link(f"d{n}") for n in range(16)]
    port = free_port()
    text = "".join(f"FromDevice(d{n}) -> c{n} :: Counter -> q{n} :: Queue -> ToDevice(d{(n + 1) % 16}); " for n in range(16))
    with tempfile.TemporaryFile() as file, Router(text, links, "--tell", "1", port=port, said=file) as router:
        # The lines up to the last complete set of sixteen.
        said = lambda: re.match(rb"(?:(?:.*\n){16})*", os.pread(file.fileno(), 1 << 20, 0))[0]
        began = time.monotonic()
        for n in range(16):
            is_carried(links[n], links[(n + 1) % 16], range(10 + n), f"d{n}")
        for n in range(8):
            session = Talk(socket.create_connection((HOST, port), timeout=SECONDS))
            same(b"%d" % (10 + n), session.read(b"c%d.count" % n), f"the packets of d{n}")
            session.quit()
        wanted = [entering(10 + n, 10 + (n - 1) % 16) for n in range(16)]
        until(lambda: tellings_of(said(), links)[-1:] == [wanted], f"the lines do not come to {wanted}")
        time.sleep(max(0, began + 3.5 - time.monotonic()))
        router.process.terminate()
        same(-signal.SIGTERM, router.process.wait(SECONDS), "the status after SIGTERM")
        seconds, tellings = time.monotonic() - began, tellings_of(said(), links)
    if not seconds - 2 <= len(tellings) <= seconds + 1:
        raise Wrong(f"in {seconds:.1f} s the counts were printed {len(tellings)} times")
    for before, after in zip(tellings, tellings[1:]):
        if any(new < old for olds, news in zip(before, after) for old, new in zip(olds, news)):
            raise Wrong(f"a count fell from {before} to {after}")


def unread():
    """Checks that packets and sessions do not wait for lines of --tell that no process reads.

    The lines go into a pipe that is soon full.
    """
    a, b = Link("a"), Link("b")
    read, write = os.pipe()
    # 1031 is F_SETPIPE_SZ: a pipe with the minimum size. All but 200 bytes of it are used.
    os.write(write, b"x" * (fcntl.fcntl(write, 1031, 4096) - 200))
    with Router(PLAIN, [a, b], "--tell", "1", port=free_port(), said=write) as router:
        os.close(write)
        ends = time.monotonic() + 3
        while time.monotonic() < ends:
            is_carried(a, b, range(20))
            router.session.read(b"c.count")
        os.close(read)
        time.sleep(0.1)
        is_carried(a, b, range(20))
        router.session.read(b"c.count")


def numbered(number):
    """Returns a long packet with this number."""
    return struct.pack(">Q", number).ljust(LONGEST, b"n")


def busy():
    """Checks that a run ends with its session though packets come without a pause, and all enter."""
    a, is_over = Link("a"), threading.Event()

    def gives():
        while not is_over.is_set():
            a.give(b"a packet")
            time.sleep(0.001)

    with Router("FromDevice(a) -> c :: Counter -> Discard;", [a]) as router:
        giving = threading.Thread(target=gives)
        giving.start()
        try:
            until(lambda: int(router.session.read(b"c.count")) >= 100, "packets do not enter")
            (counts,) = router.ends_now(b"QUIT\n")
        finally:
            is_over.set()
            giving.join()
    same(entering(counts.received), counts, "the counts of a run that ended while packets came")


def ending():
    """Checks a run that ends while its feed is full and more datagrams come.

    Each packet that waits then enters and leaves, in order, and each datagram that the program
    received is in exactly one count.
    """
    a, text = Link("a"), slow_text(1000, "a").encode()
    is_over, numbers = threading.Event(), []

    def gives():
        number = PLACES + 5
        while not is_over.is_set():
            a.give(numbered(number))
            number += 1

    def takes():
        a.socket.settimeout(0.3)
        while True:
            try:
                packet = a.take()
            except TimeoutError:
                if is_over.is_set():
                    return
            else:
                number = struct.unpack(">Q", packet[:8])[0]
                same(numbered(number), packet, "a packet of a run that ends")
                numbers.append(number)

    with Router("Idle -> ToDevice(a);", [a]) as router:
        gives_heard(a, [numbered(number) for number in range(PLACES + 5)])
        threads = [threading.Thread(target=gives), threading.Thread(target=takes)]
        for it in threads:
            it.start()
        try:
            # The feed is full when this swap makes its packets enter. The receiver, which is never
            # without a datagram, ends at once.
            (counts,) = router.ends_now(b"WRITEDATA hotconfig %d\n%sQUIT\n" % (len(text), text))
        finally:
            is_over.set()
            for it in threads:
                it.join()
        lost = lost_at(a.port)
    what = f"in a run that ended with a full feed, with {counts} and {lost} that the kernel dropped"
    adds_up(counts)
    same((0, 0, 0), counts[1:3] + counts[4:5], f"from elsewhere, too long and no memory {what}")
    same(counts.entered, counts.sent + counts.failed, f"the packets that left {what}")
    same(counts.sent, len(numbers) + lost, f"the packets that were sent, and that came {what}")
    same(True, numbers == sorted(set(numbers)), f"whether each packet came once and in order {what}")
    if counts.room < 5 or counts.entered < PLACES:
        raise Wrong(f"the feed was not full {what}")


# A library that affects the allocations of the room for a packet, of LONGEST bytes, and the reads of
# sockets, in a program whose name begins with click_. Its state is the byte in the file that the
# variable ROOMS names: `s` for slow and `r` for refused allocations, `f` for reads that fail, or
# another one.
ROOMS = r"""
#define _GNU_SOURCE
#include <dlfcn.h>
#include <errno.h>
#include <fcntl.h>
#include <stdlib.h>
#include <string.h>
#include <sys/mman.h>
#include <sys/socket.h>
#include <sys/syscall.h>
#include <unistd.h>
static volatile char *state;
__attribute__((constructor)) static void begin(void)
{
    if (strncmp(program_invocation_short_name, "click_", 6) == 0) state = mmap(0, 1, PROT_READ, MAP_SHARED, open(getenv("ROOMS"), O_RDONLY), 0);
}
void *malloc(size_t size)
{
    static void *(*real)(size_t);
    if (!real) real = (void *(*)(size_t))dlsym(RTLD_NEXT, "malloc");
    if (size == 1600 && state && *state == 'r') return 0;
    if (size == 1600 && state && *state == 's') usleep(50000);
    return real(size);
}
ssize_t recvfrom(int fd, void *bytes, size_t size, int flags, struct sockaddr *from, socklen_t *length)
{
    if (state && *state == 'f') return errno = EIO, -1;
    return syscall(SYS_recvfrom, fd, bytes, size, flags, from, length);
}
"""


class Rooms:
    """The library ROOMS, and its state."""

    def __init__(self):
        self.folder = tempfile.TemporaryDirectory(prefix="udp-links-")
        state, library = (f"{self.folder.name}/{it}" for it in ("state", "rooms.so"))
        self.state = os.open(state, os.O_CREAT | os.O_WRONLY)
        self.set("n")
        words = ["cc", "-O1", "-shared", "-fPIC", "-x", "c", "-o", library, "-", "-ldl"]
        if subprocess.run(words, input=ROOMS.encode(), check=False).returncode:
            raise Wrong("the library for allocations does not compile")
        self.env = {**os.environ, "LD_PRELOAD": library, "ROOMS": state}

    def set(self, state):
        os.pwrite(self.state, state.encode(), 0)

    def __enter__(self):
        return self

    def __exit__(self, *_):
        os.close(self.state)
        self.folder.cleanup()


# The number of runs that end while a packet comes.
LATE_RUNS = 10


def ends_late(rooms, number):
    """Ends a run while a packet comes, and returns whether the program received it.

    If it did, the packet enters and leaves.
    """
    a = Link("a")
    with Router("FromDevice(a) -> Queue -> ToDevice(a);", [a], env=rooms.env) as router:
        rooms.set("s")
        time.sleep(0.1 + 0.007 * number)
        (counts,) = router.ends_now(b"QUIT\n", lambda: a.give(packet_of("late", number)))
        rooms.set("n")
    adds_up(counts)
    same(entering(counts.received, counts.received), counts, "the counts of a run that ended while a packet came")
    if counts.received:
        same(packet_of("late", number), a.take(), "a packet that came while the run ended")
    return counts.received == 1


def late():
    """Checks runs that end while a packet comes, mostly during a sweep that finds no work.

    Each allocation of room for a packet takes 50 ms, which makes sweeps slow.
    """
    with Rooms() as rooms:
        came = sum(ends_late(rooms, number) for number in range(LATE_RUNS))
    if not came:
        raise Wrong(f"in {LATE_RUNS} runs no packet came before the end")


def memory():
    """Checks links that are out of memory for a while, and a count of drops for each cause.

    Neither the receiver nor the forwarder ends, and later packets are carried. The numbers of drops
    are different for each cause, so that no two are exchanged.
    """
    a, b, stranger, count = Link("a"), Link("b"), bound(), PLACES + 7
    with Rooms() as rooms, Router(PLAIN, [a, b], env=rooms.env) as router:
        for sender, size, times in ((stranger, 5, 2), (a.socket, LONGEST + 1, 3)):
            for _ in range(times):
                sender.sendto(b"x" * size, (HOST, a.here))
        is_carried(a, b, range(10))
        rooms.set("r")
        for _ in range(4):
            a.give(b"without memory")
        until(lambda: is_heard(a), "a link without memory does not read its datagrams")
        # The receiver drops the last packet, and the forwarder makes some sweeps, which fail.
        time.sleep(0.3)
        rooms.set("n")
        is_carried(a, b, range(10, 20))
        router.session.swap("Idle -> q :: Queue(2000) -> ToDevice(b);")
        gives_heard(a, [packet_of("away", number) for number in range(count)])
        # The packets that wait enter after this swap, at the end.
        text = b"FromDevice(a) -> q :: Queue(2000) -> ToDevice(b);"
        counts, out = router.ends_now(b"WRITEDATA hotconfig %d\n%sQUIT\n" % (len(text), text))
        came = takes_all(b, "away", PLACES)
        lost_there = lost_at(b.port)
    entered = PLACES + 20
    wanted = Counts(20 + 2 + 3 + 4 + count, 2, 3, 7, 4, entered, 0, 0)
    same([wanted, leaving(entered)], [counts, out], "the counts of a run with another number of drops for each cause")
    same(PLACES, came + lost_there, "the packets that waited at the end, and that came")


def failing():
    """Checks that a receiver whose socket fails for good ends, and nothing else does.

    The processor time of the program shows that no receiver tries again and again. Datagrams that
    come later are not counted, and packets still leave.
    """
    a, b = Link("a"), Link("b")
    with Rooms() as rooms, Router(PLAIN, [a, b], env=rooms.env) as router:
        is_carried(a, b, range(10))
        rooms.set("f")
        router.is_idle("while the sockets of all links fail")
        rooms.set("n")
        a.give(b"too late")
        router.session.swap("InfiniteSource(ab, 5, 1) -> q :: Queue -> ToDevice(b);")
        same([b"ab"] * 5, [b.take() for _ in range(5)], "the packets that leave by a link whose socket failed")
        # A receiver that goes on looks at its socket at least ten times in this second.
        time.sleep(1)
        wanted = [entering(10), leaving(15)]
        same(wanted, router.ends_now(b"QUIT\n"), "the counts of links whose sockets failed")


# The commands that make a network namespace in which packets to 10.9.9.2 wait for a neighbour, and
# so fill the send buffer of their socket.
NAMESPACE = ("unshare", "--map-root-user", "--net", "sh", "-e", "-c")
NEIGHBOUR = """
ip link set lo up
ip link add v0 type veth peer name v1
ip addr add 10.9.9.1/24 dev v0
ip link set v0 up
ip link set v1 up
echo 100000000 > /proc/sys/net/ipv4/neigh/v0/unres_qlen_bytes
echo 60 > /proc/sys/net/ipv4/neigh/v0/mcast_solicit
"""


# Makes the neighbour known, so that the packets that wait for it leave.
KNOWN = ("ip", "neigh", "replace", "10.9.9.2", "lladdr", "02:00:00:00:00:01", "dev", "v0", "nud", "permanent")


def blocked():
    """Checks that a link with a full send buffer does not delay another link.

    It sends again once its buffer has room.
    """
    if subprocess.run([*NAMESPACE, NEIGHBOUR], capture_output=True).returncode:
        print("left out: the case blocked, because no network namespace with veth is available")
        return
    inside = f'{NEIGHBOUR}exec "$0" "$@"'
    ran = subprocess.run([*NAMESPACE, inside, sys.executable, os.path.realpath(__file__), "blocked_inside"], stderr=subprocess.PIPE)
    if ran.returncode:
        raise Wrong(ran.stderr.decode().removeprefix("udp_links.py: blocked_inside: ").rstrip())


def blocked_inside():
    """Does what `blocked` says, in a namespace."""
    a, b, later = Link("a"), Link("b", there="10.9.9.2:9", host="10.9.9.1", is_open=False), 1000
    others = "FromDevice(b) -> Discard; FromDevice(a) -> Queue -> ToDevice(a);"
    with Router(f"s :: InfiniteSource(ab, 400, 64) -> q :: Queue(1000) -> ToDevice(b); {others}", [a, b]) as router:
        read = router.session.read
        until(lambda: read(b"s.count") == b"400", "the source does not emit its packets")
        began = time.monotonic()
        is_carried(a, a, range(20))
        seconds = time.monotonic() - began
        until(lambda: read(b"q.length") == b"0", "packets wait at a link with a full send buffer")
        subprocess.run(KNOWN, check=True)
        router.session.swap(f"t :: InfiniteSource(cd, {later}, 64) -> p :: Queue({later}) -> ToDevice(b); {others}")
        until(lambda: (read(b"t.count"), read(b"p.length")) == (b"%d" % later, b"0"), "packets wait at a link whose send buffer has room")
        counts, out = router.ends()
    if seconds > LONGEST_WAIT:
        raise Wrong(f"next to a link with a full send buffer, 20 packets took {seconds:.1f} s")
    same((entering(20, 20), 400 + later), (counts, out.sent + out.failed), "the counts next to a link with a full send buffer, and what that link sent and lost")
    if out.failed == 0 or out.sent < later:
        raise Wrong(f"a link whose send buffer was full and has room again: {out.sent} sent and {out.failed} failed, of 400 packets and {later} later ones")


CASES = {case.__name__: case for case in (refused, isolated, sizes, addresses, endless, nobody, away, telling, unread, memory, failing, late, busy, ending, blocked, flood, carrying)}
# What the case `blocked` runs in its namespace.
NAMED = {case.__name__: case for case in (blocked_inside,)}


def main(words):
    if not os.access(PROGRAM, os.X_OK):
        print(f"udp_links.py: there is no {PROGRAM}: ./test.sh builds it, and so does rt run in its crate's folder", file=sys.stderr)
        return 1
    for name in words or CASES:
        try:
            try:
                (CASES | NAMED)[name]()
            except PortTaken:
                (CASES | NAMED)[name]()
        except (Wrong, OSError, AttributeError, ValueError, StopIteration, subprocess.TimeoutExpired) as error:
            print(f"udp_links.py: {name}: {error}", file=sys.stderr)
            return 1
    print(f"links over UDP: {', '.join(words or CASES)}: each packet came out or was counted")
    return 0


if __name__ == "__main__":
    sys.exit(main(sys.argv[1:]))
