"""Checks the program under hostile use: failing devices, limits of memory, endless input, and
clients that hang up, send rubbish or never read. Others are 64 sessions in parallel with 16
drivers, the address of the listener, --readonly with drivers, and 200,000 rounds. The replies have
to be, byte by byte, what docs/CONTROL.md says.

    hostile.py PROGRAM CASE

A case takes at most some 20 seconds. If it uses TCP, it listens on a free port of 127.0.0.1. A
failure is printed, and ends the script with status 1.
"""
import os
import random
import socket
import struct
import subprocess
import sys
import threading
import time

from sessions import GREETING, SECONDS, Router, Session, Wrong, all_at_once, free_port

COUNTER = b"Idle -> c :: Counter -> Discard;"
SOURCE = b"InfiniteSource(ab, 1000000, 1) -> c :: Counter -> Discard;"
GOODBYE = b"200 Goodbye!\r\n"
FAILED = b"click_prog: a read or a write failed\n"
NO_MEMORY = b"520 Out of memory\r\n"
MEGABYTE = 1 << 20
# The maximum difference, in KB, between the peak memory of a long run and that of a short one.
FLAT = 300


def read_reply(handler, value):
    return b"200 Read handler '%s' OK\r\nDATA %d\r\n%s" % (handler, len(value), value)


def write_reply(handler):
    return b"200 Write handler '%s' OK\r\n" % handler


def denial(handler):
    return b"530 Permission denied for '%s'\r\n" % handler


def same(wanted, came, what):
    """Checks that two byte strings are equal, and reports the first difference."""
    if wanted != came:
        at = len(os.path.commonprefix([wanted, came]))
        raise Wrong(f"{what}: at byte {at} of {len(wanted)}: wanted {wanted[at:at + 60]!r}, came {came[at:at + 60]!r}")


def until(holds, what, seconds=SECONDS):
    """Waits until `holds` returns true; raises Wrong if it takes more than these seconds."""
    ends = time.monotonic() + seconds
    while not holds():
        if time.monotonic() > ends:
            raise Wrong(what)
        time.sleep(0.01)


def listeners(port):
    """Returns the addresses, in hex digits as in /proc, at which a process listens on a port."""
    found = []
    for table in ("/proc/net/tcp", "/proc/net/tcp6"):
        if os.path.exists(table):
            with open(table, encoding="ascii") as rows:
                for row in list(rows)[1:]:
                    address, number = row.split()[1].split(":")
                    if int(number, 16) == port and row.split()[3] == "0A":
                        found.append(address)
    return found


class Listening(Router):
    """A program that listens for a number of sessions, on a free port.

    With a limit of memory, in KB, it may also have ended before it could listen.
    """

    def __init__(self, program, text, sessions, *options, limit=None):
        for _ in range(5):
            self.port = free_port()
            words = [*limited(limit), program, "-e", text, "-p", str(self.port), "-n", str(sessions), *options]
            self.process = subprocess.Popen(words, stdin=subprocess.DEVNULL, stdout=subprocess.PIPE, stderr=subprocess.PIPE)
            until(lambda: listeners(self.port) or self.process.poll() is not None, "the program does not listen")
            status = self.process.poll()
            # The program ends with status 4 if another process took the port in the meantime.
            if status is None or limit and status != 4:
                return
        raise Wrong("the program could not listen in five attempts")


class Pipes:
    """The standard input and output of a program, with the methods of a socket."""

    def __init__(self, process):
        self.process = process

    def recv(self, most):
        return os.read(self.process.stdout.fileno(), most)

    def sendall(self, sent):
        rest = memoryview(sent)
        while rest:
            rest = rest[os.write(self.process.stdin.fileno(), rest):]

    def close(self):
        self.process.stdin.close()


class Alone(Session):
    """The program with a session on standard input and output."""

    def __init__(self, program, text, *options):
        self.process = subprocess.Popen([program, "-e", text, *options], stdin=subprocess.PIPE, stdout=subprocess.PIPE, stderr=subprocess.PIPE)
        self.socket = Pipes(self.process)
        self.rest = b""
        if self.line() != GREETING:
            raise Wrong("another greeting")

    def exchange(self, sent, wanted, times=1):
        """Sends `sent` a number of times, and in parallel reads `wanted` as many times."""

        def sends():
            try:
                for _ in range(times):
                    self.socket.sendall(sent)
            except BrokenPipeError:
                pass  # the reader reports the failure

        def reads():
            try:
                for _ in range(times):
                    same(wanted, self.bytes(len(wanted)), "a session on standard input")
            except Wrong:
                self.process.kill()  # ends the sender
                raise

        all_at_once([reads, sends])

    def most_memory(self):
        """Returns the peak memory of the program, in KB."""
        with open(f"/proc/{self.process.pid}/status", encoding="ascii") as rows:
            return next(int(row.split()[1]) for row in rows if row.startswith("VmHWM:"))

    def ends(self):
        """Checks that the program ends after QUIT, with status 0 and no further output."""
        self.quit()
        out, err, status = self.process.stdout.read(), self.process.stderr.read(), self.process.wait(SECONDS)
        if (out, err, status) != (b"", b"", 0):
            raise Wrong(f"a session on standard input ends with {out!r}, {err!r} and status {status}")

    def stop(self):
        self.process.kill()
        self.process.wait()


def ended(what, wanted, status, words, **how):
    """Checks that a run ends with this status and standard output. Status 4 comes with a line on
    standard error, and other statuses without.

    If standard output is not read, `wanted` is empty.
    """
    it = subprocess.run(words, stderr=subprocess.PIPE, timeout=SECONDS, check=False, **how)
    said = FAILED if status == 4 else b""
    if (it.stdout or b"", it.stderr, it.returncode) != (wanted, said, status):
        raise Wrong(f"{what}: status {it.returncode}, {it.stdout!r} and {it.stderr!r}")


def devices(program):
    """Checks failing devices.

    Standard output is full, closed or read-only. Standard input is a folder, closed or write-only.
    """
    session = {"input": b"READ c.count\nQUIT\n"}
    for options in ([], ["--readonly"], ["-w", "2", "--rounds", "100"]):
        words = [program, "-e", COUNTER, *options]
        ended("devices that work", GREETING + read_reply(b"c.count", b"0") + GOODBYE, 0, words, stdout=subprocess.PIPE, **session)
        with open("/dev/full", "wb") as full, open("/dev/null", "rb") as only_read:
            ended("a full output", b"", 4, words, stdout=full, **session)
            ended("a read-only output", b"", 4, words, stdout=only_read, **session)
        folder = os.open("/", os.O_RDONLY)
        with open("/dev/null", "wb") as only_written:
            ended("a folder as input", GREETING, 4, words, stdin=folder, stdout=subprocess.PIPE)
            ended("a write-only input", GREETING, 4, words, stdin=only_written, stdout=subprocess.PIPE)
        os.close(folder)
        shell = ["/bin/sh", "-c"]
        ended("a closed output", b"", 4, [*shell, 'exec "$0" "$@" >&-', *words], **session)
        ended("a closed input", GREETING, 4, [*shell, 'exec "$0" "$@" <&-', *words], stdout=subprocess.PIPE)
        ended("both closed", b"", 4, [*shell, 'exec "$0" "$@" <&- >&-', *words])


class Spoken:
    """The input of a session that needs memory, and a check of its output.

    A command may be answered with out of memory, and then has to change nothing.
    """

    FIRST = b"FromDevice(a) -> q :: Queue(5) -> ToDevice(b);"
    NEXT = b"FromDevice(a) -> q :: Queue(2000) -> ToDevice(b); " + b"Idle -> Discard; " * 500
    NAMES = {
        FIRST: [b"FromDevice@1", b"q", b"ToDevice@3"],
        NEXT: [b"FromDevice@1", b"q", b"ToDevice@3", *(b"%s@%d" % ((b"Idle", b"Discard")[at % 2], at) for at in range(4, 1004))],
    }

    def __init__(self, swaps):
        self.steps = []
        for _ in range(4):
            self.steps += [(b"READ q.length\n", None)] * 100
            self.steps += [(b"READDATA q.length %d\n%s" % (size, b"x" * size), None) for size in (10, 70_000, 300_000)]
            if swaps:
                self.steps += [(b"WRITEDATA hotconfig %d\r\n%s" % (len(text), text), text) for text in (self.NEXT, self.FIRST, self.NEXT)]
            self.steps += [(b"READ config\n", None), (b"READ list\n", None)]
        self.input = b"".join(sent for sent, _ in self.steps) + b"QUIT\n"

    def reply(self, sent, config):
        """Returns the reply to a command while this configuration runs."""
        handler = sent.split()[1]
        if sent.startswith(b"WRITE"):
            return write_reply(handler)
        names = self.NAMES[config]
        return read_reply(handler, {b"q.length": b"0", b"config": config, b"list": b"%d\n%s\n" % (len(names), b"\n".join(names))}[handler])

    def refused(self, out, is_whole):
        """Returns the number of commands that were answered with out of memory.

        Returns None if `out` is not an output of the session. If `is_whole` is false, a prefix of
        an output will do.
        """
        at, config, count = 0, self.FIRST, 0
        for sent, text in [(GREETING, None), *self.steps, (GOODBYE, None)]:
            reply = sent if sent in (GREETING, GOODBYE) else self.reply(sent, config)
            if out.startswith(reply, at):
                at, config = at + len(reply), text or config
            elif reply is not sent and out.startswith(NO_MEMORY, at):
                at, count = at + len(NO_MEMORY), count + 1
            else:
                is_prefix = reply.startswith(out[at:]) or NO_MEMORY.startswith(out[at:])
                return count if is_prefix and not is_whole else None
        return count if at == len(out) else None


def limited(limit):
    """Returns the words to put before a command so that its memory is limited to this many KB."""
    return ["/bin/sh", "-c", 'ulimit -S -v "$0" && exec "$@"', str(limit)] if limit else []


def by_halves(low, high, most, holds):
    """Returns a number for which `holds` is true, at most `most` above the least one.

    It is false for `low` and true for `high`. The search is binary.
    """
    while high - low > most:
        middle = (low + high) // 2
        low, high = (low, middle) if holds(middle) else (middle, high)
    return high


def at_limits(run, what):
    """Checks runs with 40 limits of memory, from the least with which the loader works to plenty.

    `run` takes a limit and returns the status and the number of commands that were refused.
    """
    plenty = 1_000_000
    least = by_halves(0, plenty, 4, lambda limit: run(limit)[0] in (0, 3))
    below = run(least - 8)[0]
    if below != 127:
        raise Wrong(f"{what}: with {least - 8} KB of memory the status is {below}, and not 127, that of the loader")
    enough = by_halves(least, plenty, 1000, lambda limit: run(limit) == (0, 0))
    seen = set()
    for limit in [*(int(least * (enough / least) ** (step / 38)) for step in range(39)), plenty]:
        status, count = run(limit)
        if status not in (0, 3):
            raise Wrong(f"{what}, with {limit} KB of memory: status {status}")
        seen |= {"refused"} if count else {"whole"} if status == 0 else set()
        seen |= {"early"} if status == 3 else set()
    if seen != {"whole", "early", "refused"}:
        raise Wrong(f"{what}: from {least} to {enough} KB of memory the only outcomes are {sorted(seen)}")


def judged(spoken, status, outs, said, limit):
    """Returns the status of a run and the number of commands that its sessions refused, and checks
    it.

    The outputs of the sessions are complete if the status is 0, and prefixes if it is 3.
    """
    if status not in (0, 3):
        return status, 0
    counts = [spoken.refused(out, status == 0) for out in outs or [b""]]
    if None in counts or said:
        raise Wrong(f"with {limit} KB of memory: status {status}, {said!r}, and sessions that end with {[out[-100:] for out in outs]!r}")
    return status, sum(counts)


def talk(port, sent):
    """Returns the output of a session over TCP, which may end anywhere."""
    came = b""

    def sends(it):
        try:
            it.sendall(sent)
        except OSError:
            pass

    try:
        with socket.create_connection(("127.0.0.1", port), timeout=SECONDS) as it:
            threading.Thread(target=sends, args=(it,), daemon=True).start()
            while piece := it.recv(65536):
                came += piece
    except OSError:
        pass
    return came


def memory(program):
    """Checks limits of memory: for a session, for a session with drivers, and for sessions over
    TCP.

    At each limit the program ends with status 0 or 3, and writes no wrong byte.
    """
    swapping, plain = Spoken(swaps=True), Spoken(swaps=False)

    def alone(limit, *options):
        words = [*limited(limit), program, "-e", Spoken.FIRST, *options]
        it = subprocess.run(words, input=swapping.input, capture_output=True, timeout=SECONDS, check=False)
        return judged(swapping, it.returncode, [it.stdout], it.stderr, limit)

    def over_tcp(limit):
        router, outs = Listening(program, Spoken.FIRST, 4, "-w", "2", "--rounds", "100", limit=limit), []
        try:
            if listeners(router.port):
                all_at_once([lambda: outs.append(talk(router.port, plain.input))] * 4)
            said = router.process.communicate(timeout=SECONDS)
            return judged(plain, router.process.returncode, outs, b"".join(said), limit)
        finally:
            router.stop()

    at_limits(alone, "a session")
    at_limits(lambda limit: alone(limit, "-w", "2", "--rounds", "200"), "a session with drivers")
    at_limits(over_tcp, "sessions over TCP")


def blank(program):
    """Checks that memory does not grow over 131 MB of blank lines."""
    it = Alone(program, COUNTER)
    try:
        lines = b"\n\r\n\r \t\n \r\n" * (MEGABYTE // 10)
        ask = b"READ c.count\n", read_reply(b"c.count", b"0")
        it.exchange(lines + ask[0], ask[1])
        first = it.most_memory()
        it.exchange(lines * 5, b"", 25)
        it.exchange(*ask)
        last = it.most_memory()
        if last > first + FLAT:
            raise Wrong(f"after 1 MB {first} KB of memory, after 132 MB {last} KB")
        it.ends()
    finally:
        it.stop()


def without_calls():
    """Returns a megabyte of commands that make no call in a read-only session, and the replies."""
    word, payload = b"X" * 60_000, b"READ c.count\nQUIT\r\n" * 5_000
    once = [
        (b"READ\n", b"500 Syntax error\r\n"),
        (b" writedata c.reset_counts 1x\r", b"500 Syntax error\r\n"),
        (b"CHECKREAD c.count c.count\r\n", b"500 Syntax error\r\n"),
        (b"FOO bar\n", b"501 Unimplemented command 'FOO'\r\n"),
        (b"WRITE c.reset_counts\n", denial(b"c.reset_counts")),
        (b"CHECKWRITE hotconfig\n", denial(b"hotconfig")),
        (b"WRITEDATA x 3\nabc", denial(b"x")),
    ]
    long = [
        (word + b"\n", b"501 Unimplemented command '%s'\r\n" % word),
        (b"READDATA c.count 0 " + word + b"\n", b"500 Syntax error\r\n"),
        (b"WRITE " + word + b"\n", denial(word)),
        (b"WRITEDATA hotconfig %d\n%s" % (len(payload), payload), denial(b"hotconfig")),
    ]
    commands = once * 2_000 + long * 3 + once * 800
    return tuple(map(b"".join, zip(*commands)))


def commands(program):
    """Checks that memory does not grow over 100 MB of commands that make no call."""
    it = Alone(program, COUNTER, "--readonly")
    try:
        sent, wanted = without_calls()
        it.exchange(sent, wanted)
        first = it.most_memory()
        it.exchange(sent, wanted, 100_000_000 // len(sent))
        last = it.most_memory()
        if last > first + FLAT:
            raise Wrong(f"after {len(sent)} bytes {first} KB of memory, after 100 MB {last} KB")
        it.ends()
    finally:
        it.stop()


def switches(count):
    """Returns a configuration with a switch for each of `count` sessions."""
    return b" ".join(b"Idle -> s%d :: Switch(0) -> Discard; s%d [1] -> Discard;" % (at, at) for at in range(count))


def own_session(at, config):
    """Returns the input of a session that uses its own switch, and the expected output."""
    switch, sent, wanted = b"s%d.switch" % at, [], []
    for turn in range(20):
        value = b"%d" % ((at + turn) % 2)
        sent += [b"WRITEDATA %s 1\r\n%s" % (switch, value), b"READ %s\n" % switch, b"WRITE %s 7\r" % switch, b"checkwrite %s\r\n" % switch, b"READ x%d.y\n" % at, b"FOO\n"]
        wanted += [write_reply(switch), read_reply(switch, value), b"520-Write handler '%s' error:\r\n520 out of range\r\n" % switch, write_reply(switch)]
        wanted += [b"510 No element named 'x%d'\r\n" % at, b"501 Unimplemented command 'FOO'\r\n"]
    return b"".join([*sent, b"READ config\nQUIT\n"]), b"".join([*wanted, read_reply(b"config", config), GOODBYE])


def meets(all_here):
    """Waits until all clients are connected."""
    try:
        all_here.wait(SECONDS)
    except threading.BrokenBarrierError:
        raise Wrong("not all sessions were accepted") from None


def goes_on(session, at, config):
    """Sends a session in pieces of random sizes, and checks its whole output."""
    sent, wanted = own_session(at, config)
    chance = random.Random(at)
    while sent:
        size = chance.randrange(1, 200)
        session.socket.sendall(sent[:size])
        sent = sent[size:]
    came = session.rest
    while piece := session.socket.recv(65536):
        came += piece
    same(wanted, came, f"session {at}")
    session.socket.close()


def resets(session):
    """Closes a connection with a reset, so that reads and writes of the program fail."""
    session.socket.setsockopt(socket.SOL_SOCKET, socket.SO_LINGER, struct.pack("ii", 1, 0))
    session.socket.close()


# What clients send partially: reads and writes with payloads, and then the first line of a swap,
# whose payload would consist of statements.
FRONT = b"READ c.count\nWRITEDATA h.switch 1\r\n1READDATA h.switch 1000\n" + b"y" * 1000 + b"WRITEDATA hotconfig 60001\n"
STATEMENT = b"Idle -> Discard; "


def hangs_up(session, at, _):
    """Hangs up in a payload; the part that was sent is a complete configuration."""
    session.socket.sendall(FRONT + STATEMENT * (100 * at))
    session.socket.close()


def breaks_off(session, at, _):
    """Sends a part of a session and resets the connection."""
    session.socket.sendall(FRONT[: len(FRONT) * at // 32])
    resets(session)


def garbles(session, at, _):
    """Sends rubbish and hangs up, without reading."""
    try:
        session.socket.sendall(random.Random(at).randbytes(200_000))
    except OSError:
        pass  # the session may have ended at a line that is too long
    session.socket.close()


def garbles_and_reads(session, at, _):
    """Sends rubbish and reads to the end."""
    rubbish = random.Random(at).randbytes(20_000).replace(b"\r", b"\n")
    session.socket.sendall(rubbish)
    session.socket.shutdown(socket.SHUT_WR)
    while session.socket.recv(65536):
        pass
    session.socket.close()


def never_reads(session, _, others):
    """Sends until the program can write no more replies, and stays until the other sessions end."""
    session.socket.settimeout(1)
    try:
        while True:
            session.socket.sendall(b"X" * 60_000 + b"\nREAD config\n")
    except OSError:
        pass  # the program waits until the client reads
    others.wait(3 * SECONDS)
    resets(session)


class Unread:
    """A client that has not read its greeting."""

    def __init__(self, router):
        self.socket = socket.create_connection(("127.0.0.1", router.port), timeout=SECONDS)


def leaves_at_once(session, at, _):
    """Closes or resets the connection before it has read the greeting."""
    if at % 16 < len(MEANS):
        resets(session)
    else:
        session.socket.close()


def says_nothing(session, _, others):
    """Sends nothing, and stays until the other sessions end."""
    others.wait(3 * SECONDS)
    session.socket.close()


def stays_in_a_payload(session, _, others):
    """Sends the beginning of a payload, and stays until the other sessions end."""
    session.socket.sendall(b"WRITEDATA hotconfig 1048576\nIdle -> Discard;")
    others.wait(3 * SECONDS)
    session.socket.close()


MEANS = (hangs_up, breaks_off, garbles, garbles_and_reads, never_reads, leaves_at_once, says_nothing, stays_in_a_payload)


def neighbours(program):
    """Checks that 32 sessions get exactly their replies while 32 others misbehave."""
    config = switches(32) + b" Idle -> h :: Switch(0) -> Discard; h [1] -> Discard; " + COUNTER
    router = Listening(program, config, 64)
    # The sessions that read nothing connect first. So the last connection reads its greeting, and
    # a router with too few sessions is always noticed.
    unread = {at: Unread(router) for at in range(32) if MEANS[at % len(MEANS)] is leaves_at_once}
    all_here, others, left = threading.Barrier(64), threading.Event(), [32]
    lock = threading.Lock()

    def good(at):
        """Runs a session that has to get exactly its replies."""
        session = Session(router)
        meets(all_here)
        try:
            goes_on(session, at, config)
        finally:
            with lock:
                left[0] -= 1
            if left[0] == 0:
                others.set()

    def bad(at):
        """Runs a session that misbehaves."""
        means = MEANS[at % len(MEANS)]
        session = unread.get(at) or Session(router)
        meets(all_here)
        means(session, at, others)

    try:
        all_at_once([*(lambda at=at: good(at) for at in range(32)), *(lambda at=at: bad(at) for at in range(32))])
        # Status 4, because a read or a write of some sessions failed.
        router.ends(4)
    finally:
        router.stop()


def crowd(program):
    """Checks 64 sessions at the same time, in parallel with 16 drivers.

    Each session gets exactly its replies, and the drivers make all their rounds.
    """
    config = switches(64) + b" " + SOURCE
    router = Listening(program, config, 64, "-w", "16", "--rounds", "500")
    all_here = threading.Barrier(64)

    def work(at):
        session = Session(router)
        meets(all_here)
        if at == 0:
            counts_to(session, 16 * 500)
        goes_on(session, at, config)

    try:
        all_at_once([lambda at=at: work(at) for at in range(64)])
        router.ends(0)
    finally:
        router.stop()


def counts_to(session, wanted):
    """Waits until the counter reaches this number, and checks that it stays there."""
    until(lambda: int(session.read(b"c.count")) >= wanted, "the drivers do not make all their rounds")
    for _ in range(20):
        same(b"%d" % wanted, session.read(b"c.count"), "the packets of the drivers' rounds")


def local(program):
    """Checks that the program listens at 127.0.0.1 only."""
    router = Listening(program, COUNTER, 2, "-w", "1", "--rounds", "10")
    try:
        for _ in range(2):
            if listeners(router.port) != ["0100007F"]:
                raise Wrong(f"the program listens at {listeners(router.port)}")
            Session(router).quit()
        router.ends(0)
    finally:
        router.stop()


def is_denied(session):
    """Checks that a read-only session changes nothing, while drivers make 1,000 rounds."""
    for sent, handler in [
        (b"WRITE c.reset_counts\n", b"c.reset_counts"),
        (b"WRITEDATA c.reset_counts 2\r\nab", b"c.reset_counts"),
        (b"CHECKWRITE c.reset_counts\n", b"c.reset_counts"),
        (b"WRITE hotconfig Idle -> Discard;\n", b"hotconfig"),
        (b"WRITEDATA hotconfig 16\nIdle -> Discard;", b"hotconfig"),
        (b"CHECKWRITE hotconfig\n", b"hotconfig"),
        (b"WRITE x.y\n", b"x.y"),
    ] * 20:
        same(denial(handler), b"".join(session.ask(sent)[1]), f"{sent!r} in a read-only session")
    counts_to(session, 1000)
    same(SOURCE, session.read(b"config"), "the configuration after the writes of a read-only session")


def readonly(program):
    """Checks read-only sessions with two drivers, on standard input and over TCP."""
    options = ["--readonly", "-w", "2", "--rounds", "500"]
    it = Alone(program, SOURCE, *options)
    try:
        is_denied(it)
        it.ends()
    finally:
        it.stop()
    router = Listening(program, SOURCE, 3, *options)

    def work():
        session = Session(router)
        is_denied(session)
        session.quit()

    try:
        all_at_once([work] * 3)
        router.ends(0)
    finally:
        router.stop()


def rounds(program):
    """Checks that a driver makes exactly 200,000 rounds."""
    router = Listening(program, SOURCE, 1, "-w", "1", "--rounds", "200000")
    try:
        session = Session(router)
        counts_to(session, 200_000)
        session.quit()
        router.ends(0)
    finally:
        router.stop()


CASES = {case.__name__: case for case in (devices, memory, blank, commands, neighbours, crowd, local, readonly, rounds)}


def main():
    program, name = sys.argv[1], sys.argv[2]
    try:
        CASES[name](program)
    except (Wrong, OSError, AttributeError, ValueError, StopIteration, subprocess.TimeoutExpired) as error:
        print(f"hostile.py: {name}: {error}", file=sys.stderr)
        return 1
    return 0


if __name__ == "__main__":
    sys.exit(main())
