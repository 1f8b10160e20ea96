"""Checks control sessions over TCP in parallel: sixteen sessions that read, write and swap while
drivers make rounds, clients that hang up, and a live router. The replies have to be such that a
single thread could have got them. A request of HTTP carries out no command.

    sessions.py PROGRAM CASE
    sessions.py PORT attached

Each case except `attached` starts the program on a free port of 127.0.0.1 and ends within a minute.
A failure is printed, and ends the script with status 1.
"""
import os
import re
import signal
import socket
import struct
import subprocess
import sys
import threading
import time

GREETING = b"Click::ControlSocket/1.3\r\n"
SECONDS = int(os.environ.get("SECONDS_TO_WAIT", "20"))


class Wrong(Exception):
    """A failed check; the text says what is wrong."""


def free_port():
    with socket.socket() as probe:
        probe.bind(("127.0.0.1", 0))
        return probe.getsockname()[1]


class Router:
    """A program that listens for a number of sessions on a free port, with a number of drivers."""

    def __init__(self, program, text, sessions, drivers=0, rounds=0, options=()):
        for _ in range(5):
            self.port = free_port()
            words = [program, "-e", text, "-p", str(self.port), "-n", str(sessions), "-w", str(drivers), *options]
            if rounds is not None:
                words += ["--rounds", str(rounds)]
            self.process = subprocess.Popen(words, stdin=subprocess.DEVNULL, stdout=subprocess.PIPE, stderr=subprocess.PIPE)
            time.sleep(0.1)
            if self.process.poll() is None:
                return
        raise Wrong("the program ended early: " + self.process.stderr.read().decode())

    def ends(self, wanted):
        """Checks that the program ends by itself, with this status and without output."""
        try:
            out, err = self.process.communicate(timeout=SECONDS)
        except subprocess.TimeoutExpired:
            self.process.kill()
            raise Wrong("the program does not end")
        if (out, err) != (b"", b""):
            raise Wrong(f"the program wrote {out!r} and {err!r}")
        if self.process.returncode != wanted:
            raise Wrong(f"the program ended with status {self.process.returncode}, and not {wanted}")

    def stop(self):
        if self.process.poll() is None:
            self.process.kill()
        self.process.communicate()


class Session:
    """A client that reads the reply to each command before it sends the next one."""

    def __init__(self, router):
        ends = time.monotonic() + SECONDS
        while True:
            try:
                self.socket = socket.create_connection(("127.0.0.1", router.port), timeout=SECONDS)
                break
            except ConnectionRefusedError:
                if time.monotonic() > ends:
                    raise Wrong("the program does not listen")
                time.sleep(0.02)
        self.rest = b""
        if self.line() != GREETING:
            raise Wrong("another greeting")

    def more(self):
        """Receives more bytes into `rest`."""
        piece = self.socket.recv(65536)
        if not piece:
            raise Wrong("the session ended early")
        self.rest += piece

    def line(self):
        """Returns the next line, with its CR LF."""
        while b"\r\n" not in self.rest:
            self.more()
        line, self.rest = self.rest.split(b"\r\n", 1)
        return line + b"\r\n"

    def bytes(self, count):
        """Returns the next `count` bytes."""
        while len(self.rest) < count:
            self.more()
        value, self.rest = self.rest[:count], self.rest[count:]
        return value

    def reply(self):
        """Returns the number of the next reply, its lines, and its value or None."""
        lines = [self.line()]
        while lines[-1][3:4] == b"-":
            lines.append(self.line())
        value = None
        if lines[-1].startswith(b"200 Read handler"):
            value = self.bytes(int(re.fullmatch(rb"DATA (\d+)\r\n", self.line()).group(1)))
        return int(lines[-1][:3]), lines, value

    def ask(self, command):
        self.socket.sendall(command)
        return self.reply()

    def read(self, handler):
        number, lines, value = self.ask(b"READ " + handler + b"\n")
        if number != 200 or value is None:
            raise Wrong(f"READ {handler!r}: {lines!r}")
        return value

    def write(self, handler, text):
        self.socket.sendall(b"WRITEDATA %s %d\n%s" % (handler, len(text), text))
        return self.reply()

    def quit(self):
        number, lines, _ = self.ask(b"QUIT\n")
        if lines != [b"200 Goodbye!\r\n"]:
            raise Wrong(f"QUIT: {number} {lines!r}")
        if self.socket.recv(1) != b"":
            raise Wrong("there is output after the reply to QUIT")
        self.socket.close()


def all_at_once(works):
    """Runs each of these in its own thread, and raises the first failure."""
    wrong = []

    def run(work):
        try:
            work()
        except Exception as error:  # a broken client is a failure too
            wrong.append(error)

    threads = [threading.Thread(target=run, args=(work,), daemon=True) for work in works]
    for thread in threads:
        thread.start()
    ends = time.monotonic() + 2 * SECONDS
    for thread in threads:
        thread.join(max(0.0, ends - time.monotonic()))
    if wrong:
        raise wrong[0]
    if any(thread.is_alive() for thread in threads):
        raise Wrong("a session does not end")


def counting(program):
    """Checks sixteen sessions that read a counter while four drivers make rounds.

    Over all sessions the counter never falls. It ends at the number of packets of all rounds, for
    which one more session waits.
    """
    sessions, drivers, rounds, reads = 16, 4, 1000, 40
    text = "InfiniteSource(ab, 1000000, 1) -> c :: Counter -> Discard; Idle -> s :: Switch(0) -> Discard; s [1] -> Discard;"
    router = Router(program, text, sessions + 1, drivers, rounds)
    seen, lock = [], threading.Lock()

    def work(k):
        session = Session(router)
        for n in range(reads):
            sent = time.monotonic()
            value = int(session.read(b"c.count"))
            got = time.monotonic()
            with lock:
                seen.append((sent, got, value))
            number, lines, _ = session.write(b"s.switch", b"%d" % ((k + n) % 2))
            if number != 200:
                raise Wrong(f"a write: {lines!r}")
            if session.read(b"s.switch") not in (b"0", b"1"):
                raise Wrong("the switch is neither 0 nor 1")
        session.quit()

    def waits():
        session = Session(router)
        ends = time.monotonic() + SECONDS
        while int(session.read(b"c.count")) < drivers * rounds:
            if time.monotonic() > ends:
                raise Wrong("the drivers do not make all their rounds")
            time.sleep(0.01)
        session.quit()

    try:
        all_at_once([waits, *(lambda k=k: work(k) for k in range(sessions))])
        router.ends(0)
    finally:
        router.stop()
    # A read that was sent after the reply to another read had come returns at least its value.
    by_end, by_start, highest, at = sorted(seen, key=lambda r: r[1]), sorted(seen), -1, 0
    for sent, _, value in by_start:
        while at < len(by_end) and by_end[at][1] < sent:
            highest = max(highest, by_end[at][2])
            at += 1
        if value < highest:
            raise Wrong(f"a counter fell from {highest} to {value}")
    if len(seen) != sessions * reads or not 0 <= max(value for _, _, value in seen) <= drivers * rounds:
        raise Wrong("the number of reads is wrong, or there are more packets than the rounds emit")


def swapping(program):
    """Checks sixteen sessions that make swaps, also refused ones, while four drivers make rounds.

    A read of `config` returns a configuration that a session installed, and none that was replaced
    before the read was sent. No read returns a refused configuration.
    """
    sessions, swaps = 16, 12
    first = b"Idle -> first :: Counter -> Discard;"
    router = Router(program, first.decode(), sessions, 4, 500)
    installs, reads, lock = [(0.0, 0.0, first)], [], threading.Lock()

    def work(k):
        session = Session(router)
        for n in range(swaps):
            text = b"Idle -> m%d_%d :: Counter -> Discard;" % (k, n)
            sent = time.monotonic()
            number, lines, _ = session.write(b"hotconfig", text)
            got = time.monotonic()
            if number != 200:
                raise Wrong(f"a good swap: {lines!r}")
            with lock:
                installs.append((sent, got, text))
            for faulty in (b"Idle -> ;", b"Idle -> x%d_%d :: Counter;" % (k, n)):
                if session.write(b"hotconfig", faulty)[0] != 520:
                    raise Wrong(f"{faulty!r} was not refused")
            sent = time.monotonic()
            value = session.read(b"config")
            got = time.monotonic()
            with lock:
                reads.append((sent, got, value))
        session.quit()

    try:
        all_at_once([lambda k=k: work(k) for k in range(sessions)])
        router.ends(0)
    finally:
        router.stop()
    known = {text: (sent, got) for sent, got, text in installs}
    if len(known) != sessions * swaps + 1 or len(reads) != sessions * swaps:
        raise Wrong("another number of swaps or reads")
    for sent, got, value in reads:
        if value not in known:
            raise Wrong(f"no session installed {value!r}")
        began, ended = known[value]
        if began > got:
            raise Wrong(f"{value!r} ran before it was sent")
        for other_sent, other_got, other in installs:
            if other != value and other_sent > ended and other_got < sent:
                raise Wrong(f"{value!r} was read after {other!r} had replaced it")


def clients(program):
    """Checks that three sessions get their replies while three other clients misbehave.

    One hangs up in a payload, one never reads and then resets its connection, and one sends its
    commands byte by byte.
    """
    router = Router(program, "Idle -> c :: Counter -> Discard; Idle -> s :: Switch(0) -> Discard; s [1] -> Discard;", 6, 2, 1000)

    def hangs_up():
        session = Session(router)
        session.socket.sendall(b"WRITEDATA s.switch 100\n1")
        session.socket.close()

    def never_reads():
        session = Session(router)
        session.socket.settimeout(2)
        try:
            for _ in range(1000):
                session.socket.sendall(b"READ list\n" * 1000)
        except OSError:
            pass  # the program waits until the client reads, or has ended the session
        # Closes with a reset, so that the program's write fails.
        session.socket.setsockopt(socket.SOL_SOCKET, socket.SO_LINGER, struct.pack("ii", 1, 0))
        session.socket.close()

    def byte_by_byte():
        session = Session(router)
        for byte in b"WRITEDATA s.switch 1\r\n1READ s.switch\r":
            session.socket.sendall(bytes([byte]))
            time.sleep(0.002)
        if session.reply()[0] != 200 or session.reply()[0] != 200:
            raise Wrong("a command that was sent byte by byte was not answered")
        session.quit()

    def goes_on():
        session = Session(router)
        for _ in range(200):
            if session.read(b"c.count") != b"0":
                raise Wrong("the counter counts without a packet")
        session.quit()

    try:
        all_at_once([hangs_up, never_reads, byte_by_byte, goes_on, goes_on, goes_on])
        router.ends(4)
    finally:
        router.stop()


def reading(program):
    """Checks that --readonly refuses the writes of all sessions."""
    router = Router(program, "Idle -> s :: Switch(0) -> Discard; s [1] -> Discard;", 2, options=["--readonly"])

    def work():
        session = Session(router)
        number, lines, _ = session.write(b"s.switch", b"1")
        if (number, lines) != (530, [b"530 Permission denied for 's.switch'\r\n"]):
            raise Wrong(f"a write in a read-only session: {lines!r}")
        if session.read(b"s.switch") != b"0":
            raise Wrong("the switch was written")
        session.quit()

    try:
        all_at_once([work, work])
        router.ends(0)
    finally:
        router.stop()


def taken(program):
    """Checks that the program ends with status 4 if a port of it is taken, and names the port.

    It is the port of sessions, or that of the page next to sessions over TCP or on standard input.
    A fault of the configuration is reported first.
    """
    with socket.socket() as other:
        other.bind(("127.0.0.1", 0))
        other.listen()
        port = other.getsockname()[1]
        in_use = "click_prog: {}: cannot listen on 127.0.0.1:%d: Address already in use (os error 98)\n" % port
        asked = [
            ("sessions", ["-p", str(port), "-n", "3", "--book"]),
            ("sessions", ["-p", str(port), "--live", "--idle", "1"]),
            ("page", ["--page", str(port), "-p", str(free_port()), "--live"]),
            ("page", ["--page", str(port)]),
        ]
        for text, status in (("Idle -> Discard;", 4), ("Idle -> ;", 1)):
            for user, options in asked:
                wanted = in_use.format(user).encode() if status == 4 else b"click_prog: "
                words = [program, "-e", text, *options]
                ended = subprocess.run(words, stdin=subprocess.DEVNULL, capture_output=True, timeout=SECONDS)
                is_wanted = ended.stderr == wanted if status == 4 else ended.stderr.startswith(wanted) and b"listen" not in ended.stderr
                if (ended.returncode, ended.stdout) != (status, b"") or not is_wanted:
                    raise Wrong(f"a port that is taken: status {ended.returncode}, {ended.stdout!r}, {ended.stderr!r}")


def checked(program):
    """Checks the line of `--check` on standard error, for each of its words."""
    text = "Idle -> c :: Counter -> Discard;"
    for name, word in (("c.count", "Yes"), ("x.count", "NoElement"), ("c.none", "NoHandler"), ("c.reset_counts", "WrongWay")):
        ended = subprocess.run([program, "-e", text, "--check", name], stdin=subprocess.DEVNULL, capture_output=True, timeout=SECONDS)
        if (ended.returncode, ended.stderr) != (0, f"check {name}: {word}\n".encode()):
            raise Wrong(f"the check of {name}: status {ended.returncode}, {ended.stderr!r}")


def counts_to(session, wanted):
    """Waits until the counter `c` has counted to this number."""
    ends = time.monotonic() + SECONDS
    while int(session.read(b"c.count")) < wanted:
        if time.monotonic() > ends:
            raise Wrong("the driver does not go on")
        time.sleep(0.01)


def staying(program):
    """Checks a live router with one session slot and a driver.

    It serves many sessions, one after another, some of which hang up, and all of them at one
    router. The driver emits all packets of the source. A second client waits until the session
    before it ends. SIGTERM ends the program.
    """
    text = "InfiniteSource(ab, 3000, 1) -> c :: Counter -> Discard; Idle -> s :: Switch(0) -> Discard; s [1] -> Discard;"
    router = Router(program, text, 1, 1, None, ["--live"])
    try:
        for n in range(30):
            session = Session(router)
            if session.read(b"s.switch") != b"%d" % (n % 2):
                raise Wrong("a session does not read the value that the session before it wrote")
            if session.write(b"s.switch", b"%d" % ((n + 1) % 2))[0] != 200:
                raise Wrong("a write was refused")
            if n % 3 == 2:
                session.socket.close()  # a session that hangs up frees its slot too
            else:
                session.quit()
        session = Session(router)
        counts_to(session, 3000)
        with socket.create_connection(("127.0.0.1", router.port), timeout=SECONDS) as other:
            other.settimeout(0.5)
            try:
                other.recv(1)
                raise Wrong("a second session was served at the same time")
            except TimeoutError:
                pass
            session.quit()
            other.settimeout(SECONDS)
            if other.recv(len(GREETING)) != GREETING:
                raise Wrong("the session that waited was not served")
        if router.process.poll() is not None:
            raise Wrong("the program has ended")
        router.process.terminate()
        router.ends(-signal.SIGTERM)
    finally:
        router.stop()

HTTP_METHODS = (b"GET", b"HEAD", b"POST", b"PUT", b"DELETE", b"OPTIONS", b"PATCH", b"TRACE")
# Requests and commands that are no request of HTTP, and the replies that CONTROL.md says.
NO_REQUESTS = (
    (b"POST\r\n", (b"501 Unimplemented command 'POST'",)),
    (b"POST x HTTP/1.1\r\n", (b"501 Unimplemented command 'POST'",)),
    (b"POST  / HTTP/1.1\r\n", (b"501 Unimplemented command 'POST'",)),
    (b"POST\t/ HTTP/1.1\r\n", (b"501 Unimplemented command 'POST'",)),
    (b"POST/ HTTP/1.1\r\n", (b"501 Unimplemented command 'POST/'",)),
    (b"post / HTTP/1.1\r\n", (b"501 Unimplemented command 'post'",)),
    (b"Get / HTTP/1.1\r\n", (b"501 Unimplemented command 'Get'",)),
    (b"GET http://x/ HTTP/1.1\r\n", (b"501 Unimplemented command 'GET'",)),
    (b"OPTIONS * HTTP/1.1\r\n", (b"501 Unimplemented command 'OPTIONS'",)),
    (b" POST / HTTP/1.1\r\n", (b"501 Unimplemented command 'POST'",)),
    (b"\r\nPOST / HTTP/1.1\r\n", (b"501 Unimplemented command 'POST'",)),
    (b"READ c.count\r\nPOST / HTTP/1.1\r\n", (b"200 Read handler 'c.count' OK", b"501 Unimplemented command 'POST'")),
    (b"POSTS / HTTP/1.1\r\n", (b"501 Unimplemented command 'POSTS'",)),
    (b"READ /\r\n", (b"511 No handler named '/'",)),
)


def answer(router, sent, late=b""):
    """Returns all that comes until the program ends the connection. `late` is sent after that."""
    with socket.create_connection(("127.0.0.1", router.port), timeout=SECONDS) as client:
        client.sendall(sent)
        came = b""
        try:
            while piece := client.recv(65536):
                came += piece
        except TimeoutError:
            raise Wrong(f"a request that is not ended: {sent[:40]!r}, after {came!r}") from None
        client.sendall(late)
        return came


def requests(program):
    """Checks that a connection that begins with a request of HTTP is ended before a command.

    The lines of its body, also late ones, change nothing. The session slot is free for the next
    session, the exit status is that of an end of the input, and other bytes are answered as ever.
    """
    text = "InfiniteSource(ab, 3, 1) -> c :: Counter -> Discard; Idle -> s :: Switch(0) -> Discard; s [1] -> Discard;"
    head = b"Host: 127.0.0.1\r\nContent-Type: text/plain\r\nContent-Length: 99\r\n\r\n"
    body = b"x=\r\nWRITE s.switch 1\nWRITE c.reset_counts\nWRITE hotconfig Idle -> evil :: Counter -> Discard;\nQUIT\n"
    sent = [b"%s / HTTP/1.1\r\n%s%s" % (method, head, body) for method in HTTP_METHODS]
    sent += [b"GET /%s HTTP/1.1\r\n%s%s" % (b"a" * 100_000, head, body), b"OPTIONS /", b"POST /\n" + body]
    router = Router(program, text, 1, 1, None, ["--live"])
    try:
        session = Session(router)
        counts_to(session, 3)
        session.quit()
        for request in sent:
            for early, late in ((request, b""), (request[:64], request[64:])):
                came = answer(router, early, late)
                if came != GREETING:
                    raise Wrong(f"the request {request[:40]!r} is answered by {came!r}")
            session = Session(router)
            state = [session.read(handler) for handler in (b"config", b"s.switch", b"c.count")]
            if state != [text.encode(), b"0", b"3"]:
                raise Wrong(f"the request {request[:40]!r} changes the router: {state!r}")
            session.quit()
        for commands, wanted in NO_REQUESTS:
            session = Session(router)
            session.socket.sendall(commands)
            came = tuple(session.reply()[1][-1].removesuffix(b"\r\n") for _ in wanted)
            if came != wanted:
                raise Wrong(f"the bytes {commands!r} are answered by {came!r}")
            number, lines, _ = session.ask(b"GET / HTTP/1.1\r\n")
            if lines != [b"501 Unimplemented command 'GET'\r\n"]:
                raise Wrong(f"a later request is answered by {number} {lines!r}")
            session.quit()
    finally:
        router.stop()
    router = Router(program, text, 1)
    try:
        if answer(router, sent[0]) != GREETING:
            raise Wrong("the request of a run with a book is answered")
        router.ends(0)
    finally:
        router.stop()


def attached(port):
    """Checks two sessions that read the counter `c` of a router that listens on this port."""

    class Listening:
        pass

    router = Listening()
    router.port = int(port)

    def work():
        session = Session(router)
        first, second = int(session.read(b"c.count")), int(session.read(b"c.count"))
        if not 0 <= first <= second:
            raise Wrong(f"a counter fell from {first} to {second}")
        session.quit()

    all_at_once([work, work])


CASES = {case.__name__: case for case in (counting, swapping, clients, reading, taken, checked, staying, requests, attached)}


def main():
    program, name = sys.argv[1], sys.argv[2]
    try:
        CASES[name](program)
    except (Wrong, OSError, AttributeError, ValueError, subprocess.TimeoutExpired) as error:
        print(f"sessions.py: {name}: {error}", file=sys.stderr)
        return 1
    return 0


if __name__ == "__main__":
    sys.exit(main())
