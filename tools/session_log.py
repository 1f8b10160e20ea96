#!/usr/bin/env python3
"""Checks what --log prints. Each begin and end of a session has a line with the time. So has each swap
and each other write of a session or of the page, with its outcome. Names of handlers cannot forge a
line, parallel lines do not mix, and a failed write to standard error changes nothing. Without --log
nothing is printed.

    tools/session_log.py [CASE..]

The program must have been built. PROGRAM names another program to check. Each case starts the
program on free ports of 127.0.0.1 and ends within some ten seconds. A failure is printed, and ends
the script with status 1.
"""
from __future__ import annotations

import json
import os
import re
import socket
import struct
import subprocess
import sys
from datetime import datetime, timedelta, timezone
from urllib.parse import quote_from_bytes

sys.dont_write_bytecode = True
sys.path.append(f"{os.path.dirname(os.path.realpath(__file__))}/lib")
from hostile import Listening, listeners, until
from programs import path_of
from sessions import GREETING, SECONDS, Session, Wrong, all_at_once, free_port

PROGRAM = path_of("click_prog")
TEXT = "Idle -> c :: Counter -> s :: Switch(0) -> Discard;"
OTHER_TEXT = "Idle -> q :: Queue(7) -> Discard;"
# A line has printable characters only, and one session or the page.
LINE = re.compile(r"(\d{4}-\d\d-\d\dT\d\d:\d\d:\d\d\.\d{3}Z) (?:session=([1-9]\d*)|page) ((?:(?! session=)[ -~])*)\n")
# The key of the page's lines, where those of sessions have their number.
PAGE = 0
# A session that makes no call ends with these words.
NO_CALLS = "reads=0 writes=0 checks=0 failed=0"
# The clocks of the program and of this script are the same, but the program cuts its times.
SLACK = timedelta(milliseconds=2)
# The number of parallel sessions, and of the writes of each. All their lines fit into a pipe, since
# this script reads them at the end.
SESSIONS, WRITES = 16, 20
# The number of drivers, and of the rounds of each, that fill a book.
DRIVERS, ROUNDS = 16, 65_536


class Logged(Listening):
    """A router with --log whose standard error is read at the end of a block.

    With one session slot the sessions come one after another, so the order of all lines is known.
    """

    def __init__(self, *options: str, text: str = TEXT, slots: int = 1, is_on: bool = True):
        # The times of the log do not depend on the time zone.
        os.environ["TZ"] = "America/New_York"
        self.began = datetime.now(timezone.utc)
        super().__init__(PROGRAM, text, slots, *["--log"][:is_on], *options)

    def __enter__(self) -> Logged:
        return self

    def __exit__(self, *_error: object) -> None:
        self.stop()

    def lines(self, in_order: bool = True) -> dict[int, list[str]]:
        """Ends the program, and returns the lines of each session, and of PAGE, without their times.

        Checks the times: they are in UTC, between the program's start and now, and never go back in
        one session or on the page. Also checks that the numbers of sessions are those from 1, and that they are in
        this order, unless sessions began at the same time: then either line can be written first.
        """
        self.process.kill()
        out, said = self.process.communicate(timeout=SECONDS)
        same(b"", out, "standard output")
        found: dict[int, list[str]] = {}
        last: dict[int, datetime] = {}
        for line in said.decode("ascii").splitlines(keepends=True):
            parts = LINE.fullmatch(line)
            if not parts:
                raise Wrong(f"this is not a line of the log: {line!r}")
            at, number = datetime.fromisoformat(parts[1].replace("Z", "+00:00")), int(parts[2] or PAGE)
            if not last.get(number, self.began - SLACK) <= at <= datetime.now(timezone.utc):
                raise Wrong(f"the time is not between the line before and now: {line!r}")
            last[number] = at
            found.setdefault(number, []).append(parts[3])
        numbers = [it for it in found if it != PAGE]
        same(list(range(1, len(numbers) + 1)), numbers if in_order else sorted(numbers), "the numbers of sessions that begin")
        return found


def posted(port: int, target: str, body: bytes) -> dict[str, object]:
    """Posts this to the page at a port, and returns the value of the JSON in the response."""
    head = f"POST {target} HTTP/1.1\r\nHost: 127.0.0.1:{port}\r\nConnection: close\r\nx-click-page: 1\r\nContent-Length: {len(body)}\r\n\r\n"
    with connect(port) as peer:
        peer.sendall(head.encode() + body)
        return json.loads(rest_of(peer).partition(b"\r\n\r\n")[2])


class Paged(Logged):
    """A router with a page, and with --log if it is on."""

    def __init__(self, *options: str, slots: int = 1, is_on: bool = True):
        self.page = free_port()
        super().__init__("--page", str(self.page), *options, slots=slots, is_on=is_on)
        until(lambda: listeners(self.page) or self.process.poll() is not None, "the page does not listen")

    def post(self, target: str, body: bytes) -> dict[str, object]:
        return posted(self.page, target, body)

    def write(self, name: bytes, text: bytes) -> dict[str, object]:
        return self.post(f"/write?handler={quote_from_bytes(name, safe='')}", text)

    def same_page_lines(self, wanted: list[str]) -> None:
        """Checks the lines of the page, over a router without a session."""
        same({PAGE: wanted} if wanted else {}, self.lines(), "the lines of the page")


def same(wanted: object, came: object, what: str) -> None:
    if wanted != came:
        raise Wrong(f"{what}:\n  wanted {wanted!r}\n  came   {came!r}")


def same_lines(wanted: list[list[str]], router: Logged) -> None:
    """Checks the lines of all sessions, which came one after another in the slot 1."""
    came = router.lines()
    for number, lines in enumerate(wanted, 1):
        same(["begins slot=1", *lines], came.pop(number, None), f"the lines of session {number}")
    same({}, came, "the lines of further sessions")


def connect(port: int) -> socket.socket:
    return socket.create_connection(("127.0.0.1", port), timeout=SECONDS)


def talk(port: int, sent: bytes) -> bytes:
    """Sends the bytes to a session and closes the sending side. Returns what comes until the end."""
    with connect(port) as peer:
        peer.sendall(sent)
        peer.shutdown(socket.SHUT_WR)
        return rest_of(peer)


def rest_of(peer: socket.socket) -> bytes:
    pieces = []
    while piece := peer.recv(65536):
        pieces.append(piece)
    return b"".join(pieces)


def written(name: bytes, text: bytes) -> bytes:
    """Returns the command that writes a text to a handler."""
    return b"WRITEDATA %s %d\n%s" % (name, len(text), text)


def faults_in(replies: bytes) -> list[str]:
    """Returns the faults that the replies to refused writes have."""
    return [it.decode() for it in re.findall(rb"error:\r\n520 (.*)\r\n", replies)]


def ends() -> None:
    """Checks the line of each way in which a session ends."""
    with Logged("--live", "--idle", "1") as router:
        talk(router.port, b"QUIT\n")
        talk(router.port, b"READ c.count\nCHECKREAD c.count\nCHECKWRITE c.count\nREAD x\nREAD c.co")
        talk(router.port, b"x" * 65_537)
        talk(router.port, b"POST / HTTP/1.1\r\n\r\nWRITE c.reset_counts\n")
        with connect(router.port) as silent:
            same(GREETING, rest_of(silent), "a silent client")
        with connect(router.port) as resets:
            same(GREETING, resets.recv(len(GREETING)), "a client that resets")
            resets.setsockopt(socket.SOL_SOCKET, socket.SO_LINGER, struct.pack("ii", 1, 0))
        # The last line shows that the sessions before it have ended.
        talk(router.port, b"QUIT\n")
        wanted = [
            [f"ends cause=quit {NO_CALLS}"],
            ["ends cause=end-of-input reads=2 writes=0 checks=2 failed=0"],
            [f"ends cause=too-long {NO_CALLS}"],
            [f"ends cause=end-of-input {NO_CALLS}"],
            [f"ends cause=read-failed {NO_CALLS}"],
            [f"ends cause=read-failed {NO_CALLS}"],
            [f"ends cause=quit {NO_CALLS}"],
        ]
        same_lines(wanted, router)


def unread() -> None:
    """Checks the line of a session whose client takes none of its replies."""
    with Logged("--live", "--idle", "1", text=f"{TEXT} // {'x' * 100_000}") as router:
        with connect(router.port) as peer:
            peer.sendall(b"READ config\n" * 100)
            talk(router.port, b"QUIT\n")
        lines = router.lines()[1]
        if not re.fullmatch(r"ends cause=write-failed reads=\d+ writes=0 checks=0 failed=0", lines[-1]):
            raise Wrong(f"the end of a client that never reads: {lines}")


def swap_texts() -> list[str]:
    """Returns configurations, of which the first two can be installed. One has a long fault."""
    return [
        OTHER_TEXT,
        "Idle -> q :: Queue(7) -> Discard",
        "Idle -> Foo -> Discard;",
        "\n\nIdle -> Queue(1, 2) -> Discard;",
        "Idle -> q :: Queue(7); c :: Counter -> Discard;",
        "Idle -> x :: { input -> Queue(0) -> output } -> Discard;",
        "Idle ->",
        f"a{'b' * 300} :: Queue(0);",
    ]


def swap_lines(texts: list[str], faults: list[str]) -> list[str]:
    """Returns the lines of swaps to these texts: two are installed, and the others have faults."""
    same(len(texts) - 2, len(faults), "the number of refused swaps")
    if not any(len(it) > 160 for it in faults):
        raise Wrong("no fault is long")
    outcomes = ["installed"] * 2 + [f'fault fault="{cut(it)}"' for it in faults]
    return [f"swap bytes={len(text)} outcome={outcome}" for text, outcome in zip(texts, outcomes)]


def swaps() -> None:
    """Checks the lines of swaps: installed, or with the fault that the reply has."""
    texts = swap_texts()
    sent = b"".join(written(b"hotconfig", it.encode()) for it in texts)
    with Logged("--live") as router:
        replies = talk(router.port, sent + b"WRITE hotconfig Idle -> Discard\nREAD config\n")
        lines = swap_lines(texts, faults_in(replies))
        end = f"ends cause=end-of-input reads=1 writes={len(texts) + 1} checks=0 failed=0"
        same_lines([[*lines, "swap bytes=15 outcome=installed", end]], router)


def page_swaps() -> None:
    """Checks the lines of swaps by the page, before and after those of a session."""
    texts = swap_texts()
    with Paged("--live") as router:
        answers = [router.post("/swap", it.encode()) for it in texts]
        same([{"done": True}] * 2, answers[:2], "the first two swaps")
        lines = swap_lines(texts, [it["text"].split("\n520 ")[1].rstrip("\r\n") for it in answers[2:]])
        talk(router.port, written(b"hotconfig", b"Idle -> Discard") + b"QUIT\n")
        same({"done": True}, router.post("/swap", b"Idle -> Counter -> Discard"), "a swap after the session")
        came = router.lines()
        same([*lines, "swap bytes=26 outcome=installed"], came.pop(PAGE, None), "the lines of the page")
        same({1: ["begins slot=1", "swap bytes=15 outcome=installed", "ends cause=quit reads=0 writes=1 checks=0 failed=0"]}, came, "the lines of the session")


def cut(fault: str) -> str:
    """Returns a fault as the log has it: without its end, if it is long."""
    return fault if len(fault) <= 160 else f"{fault[:160]}..."


def write_rows(longest: int) -> list[tuple[bytes, bytes, str, str]]:
    """Returns writes with each outcome. The longest name has this number of bytes.

    Each row has a name, a text, the name in the line, and the outcome. No name has a byte that ends
    a word of a session, but these bytes can be those of a terminal.
    """
    long = b"n" * 64
    return [
        (b"s.switch", b"-1", "s.switch", "done"),
        (b"s.switch", b"", "s.switch", 'fault fault="not a number"'),
        (b"s.switch", b"1", "s.switch", 'fault fault="out of range"'),
        (b"c.reset_counts", b"\n2026-01-01T00:00:00.000Z session=9 begins\n", "c.reset_counts", "done"),
        (b"x.reset", b"1", "x.reset", "no-element"),
        (b"c.nothing", b"1", "c.nothing", "no-handler"),
        (b"config", b"1", "config", "wrong-way"),
        (b"c.count", b"1", "c.count", "wrong-way"),
        (b"x\x0bsession=9\"begins\"\\n", b"1", r"x\x0bsession\x3d9\x22begins\x22\x5cn", "no-handler"),
        (b"\x00\x1b[2J\x7f\xff\xc3\xa9.a", b"1", r"\x00\x1b[2J\x7f\xff\xc3\xa9.a", "no-element"),
        (long, b"1", long.decode(), "no-handler"),
        (long + b"x", b"1", f"{long.decode()}...", "no-handler"),
        (b"\xff" * longest, b"1", r"\xff" * 64 + "...", "no-handler"),
    ]


def write_lines(rows: list[tuple[bytes, bytes, str, str]]) -> list[str]:
    return [f"write={shown} bytes={len(text)} outcome={outcome}" for _, text, shown, outcome in rows]


def writes() -> None:
    """Checks the lines of writes, with each outcome, and the escapes in names."""
    rows = write_rows(65_000)
    with Logged("--live") as router:
        talk(router.port, b"".join(written(name, text) for name, text, _, _ in rows) + b"QUIT\n")
        # The bytes of an end of line end the command, so they are in no name.
        talk(router.port, b"WRITE c.reset_counts\nWRITE x\n2026-01-01T00:00:00.000Z session=9 begins slot=1\nWRITE y\r")
        wanted = [
            [*write_lines(rows), f"ends cause=quit reads=0 writes={len(rows)} checks=0 failed=0"],
            [
                "write=c.reset_counts bytes=0 outcome=done",
                "write=x bytes=0 outcome=no-handler",
                "write=y bytes=0 outcome=no-handler",
                "ends cause=end-of-input reads=0 writes=3 checks=0 failed=0",
            ],
        ]
        same_lines(wanted, router)


def page_writes() -> None:
    """Checks the lines of writes by the page. In its names each byte can come."""
    ends = b"x\n2026-01-01T00:00:00.000Z page write=y bytes=0 outcome=done\r\n"
    shown = r"x\x0a2026-01-01T00:00:00.000Z\x20page\x20write\x3dy\x20bytes\x3d0\x20outcome\x3ddone\x0d\x0a"
    rows = [*write_rows(1_000), (ends, b"", shown, "no-element")]
    with Paged("--live") as router:
        for name, text, _, outcome in rows:
            same(outcome == "done", router.write(name, text) == {"done": True}, f"a write of {name!r:.80} is done")
        router.write(b"hotconfig", b"Idle -> Discard")
        router.same_page_lines([*write_lines(rows), "swap bytes=15 outcome=installed"])


def page_links() -> None:
    """Checks the lines of writes and a swap by the page, and of a session, of a router with a link."""
    rows = write_rows(1_000)
    with Paged("--live", "--link", f"a={free_port()},{free_port()}") as router:
        for name, text, _, outcome in rows:
            same(outcome == "done", router.write(name, text) == {"done": True}, f"a write of {name!r:.80} is done")
        talk(router.port, b"WRITE c.reset_counts\nREAD c.count\nQUIT\n")
        same({"done": True}, router.post("/swap", OTHER_TEXT.encode()), "a swap")
        came = router.lines()
        same([*write_lines(rows), f"swap bytes={len(OTHER_TEXT)} outcome=installed"], came.pop(PAGE, None), "the lines of the page")
        same({1: ["begins slot=1", "write=c.reset_counts bytes=0 outcome=done", "ends cause=quit reads=1 writes=1 checks=0 failed=0"]}, came, "the lines of the session")


def page_reads() -> None:
    """Checks that reads of the page are not logged, nor writes of a read-only page or foreign ones."""
    with Paged("--live", "--readonly") as router:
        same(403, int(talk(router.page, foreign_post(router.page)).split()[1]), "the status of a foreign write")
        same(530, router.write(b"c.reset_counts", b"").get("fault"), "the fault of a write")
        same(530, router.post("/swap", OTHER_TEXT.encode()).get("fault"), "the fault of a swap")
        for target in ("/flat", "/read?handler=c.count", "/metrics"):
            talk(router.page, f"GET {target} HTTP/1.1\r\nHost: 127.0.0.1:{router.page}\r\nConnection: close\r\n\r\n".encode())
        router.same_page_lines([])
    with Paged("--live") as router:
        talk(router.page, foreign_post(router.page))
        same({"done": True}, router.write(b"c.reset_counts", b""), "a write after a foreign one")
        router.same_page_lines(["write=c.reset_counts bytes=0 outcome=done"])


def foreign_post(port: int) -> bytes:
    """Returns a write as the page of another site could send it: without the header of the page."""
    return f"POST /write?handler=s.switch HTTP/1.1\r\nHost: 127.0.0.1:{port}\r\nConnection: close\r\nContent-Length: 1\r\n\r\n1".encode()


def readonly() -> None:
    """Checks that a read-only router, which makes no call for a write, logs none."""
    with Logged("--live", "--readonly") as router:
        talk(router.port, written(b"hotconfig", OTHER_TEXT.encode()) + b"WRITE c.reset_counts\nCHECKWRITE c.count\nCHECKREAD c.count\nREAD c.count\nQUIT\n")
        same_lines([["ends cause=quit reads=1 writes=0 checks=1 failed=0"]], router)


def full() -> None:
    """Checks the lines of writes that fail because the router's book is full."""
    with Logged("-w", str(DRIVERS), "--rounds", str(ROUNDS), slots=2) as router:
        first = Session(router)
        until(lambda: first.write(b"c.reset_counts", b"")[1] == [b"520 History full\r\n"], "the book is not full", 60)
        first.quit()
        lines = [it for it in router.lines()[1] if "outcome=done" not in it]
        came = len(lines)
        # Either of the two slots may accept the first client.
        same(True, lines[0] in ("begins slot=1", "begins slot=2"), f"the slot of {lines[0]!r}")
        same("write=c.reset_counts bytes=0 outcome=failed cause=history-full", lines[1], f"{came} lines about a full book")
        if not re.fullmatch(r"ends cause=quit reads=0 writes=\d+ checks=0 failed=1", lines[-1]):
            raise Wrong(f"the end of a session at a full book: {lines[-1]!r}")


def page_full() -> None:
    """Checks the line of a write of the page that fails because the router's book is full."""
    with Paged("-w", str(DRIVERS), "--rounds", str(ROUNDS)) as router:
        full_book = {"fault": 520, "text": "520 History full\r\n"}
        until(lambda: router.write(b"c.reset_counts", b"") == full_book, "the book is not full", 60)
        lines = router.lines()[PAGE]
        same({"write=c.reset_counts bytes=0 outcome=done"}, set(lines[:-1]), "the lines before the book is full")
        same("write=c.reset_counts bytes=0 outcome=failed cause=history-full", lines[-1], "the line about a full book")


def parallel() -> None:
    """Checks that the lines of the page and of parallel sessions do not mix, and whose they are."""

    def writes_as(nth: int) -> None:
        talk(router.port, written(b"h%d.handler" % nth, b"x" * nth) * WRITES + b"QUIT\n")

    def writes_on_page() -> None:
        for _ in range(WRITES):
            router.write(b"page.handler", b"")

    with Paged("--live", slots=SESSIONS) as router:
        all_at_once([writes_on_page, *(lambda nth=nth: writes_as(nth) for nth in range(SESSIONS))])
        found = router.lines(in_order=False)
        same(["write=page.handler bytes=0 outcome=no-element"] * WRITES, found.pop(PAGE, None), "the lines of the page")
        same(SESSIONS, len(found), "the number of sessions")
        who = []
        for first, *lines, last in found.values():
            nth = int(re.match(r"write=h(\d+)\.", lines[0])[1])
            same([f"write=h{nth}.handler bytes={nth} outcome=no-element"] * WRITES, lines, f"the lines of client {nth}")
            same(f"ends cause=quit reads=0 writes={WRITES} checks=0 failed=0", last, f"the end of client {nth}")
            who.append((nth, int(re.fullmatch(r"begins slot=(\d+)", first)[1])))
        same(list(range(SESSIONS)), sorted(nth for nth, _ in who), "the clients")
        same(True, all(1 <= slot <= SESSIONS for _, slot in who), "the slots are in their range")


def slots() -> None:
    """Checks that sessions that are open at the same time have different slots."""
    with Logged("--live", slots=SESSIONS) as router:
        peers = [connect(router.port) for _ in range(SESSIONS)]
        for peer in peers:
            same(GREETING, peer.recv(len(GREETING), socket.MSG_WAITALL), "the greeting of a session next to others")
        for peer in peers:
            with peer:
                peer.sendall(b"QUIT\n")
                same(b"200 Goodbye!\r\n", rest_of(peer), "the end of a session next to others")
        begun = (first for first, *_ in router.lines(in_order=False).values())
        same(sorted(f"begins slot={nth}" for nth in range(1, SESSIONS + 1)), sorted(begun), "the slots of sessions that are open at the same time")


# What a client sends, and what it gets, whether or not there is a log.
DIALOGUE = written(b"hotconfig", OTHER_TEXT.encode()) + b"WRITE c.reset_counts\nREAD q.length\nWRITE hotconfig Idle -> q :: Queue\nQUIT\n"
REPLIES = (
    GREETING
    + b"200 Write handler 'hotconfig' OK\r\n"
    + b"510 No element named 'c'\r\n"
    + b"200 Read handler 'q.length' OK\r\nDATA 1\r\n0"
    + b"520-Write handler 'hotconfig' error:\r\n520 31 Count at q outputs 0\r\n"
    + b"200 Goodbye!\r\n"
)


def without() -> None:
    """Checks that without --log nothing is printed."""
    for options in ([], ["--live", "--idle", "1"]):
        router = Listening(PROGRAM, TEXT, 1, *options)
        same(REPLIES, talk(router.port, DIALOGUE), f"the replies with {options}")
        if options:
            router.process.kill()
        out, said = router.process.communicate(timeout=SECONDS)
        same((b"", b""), (out, said), f"the outputs with {options}")


def page_without() -> None:
    """Checks that without --log no line is printed of a page."""
    with Paged("--live", is_on=False) as router:
        same({"done": True}, router.write(b"c.reset_counts", b""), "a write of the page without --log")
        router.same_page_lines([])
    # Next to a session on standard input nothing is logged.
    page = free_port()
    with subprocess.Popen([PROGRAM, "-e", TEXT, "--page", str(page)], stdin=subprocess.PIPE, stdout=subprocess.PIPE, stderr=subprocess.PIPE) as program:
        until(lambda: listeners(page) or program.poll() is not None, "the page does not listen")
        same({"done": True}, posted(page, "/write?handler=c.reset_counts", b""), "a write of the page next to standard input")
        _, said = program.communicate(b"QUIT\n", timeout=SECONDS)
    same(b"", said, "standard error of a run with a page next to standard input")


def unwritable() -> None:
    """Checks that sessions and the status are the same if no line can be written."""
    with open("/dev/full", "wb") as full_device, open("/dev/null", "rb") as only_read:
        serves_with("a full device", full_device.fileno())
        serves_with("read-only", only_read.fileno())
    reading, writing = os.pipe()
    os.close(reading)
    serves_with("a pipe without a reader", writing)
    os.close(writing)


def serves_with(what: str, error_output: int) -> None:
    """Checks the replies and the status of a router with this standard error."""
    port = free_port()
    words = [PROGRAM, "-e", TEXT, "-p", str(port), "-n", "1", "--log"]
    with subprocess.Popen(words, stdin=subprocess.DEVNULL, stdout=subprocess.DEVNULL, stderr=error_output) as process:
        try:
            until(lambda: listeners(port) or process.poll() is not None, "the program does not listen")
            same(REPLIES, talk(port, DIALOGUE), f"the replies if standard error is {what}")
            same(0, process.wait(SECONDS), f"the status if standard error is {what}")
        finally:
            process.kill()


CASES = {
    case.__name__: case
    for case in (ends, unread, swaps, page_swaps, writes, page_writes, page_links, readonly, page_reads, full, page_full, parallel, slots, without, page_without, unwritable)
}


def main(words: list[str]) -> int:
    if not os.access(PROGRAM, os.X_OK):
        print(f"session_log.py: there is no {PROGRAM}: ./test.sh builds it, and so does rt run in its crate's folder", file=sys.stderr)
        return 1
    for name in words or CASES:
        try:
            CASES[name]()
        except (Wrong, OSError, AttributeError, ValueError, subprocess.TimeoutExpired) as error:
            print(f"session_log.py: {name}: {error}", file=sys.stderr)
            return 1
    print(f"the log of sessions: {', '.join(words or CASES)}: passed")
    return 0


if __name__ == "__main__":
    sys.exit(main(sys.argv[1:]))
