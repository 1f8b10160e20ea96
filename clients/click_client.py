"""Speaks to a running Click router by Click's ControlSocket protocol, version 1.3.

A program that imports this file needs Python 3.9 or later and nothing else:

    from click_client import Client, Lost, Refused

    try:
        with Client(port=7777) as router:
            count = int(router.read("c.count"))
            router.write("s.switch", "1")
            router.swap("Idle -> nowhere;")
    except Refused as refusal:
        print(refusal.status, refusal.reason)
    except Lost as loss:
        print(loss)

Here the swap is refused, so this prints `520 11 UnknownName at 1:9`. docs/CONTROL.md of the router
has the protocol and the replies, and docs/FAULTS.md the faults of configurations.
"""

from __future__ import annotations

import contextlib
import re
import socket
import time
from types import TracebackType

DEFAULT_HOST, DEFAULT_PORT, DEFAULT_TIMEOUT = "127.0.0.1", 7777, 10.0
# The maximum bytes of a command line without its end, and of the data after it.
MAX_LINE_BYTES, MAX_DATA_BYTES = 65_536, 1_048_576
# The maximum bytes of a line of a reply. A refusal may repeat a whole command line.
MAX_REPLY_LINE_BYTES = 2 * MAX_LINE_BYTES
# The maximum bytes that are received at once.
PIECE_BYTES = 65_536
# The maximum seconds that `close` waits for the reply to QUIT.
MAX_GOODBYE_SECONDS = 1.0


class Refused(Exception):
    """A refusal: the router answered that it did not carry out the command.

    `status` is the number of the reply, such as 520. `text` has the lines of the reply without the
    number, with a line end between two of them. A refused command changed nothing.
    """

    def __init__(self, status: int, text: str) -> None:
        super().__init__(status, text)
        self.status, self.text = status, text

    def __str__(self) -> str:
        return f"{self.status} {self.text}".replace("\n", " ")

    @property
    def reason(self) -> str:
        """Returns the last line of the text, such as `out of range` or the fault of a swap."""
        return self.text.rpartition("\n")[2]


class Lost(Exception):
    """A connection without a complete reply: there is no router, or no whole reply came in time.

    If a command was sent, it is unknown whether the router carried it out.
    """


class Unsendable(ValueError):
    """A handler name or data that a session cannot carry. Nothing was sent."""


def bytes_of(text: str | bytes) -> bytes:
    """Returns the bytes of a text in UTF-8. Bytes of a command line that are not UTF-8 are kept."""
    return text if isinstance(text, bytes) else text.encode("utf-8", "surrogateescape")


def text_of(data: bytes) -> str:
    """Returns the text of bytes, of which `bytes_of` makes the same bytes again."""
    return data.decode("utf-8", "surrogateescape")


def shown(data: bytes) -> str:
    """Returns the first 60 bytes in quotes, with escapes for those that are not visible."""
    return repr(data[:60])[1:]


def name_of(handler: str | bytes) -> bytes:
    """Returns the bytes of a handler name; raises Unsendable if it is not one word of a line."""
    name = bytes_of(handler)
    if not name or re.search(rb"[ \t\r\n]", name):
        raise Unsendable(f"{text_of(name)!r} is not a handler name: it needs at least one byte, and no space, tab or line end")
    return name


class Client:
    """A control session with a router, for one thread at a time.

    A call blocks until the whole reply has come, for at most `timeout` seconds. It raises Refused
    if the router refuses the command, after which the session goes on. It raises Lost if no
    complete reply came; the session is then over, and each later call raises Lost too.
    """

    def __init__(self, port: int = DEFAULT_PORT, host: str = DEFAULT_HOST, timeout: float = DEFAULT_TIMEOUT) -> None:
        """Connects and reads the greeting. Raises Lost if no router of Click answers."""
        self._peer, self._timeout, self._rest = f"{host}:{port}", timeout, bytearray()
        self._waits_for, self._ends = "greeting", time.monotonic() + timeout
        try:
            self._socket = socket.create_connection((host, port), timeout)
        except OSError as error:
            raise Lost(f"{self._peer}: cannot connect: {error.strerror or error}") from None
        greeting = self._line()
        if not re.fullmatch(rb"Click::ControlSocket/1\.\d+", greeting):
            raise self._lost(f"the greeting is {shown(greeting)}, not Click::ControlSocket/1.3")

    def __enter__(self) -> Client:
        return self

    def __exit__(self, kind: type[BaseException] | None, error: BaseException | None, trace: TracebackType | None) -> None:
        self.close()

    def read(self, handler: str | bytes, data: str | bytes = b"") -> bytes:
        """Returns the value of a handler. A few handlers, such as `lookup`, use the data."""
        self._ask(b"READDATA" if data else b"READ", handler, bytes_of(data) or None)
        head = self._line()
        found = re.fullmatch(rb"DATA (\d{1,18})", head)
        if not found:
            raise self._lost(f"the length of a value is {shown(head)}")
        return self._bytes(int(found[1]))

    def write(self, handler: str | bytes, data: str | bytes = b"") -> str:
        """Writes the data, which may be any bytes, to a handler. Returns the text of the reply."""
        return self._ask(b"WRITEDATA", handler, bytes_of(data))

    def check_read(self, handler: str | bytes) -> str:
        """Returns the text of the reply if the handler can be read, and raises Refused if not."""
        return self._ask(b"CHECKREAD", handler)

    def check_write(self, handler: str | bytes) -> str:
        """Returns the text of the reply if the handler can be written, and raises Refused if not."""
        return self._ask(b"CHECKWRITE", handler)

    def swap(self, text: str | bytes) -> str:
        """Installs a configuration. If Refused is raised, its `reason` is the fault of the text."""
        return self.write("hotconfig", text)

    def close(self) -> None:
        """Ends the session with QUIT, if it is not over, and closes the connection. Never fails."""
        # A connection that is closed before its last reply was read is reset, which a router that
        # serves a fixed number of sessions reports as a failure.
        self._timeout = min(self._timeout, MAX_GOODBYE_SECONDS)
        with contextlib.suppress(Lost, Refused):
            self._send(b"QUIT\r\n")
            self._reply()
        self._socket.close()

    def _ask(self, command: bytes, handler: str | bytes, data: bytes | None = None) -> str:
        """Sends a command, with its data if it has any, and returns the text of its reply."""
        words = [command, name_of(handler)] + ([] if data is None else [b"%d" % len(data)])
        line = b" ".join(words)
        if len(line) > MAX_LINE_BYTES:
            raise Unsendable(f"the command line has more than {MAX_LINE_BYTES} bytes")
        if len(data or b"") > MAX_DATA_BYTES:
            raise Unsendable(f"the data has more than {MAX_DATA_BYTES} bytes")
        self._waits_for = f"reply to {text_of(b' '.join(words[:2]))[:100]}"
        self._send(line + b"\r\n" + (data or b""))
        return self._reply()

    def _send(self, sent: bytes) -> None:
        if self._socket.fileno() < 0:
            raise Lost(f"{self._peer}: the session is over")
        self._ends = time.monotonic() + self._timeout
        # If the router has closed the connection, the reply that it sent before may say why.
        # Otherwise the next read finds the end.
        with contextlib.suppress(OSError):
            self._socket.settimeout(self._timeout)
            self._socket.sendall(sent)

    def _reply(self) -> str:
        """Returns the text of the next reply, or raises Refused if its status is not 200 to 299."""
        status, lines = b"", []
        while True:
            line = self._line()
            found = re.fullmatch(rb"(\d{3})([ -])(.*)", line, re.DOTALL)
            if not found or found[1] != (status or found[1]):
                raise self._lost(f"a line of the reply is {shown(line)}")
            status = found[1]
            lines.append(text_of(found[3]))
            if found[2] == b" ":
                break
        if not status.startswith(b"2"):
            raise Refused(int(status), "\n".join(lines))
        return "\n".join(lines)

    def _line(self) -> bytes:
        """Returns the next line without its end, which is CR LF or LF."""
        while (end := self._rest.find(b"\n")) < 0:
            if len(self._rest) > MAX_REPLY_LINE_BYTES:
                raise self._lost(f"a line of the reply has more than {MAX_REPLY_LINE_BYTES} bytes")
            self._receive()
        return self._bytes(end + 1)[:-1].removesuffix(b"\r")

    def _bytes(self, count: int) -> bytes:
        """Returns the next `count` bytes."""
        while len(self._rest) < count:
            self._receive()
        data = bytes(self._rest[:count])
        del self._rest[:count]
        return data

    def _receive(self) -> None:
        """Appends the bytes that come next to those that were received and not returned yet."""
        seconds = self._ends - time.monotonic()
        try:
            if seconds <= 0:
                raise TimeoutError
            self._socket.settimeout(seconds)
            piece = self._socket.recv(PIECE_BYTES)
        except (TimeoutError, socket.timeout):
            raise self._lost(f"no complete {self._waits_for} within {self._timeout:g} s") from None
        except OSError as error:
            raise self._lost(f"no complete {self._waits_for}: {error.strerror or error}") from None
        if not piece:
            raise self._lost(f"no complete {self._waits_for}: the connection ended")
        self._rest += piece

    def _lost(self, why: str) -> Lost:
        """Closes the connection and returns the error, so that no later call takes old bytes."""
        self._socket.close()
        self._rest.clear()
        return Lost(f"{self._peer}: {why}")
