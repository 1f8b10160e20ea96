"""Serves control sessions on a free port of 127.0.0.1, with replies that a test chooses.

An answer is a function that is called with the connection and sends a reply, or only a part of it.
"""

from __future__ import annotations

import contextlib
import socket
import threading
import time
from collections.abc import Callable

GREETING = b"Click::ControlSocket/1.3\r\n"
Answer = Callable[[socket.socket], None]


class Ended(Exception):
    """The session ends."""


def whole(*pieces: bytes, pause: float = 0.0) -> Answer:
    """Returns the answer that sends these bytes, with a pause of some seconds after each piece."""

    def send(peer: socket.socket) -> None:
        for piece in pieces:
            peer.sendall(piece)
            time.sleep(pause)

    return send


def single_bytes(data: bytes, pause: float = 0.0) -> Answer:
    """Returns the answer that sends each byte in a piece of its own."""
    return whole(*(data[at : at + 1] for at in range(len(data))), pause=pause)


def cut(data: bytes) -> Answer:
    """Returns the answer that sends these bytes and ends the connection."""

    def send(peer: socket.socket) -> None:
        peer.sendall(data)
        raise Ended

    return send


def value(handler: bytes, data: bytes) -> bytes:
    """Returns the reply to a read (docs/CONTROL.md)."""
    return b"200 Read handler '%s' OK\r\nDATA %d\r\n%s" % (handler, len(data), data)


class FakeRouter:
    """A server that answers each command by the table `replies`.

    A key of the table is the line of a command without its end. QUIT has an answer if the table has
    none, and any other command without one ends the session. `commands` has the lines that came,
    with their ends, and the data after each, and `times` the time of each, in seconds.
    """

    def __init__(self, replies: dict[bytes, Answer], greeting: Answer | None = None) -> None:
        self.replies = {b"QUIT": cut(b"200 Goodbye!\r\n"), **replies}
        self.greeting = greeting or whole(GREETING)
        self.commands: list[tuple[bytes, bytes]] = []
        self.times: list[float] = []
        self.listener = socket.create_server(("127.0.0.1", 0))
        self.port = self.listener.getsockname()[1]
        self.open: list[socket.socket] = []
        threading.Thread(target=self._listen, daemon=True).start()

    def __enter__(self) -> FakeRouter:
        return self

    def __exit__(self, *_: object) -> None:
        with contextlib.suppress(OSError):
            self.listener.shutdown(socket.SHUT_RDWR)
        self.listener.close()
        for peer in self.open:
            with contextlib.suppress(OSError):
                peer.shutdown(socket.SHUT_RDWR)

    def _listen(self) -> None:
        with contextlib.suppress(OSError):
            while True:
                peer, _ = self.listener.accept()
                self.open.append(peer)
                threading.Thread(target=self._serve, args=(peer,), daemon=True).start()

    def _serve(self, peer: socket.socket) -> None:
        with peer, peer.makefile("rb") as came, contextlib.suppress(OSError, Ended):
            self.greeting(peer)
            while line := came.readline():
                words = line.split()
                has_data = len(words) == 3 and words[0] in (b"READDATA", b"WRITEDATA") and words[2].isdigit()
                self.commands.append((line, came.read(int(words[2])) if has_data else b""))
                self.times.append(time.monotonic())
                self.replies.get(line.rstrip(b"\r\n"), cut(b""))(peer)
