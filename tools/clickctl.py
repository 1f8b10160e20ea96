#!/usr/bin/env python3
"""Checks clients/clickctl and its library: each command over a running router, and what they do
over a wrong one. The outputs and statuses are compared byte by byte. A wrong router has another
greeting, cuts its replies off, sends them in pieces or slowly, or never. Other checks are the lines
and carets of refused swaps, values of 10,000 bytes, rates, and the examples of docs/CLICKCTL.md.

    tools/clickctl.py [CHECK..]
    tools/clickctl.py --wrongs [CHECK..]

Makes all checks, or those of these names. The variable PROGRAM names another click_prog than the
proved one, and CLIENTS a folder with other clients and another page.

With --wrongs it shows that the checks can fail. It changes a copy of the clients in each way that
tools/lib/wrong_clients.py lists, or in those of these checks. The check that the list names has to
fail.

The last line is 'N passed, M failed', and the status is 1 if a check failed.
"""

from __future__ import annotations

import concurrent.futures
import contextlib
import functools
import importlib.machinery
import json
import os
import pty
import re
import shutil
import signal
import socket
import subprocess
import sys
import tempfile
import threading
import time
import traceback
import types
from collections.abc import Callable, Iterator, Sequence
from typing import Any, NamedTuple, TypeVar, Union

sys.dont_write_bytecode = True
HERE = os.path.dirname(os.path.realpath(__file__))
TOP = os.path.dirname(HERE)
CLIENTS = os.path.realpath(os.environ.get("CLIENTS") or f"{TOP}/clients")
sys.path[:0] = [CLIENTS, f"{HERE}/lib"]
import click_client  # noqa: E402
from click_client import Client, Lost, Refused, Unsendable  # noqa: E402
from clickctl_cases import CONFIG, ELEMENTS, INCOMPLETE, NAMES, OK, READ, REFUSALS, REFUSED_TEXTS, UNUSUAL_REPLIES, WRONG_GREETINGS, WRONG_REPLIES, WRONG_WORDS  # noqa: E402
from fake_router import GREETING, Answer, FakeRouter, cut, single_bytes, value, whole  # noqa: E402
from programs import path_of  # noqa: E402
from sessions import Router, Wrong, free_port  # noqa: E402
from wrong_clients import COMMAND, LIBRARY, PAGE, WRONGS  # noqa: E402

# The maximum seconds of a command, on a busy machine.
SECONDS = 60
# The number of checks, or of wrong clients, that are tried at the same time.
AT_ONCE = 3



Failure = TypeVar("Failure", bound=Exception)
Words = Sequence[Union[str, bytes]]


class Ran(NamedTuple):
    status: int
    out: bytes
    err: bytes


def same(wanted: Any, came: Any, what: str) -> None:
    """Checks that two values are equal."""
    if wanted != came:
        raise Wrong(f"{what}: wanted {wanted!r:.600}, came {came!r:.600}")


def raises(kind: type[Failure], act: Callable[..., Any], *words: Any) -> Failure:
    """Returns the exception of this kind that the call has to raise."""
    try:
        came = act(*words)
    except kind as error:
        return error
    raise Wrong(f"{act.__name__}{words!r:.100} did not raise {kind.__name__}, but returned {came!r:.100}")


@contextlib.contextmanager
def router(*options: str, text: bytes = CONFIG, drivers: int = 0, sessions: int = 16) -> Iterator[int]:
    """Starts a live router, and yields the port of its sessions. At the end it is killed."""
    it = Router(path_of("click_prog"), text.decode(), sessions, drivers, rounds=None, options=("--live", *options))
    try:
        ends = time.monotonic() + SECONDS
        while True:
            try:
                Client(it.port).close()
                break
            except Lost as loss:
                if time.monotonic() > ends or it.process.poll() is not None:
                    raise Wrong(f"the router does not listen: {loss}") from None
                time.sleep(0.02)
        yield it.port
    finally:
        it.stop()


def started(words: Words, port: int | str, closed: str = "", **how: Any) -> subprocess.Popen[bytes]:
    """Starts clickctl for a router at this port, with a stream closed by a sign of the shell.

    Without such a sign, Python is started without the packages of its site, which saves time.
    """
    environment = {**os.environ, "CLICK_PORT": str(port), "LC_ALL": "C.UTF-8"}
    streams: dict[str, Any] = {"stdin": subprocess.PIPE, "stdout": subprocess.PIPE, "stderr": subprocess.PIPE, **how}
    starter = ["bash", "-c", f'exec "$0" "$@" {closed}'] if closed else [sys.executable, "-S"]
    return subprocess.Popen([*starter, f"{CLIENTS}/clickctl", *words], env=environment, **streams)


def ran(words: Words, port: int | str, given: bytes = b"", **how: Any) -> Ran:
    """Runs clickctl to its end, with these bytes on standard input."""
    process = started(words, port, **how)
    try:
        out, err = process.communicate(given, timeout=SECONDS)
    except subprocess.TimeoutExpired:
        process.kill()
        raise Wrong(f"this did not end in {SECONDS} s: {words}") from None
    return Ran(process.returncode, out or b"", err or b"")


def does(port: int, words: str | Words, out: bytes = b"", err: bytes = b"", status: int = 0, given: bytes = b"", **how: Any) -> None:
    """Checks the outputs and the status of clickctl with these words. In `err`, PORT is the port."""
    words = words.split() if isinstance(words, str) else words
    came = ran(words, port, given, **how)
    same(Ran(status, out, err.replace(b"PORT", b"%d" % port)), came, f"clickctl {words!r:.200}")


# ---- Over a running router


def reads_values(port: int) -> None:
    does(port, "read x/k.count", b"0")
    does(port, "read x/k.count q.capacity s.switch", b"x/k.count 0\nq.capacity 5\ns.switch 0\n")
    does(port, "read config", CONFIG)
    does(port, "read list", b"15\n" + NAMES)
    does(port, "read version list overruns", b"version 1\nlist\n" + b"".join(b"    %s\n" % it for it in [b"15", *NAMES.split()]) + b"overruns 0\n")
    does(port, "read --text 10.1.2.3 rt.lookup", b"1 10.9.9.9")
    does(port, ["read", "rt.lookup", "--text", " 11.1.2.3\t"], b"0")
    does(port, f"--port {port} -h localhost --timeout 9 read q.length", b"0")
    does(free_port(), f"read q.length --host 127.0.0.1 -p {port}", b"0")


def reports_refused_reads(port: int) -> None:
    does(port, "read x.count", err=b"clickctl: 510 No element named 'x'\n", status=1)
    does(port, "read c.none", err=b"clickctl: 511 No handler named 'c.none'\n", status=1)
    does(port, "read rt.lookup", err=b"clickctl: 520 Read handler 'rt.lookup' error: not an address\n", status=1)
    does(port, "read q.reset", err=b"clickctl: 530 Handler 'q.reset' write-only\n", status=1)
    does(port, ["read", b"c.\xff\xc3\xa4"], err=b"clickctl: 511 No handler named 'c.\xff\xc3\xa4'\n", status=1)
    does(port, ["read", "c." + "k" * 65_000], err=b"clickctl: 511 No handler named 'c.%s'\n" % (b"k" * 65_000), status=1)
    does(port, "read c.none q.capacity y.z", b"q.capacity 5\n", b"clickctl: 511 No handler named 'c.none'\nclickctl: 510 No element named 'y'\n", 1)


def ends_lines_on_terminals(port: int) -> None:
    for handler, wanted in (("q.capacity", b"5\r\n"), ("list", (b"15\n" + NAMES).replace(b"\n", b"\r\n"))):
        ours, theirs = pty.openpty()
        came = ran(["read", handler], port, stdout=theirs)
        os.close(theirs)
        same((0, b""), (came.status, came.err), f"read {handler} on a terminal, its status and standard error")
        same(wanted, os.read(ours, 4096), f"read {handler} on a terminal")
        os.close(ours)


def writes_values(port: int) -> None:
    for words, given, handler, wanted in (
        (["s.switch", "1"], b"", "s.switch", b"1"),
        (["s.switch", "-1"], b"", "s.switch", b"-1"),
        (["s.switch", "-"], b" 0", "s.switch", b"0"),
        (["s.switch", "--", "-1"], b"", "s.switch", b"-1"),
        (["x/k.reset_counts"], b"", "x/k.count", b"0"),
        (["q.capacity", "9"], b"1", "q.capacity", b"9"),
    ):
        does(port, ["write", *words], given=given)
        does(port, ["read", handler], wanted)
    does(port, "write s.switch 2", err=b"clickctl: 520 Write handler 's.switch' error: out of range\n", status=1)
    does(port, "write s.switch", err=b"clickctl: 520 Write handler 's.switch' error: not a number\n", status=1)
    does(port, "write c.count 1", err=b"clickctl: 530 Handler 'c.count' read-only\n", status=1)
    does(port, "read s.switch", b"-1")
    does(port, ["write", "hotconfig", "Idle -> x;"], err=b"clickctl: 520 Write handler 'hotconfig' error: 11 UnknownName at 1:9\n", status=1)


def asks_for_access(port: int) -> None:
    does(port, "check s.switch c.count q.reset hotconfig", b"s.switch read write\nc.count read\nq.reset write\nhotconfig write\n")
    does(port, "check y.z config c.none", b"config read\n", b"clickctl: 510 No element named 'y'\nclickctl: 511 No handler named 'c.none'\n", 1)
    with router("--readonly") as readonly:
        denied = b"clickctl: 530 Permission denied for '%s'\n"
        does(readonly, "check s.switch hotconfig c.none", b"s.switch read\n", denied % b"hotconfig" + b"clickctl: 511 No handler named 'c.none'\n", 1)
        does(readonly, "list x/k", b"x/k.byte_count read\nx/k.count read\n")
        does(readonly, "write s.switch 1", err=denied % b"s.switch", status=1)
        does(readonly, "swap -", err=denied % b"hotconfig", status=1, given=b"Idle -> Discard;")
        does(readonly, "read s.switch", b"0")


def lists_elements(port: int) -> None:
    does(port, "list", ELEMENTS)
    queue = b"q.capacity read write\nq.drops read\nq.highwater_length read\nq.length read\nq.reset write\nq.reset_counts write\n"
    does(port, "list q ToDevice@6 s", queue + b"s.switch read write\n")
    does(port, "list y s", b"s.switch read write\n", b"clickctl: 510 No element named 'y'\n", 1)


def command_module() -> Any:
    """Returns clickctl as a module."""
    loader = importlib.machinery.SourceFileLoader("clickctl_command", f"{CLIENTS}/clickctl")
    module = types.ModuleType(loader.name)
    loader.exec_module(module)
    return module


def flat_form(port: int) -> Any:
    """Returns what the page at this port answers to /flat."""
    with socket.create_connection(("127.0.0.1", port), SECONDS) as peer, peer.makefile("rb") as came:
        peer.sendall(b"GET /flat HTTP/1.1\r\nhost: 127.0.0.1:%d\r\nconnection: close\r\n\r\n" % port)
        return json.loads(came.read().partition(b"\r\n\r\n")[2])


def class_examples() -> list[str]:
    """Returns the configurations of docs/ELEMENTS.md, one for each class."""
    with open(f"{TOP}/docs/ELEMENTS.md", encoding="utf-8") as page:
        return re.findall(r"^```click\n(.*?)^```$", page.read(), re.M | re.S)


def reads_flat_forms(_: int) -> None:
    """Compares what clickctl finds in flat forms with the list of the router, for each example."""
    texts, count = [it.encode() for it in class_examples()], 0
    for folder in ("examples", "examples/calls", "examples/gateway", "examples/ethernet"):
        for name in sorted(it for it in os.listdir(f"{TOP}/{folder}") if it.endswith(".click")):
            with open(f"{TOP}/{folder}/{name}", "rb") as file:
                texts.append(file.read())
    declared = command_module().declared
    with router(text=b"") as port, Client(port, timeout=SECONDS) as session:
        for text in texts:
            with contextlib.suppress(Refused):
                session.swap(text)
                flat = session.read("flatconfig").decode("latin-1")
                found = list(declared(flat))
                same(session.read("list").decode().split()[1:], [name for name, _, _ in found], f"the elements of {text!r:.200}")
                same([], [it for it in found if not re.search(rf"(?m)^{re.escape(it[0])} :: {it[2]}[(;]", flat)], f"their classes in {text!r:.200}")
                count += len(found)
    if count < 500:
        raise Wrong(f"only {count} elements were compared")


def lists_all_handlers(_: int) -> None:
    """Compares `list` with the handlers that the page's /flat names, for an element of each class."""
    texts = class_examples()
    at, names, classes = free_port(), command_module().HANDLERS, set()
    with router("--page", str(at), text=b"") as port, Client(port) as session:
        for text in texts:
            session.swap(text)
            elements = flat_form(at)["elements"]
            new = [it for it in elements if it["class"] not in classes and (it["reads"] or it["writes"])]
            classes |= {it["class"] for it in elements}
            lines = []
            for it in new:
                same([], sorted({*it["reads"], *it["writes"]} - set(names)), f"handlers of {it['class']} that clickctl does not ask for")
                access = {name: " ".join(word for word in ("read", "write") if name in it[f"{word}s"]) for name in names}
                lines += [f"{it['name']}.{name} {how}\n" for name, how in access.items() if how]
            if new:
                does(port, ["list", *(it["name"] for it in new)], "".join(lines).encode())
    same(len(texts), len(classes), "classes of which handlers were compared, one for each example")


# ---- Swaps


def long_text(size: int) -> bytes:
    """Returns a configuration of this size, with all bytes in a comment and without a line end."""
    text = b"Idle -> k :: Counter -> Discard; /* " + bytes(range(256)) + b"\r\n */\n"
    return text + b"//" + b"\xff" * (size - len(text) - 2)


def swaps_texts(port: int) -> None:
    text = long_text(10_000)
    with tempfile.NamedTemporaryFile() as file:
        file.write(text)
        file.flush()
        does(port, ["swap", file.name])
    does(port, "read config", text)
    does(port, "read list k.count", b"list\n    3\n    Idle@1\n    k\n    Discard@3\nk.count 0\n")
    does(port, "swap -", given=b"Idle -> Discard;\n")
    does(port, "read config", b"Idle -> Discard;\n")
    does(port, "write hotconfig -", given=text)
    does(port, "read config", text)
    does(port, "swap -", given=b"/" * 1_048_576)
    does(port, "read list", b"0\n")
    does(port, "swap -", given=b"/" * 1_048_577, err=b"clickctl: <stdin>: the text has more than 1048576 bytes\n", status=2)
    does(port, "write hotconfig -", given=b"/" * 1_048_577, err=b"clickctl: the data has more than 1048576 bytes\n", status=2)


def refuses_empty_texts(port: int) -> None:
    """Checks that no text without a word or a sign is sent, and that `write` can send it."""
    why = "the text is empty or has only white space; `clickctl write hotconfig ''` removes all elements"
    with tempfile.TemporaryDirectory() as folder:
        # White space by docs/LANGUAGE.md, and as many blanks as a session carries.
        for text in (b"", b"\n", b" \t\n\r\v\f\r\n", b" " * 1_048_576):
            with open(f"{folder}/new.click", "wb") as file:
                file.write(text)
            does(port, "swap new.click", err=f"clickctl: new.click: {why}\n".encode(), status=2, cwd=folder)
            does(port, "swap -", err=f"clickctl: <stdin>: {why}\n".encode(), status=2, given=text)
            does(port, "read config", CONFIG)
        with open(f"{folder}/long.click", "wb") as file:
            file.write(b"/" * 1_048_577)
        does(port, "swap long.click", err=b"clickctl: long.click: the text has more than 1048576 bytes\n", status=2, cwd=folder)
    with FakeRouter({}) as fake:
        does(fake.port, "swap -", err=f"clickctl: <stdin>: {why}\n".encode(), status=2)
        same([], fake.commands, "what was sent for an empty text")
    does(port, "swap -", given=b"/**/")
    does(port, "read list", b"0\n")
    does(port, "swap -", given=CONFIG)
    does(port, ["write", "hotconfig", ""])
    does(port, "read list", b"0\n")
    with Client(port) as session:
        session.swap(CONFIG)
        session.swap("")
        same(b"0\n", session.read("list"), "the elements after a swap of the library to an empty text")


def points_at_faults(port: int) -> None:
    with tempfile.TemporaryDirectory() as folder:
        for text, wanted in REFUSED_TEXTS:
            with open(f"{folder}/new.click", "wb") as file:
                file.write(text.encode())
            does(port, "swap new.click", err=wanted.replace("FILE", "new.click").encode(), status=1, cwd=folder)
        does(port, f"swap {folder}", err=f"clickctl: cannot read {folder}: Is a directory\n".encode(), status=2)
        does(port, f"swap {folder}/none", err=f"clickctl: cannot read {folder}/none: No such file or directory\n".encode(), status=2)
    does(port, "swap -", err=b"<stdin>:1:1: 520 11 UnknownName at 1:1\nx\n^\n", status=1, given=b"x")
    does(port, "swap -", err=b"<stdin>:1:8: 520 1 BadByte at 1:8\n/*\xef\xbf\xbd\xef\xbf\xbd*/ =\n       ^\n", status=1, given=b"/*\xff\xff*/ =")
    does(port, "read config", CONFIG)


# ---- Watching and waiting


def watches_values(_: int) -> None:
    head = b"time         k.count          /s  an.other.handler          /s\n"
    counts = [1000, 10_000, 100_000]
    values = iter([whole(value(b"k.count", b"%d" % it)) for it in counts])
    replies: dict[bytes, Answer] = {b"READ k.count": lambda peer: next(values)(peer), b"READ an.other.handler": whole(value(b"an.other.handler", b"a\nb"))}
    with FakeRouter(replies) as fake:
        came = ran("watch k.count an.other.handler --count 3 --interval 0.5".split(), fake.port)
        same((0, b""), (came.status, came.err), "the status and standard error of watch")
        lines = came.out.splitlines(keepends=True)
        same((head, 4), (lines[0], len(lines)), "the first line of watch, and the number of lines")
        times = fake.times[0:6:2]
        for turn, line in enumerate(lines[1:]):
            found = re.fullmatch(rb"\d\d:\d\d:\d\d  +(\d+) +(-|\d+\.\d)               a\xef\xbf\xbdb           -\n", line)
            if not found or len(line.decode()) != len(head):
                raise Wrong(f"a line of watch is {line!r}")
            same(b"%d" % counts[turn], found[1], "a value of watch")
            if turn == 0:
                same(b"-", found[2], "the first rate")
                continue
            between, growth = times[turn] - times[turn - 1], counts[turn] - counts[turn - 1]
            # The times of the router and of clickctl differ by those of a command and its reply.
            if between < 0.4 or not 0.65 < float(found[2]) / (growth / between) < 1.5:
                raise Wrong(f"watch shows a rate of {float(found[2])} per second for {growth} in {between:.3f} s, with an interval of 0.5 s")


def watches_a_driver(_: int) -> None:
    with router(drivers=1) as port:
        came = ran("watch c.count q.length --count 3 --interval 0.3".split(), port)
        same((0, b""), (came.status, came.err), "the status and standard error of watch")
        lines = came.out.splitlines()
        same(b"time         c.count          /s    q.length          /s", lines[0], "the first line of watch")
        rows = [it.split() for it in lines[1:]]
        same([5] * 3, [len(it) for it in rows], "the words of the lines of watch")
        same([[b"0", b"-"], [b"0", b"0.0"], [b"0", b"0.0"]], [it[3:] for it in rows], "the values and rates of q.length")
        counts, rates = [int(it[1]) for it in rows], [float(it[2].replace(b"-", b"0")) for it in rows]
        elapsed = [(last - first) / rate for first, last, rate in zip(counts, counts[1:], rates[1:]) if rate > 0]
        if rates[0] or len(elapsed) != 2 or not all(0.1 < it < SECONDS for it in elapsed):
            raise Wrong(f"the counts {counts} and the rates {rates} of watch, with an interval of 0.3 s")


def watch_ends(port: int) -> None:
    head = b"time         y.count          /s\n"
    does(port, "watch y.count", head, b"clickctl: 510 No element named 'y'\n", 1)
    replies = iter([whole(value(b"y.count", b"7")), cut(b"200 Read handler 'y.count' OK\r\nDAT")])
    with FakeRouter({b"READ y.count": lambda peer: next(replies)(peer)}) as fake:
        came = ran("watch y.count --interval 0.01".split(), fake.port)
        lost = b"clickctl: 127.0.0.1:%d: no complete reply to READ y.count: the connection ended\n" % fake.port
        same((4, lost, 2), (came.status, came.err, came.out.count(b"\n")), "watch of a router that is gone: status, standard error, and the number of lines")
    with FakeRouter({b"READ y.count": whole(value(b"y.count", b"1" * 5000))}) as fake:
        came = ran("watch y.count --interval 0.01 --count 2".split(), fake.port)
        same((0, b"", [b"-"] * 2), (came.status, came.err, [it.split()[-1] for it in came.out.splitlines()[1:]]), "watch of a value that is too long for a number: status, standard error and rates")
    same(Ran(-signal.SIGINT, b"", b""), watch_until(lambda it: it.send_signal(signal.SIGINT), port), "watch after Ctrl-C")
    with contextlib.ExitStack() as routers:
        doomed = routers.enter_context(router())
        came = watch_until(lambda _: routers.close(), doomed)
        if came.status != 4 or not re.fullmatch(rb"clickctl: 127\.0\.0\.1:%d: no complete reply to READ q\.length: .*\n" % doomed, came.err):
            raise Wrong(f"watch of a router that is killed ended as {came}")


def watch_until(act: Callable[[subprocess.Popen[bytes]], Any], port: int) -> Ran:
    """Starts `watch`, acts after its second line of values, and returns its status and its errors."""
    process = started("watch q.length --interval 0.1".split(), port)
    for _ in range(3):
        (process.stdout or sys.stdin.buffer).readline()
    act(process)
    _, err = process.communicate(timeout=SECONDS)
    return Ran(process.returncode, b"", err)


def waits_for_values(port: int) -> None:
    does(port, "wait q.length 0 0")
    does(port, "wait version 1 5")
    with Client(port) as session:
        timer = threading.Timer(0.4, session.write, ("s.switch", "1"))
        began = time.monotonic()
        timer.start()
        does(port, f"wait s.switch 1 {SECONDS}")
        timer.join()
        if not 0.3 < time.monotonic() - began < SECONDS / 2:
            raise Wrong(f"wait for a value that came after 0.4 s took {time.monotonic() - began:.1f} s")
    began = time.monotonic()
    does(port, "wait q.length 1 0.6", err=b"clickctl: after 0.6 s q.length is '0', not '1'\n", status=1)
    if time.monotonic() - began < 0.6:
        raise Wrong("wait ended before its time")
    does(port, "wait s.switch 0 0", err=b"clickctl: after 0 s s.switch is '1', not '0'\n", status=1)
    does(port, "wait y.z 0 30", err=b"clickctl: 510 No element named 'y'\n", status=1)
    with FakeRouter({b"READ k.count": whole(value(b"k.count", b"12\n"))}) as fake:
        does(fake.port, "wait k.count 12 0")
        does(fake.port, "wait k.count 1 0", err=b"clickctl: after 0 s k.count is '12\xef\xbf\xbd', not '1'\n", status=1)


# ---- Wrong words, and outputs that cannot be written


def prints_help(port: int) -> None:
    does(port, "--version", b"clickctl 1\n")
    with tempfile.TemporaryDirectory() as folder:
        os.symlink(f"{CLIENTS}/clickctl", f"{folder}/a_link")
        did = subprocess.run([f"{folder}/a_link", "--version"], capture_output=True, timeout=SECONDS, check=False)
    same((0, b"clickctl 1\n", b""), (did.returncode, did.stdout, did.stderr), "clickctl --version by a link")
    for words, wanted in (
        (["--help"], [b"usage: clickctl ", *(b"\n    %s " % it for it in b"read write swap check list watch wait".split()), b"\nstatus:\n  0  done\n", b"CLICK_PORT"]),
        (["read", "--help"], [b"usage: clickctl read ", b"HANDLER", b"--text TEXT"]),
        (["watch", "--help"], [b"--count N", b"--interval SECONDS"]),
        (["wait", "--help"], [b" HANDLER VALUE SECONDS\n"]),
    ):
        came = ran(words, port)
        same((0, b""), (came.status, came.err), f"the status and standard error of {words}")
        same([], [it for it in wanted if it not in came.out], f"what the output of {words} lacks")


def refuses_wrong_words(port: int) -> None:
    rows: list[tuple[list[str], str]] = [(words.split(), end) for words, end in WRONG_WORDS]
    for name in ("", "a b", "a\tb", "a\nQUIT", "a\r"):
        rows.append((["read", name], f"argument HANDLER: {name!r} is not a handler name: it needs at least one byte, and no space, tab or line end"))
    rows.append((["-h", "", "read", "q.length"], "argument -h/--host: it is empty"))
    for words, end in rows:
        came = ran(words, port)
        same((2, b""), (came.status, came.out), f"the status and standard output of {words}")
        last = came.err.decode().splitlines()[-1]
        if not came.err.startswith(b"usage: clickctl") or not re.match("clickctl( [a-z]+)?: error: ", last) or not last.endswith(end):
            raise Wrong(f"{words}: standard error ends with {last!r}, not {end!r}")
    with FakeRouter({}) as fake:
        does(fake.port, ["read", "k" * 65_536], err=b"clickctl: the command line has more than 65536 bytes\n", status=2)
        same([b"QUIT\r\n"], [it for it, _ in fake.commands], "what was sent for a handler that is too long")
    for wrong in ("x", "0", "7777 "):
        came = ran(["read", "q.length"], wrong)
        same((2, b""), (came.status, came.out), f"the status and standard output with CLICK_PORT={wrong}")
        same(f"clickctl: error: the variable CLICK_PORT: '{wrong}' is not a number from 1 to 65535 in decimal digits", came.err.decode().splitlines()[-1], "the last line")


def fails_at_outputs(port: int) -> None:
    cannot = b"clickctl: standard output cannot be written: %s\n"
    with open("/dev/full", "wb") as full:
        for words in ("read q.length", "list", "check q.length", "watch q.length", "list q"):
            does(port, words, err=cannot % b"No space left on device", status=4, stdout=full)
    ours, theirs = os.pipe()
    os.close(ours)
    does(port, "read q.length", err=cannot % b"Broken pipe", status=4, stdout=theirs)
    os.close(theirs)
    does(port, "read q.length", err=cannot % b"it is closed", status=4, closed=">&-")
    does(port, "write q.reset -", err=b"clickctl: cannot read standard input: it is closed\n", status=2, closed="<&-")
    does(port, "read y.z", status=1, closed="2>&-")


# ---- Wrong routers


def reports_wrong_routers(_: int) -> None:
    for greeting, err in WRONG_GREETINGS:
        with FakeRouter({}, greeting) as fake:
            is_reported(fake, err, 4)
    for reply, err in WRONG_REPLIES:
        with FakeRouter({READ: reply}) as fake:
            is_reported(fake, err, 4)
    for refusal, err in REFUSALS:
        with FakeRouter({READ: whole(refusal)}) as fake:
            is_reported(fake, err, 1)
    with FakeRouter({b"WRITEDATA hotconfig 1": cut(b"200 Write")}) as fake:
        does(fake.port, "swap -", err=b"clickctl: 127.0.0.1:PORT: no complete reply to WRITEDATA hotconfig: the connection ended\n", status=4, given=b";")
    with FakeRouter({b"READ a.b": whole(value(b"a.b", b"1")), READ: cut(OK)}) as fake:
        does(fake.port, "read a.b k.count a.b", b"a.b 1\n", INCOMPLETE + b"\n", 4)


def is_reported(fake: FakeRouter, err: bytes, status: int) -> None:
    """Checks that a read prints nothing, and this on standard error."""
    does(fake.port, f"--timeout {0.5 if b' within ' in err else SECONDS} read k.count", err=err + b"\n", status=status)


def takes_no_prefix(_: int) -> None:
    """Cuts off what a router sends at each byte. No prefix of a reply is taken for a reply."""
    refusal = b"520-Read handler 'k.count' error:\r\n520 not an address\r\n"
    for replies in (GREETING + value(b"k.count", b"a\r\nb"), GREETING + refusal):
        for size in range(len(replies) + 1):
            with FakeRouter({READ: cut(replies[len(GREETING) : size])}, greeting_of(replies[:size])) as fake:
                came = read_once(fake.port)
            is_whole = size == len(replies)
            wanted = ("Lost",) if not is_whole else ("Refused", 520, "not an address") if refusal in replies else ("value", b"a\r\nb")
            same(wanted, came, f"what is read if the router sends {replies[:size]!r}")


def greeting_of(sent: bytes) -> Answer:
    """Returns the answer that sends the greeting, or ends the session after this part of it."""
    return whole(GREETING) if sent.startswith(GREETING) else cut(sent)


def read_once(port: int) -> tuple[Any, ...]:
    """Returns the result of a read by the library: its kind, and its values."""
    try:
        with Client(port, timeout=SECONDS) as session:
            return "value", session.read("k.count")
    except Refused as refusal:
        return "Refused", refusal.status, refusal.reason
    except Lost:
        return ("Lost",)


def accepts_unusual_replies(_: int) -> None:
    for reply, wanted in UNUSUAL_REPLIES:
        with FakeRouter({READ: reply}, single_bytes(b"Click::ControlSocket/1.2\n")) as fake:
            does(fake.port, "read k.count", wanted)
    # A fault whose position is not in the text, or whose form is another one.
    for fault in (b"11 UnknownName at 4:1", b"11 UnknownName at 1:12", b"11 UnknownName at 0:1", b"11 UnknownName somewhere", b"31 Count at r outputs 0"):
        with FakeRouter({b"WRITEDATA hotconfig 12": whole(b"520-Write handler 'hotconfig' error:\r\n520 %s\r\n" % fault)}) as fake:
            does(fake.port, "swap -", err=b"<stdin>: 520 %s\n" % fault, status=1, given=b"Idle -> a;\n\n")


def reports_no_router(_: int) -> None:
    # The port is taken and no process listens at it.
    with socket.socket() as held:
        held.bind(("127.0.0.1", 0))
        finds_no_router(held.getsockname()[1])
    # All session slots are in use.
    with router(sessions=1) as port, Client(port):
        does(port, "--timeout 0.5 read q.length", err=b"clickctl: 127.0.0.1:PORT: no complete greeting within 0.5 s\n", status=4)


def finds_no_router(port: int) -> None:
    for words in ("read k.count", "write s.switch 1", f"swap {CLIENTS}/clickctl", "check k.count", "list", "wait k.count 1 30"):
        does(port, words, err=b"clickctl: 127.0.0.1:PORT: cannot connect: Connection refused\n", status=4)
    does(port, f"-h 127.0.0.2 read k.count -p {port}", err=b"clickctl: 127.0.0.2:PORT: cannot connect: Connection refused\n", status=4)


# ---- The library


def sends_exact_bytes(_: int) -> None:
    """Checks what comes at the router, for each command, and that each session ends with QUIT."""
    ok = whole(b"200 ok\r\n")
    replies = {b"READDATA rt.lookup 8": whole(value(b"rt.lookup", b"1")), b"READ k.count": whole(value(b"k.count", b"1")), b"CHECKREAD a.b": ok, b"CHECKWRITE a.b": ok}
    replies |= {b"WRITEDATA %s %d" % it: ok for it in ((b"a.b", 0), (b"a.b", 5), (b"hotconfig", 256))}
    sent: list[tuple[Words, bytes, list[tuple[bytes, bytes]]]] = [
        (["read", "k.count"], b"", [(b"READ k.count", b"")]),
        (["read", "--text", "10.0.0.1", "rt.lookup"], b"", [(b"READDATA rt.lookup 8", b"10.0.0.1")]),
        (["write", "a.b"], b"", [(b"WRITEDATA a.b 0", b"")]),
        (["write", "a.b", b" \xff\n  "], b"", [(b"WRITEDATA a.b 5", b" \xff\n  ")]),
        (["write", "a.b", "-"], b"\n\r\0\xff\n", [(b"WRITEDATA a.b 5", b"\n\r\0\xff\n")]),
        (["swap", "-"], bytes(range(256)), [(b"WRITEDATA hotconfig 256", bytes(range(256)))]),
        (["check", "a.b"], b"", [(b"CHECKREAD a.b", b""), (b"CHECKWRITE a.b", b"")]),
    ]
    for words, given, wanted in sent:
        with FakeRouter(replies) as fake:
            came = ran(["--timeout", "5", *words], fake.port, given)
            same((0, b""), (came.status, came.err), f"the status and standard error of {words}")
            same([(line + b"\r\n", data) for line, data in [*wanted, (b"QUIT", b"")]], fake.commands, f"what the router gets of {words}")


def library_answers(port: int) -> None:
    with Client(port) as session:
        same(b"5", session.read("q.capacity"), "a value")
        same(b"1 10.9.9.9", session.read(b"rt.lookup", b"10.1.1.1"), "a value with data")
        same("Write handler 's.switch' OK", session.write("s.switch", "1"), "a write")
        same("Read handler 'q.length' OK", session.check_read("q.length"), "a check")
        same("Write handler 'q.reset' OK", session.check_write("q.reset"), "a check")
        refusal = raises(Refused, session.write, "s.switch", b"x")
        same((520, "Write handler 's.switch' error:\nnot a number", "not a number"), (refusal.status, refusal.text, refusal.reason), "a refusal")
        same((530, "530 Handler 'q.length' read-only"), (lambda it: (it.status, str(it)))(raises(Refused, session.check_write, "q.length")), "a refusal")
        same("1 BadByte at 1:9", raises(Refused, session.swap, "Idle -> \u00e4;").reason, "a fault")
        for name in ("", "a b", "a\tb", "a\nQUIT", "a\r", b"a\n"):
            raises(Unsendable, session.read, name)
        raises(Unsendable, session.swap, b" " * 1_048_577)
        same(b"1", session.read("s.switch"), "a value after refusals")
        same("Write handler 'hotconfig' OK", session.swap(long_text(1_048_576)), "the longest text")
        same(long_text(1_048_576), session.read("config"), "the longest text, as it is read")
    same("127.0.0.1:%d: the session is over" % port, str(raises(Lost, session.read, "config")), "a call after close")
    # There are 16 session slots, so each session has to end.
    for _ in range(50):
        with Client(port, timeout=SECONDS) as session:
            session.read("version")


def library_forgets_after_loss(_: int) -> None:
    with FakeRouter({READ: whole(b"x\r\n" + value(b"k.count", b"1")), b"READ a.b": whole(value(b"a.b", b"2"))}) as fake, Client(fake.port) as session:
        raises(Lost, session.read, "k.count")
        same(f"127.0.0.1:{fake.port}: the session is over", str(raises(Lost, session.read, "a.b")), "a call after a loss")
    with FakeRouter({}, whole()) as fake:
        began = time.monotonic()
        raises(Lost, Client, fake.port, "127.0.0.1", 0.3)
        if not 0.3 <= time.monotonic() - began < 5:
            raise Wrong(f"a session without a greeting is lost after {time.monotonic() - began:.1f} s, not 0.3 s")


def library_shows_example(port: int) -> None:
    """Checks that the example in the library's docstring prints what the docstring says."""
    lines = [it[4:] for it in (click_client.__doc__ or "").splitlines() if it.startswith("    ") or not it]
    wanted = re.search(r"prints `(.*)`", click_client.__doc__ or "")
    same((0, f"{wanted and wanted[1]}\n".encode(), b""), printed("\n".join(lines).strip("\n"), port), "the example of the library")


def printed(code: str, port: int) -> Ran:
    """Runs a program in Python that imports the library, with this port instead of 7777."""
    environment = {**os.environ, "PYTHONPATH": CLIENTS, "PYTHONDONTWRITEBYTECODE": "1"}
    did = subprocess.run([sys.executable, "-c", code.replace("7777", str(port))], env=environment, capture_output=True, timeout=SECONDS, check=False)
    return Ran(did.returncode, did.stdout, did.stderr)


# ---- The manual


def page_blocks(text: str) -> Iterator[list[tuple[str, str]]]:
    """Yields the commands of each indented block that begins with `$ `, with their outputs."""
    for block in re.findall(r"(?:^    .*\n|^\n(?=    ))+", text, re.M):
        lines = [it[4:] for it in block.strip("\n").split("\n")]
        if not lines[0].startswith("$ "):
            continue
        commands: list[list[str]] = []
        for line in lines:
            if line.startswith("$ "):
                commands.append([line[2:], ""])
            else:
                commands[-1][1] += line + "\n"
        yield [(command, output) for command, output in commands]


def shows_what_happens(_: int) -> None:
    """Runs the examples of the manual, in order, over the router that the page starts."""
    # A folder of wrong clients has a page of its own.
    with open(f"{CLIENTS}/{os.path.basename(PAGE)}" if "CLIENTS" in os.environ else f"{TOP}/{PAGE}", encoding="utf-8") as file:
        page = file.read()
    config = re.search(r"^    \./run\.sh -e '(.*)' --live -p 7777$", page, re.M)
    if not config:
        raise Wrong(f"{PAGE} does not start a router")
    program = re.search(r"^```python\n(.*?)^```\n\nIt prints\n\n```\n(.*?)^```$", page, re.M | re.S)
    count = 0
    with router(text=config[1].encode()) as port, tempfile.TemporaryDirectory() as folder:
        environment = {**os.environ, "CLICK_PORT": str(port), "PATH": f"{CLIENTS}:{os.environ['PATH']}", "LC_ALL": "C.UTF-8"}
        for block in page_blocks(page):
            # After each command its status is there for the next one, as in a shell.
            script = "".join(f"{command}\nstatus=$?; printf '\\0'; (exit $status)\n" for command, _ in block)
            did = subprocess.run(["bash", "-c", script], cwd=folder, env=environment, stdin=subprocess.DEVNULL, stdout=subprocess.PIPE, stderr=subprocess.STDOUT, timeout=SECONDS, check=False)
            outputs = did.stdout.decode().split("\0")
            same((len(block), ""), (len(outputs) - 1, outputs[-1]), f"{PAGE}: the commands of a block that were run, and what follows them")
            for (command, wanted), came in zip(block, outputs):
                # A page shows a value without a line end as a line.
                came = came + "\n" if came and not came.endswith("\n") else came
                times = functools.partial(re.sub, r"^\d\d:\d\d:\d\d", "TIME", flags=re.M)
                same(times(wanted).replace(":7777:", f":{port}:"), times(came), f"{PAGE}: $ {command}")
                count += 1
        if count < 20 or not program:
            raise Wrong(f"{PAGE} has only {count} commands, or no program in Python")
        same((0, program[2].encode(), b""), printed(program[1], port), f"what the program of {PAGE} prints")


CHECKS: dict[str, tuple[Callable[[int], None], str]] = {
    "read": (reads_values, "values are printed unchanged"),
    "refused": (reports_refused_reads, "a refused read is reported and the others are made"),
    "terminal": (ends_lines_on_terminals, "on a terminal a value ends with a line end"),
    "write": (writes_values, "a text is written"),
    "check": (asks_for_access, "check prints what a session can do"),
    "list": (lists_elements, "elements and their handlers are listed"),
    "flat": (reads_flat_forms, "the elements of each example are found"),
    "handlers": (lists_all_handlers, "the handlers of each class are listed"),
    "swap": (swaps_texts, "a text is installed byte by byte"),
    "empty": (refuses_empty_texts, "an empty text is not swapped in"),
    "caret": (points_at_faults, "a refused text is shown with a caret at its fault"),
    "watch": (watches_values, "watch prints values and rates"),
    "driver": (watches_a_driver, "watch shows the rate of a driver"),
    "watch_ends": (watch_ends, "watch ends with a refusal, a lost router or Ctrl-C"),
    "wait": (waits_for_values, "wait ends with the value or with the time"),
    "help": (prints_help, "help and version are printed"),
    "words": (refuses_wrong_words, "wrong words are refused"),
    "outputs": (fails_at_outputs, "an output that cannot be written is reported"),
    "wrong_routers": (reports_wrong_routers, "wrong, cut and slow replies are reported"),
    "prefixes": (takes_no_prefix, "a reply that is cut off at any byte is lost"),
    "unusual": (accepts_unusual_replies, "replies in pieces and in unusual forms are read"),
    "no_router": (reports_no_router, "a router that is not there is reported"),
    "bytes": (sends_exact_bytes, "the commands are sent byte by byte"),
    "library": (library_answers, "the library answers"),
    "loss": (library_forgets_after_loss, "a lost session stays lost"),
    "example": (library_shows_example, "the example of the library works"),
    "manual": (shows_what_happens, "the examples of the manual print what it shows"),
}


def try_check(name: str) -> str:
    """Makes a check over a router of its own, and returns why it failed or an empty text."""
    try:
        with router() as port:
            CHECKS[name][0](port)
    except Wrong as wrong:
        return str(wrong)
    except Exception:
        return traceback.format_exc()
    return ""


def try_checks(names: list[str]) -> int:
    """Makes the checks, and returns the number of those that failed."""
    failed = 0
    with concurrent.futures.ThreadPoolExecutor(AT_ONCE) as pool:
        for name, why in zip(names, pool.map(try_check, names)):
            failed += bool(why)
            print(f"FAILED  {name}: {why}" if why else f"passed  {name}: {CHECKS[name][1]}", flush=True)
    print(f"{len(names) - failed} passed, {failed} failed")
    return failed


# ---- Wrong clients


def try_wrong(wrong: tuple[str, str, str, str]) -> str:
    """Returns an empty text if the check fails over the wrong client, and what is wrong if not."""
    name, file, old, new = wrong
    with tempfile.TemporaryDirectory() as folder:
        for it in (LIBRARY, COMMAND, PAGE):
            shutil.copy(f"{TOP}/{it}", folder)
        with open(f"{folder}/{os.path.basename(file)}", "r+", encoding="utf-8") as copy:
            text = copy.read()
            if text.count(old) != 1:
                return f"{file} has {text.count(old)} times: {old}"
            copy.seek(0)
            copy.truncate()
            copy.write(text.replace(old, new))
        did = subprocess.run([sys.executable, "-S", __file__, name], env={**os.environ, "CLIENTS": folder}, capture_output=True, text=True, timeout=SECONDS * 2, check=False)
    if did.returncode != 1 or f"FAILED  {name}: " not in did.stdout:
        return f"the check {name} ended with status {did.returncode} and printed {did.stdout[-600:]}{did.stderr[-600:]}"
    return ""


def try_wrongs(names: list[str]) -> int:
    """Tries the wrong clients of these checks, and returns the number of those that passed."""
    wrongs = [it for it in WRONGS if it[0] in names]
    failed = 0
    with concurrent.futures.ThreadPoolExecutor(AT_ONCE) as pool:
        for wrong, why in zip(wrongs, pool.map(try_wrong, wrongs)):
            failed += bool(why)
            print(f"FAILED  {wrong[0]}, with {wrong[3]!r}: {why}" if why else f"passed  {wrong[0]} fails over a {wrong[1]} with {wrong[3]!r:.70}", flush=True)
    print(f"{len(wrongs) - failed} passed, {failed} failed")
    return failed


def main(words: list[str]) -> int:
    is_wrongs = words[:1] == ["--wrongs"]
    names = words[is_wrongs:]
    unknown = [it for it in names if it not in CHECKS]
    if unknown:
        sys.exit(f"clickctl.py: there is no check {' '.join(unknown)}; the checks are {' '.join(CHECKS)}")
    if not os.access(path_of("click_prog"), os.X_OK):
        sys.exit(f"clickctl.py: there is no {path_of('click_prog')}: ./test.sh builds it, and so does rt run in its crate's folder")
    return 1 if (try_wrongs if is_wrongs else try_checks)(names or list(CHECKS)) else 0


if __name__ == "__main__":
    sys.exit(main(sys.argv[1:]))
