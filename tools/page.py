#!/usr/bin/env python3
"""Checks the page of a running router, by plain sockets and in a headless Chromium. By sockets:
foreign hosts, writes without the header, and slow, large and many requests, while a session is
answered, and its metrics by a parser of their format. The metrics have the counts of sessions and
links, and the start and the memory of the process. The flat form and the picture are those of the
running configuration, and are made once. Also where the page listens, large answers to clients that
read slowly or close, and connections that wait. A run ends with its session, and answers what it
has read. In the browser: the picture, live counters, a write that a session sees, and swaps by the
page and by a session. Also a mesh of 4,000 elements: what is drawn and read of it, the time of a
click, and the processor time of an idle page. And a Prometheus scrapes the page and answers
queries.

    tools/page.py [--part sockets|figures|connections|browser|large|prometheus] [--shots FOLDER] [PROGRAM [WORD..]]
    tools/page.py --mock [--wrong WHAT] [--part sockets|figures|browser|large|prometheus] [--shots FOLDER]
    tools/page.py [--mock [--wrong WHAT]] --check WHAT [PROGRAM [WORD..]]
    tools/page.py --wrongs [WHAT|PART..]

The router is started as PROGRAM WORD.. -e TEXT --live -p P -w 1 --page Q, and for one check
without --live, -p and -w. If no program is given, it is the one that the variable PROGRAM names, or
else the proved one. With --mock it is tools/page_mock.py, which --wrong makes wrong in one point.
The part `connections` needs a program, except some of its checks.

--check makes only this check, of any part but `browser`, whose checks come one after another.

--wrongs shows that the checks can fail. It makes the mock wrong in each point, or only in these, or
in those that a check of these parts sees. The check of that point has to fail, and has to pass over
the mock that is not wrong. --shots writes screenshots of the page over four configurations.

Chromium and Prometheus are Debian's (apt-get install chromium prometheus). Without Chromium the
parts `browser` and `large` and the screenshots are left out, and without Prometheus the part
`prometheus`. The last line is 'N passed, M failed', and the status is 1 if a check failed.
"""
import argparse
import base64
import concurrent.futures
import contextlib
import hashlib
import json
import os
import re
import select
import shutil
import signal
import socket
import subprocess
import sys
import time

sys.dont_write_bytecode = True
import page_mock  # noqa: E402
from hostile import listeners  # noqa: E402

TOP = os.path.dirname(os.path.dirname(os.path.realpath(__file__)))
sys.path.insert(0, f"{TOP}/tools/lib")
from chromium import Browser, BrowserFault  # noqa: E402
from exposition import Metrics  # noqa: E402
import large_page  # noqa: E402
import mesh  # noqa: E402
from outcome import SECONDS, Wrong, same, until  # noqa: E402
from programs import path_of  # noqa: E402
from prometheus import Prometheus  # noqa: E402

# The maximum seconds until the router, and the mock, ends a slow request head.
PATIENCE, PATIENCE_OF_MOCK = 60, 4 * page_mock.SECONDS_FOR_A_HEAD


def text_of(path):
    """Returns the text of a file of the repository."""
    with open(f"{TOP}/{path}", encoding="utf-8", newline="") as it:
        return it.read()


WATCHED, SWAPPED, LINKED = (text_of(f"tools/page_mock/{it}.click") for it in ("watched", "swapped", "linked"))
# The elements of these configurations in flat order, and their numbers of connections, worked out
# by hand.
WATCHED_NAMES = "InfiniteSource@1 c s left/c left/q Unqueue@5 Discard@6 right/c right/q Idle@8 Idle@9 rt Discard@11".split()
SWAPPED_NAMES = "InfiniteSource@1 c fresh Discard@4".split()
WATCHED_CONNECTIONS, SWAPPED_CONNECTIONS = 11, 3
SHOTS = {"ip_router": "examples/calls/ip_router.click", "counter": "examples/counter.click", "compounds": "examples/compounds.click", "watched": "tools/page_mock/watched.click"}


class Tally:
    """The number of checks that passed, and the names of those that failed."""

    def __init__(self):
        self.passed, self.failed = 0, []

    def check(self, what, act, *words):
        """Makes a check, and prints whether it passed."""
        try:
            act(*words)
        except (Wrong, BrowserFault, OSError, ValueError, KeyError, IndexError, TypeError, AttributeError) as error:
            self.failed.append(what)
            print(f"FAILED  {what}: {error}", flush=True)
        else:
            self.passed += 1
            print(f"passed  {what}", flush=True)


# ---- The router and its clients


# The ports of all routers so far. Checks that run in parallel do not share one.
GIVEN_PORTS = set()


def free_ports(count):
    """Returns ports that are free and that it has not returned before."""
    while True:
        with contextlib.ExitStack() as all_of_them:
            probes = [all_of_them.enter_context(socket.socket()) for _ in range(count)]
            for it in probes:
                it.bind(("127.0.0.1", 0))
            ports = [it.getsockname()[1] for it in probes]
            if GIVEN_PORTS.isdisjoint(ports):
                GIVEN_PORTS.update(ports)
                return ports


def answers(port):
    """Returns whether a process listens on this port."""
    try:
        socket.create_connection(("127.0.0.1", port), timeout=SECONDS).close()
        return True
    except ConnectionRefusedError:
        return False


class Router:
    """A router with a page at `page`.

    It is live, with a driver and with sessions at `port`. If `is_live` is false, it has one session
    instead, on its standard input and output.
    """

    def __init__(self, command, text, *options, is_live=True):
        self.port, self.page = free_ports(2)
        self.is_mock = f"{TOP}/tools/page_mock.py" in command
        live = ["--live", "-p", str(self.port), "-w", "1"] if is_live else []
        self.words = ["nice", "-n", "10", *command, "-e", text, *live, "--page", str(self.page), *options]
        self.pipes = {"stdin": subprocess.DEVNULL} if is_live else {"stdin": subprocess.PIPE, "stdout": subprocess.PIPE}
        self.start()

    def start(self):
        self.process = subprocess.Popen(self.words, **self.pipes)
        try:
            until(self.is_there, "the router listens", 3 * SECONDS)
        except Wrong:
            self.stop()
            raise

    def is_there(self):
        if self.process.poll() is not None:
            raise Wrong(f"the router ended with status {self.process.returncode}")
        return answers(self.page)

    def stop(self):
        self.process.kill()
        self.process.wait()

    def __enter__(self):
        return self

    def __exit__(self, *_):
        self.stop()


class Session:
    """A control session (docs/CONTROL.md)."""

    def __init__(self, router):
        self.socket = socket.create_connection(("127.0.0.1", router.port), timeout=SECONDS)
        self.file = self.socket.makefile("rwb")
        same(b"Click::ControlSocket/1.3\r\n", self.file.readline(), "the greeting of a session")

    def ask(self, command):
        self.file.write(command)
        self.file.flush()
        lines = [self.file.readline()]
        while lines[-1][3:4] == b"-":
            lines.append(self.file.readline())
        return b"".join(lines)

    def read(self, handler):
        same(f"200 Read handler '{handler}' OK\r\n".encode(), self.ask(f"READ {handler}\n".encode()), f"READ {handler}")
        return self.file.read(int(self.file.readline().split()[1])).decode()

    def write(self, handler, text):
        return self.ask(b"WRITEDATA %s %d\n%s" % (handler.encode(), len(text.encode()), text.encode()))

    def close(self):
        self.file.close()
        self.socket.close()


class Answer:
    """An HTTP response: its status, its reason phrase, its header fields in order, and its body."""

    def __init__(self, came):
        head, ends, self.body = came.partition(b"\r\n\r\n")
        first, *lines = head.decode("latin-1").split("\r\n")
        if not re.match(r"HTTP/1\.1 \d{3}( |$)", first):
            raise Wrong(f"not an HTTP response: {came[:200]!r}")
        if not ends:
            raise Wrong(f"a head without its end: {came[:200]!r}")
        self.status, self.reason = int(first[9:12]), first[13:]
        self.fields = [(name.lower(), value.strip()) for name, _, value in (line.partition(":") for line in lines)]

    def field(self, name):
        return [value for it, value in self.fields if it == name]

    def json(self):
        return json.loads(self.body)


def received(peer, seconds=3 * SECONDS):
    """Returns all bytes until the peer closes; raises Wrong if it does not within `seconds`."""
    came, ends = b"", time.monotonic() + seconds
    while True:
        peer.settimeout(max(0.01, ends - time.monotonic()))
        try:
            piece = peer.recv(65536)
        except ConnectionResetError:
            return came
        except TimeoutError:
            raise Wrong(f"not ended in {seconds} s, after {came[:200]!r}") from None
        if not piece:
            return came
        came += piece


class Client:
    """A client of a page, with one connection for each request.

    It keeps all responses, because some checks hold for each of them.
    """

    def __init__(self, router, session):
        self.router, self.session, self.answers = router, session, []

    def connect(self):
        return socket.create_connection(("127.0.0.1", self.router.page), timeout=SECONDS)

    def send(self, sent):
        """Sends raw bytes and returns the response."""
        with self.connect() as peer:
            # A router that refuses early may close before all has been sent.
            with contextlib.suppress(ConnectionError):
                peer.sendall(sent)
            answer = Answer(received(peer))
        self.answers.append(answer)
        return answer

    def ask(self, target, method="GET", body=b"", fields=(), host=None):
        lines = [f"{method} {target} HTTP/1.1", f"host: {host or f'127.0.0.1:{self.router.page}'}", "connection: close", *fields]
        if body or method == "POST":
            lines.append(f"content-length: {len(body)}")
        return self.send("\r\n".join([*lines, "", ""]).encode() + body)


MARK = "x-click-page: 1"


# ---- By sockets: requests that are answered


def policy_of(page):
    """Returns the content security policy that allows the only script of the page."""
    scripts = re.findall(rb"<script[^>]*>(.*?)</script>", page, re.S)
    same(1, len(scripts), "scripts of the page")
    digest = base64.b64encode(hashlib.sha256(scripts[0]).digest()).decode()
    rest = "style-src 'unsafe-inline'; connect-src 'self'; img-src 'self' data:; base-uri 'none'; form-action 'none'; frame-ancestors 'none'"
    return f"default-src 'none'; script-src 'sha256-{digest}'; {rest}"


def is_page(client):
    answer = client.ask("/")
    same((200, "OK"), (answer.status, answer.reason), "GET /")
    same(["text/html; charset=utf-8"], answer.field("content-type"), "its type")
    same(text_of("crates/click_page/page/page.html").encode(), answer.body, "the page")


def is_guarded(client):
    asked = [("/", "GET"), ("/picture.svg", "GET"), ("/flat", "GET"), ("/read?handler=config", "GET"), ("/swap", "POST"), ("/none", "GET"), ("/swap", "GET"), ("/read", "GET")]
    policy = policy_of(client.ask("/").body)
    wanted = {"content-security-policy": policy, "cache-control": "no-store", "x-content-type-options": "nosniff", "x-frame-options": "DENY"}
    wanted |= {"cross-origin-resource-policy": "same-origin", "referrer-policy": "no-referrer"}
    for target, method in asked:
        answer = client.ask(target, method)
        for name, value in wanted.items():
            same([value], answer.field(name), f"{name} of {method} {target} ({answer.status})")


def is_flat_form(client):
    flat = client.ask("/flat").json()
    same(WATCHED_NAMES, [it["name"] for it in flat["elements"]], "names in /flat")
    same(WATCHED_CONNECTIONS, len(flat["connections"]), "connections in /flat")
    element = flat["elements"][WATCHED_NAMES.index("left/q")]
    wanted = {"class": "Queue", "inputs": [{"agnostic": False, "pull": False}], "name": "left/q", "outputs": [{"agnostic": False, "pull": True}]}
    wanted |= {"reads": ["length", "highwater_length", "drops", "capacity"], "text": "64", "writes": ["capacity", "reset_counts", "reset"]}
    same(wanted, element, "left/q in /flat")
    same([2, 1, 7, 0], next(it for it in flat["connections"] if it[:2] == [2, 1]), "what s [1] is joined to")


def reads_in_order(client):
    handlers = ["config", "s.switch", "x.y", "c.none", "rt.lookup", "hotconfig", "c.reset_counts"]
    answers = client.ask("/read?" + "&".join(f"handler={it}" for it in handlers)).json()
    same({"value": WATCHED.encode().decode("latin-1")}, answers[0], "the text, a character for each byte")
    same({"value": "0"}, answers[1], "s.switch")
    same({"fault": 510, "text": "510 No element named 'x'\r\n"}, answers[2], "x.y")
    same({"fault": 511, "text": "511 No handler named 'c.none'\r\n"}, answers[3], "c.none")
    same({"fault": 520, "text": "520-Read handler 'rt.lookup' error:\r\n520 not an address\r\n"}, answers[4], "rt.lookup")
    same({"fault": 530, "text": "530 Handler 'hotconfig' write-only\r\n"}, answers[5], "hotconfig")
    same({"fault": 530, "text": "530 Handler 'c.reset_counts' write-only\r\n"}, answers[6], "c.reset_counts")
    same(7, len(answers), "answers to 7 reads")
    same({"value": "64"}, client.ask("/read?handler=left%2Fq.capacity").json()[0], "a handler that is percent-encoded")


def shows_bytes(client):
    """Checks names of handlers that no element has: bytes, `+`, and `%` that encodes nothing."""
    for sent, name in (("%FF.x", "\u00ff"), ("%C3%A4%ff.x", "\u00c3\u00a4\u00ff")):
        same([{"fault": 510, "text": f"510 No element named '{name}'\r\n"}], client.ask(f"/read?handler={sent}").json(), f"/read?handler={sent}")
    for sent, name in (("a+b", "a b"), ("a%2Bb", "a+b"), ("a%zz", "a%zz"), ("a%", "a%"), ("a#b", "a")):
        same([{"fault": 511, "text": f"511 No handler named '{name}'\r\n"}], client.ask(f"/read?handler={sent}").json(), f"/read?handler={sent}")


# The read handlers of each class whose values are numbers (docs/CALLS.md): those whose values may
# fall, and those whose values only grow until they are reset.
NUMBERS = {
    "InfiniteSource": ([], ["count"]),
    "Counter": ([], ["count", "byte_count"]),
    "Switch": (["switch"], []),
    "Queue": (["length", "highwater_length", "capacity"], ["drops"]),
}

# The types of the metrics of the router, of its process, and of its links if it has any.
ROUTER_TYPES = {"click_elements": "gauge", "click_overruns_total": "counter", "click_handler": "gauge", "click_handler_total": "counter"}
PROCESS_TYPES = {"click_sessions": "gauge", "click_session_slots": "gauge", "click_sessions_total": "counter", "process_start_time_seconds": "gauge", "process_resident_memory_bytes": "gauge", "process_virtual_memory_bytes": "gauge"}
LINK_COUNTS = "received strangers too_long no_room no_memory entered sent failed".split()
LINK_TYPES = {f"click_link_{it}_total": "counter" for it in LINK_COUNTS}


def has_metrics(client):
    flat, answer = client.ask("/flat").json(), client.ask("/metrics")
    same((200, ["text/plain; version=0.0.4; charset=utf-8"]), (answer.status, answer.field("content-type")), "the status and the type of /metrics")
    metrics = Metrics(answer.body.decode())
    same(ROUTER_TYPES | PROCESS_TYPES, metrics.types, "the types")
    wanted = {(it, frozenset()) for it in ("click_elements", "click_overruns_total", *PROCESS_TYPES)}
    for element in flat["elements"]:
        for metric, handlers in zip(("click_handler", "click_handler_total"), NUMBERS.get(element["class"], ([], []))):
            wanted |= {(metric, frozenset({("element", element["name"]), ("class", element["class"]), ("handler", it)})) for it in handlers}
    same([], sorted(map(str, wanted ^ set(metrics.values))), "samples that are missing or too many")
    same(len(WATCHED_NAMES), metrics.values["click_elements", frozenset()], "click_elements")
    same(float(client.session.read("overruns")), metrics.values["click_overruns_total", frozenset()], "click_overruns_total")


def measures_handlers(client):
    """Checks each value of the metrics between two reads of its handler."""
    names = [f"{element['name']}.{handler}" for element in client.ask("/flat").json()["elements"] for handler in element["reads"]]
    query = "/read?" + "&".join(f"handler={it.replace('/', '%2F')}" for it in names)
    before, metrics, after = client.ask(query).json(), Metrics(client.ask("/metrics").body.decode()), client.ask(query).json()
    found = {f"{dict(labels)['element']}.{dict(labels)['handler']}": value for (name, labels), value in metrics.values.items() if labels}
    for name, first, last in zip(names, before, after):
        if not re.fullmatch(r"-?\d+", first.get("value", "")):
            same(None, found.get(name), f"the metric of {name}, which is {first}")
        elif not name.endswith(".length") and not int(first["value"]) <= found[name] <= int(last["value"]):
            raise Wrong(f"{name} is {found[name]} in /metrics, and before and after {first} and {last}")


def answers_heads(client):
    """Checks HEAD: the status and the fields of GET, and no body."""
    for target in ("/", "/picture.svg", "/flat", "/read?handler=version", "/metrics"):
        wanted, came = client.ask(target), client.ask(target, "HEAD")
        same((200, b""), (came.status, came.body), f"the status and the body of HEAD {target}")
        if target != "/metrics":
            same(wanted.fields, came.fields, f"the fields of HEAD {target}")
    for target in ("/write?handler=s.switch", "/swap"):
        same(405, client.ask(target, "HEAD", fields=[MARK]).status, f"HEAD {target}")

def limits_reads(client):
    same(256, len(client.ask("/read?" + "&".join(["handler=version"] * 256)).json()), "answers to 256 reads")
    for query in ("", "?", "?handler=", "?handler", "?handler=version&handler=", "?handler=version&other=1", "?" + "&".join(["handler=version"] * 257)):
        same(400, client.ask("/read" + query).status, f"/read{query[:40]}")
    for query in ("", "?handler=", "?handler=s.switch&handler=s.switch", "?other=s.switch"):
        same(400, client.ask("/write" + query, "POST", b"0", [MARK]).status, f"/write{query}")


def writes_without_text(client):
    answer = client.ask("/write?handler=c.reset_counts", "POST", b"", [MARK])
    same((200, {"done": True}), (answer.status, answer.json()), "a write of c.reset_counts with an empty body")
    same({"fault": 520, "text": "520-Write handler 's.switch' error:\r\n520 not a number\r\n"}, client.ask("/write?handler=s.switch", "POST", b"", [MARK]).json(), "a write of s.switch with an empty body")


def wants_methods(client):
    for method, target in (("POST", "/"), ("POST", "/read?handler=config"), ("POST", "/metrics"), ("DELETE", "/flat"), ("GET", "/swap"), ("GET", "/write?handler=s.switch"), ("PUT", "/swap")):
        answer = client.ask(target, method, b"", [MARK])
        allowed = "POST" if target.startswith(("/swap", "/write")) else "GET, HEAD"
        same((405, [allowed]), (answer.status, answer.field("allow")), f"the status and the methods of {method} {target}")
    same(404, client.ask("/nothing").status, "GET /nothing")


# ---- By sockets: requests that are refused


def refuses_hosts(client):
    port = client.router.page
    for host in (f"127.0.0.1:{port}", f"localhost:{port}", f"[::1]:{port}", f"LocalHost:{port}"):
        same(200, client.ask("/read?handler=version", host=host).status, f"Host {host}")
    for host in ("evil.example", f"evil.example:{port}", "127.0.0.1", f"127.0.0.1:{port + 1}", f"localhost.evil.example:{port}", f"10.0.0.1:{port}", f"127.0.0.1:0{port}"):
        same(403, client.ask("/read?handler=version", host=host).status, f"Host {host}")
        same(403, client.ask("/swap", "POST", b"Idle -> Discard;", [MARK], host=host).status, f"a swap with Host {host}")


def refuses_targets(client):
    port = client.router.page
    for place in ("http://evil.example", f"http://127.0.0.1:{port + 1}", f"https://127.0.0.1:{port}", f"http://user@127.0.0.1:{port}", "http://127.0.0.1"):
        same(403, client.ask(f"{place}/read?handler=version").status, f"a target at {place}")


def takes_own_targets(client):
    """Checks targets in the absolute form. Host is then ignored (RFC 9112, 3.2.2)."""
    port = client.router.page
    for place in (f"http://127.0.0.1:{port}", f"HTTP://LOCALHOST:{port}", f"http://[::1]:{port}"):
        answer = client.ask(f"{place}/read?handler=version", host="evil.example")
        same((200, b'[{"value":"1"}]'), (answer.status, answer.body), f"a target at {place}")


def refuses_foreign_posts(client):
    """Checks requests that a form or script of a foreign page can send without permission."""
    session = client.session
    before = session.read("config"), session.read("s.switch")
    for kind in ("text/plain", "application/x-www-form-urlencoded", "multipart/form-data; boundary=x"):
        fields = ["origin: http://evil.example", f"content-type: {kind}"]
        same(403, client.ask("/write?handler=s.switch", "POST", b"1", fields).status, f"a write of {kind}")
        same(403, client.ask("/swap", "POST", SWAPPED.encode(), fields).status, f"a swap of {kind}")
    same(before, (session.read("config"), session.read("s.switch")), "the text and s.switch after that")


def lets_nobody_in(client):
    """Checks that no response of this run, also to preflight requests, permits foreign pages."""
    fields = ["origin: http://evil.example", "access-control-request-method: POST", "access-control-request-headers: x-click-page"]
    same(405, client.ask("/swap", "OPTIONS", fields=fields).status, "OPTIONS /swap")
    client.ask("/read?handler=config", fields=["origin: http://evil.example"])
    client.ask("/read?handler=config", fields=["origin: null"])
    for answer in client.answers:
        found = [name for name, _ in answer.fields if name.startswith("access-control")]
        same([], found, f"such fields of an answer with status {answer.status}")


def refuses_garbage(client):
    """Checks what is no request, while another connection waits, which is answered afterwards."""
    own = f"host: 127.0.0.1:{client.router.page}\r\n".encode()
    garbage = {
        "the first bytes of TLS": bytes.fromhex("16030100c8010000c40303") + b"\r\n\r\n",
        "a line of words": b"what is this\r\n\r\n",
        "a command of a session": b"READ config\r\n\r\n",
        "another version": b"GET / HTTP/3.0\r\n" + own + b"\r\n",
        "no Host": b"GET / HTTP/1.1\r\n\r\n",
        "two Hosts": b"GET / HTTP/1.1\r\n" + own + own + b"\r\n",
        "a field without a colon": b"GET / HTTP/1.1\r\n" + own + b"x\r\n\r\n",
    }
    with client.connect() as other:
        time.sleep(0.3)
        for what, sent in garbage.items():
            answer = client.send(sent)
            same((400, "Bad Request"), (answer.status, answer.reason), what)
        other.sendall(b"GET /read?handler=version HTTP/1.1\r\n" + own + b"\r\n")
        same([{"value": "1"}], answer_on(other).json(), "the answer on another connection")


def limits_heads(client):
    many = [f"x-filler-{at}: {'x' * 1000}" for at in range(40)]
    same(200, client.ask("/read?handler=version", fields=many).status, "a head of 40 KB")
    sent = f"GET / HTTP/1.1\r\nhost: 127.0.0.1:{client.router.page}\r\nx-filler: ".encode() + b"x" * 65000
    ends = time.monotonic() + SECONDS
    with client.connect() as peer:
        # A router that closes with unread bytes resets the connection. So after the limit only a
        # few bytes are sent at a time.
        while not select.select([peer], [], [], 0.05)[0]:
            if time.monotonic() > ends:
                raise Wrong("a head of more than 64 KiB is not answered")
            peer.sendall(sent)
            sent = b"x" * 1000
        client.answers.append(Answer(received(peer)))
    same(431, client.answers[-1].status, "a head of more than 64 KiB")


def limits_bodies(client):
    same(200, client.ask("/write?handler=x.y", "POST", b"x" * 1048576, [MARK]).status, "a body of 1 MiB")
    # The head has the length of the body, so no byte of the body has to be sent.
    head = f"POST /write?handler=x.y HTTP/1.1\r\nhost: 127.0.0.1:{client.router.page}\r\n{MARK}\r\nconnection: close\r\ncontent-length: 1048577\r\n\r\n"
    same(413, client.send(head.encode()).status, "a body of a byte more")


def chunked(client, target, *chunks, fields=(), end=b"0\r\n\r\n"):
    """Returns a request whose body comes in these chunks, each with its length in front.

    A chunk that is given with its length has exactly this length, whatever bytes follow.
    """
    lines = [f"POST {target} HTTP/1.1", f"host: 127.0.0.1:{client.router.page}", MARK, "transfer-encoding: chunked", *fields, "", ""]
    pairs = [it if isinstance(it, tuple) else (b"%x" % len(it), it) for it in chunks]
    return "\r\n".join(lines).encode() + b"".join(b"%s\r\n%s\r\n" % it for it in pairs) + end


LAST = "connection: close"


def takes_chunks(client):
    """Checks bodies in chunks: of a write, of swaps, an empty one, and one before a further request."""
    session = client.session
    for text in (b"1", b"0"):
        same({"done": True}, client.send(chunked(client, "/write?handler=s.switch", text, fields=[LAST])).json(), "a write in a chunk")
        same(text.decode(), session.read("s.switch"), "s.switch after it")
    for text in (SWAPPED.encode(), WATCHED.encode()):
        pieces = (b"10", text[:16]), (b"000A", text[16:26]), (b"b;name=value", text[26:37]), text[37:]
        came = client.send(chunked(client, "/swap", *pieces, fields=[LAST], end=b"0\r\nx-trailer: 1\r\n\r\n"))
        same({"done": True}, came.json(), "a swap in four chunks")
        same(text.decode(), session.read("config"), "the text after it")
    with client.connect() as peer:
        first = chunked(client, "/write?handler=c.reset_counts")
        peer.sendall(first + chunked(client, "/write?handler=s.switch", b"0", fields=[LAST]))
        came = received(peer)
    same([b'{"done":true}'] * 2, re.findall(rb"\r\n\r\n({.*?})", came), "the answers to a write of no byte in chunks, and to a write after it")


def refuses_chunks(client):
    malformed = {
        "a length that is no number": [(b"zz", b"1")],
        "no length": [(b"", b"1")],
        "a length below 0": [(b"-1", b"1")],
        "a length of more than 64 bits": [(b"F" * 17, b"1")],
        "a chunk that is longer than its length": [(b"1", b"11")],
        "a length of the body too": [b"1"],
    }
    for what, chunks in malformed.items():
        fields = ["content-length: 1"] if what == "a length of the body too" else []
        same(400, client.send(chunked(client, "/write?handler=s.switch", *chunks, fields=[LAST, *fields])).status, what)
    same("0", client.session.read("s.switch"), "s.switch after that")


def limits_chunks(client):
    """Checks the length of a body in chunks. The status comes before the rest of a chunk."""
    most = 1048576
    for what, chunks, end, status in (
        ("1 MiB in 16 chunks", [b"x" * 65536] * 16, b"0\r\n\r\n", 200),
        ("1 MiB in a chunk", [b"x" * most], b"0\r\n\r\n", 200),
        ("a byte more in a chunk", [b"x" * (most + 1)], b"0\r\n\r\n", 413),
        ("a byte more in two chunks", [b"x" * most, b"x"], b"0\r\n\r\n", 413),
        ("a byte more of a chunk of 2 MiB", [], b"200000\r\n" + b"x" * (most + 1), 413),
    ):
        same(status, client.send(chunked(client, "/write?handler=x.y", *chunks, fields=[LAST], end=end)).status, f"a body of {what}")


def refuses_announced_chunks(client):
    """Checks that a chunk that announces more than 1 MiB is refused before its data comes."""
    target, first = "/write?handler=x.y", chunked(client, "/write?handler=x.y", b"x", end=b"")
    host = f"host: 127.0.0.1:{client.router.page}\r\n"
    get = f"GET /read?handler=version HTTP/1.1\r\n{host}\r\n".encode()
    post = f"POST {target} HTTP/1.1\r\n{host}{MARK}\r\ncontent-length: 5\r\n\r\n12345".encode()
    long = chunked(client, target, end=b"200000\r\n")
    for what, pieces in {
        "1 MiB and a byte": [chunked(client, target, end=b"100001\r\n")],
        "2 MiB with zeros and an extension": [chunked(client, target, end=b"000200000;name=value\r\n")],
        "4 GiB": [chunked(client, target, end=b"FFFFFFFF\r\n")],
        "2 MiB after another chunk": [first + b"200000\r\n"],
        "2 MiB after chunks of 200,000 bytes": [chunked(client, target, *[b"x" * 1000] * 200, end=b"200000\r\n")],
        "2 MiB in pieces": [first[:40], first[40:] + b"2000", b"00", b"\r", b"\n"],
        "2 MiB and a part of it": [long + b"x" * 100_000],
        "2 MiB after an answer": [get, long],
        "2 MiB after other requests": [get + post + first + b"0\r\nx-trailer: 1\r\n\r\n" + long],
        "2 MiB by a head in other letters": [first.replace(b"transfer-encoding: chunked", b"Transfer-ENCODING:  Chunked ") + b"200000\r\n"],
    }.items():
        with client.connect() as peer:
            for piece in pieces:
                peer.sendall(piece)
                time.sleep(0.2)
            came = received(peer, SECONDS)
        same(413, Answer(came[came.rindex(b"HTTP/1.1 ") :]).status, f"a chunk that announces {what}")
    with client.connect() as peer:
        peer.sendall(chunked(client, target, end=b"100000\r\n"))
        peer.settimeout(0.5)
        with contextlib.suppress(TimeoutError):
            raise Wrong(f"a chunk that announces 1 MiB: came {peer.recv(100)!r}")
    # These only look like the size of a chunk.
    for what, chunks in {"the data of a chunk": [b"1\r\n200000\r\n200000\r\n"], "a second chunk": [b"\r\n", b"200000\r\n"]}.items():
        same(510, client.send(chunked(client, target, *chunks, fields=[LAST])).json()["fault"], f"the size of a long chunk in {what}")
    head = f"POST {target} HTTP/1.1\r\n{host}{MARK}\r\n{LAST}\r\ncontent-length: {len(long)}\r\n\r\n".encode()
    for pieces in [head + long], [head, long], [get + head, long]:
        with client.connect() as peer:
            for piece in pieces:
                peer.sendall(piece)
                time.sleep(0.2)
            came = received(peer, SECONDS)
        same(510, Answer(came[came.rindex(b"HTTP/1.1 ") :]).json()["fault"], "a body with a length that is a request with a long chunk")


def ends_slow_heads(client):
    """Checks a head that is sent byte by byte, without a long pause."""
    patience = PATIENCE_OF_MOCK if client.router.is_mock else PATIENCE
    head, ends = f"GET / HTTP/1.1\r\nhost: 127.0.0.1:{client.router.page}\r\nx-slow: ".encode(), time.monotonic() + patience
    with client.connect() as peer:
        peer.settimeout(0.5)
        peer.sendall(head)
        while time.monotonic() < ends:
            try:
                peer.sendall(b"x")
                if not peer.recv(65536):
                    return
            except TimeoutError:
                continue
            except ConnectionError:
                return
    raise Wrong(f"a head that comes slowly is not ended in {patience} s")


def limits_connections(client):
    """Checks a 33rd connection while 32 have parts of requests: one that asks, and one that does not."""
    with contextlib.ExitStack() as all_of_them:
        for _ in range(32):
            all_of_them.enter_context(client.connect()).sendall(b"G")
        time.sleep(0.3)
        same(503, client.ask("/").status, "GET / over a 33rd connection")
        answer = client.send(b"")
        same((503, "Service Unavailable"), (answer.status, answer.reason), "a 33rd connection without a request")
    until(lambda: client.ask("/").status == 200, "the page is answered once the others have gone")


def closes_idle(client):
    """Checks a 33rd connection while 30 have parts of requests and two wait for one.

    The one that waited longer is closed, and the other is answered.
    """
    request = f"GET /read?handler=version HTTP/1.1\r\nhost: 127.0.0.1:{client.router.page}\r\n\r\n".encode()
    with contextlib.ExitStack() as all_of_them:
        first, second = (all_of_them.enter_context(client.connect()) for _ in range(2))
        for peer in (second, first):
            time.sleep(0.3)
            peer.sendall(request)
            same([{"value": "1"}], answer_on(peer).json(), "an answer")
        for _ in range(30):
            all_of_them.enter_context(client.connect()).sendall(b"G")
        time.sleep(0.3)
        same(200, client.ask("/").status, "GET / over a 33rd connection")
        same(b"", received(second), "what the connection gets that waited longest")
        first.sendall(request)
        same([{"value": "1"}], answer_on(first).json(), "an answer on the connection that waited less")
    until(lambda: client.ask("/").status == 200, "the page is answered once the others have gone")


def asks_for_version(client):
    """Returns a check that a connection, which stays open, gets an answer."""
    request = f"GET /read?handler=version HTTP/1.1\r\nhost: 127.0.0.1:{client.router.page}\r\n\r\n".encode()

    def asks(peer, what):
        peer.sendall(request)
        try:
            same([{"value": "1"}], answer_on(peer).json(), f"the answer on {what}")
        except TimeoutError:
            raise Wrong(f"no answer on {what}") from None

    return asks


def answers_after_ends(client):
    """Checks that a connection is answered after those that came before it have ended."""
    asks = asks_for_version(client)
    with contextlib.ExitStack() as all_of_them:
        *others, last = (all_of_them.enter_context(client.connect()) for _ in range(3))
        for at, peer in enumerate((*others, last)):
            asks(peer, f"connection {at + 1} of three")
        for at, peer in enumerate(others):
            peer.shutdown(socket.SHUT_WR)
            same(b"", received(peer), "what a connection gets when it ends")
            asks(last, f"the last of three connections after {at + 1} of them ended")


def answers_sessions(client):
    """Checks that a session is answered while the page has 32 connections with partial heads."""
    with contextlib.ExitStack() as all_of_them:
        for _ in range(32):
            all_of_them.enter_context(client.connect()).sendall(b"GET / HTTP/1.1\r\n")
        until(lambda: client.ask("/").status == 503, "all connections are in use")
        for _ in range(20):
            same("1", client.session.read("version"), "READ version")
        same(503, client.ask("/").status, "GET / over one more, since the others are still there")
    until(lambda: client.ask("/").status == 200, "the page is answered once the others have gone")


SOCKETS = {
    "GET / is the page": is_page,
    "every answer has the policy and the other guards": is_guarded,
    "/flat is the flat form": is_flat_form,
    "/read answers in order, values and faults": reads_in_order,
    "bytes of handlers appear as bytes": shows_bytes,
    "/metrics has each number of each element": has_metrics,
    "/metrics has the values of the handlers": measures_handlers,
    "HEAD is there where GET is": answers_heads,
    "queries have 1 to 256 handlers": limits_reads,
    "a write may have an empty body": writes_without_text,
    "other methods and places are refused": wants_methods,
    "a foreign Host is refused": refuses_hosts,
    "a target elsewhere is refused": refuses_targets,
    "a target that names this page is taken": takes_own_targets,
    "a post of a foreign page is refused and changes nothing": refuses_foreign_posts,
    "no foreign page is let in": lets_nobody_in,
    "garbage is refused": refuses_garbage,
    "a long head is refused": limits_heads,
    "a long body is refused": limits_bodies,
    "a body may come in chunks": takes_chunks,
    "a malformed chunk is refused": refuses_chunks,
    "a long body in chunks is refused": limits_chunks,
    "a chunk that announces too many bytes is refused at once": refuses_announced_chunks,
    "a slow head is ended": ends_slow_heads,
    "a 33rd connection is refused": limits_connections,
    "the connection that waited longest makes room": closes_idle,
    "a connection is answered after others have ended": answers_after_ends,
    "a control session answers meanwhile": answers_sessions,
}


def chosen(checks, only):
    """Returns these checks, or only the one of this name."""
    return {what: act for what, act in checks.items() if only in (None, what)}


def try_sockets(tally, router, session, only):
    client = Client(router, session)
    for what, act in chosen(SOCKETS, only).items():
        tally.check(what, act, client)


# ---- By sockets: the figures of the process, what is made once, and the end of a run; each with a
# router of its own


def metrics_of(client):
    return Metrics(client.ask("/metrics").body.decode())


def sessions_of(client):
    """Returns the number of open sessions, of session slots, and of sessions that have begun."""
    values = metrics_of(client).values
    return tuple(int(values[it, frozenset()]) for it in ("click_sessions", "click_session_slots", "click_sessions_total"))


def counts_sessions(command):
    with Router(command, WATCHED, "-n", "3") as router:
        client = Client(router, None)
        same((0, 3, 0), sessions_of(client), "the counts of sessions at first")
        first, second = Session(router), Session(router)
        until(lambda: sessions_of(client) == (2, 3, 2), "two sessions are counted")
        first.close()
        until(lambda: sessions_of(client) == (1, 3, 2), "the end of a session is counted")
        third = Session(router)
        until(lambda: sessions_of(client) == (2, 3, 3), "a third session is counted")
        same(b"200 Goodbye!\r\n", third.ask(b"QUIT\n"), "QUIT")
        third.close()
        second.close()
        until(lambda: sessions_of(client) == (0, 3, 3), "the ends of all sessions are counted")


def udp_socket(port=0):
    it = socket.socket(socket.AF_INET, socket.SOCK_DGRAM)
    it.bind(("127.0.0.1", port))
    return it


def links_of(client):
    """Returns the counts of each link by its device, in the order of LINK_COUNTS."""
    metrics, found = metrics_of(client), {}
    same(ROUTER_TYPES | PROCESS_TYPES | LINK_TYPES, metrics.types, "the types of the metrics with links")
    for count in LINK_COUNTS:
        for (name, labels), value in metrics.values.items():
            if name == f"click_link_{count}_total":
                same(["device"], [label for label, _ in labels], f"the labels of {name}")
                found.setdefault(dict(labels)["device"], []).append(int(value))
    return found


def counts_links(command):
    """Checks the counts of links after datagrams from the peer, one from elsewhere, and a long one.

    The name of the third device has each kind of byte that a device may have.
    """
    odd = "Odd_0.1:2-z"
    here_a, there_a, here_b, there_b, here_c, there_c = free_ports(6)
    options = [f"--link=a={here_a},{there_a}", f"--link=b={here_b},{there_b}", f"--link={odd}={here_c},{there_c}"]
    with Router(command, LINKED, *options) as router, udp_socket(there_a) as peer, udp_socket(there_b) as other, udp_socket() as stranger:
        client = Client(router, None)
        none = [0] * len(LINK_COUNTS)
        same({"a": none, "b": none, odd: none}, links_of(client), "the counts of links at first")
        other.settimeout(SECONDS)
        for sent in (b"first", b"second", b"third"):
            peer.sendto(sent, ("127.0.0.1", here_a))
            same(sent, other.recv(2000), "what a link sends")
        stranger.sendto(b"x", ("127.0.0.1", here_a))
        peer.sendto(b"x" * 1601, ("127.0.0.1", here_a))
        wanted = {"a": [5, 1, 1, 0, 0, 3, 0, 0], "b": [0, 0, 0, 0, 0, 0, 3, 0], odd: none}
        # A datagram that has arrived may not be counted yet.
        with contextlib.suppress(Wrong):
            until(lambda: links_of(client) == wanted, "all datagrams are counted")
        same(wanted, links_of(client), "the counts of links after five datagrams")


def tells_start(command):
    """Checks that the metrics have the time at which the router started, also two seconds later."""
    before = int(time.time())
    with Router(command, WATCHED) as router:
        client = Client(router, None)
        start = metrics_of(client).values["process_start_time_seconds", frozenset()]
        if not before <= start <= time.time():
            raise Wrong(f"the start is {start}, and the router started after {before}")
        time.sleep(2)
        same(start, metrics_of(client).values["process_start_time_seconds", frozenset()], "the start, two seconds later")


def measures_memory(command):
    """Checks the memory in the metrics between a half and twice what Linux says of the process."""
    with Router(command, WATCHED) as router:
        values = metrics_of(Client(router, None)).values
        with open(f"/proc/{router.process.pid}/status", encoding="ascii") as it:
            status = dict(line.split(":", 1) for line in it)
        for metric, name in (("process_resident_memory_bytes", "VmRSS"), ("process_virtual_memory_bytes", "VmSize")):
            wanted, came = int(status[name].split()[0]) * 1024, values[metric, frozenset()]
            if not wanted / 2 <= came <= wanted * 2:
                raise Wrong(f"{metric} is {came}, and Linux says {wanted}")


def keeps_made(command):
    """Checks the flat form and the picture before and after swaps, each twice."""
    with Router(command, WATCHED) as router:
        client = Client(router, None)

        def made(first="/flat", second="/picture.svg"):
            return dict(sorted((it, client.ask(it).body) for it in (first, second)))

        def swapped(text, wanted):
            same(wanted, "done" in client.ask("/swap", "POST", text.encode(), [MARK]).json(), "whether a swap is made")

        before = made()
        same(WATCHED_NAMES, [it["name"] for it in json.loads(before["/flat"])["elements"]], "names in /flat")
        same(before, made("/picture.svg", "/flat"), "the second flat form and picture")
        swapped(SWAPPED, True)
        after = made()
        same(SWAPPED_NAMES, [it["name"] for it in json.loads(after["/flat"])["elements"]], "names in /flat after a swap")
        same((True, False), tuple(b">fresh<" in it["/picture.svg"] for it in (after, before)), "whether a new element is in the picture, after a swap and before")
        same(after, made("/picture.svg", "/flat"), "the second flat form and picture after a swap")
        swapped("Idle -> nowhere;", False)
        same(after, made(), "the flat form and the picture after a swap that is refused")
        swapped(WATCHED, True)
        same(before, made("/picture.svg", "/flat"), "the flat form and the picture after a swap back")
        same(before, made(), "the second ones after a swap back")


def unread(router, peer):
    """Returns the number of bytes that a client has sent and the router has not read."""
    here, there, count = peer.getsockname()[1], router.page, 0
    with open("/proc/net/tcp", encoding="ascii") as rows:
        for row in list(rows)[1:]:
            mine, other, _, queues = row.split()[1:5]
            ports = tuple(int(it.split(":")[1], 16) for it in (mine, other))
            sent, came = (int(it, 16) for it in queues.split(":"))
            count += {(here, there): sent, (there, here): came}.get(ports, 0)
    return count


def waits_until_read(router, peer):
    """Waits, for as short as possible, until the router has read all that a client has sent."""
    ends = time.monotonic() + SECONDS
    # Bytes that move from one queue to the other during a look are seen by the next one.
    while unread(router, peer) or unread(router, peer):
        if time.monotonic() > ends:
            raise Wrong(f"in {SECONDS} s the router does not read a request")


def answers_before_end(command):
    """Checks that a run whose session ends while it makes a swap of the page answers that swap.

    The session ends once the request has been read. A connection without a request gets nothing.
    """
    # The line ends make the swap take long.
    text = SWAPPED.encode() + b"\n" * 1_000_000
    for _ in range(3):
        with Router(command, WATCHED, is_live=False) as router:
            client, head = Client(router, None), f"POST /swap HTTP/1.1\r\nhost: 127.0.0.1:{router.page}\r\n{MARK}\r\ncontent-length: {len(text)}\r\n\r\n"
            with client.connect() as idle, client.connect() as peer:
                peer.sendall(head.encode() + text)
                waits_until_read(router, peer)
                out, _ = router.process.communicate(b"QUIT\n", timeout=3 * SECONDS)
                same({"done": True}, Answer(received(peer)).json(), "the answer to a swap during which the session ends")
                same(b"", received(idle), "what a connection without a request gets when the run ends")
            same((b"Click::ControlSocket/1.3\r\n200 Goodbye!\r\n", 0), (out, router.process.returncode), "the output and the status of the run")


FIGURES = {
    "/metrics counts the sessions": counts_sessions,
    "/metrics counts the datagrams of links": counts_links,
    "/metrics has the time of the start": tells_start,
    "/metrics has the memory of the process": measures_memory,
    "the flat form and the picture are of the running configuration": keeps_made,
    "a run that ends answers what it has read": answers_before_end,
}


def try_figures(tally, command, only):
    for what, act in chosen(FIGURES, only).items():
        tally.check(what, act, command)


# ---- By sockets: connections that wait, each with a router of its own

# The seconds until a request that is not finished is answered 408, and the seconds that a client
# waits for that, on a busy machine.
LIMIT, LATEST = 10, 25
# The interim response that asks for the body of a request.
CONTINUE = b"HTTP/1.1 100 Continue\r\n\r\n"
# The number of times that a large answer has the configuration, which has about 900,000 bytes.
TIMES = 6
# The maximum part of the time, without work, that a thread of the router runs or waits for a processor.
# A thread that spins on a busy machine mostly waits for one.
BUSY = 0.75


class Waiting(Router):
    """A router without tasks, to which connections are made."""

    def __init__(self, command, is_live=True):
        super().__init__(command, "Idle -> c :: Counter -> Discard;", is_live=is_live)

    def connect(self, buffer=0):
        """Returns a connection to the page, with a receive buffer of this size if it is not 0."""
        peer = socket.socket()
        peer.settimeout(SECONDS)
        if buffer:
            peer.setsockopt(socket.SOL_SOCKET, socket.SO_RCVBUF, buffer)
        peer.connect(("127.0.0.1", self.page))
        return peer

    def reads_on(self, peer):
        """Gives a connection a large receive buffer, with which the rest comes fast."""
        peer.setsockopt(socket.SOL_SOCKET, socket.SO_RCVBUF, 1 << 20)

    def head(self, target, *fields):
        return "\r\n".join([f"GET {target} HTTP/1.1", f"host: 127.0.0.1:{self.page}", *fields, "", ""]).encode()

    def busy_seconds(self):
        """Returns the seconds that each thread ran or waited for a processor so far."""
        found = {}
        for thread in os.listdir(f"/proc/{self.process.pid}/task"):
            with open(f"/proc/{self.process.pid}/task/{thread}/schedstat", encoding="ascii") as row:
                found[thread] = sum(map(int, row.read().split()[:2])) / 1e9
        return found

    def install_large(self, numbers=165_000):
        """Makes a configuration with a comment of this many numbers the running one, and returns it."""
        text = "Idle -> c :: Counter -> Discard; // " + "".join(map(str, range(numbers)))
        session = Session(self)
        same(b"200 Write handler 'hotconfig' OK\r\n", session.write("hotconfig", text), "a swap to a large configuration")
        session.close()
        return text


def answer_on(peer, rest=b""):
    """Returns the next response of a connection that stays open."""
    ends = time.monotonic() + SECONDS
    while b"\r\n\r\n" not in rest:
        rest += some_of(peer, ends)
    head, _, body = rest.partition(b"\r\n\r\n")
    length = int(re.search(rb"\r\ncontent-length: (\d+)", head)[1])
    while len(body) < length:
        body += some_of(peer, ends)
    same(length, len(body), "the bytes of a body")
    return Answer(head + b"\r\n\r\n" + body)


def some_of(peer, ends):
    piece = peer.recv(65536)
    if not piece or time.monotonic() > ends:
        raise Wrong("a response is not complete" if piece else "a connection ends before its response is complete")
    return piece


def listens_here_alone(command):
    """Checks the address of the listener, in /proc/net/tcp and /proc/net/tcp6."""
    with Waiting(command) as router:
        same(["0100007F"], listeners(router.page), "the addresses at which the page listens")
        router.connect().close()


def answers_slow_readers(command):
    """Checks that a large answer is complete, and that the router waits for its reader.

    Meanwhile other connections are answered, and no thread of the router spins.
    """
    with Waiting(command) as router:
        text = router.install_large()
        with router.connect(buffer=4096) as peer:
            peer.sendall(router.head("/read?" + "&".join(["handler=config"] * TIMES)))
            until(lambda: select.select([peer], [], [], 0)[0], "a large answer begins")
            time.sleep(0.5)
            began, before = time.monotonic(), router.busy_seconds()
            time.sleep(2)
            busy = max(seconds - before.get(thread, 0) for thread, seconds in router.busy_seconds().items())
            part = busy / (time.monotonic() - began)
            if part > BUSY:
                raise Wrong(f"while a client reads nothing, a thread of the router runs or waits for a processor for {part:.0%} of the time")
            same(b'[{"value":"1"}]', answer_on_new(router, "/read?handler=version"), "another connection's answer meanwhile")
            router.reads_on(peer)
            same([{"value": text}] * TIMES, answer_on(peer).json(), "a large answer")
            peer.sendall(router.head("/read?handler=version"))
            same([{"value": "1"}], answer_on(peer).json(), "the next answer on that connection")


def answer_on_new(router, target):
    with router.connect() as peer:
        peer.sendall(router.head(target))
        return answer_on(peer).body


def closes_after_all(command):
    """Checks that the last answer of a connection is written completely before it is closed.

    The client sends more than its request, and reads late. The router has to drop what it sent, as
    a connection that is closed with unread input loses its output.
    """
    with Waiting(command) as router:
        text = router.install_large()
        for more in (b"", b"x" * 50_000):
            with router.connect(buffer=4096) as peer:
                peer.sendall(router.head("/read?" + "&".join(["handler=config"] * TIMES), "connection: close") + more)
                time.sleep(0.5)
                router.reads_on(peer)
                answer = Answer(received(peer))
            same(["close"], answer.field("connection"), "the field connection of the last answer")
            same(answer.field("content-length"), [str(len(answer.body))], f"the length of the last answer, with {len(more)} bytes after the request")
            same([{"value": text}] * TIMES, answer.json(), f"the last answer, with {len(more)} bytes after the request")


def closes_after_late_input(command):
    """Checks that the last answer is complete if the client sends more after it was written.

    The answer fits into the send buffer of the router, which has then ended its output. If it had
    ended its input too, the further bytes would reset the connection and lose the answer.
    """
    with Waiting(command) as router:
        # An answer of 89 KB.
        text = router.install_large(20_000)
        with router.connect(buffer=4096) as peer:
            peer.sendall(router.head("/read?handler=config", "connection: close"))
            time.sleep(0.5)
            peer.sendall(b"x" * 1000)
            time.sleep(0.3)
            router.reads_on(peer)
            answer = Answer(received(peer))
        same(answer.field("content-length"), [str(len(answer.body))], "the length of the last answer, with 1000 bytes after it was written")
        same([{"value": text}], answer.json(), "the last answer, with 1000 bytes after it was written")


def answers_two_at_once(command):
    """Checks that two requests in one segment get two answers, in order."""
    with Waiting(command) as router, router.connect() as peer:
        peer.sendall(router.head("/read?handler=version") + router.head("/read?handler=c.count", "connection: close"))
        bodies = re.findall(rb"\r\n\r\n(\[.*?\])", received(peer))
        same([b'[{"value":"1"}]', b'[{"value":"0"}]'], bodies, "the answers to two requests in one segment")


def ends_with_client(command):
    """Checks that a client which ends its output after its request gets its answer, and the end.

    Request and end come together, so that one read returns the request, and only a further one
    finds the end.
    """
    with Waiting(command) as router:
        for _ in range(20):
            with router.connect() as peer:
                peer.sendall(router.head("/read?handler=version"))
                peer.shutdown(socket.SHUT_WR)
                same([{"value": "1"}], Answer(received(peer)).json(), "the answer to a client that has ended its output")


def keeps_idle(command):
    """Checks that a connection stays open without a request for longer than a request may take.

    It then gets no byte, and the next request is answered.
    """
    with Waiting(command) as router, router.connect() as peer:
        for pause in (LIMIT + 2, 0.5, 0):
            peer.sendall(router.head("/read?handler=version"))
            same([{"value": "1"}], answer_on(peer).json(), "an answer")
            if select.select([peer], [], [], pause)[0]:
                raise Wrong(f"within {pause} s after an answer the connection got {peer.recv(200)!r}")


def ends_unfinished(command):
    """Checks that a request without its end gets status 408 and its connection ends, in time.

    That the router asked for the rest of a request by an interim response gives it no more time.
    """
    with Waiting(command) as router:
        own = f"host: 127.0.0.1:{router.page}\r\n".encode()
        post = b"POST /write?handler=c.reset_counts HTTP/1.1\r\n" + own + b"x-click-page: 1\r\ncontent-length: 4\r\n"
        unfinished = {
            "one byte of a request": b"G",
            "a head without its end": b"GET / HTTP/1.1\r\n" + own,
            "a body without its end": post + b"\r\nabc",
            "a body that was asked for": post + b"expect: 100-continue\r\n\r\n",
            "a head after an answer": b"GET / HTTP/1.1\r\n",
        }
        with contextlib.ExitStack() as all_of_them:
            peers = {what: all_of_them.enter_context(router.connect()) for what in unfinished}
            last = peers["a head after an answer"]
            last.sendall(router.head("/read?handler=version"))
            same([{"value": "1"}], answer_on(last).json(), "an answer")
            began = time.monotonic()
            for what, peer in peers.items():
                peer.sendall(unfinished[what])
            for what, peer in peers.items():
                came = received(peer, began + LATEST - time.monotonic())
                interim = CONTINUE if what == "a body that was asked for" else b""
                same(interim, came[:len(interim)], f"the interim response to {what}")
                same(408, Answer(came[len(interim):]).status, what)
                if time.monotonic() - began < LIMIT - 1:
                    raise Wrong(f"{what} is answered 408 after {time.monotonic() - began:.1f} s")


def is_open(router, peer):
    """Returns whether the router has not ended this connection, by Linux's table of sockets."""
    ends = [f"0100007F:{port:04X}" for port in (router.page, peer.getsockname()[1])]
    with open("/proc/net/tcp", encoding="ascii") as rows:
        return any(row.split()[1:4] == [*ends, "01"] for row in rows)


def cuts_off(command):
    """Checks that a peer that never reads is cut off, in time. It asked for the page 200 times.

    One that reads up to a megabyte each second is served before that, meanwhile and later.
    """
    with Router(command, WATCHED) as router, contextlib.ExitStack() as both:
        limit, latest = (page_mock.SECONDS_FOR_OUTPUT, PATIENCE_OF_MOCK) if router.is_mock else (LIMIT, LATEST)
        slow, silent = (both.enter_context(Client(router, None).connect()) for _ in range(2))
        slow.setsockopt(socket.SOL_SOCKET, socket.SO_RCVBUF, 1 << 18)
        slow.settimeout(0.25)

        def read_slowly(seconds, goes_on=lambda: True):
            ends = time.monotonic() + seconds
            while time.monotonic() < ends and goes_on():
                with contextlib.suppress(TimeoutError):
                    slow.recv(1 << 18)
                time.sleep(0.25)

        for peer in (slow, silent):
            peer.sendall(f"GET / HTTP/1.1\r\nhost: 127.0.0.1:{router.page}\r\n\r\n".encode() * 200)
            until(lambda peer=peer: select.select([peer], [], [], 0)[0], "an answer begins")
            began = time.monotonic()
            read_slowly(1)
        read_slowly(latest, lambda: is_open(router, silent))
        seconds = time.monotonic() - began
        read_slowly(2)
        same((False, True), (is_open(router, silent), is_open(router, slow)), f"whether a peer that never reads, and one that reads slowly, are served after {seconds:.1f} s")
        if seconds < limit - 1:
            raise Wrong(f"a peer that never reads is cut off after {seconds:.1f} s")


def makes_once(command):
    """Checks that the flat form and the picture of a large configuration take long only once.

    On a busy machine a response takes long too, so the shortest of several times counts.
    """
    with Router(command, WATCHED) as router:
        client = Client(router, None)
        same({"done": True}, client.ask("/swap", "POST", mesh.text().encode(), [MARK]).json(), "a swap to a large configuration")
        for target in ("/flat", "/picture.svg"):
            seconds = []
            for _ in range(7):
                began = time.monotonic()
                same(200, client.ask(target).status, target)
                seconds.append(time.monotonic() - began)
            if min(seconds[1:]) > seconds[0] / 2:
                raise Wrong(f"{target} takes {seconds[0]:.3f} s, and then {min(seconds[1:]):.3f} s")


def ends_with_session(command):
    """Checks that a run without --live ends with its session, though its page has a connection."""
    with Waiting(command, is_live=False) as router, router.connect() as peer:
        # The server loop runs once a request is answered.
        peer.sendall(router.head("/read?handler=version"))
        same([{"value": "1"}], answer_on(peer).json(), "an answer")
        try:
            out, _ = router.process.communicate(b"QUIT\n", timeout=SECONDS)
        except subprocess.TimeoutExpired:
            raise Wrong(f"a run without --live does not end within {SECONDS} s after QUIT") from None
        same((b"Click::ControlSocket/1.3\r\n200 Goodbye!\r\n", 0), (out, router.process.returncode), "the output and the status of a run without --live")


def answers_all_at_once(command):
    """Checks 30 connections that come while the router is stopped: all are answered, the last first."""
    with contextlib.ExitStack() as all_of_them:
        router, count = all_of_them.enter_context(Router(command, WATCHED)), 30
        client = Client(router, None)
        asks = asks_for_version(client)
        router.process.send_signal(signal.SIGSTOP)
        try:
            peers = [all_of_them.enter_context(client.connect()) for _ in range(count)]
        finally:
            router.process.send_signal(signal.SIGCONT)
        for at in reversed(range(count)):
            asks(peers[at], f"connection {at + 1} of {count} that came at once")


CONNECTIONS = {
    "the page listens at 127.0.0.1 alone": listens_here_alone,
    "a large answer waits for a slow reader": answers_slow_readers,
    "the last answer is complete before its connection closes": closes_after_all,
    "the last answer is complete if its client still sends": closes_after_late_input,
    "two requests at once get two answers": answers_two_at_once,
    "connections that come at once are answered": answers_all_at_once,
    "a client that ends its output gets its answer and the end": ends_with_client,
    "a connection without a request stays open": keeps_idle,
    "a request that is not finished gets 408": ends_unfinished,
    "a peer that never reads is cut off": cuts_off,
    "the flat form and the picture are made once": makes_once,
    "a run without --live ends with its session": ends_with_session,
}


@contextlib.contextmanager
def connections_tried(tally, command, only):
    """Makes the checks of connections in threads, in parallel with what is done meanwhile."""
    with concurrent.futures.ThreadPoolExecutor(len(CONNECTIONS)) as pool:
        tries = {what: pool.submit(act, command) for what, act in chosen(CONNECTIONS, only).items()}
        yield
        for what, it in tries.items():
            tally.check(what, it.result)


# ---- By Prometheus


def is_scraped(scraper):
    until(lambda: scraper.value('up{job="click"}') == 1, "Prometheus has scraped the page", 3 * SECONDS)
    same(len(WATCHED_NAMES), scraper.value("click_elements"), "click_elements")
    same(64, scraper.value('click_handler{element="left/q",class="Queue",handler="capacity"}'), "the capacity of left/q")


def knows_types(scraper):
    known = until(lambda: scraper.ask("metadata"), "Prometheus knows the metrics")
    for metric, kind in (("click_handler", "gauge"), ("click_handler_total", "counter"), ("click_elements", "gauge"), ("click_overruns_total", "counter")):
        same([kind], [it["type"] for it in known.get(metric, [])], f"the type of {metric}")


def sees_growth(scraper):
    until(lambda: (scraper.value('rate(click_handler_total{element="c",handler="count"}[10s])') or 0) > 0, "a rate of c.count", 3 * SECONDS)


PROMETHEUS = {
    "Prometheus scrapes the page": is_scraped,
    "Prometheus knows the types of the metrics": knows_types,
    "Prometheus sees a counter grow": sees_growth,
}


def try_prometheus(tally, router, only):
    if left_out("prometheus"):
        return
    program = shutil.which("prometheus")
    scraper = Prometheus(program, *free_ports(1), router.page)
    try:
        for what, act in chosen(PROMETHEUS, only).items():
            tally.check(what, act, scraper)
    finally:
        scraper.close()


# ---- In the browser: what an operator sees and does


def opens(browser, router):
    browser.ask("Page.navigate", url=f"http://127.0.0.1:{router.page}/")
    until(lambda: browser.value("document.querySelectorAll('#drawing [role=button]').length"), "the page has drawn the configuration")


def shows_drawing(browser, session):
    names = browser.value("[...document.querySelectorAll('#drawing g[id^=e]')].map((it) => it.querySelector('text').textContent)")
    same(WATCHED_NAMES, names, "names in the drawing")
    same(session.read("list").split()[1:], names, "names in the drawing, by list")
    lines = browser.value("[...document.querySelectorAll('#drawing polyline')].map((it) => it.id)")
    same([f"c{at}" for at in range(WATCHED_CONNECTIONS)], lines, "connections in the drawing")
    gauges = browser.value("[...document.querySelectorAll('#drawing .gauge')].map((it) => it.parentNode.id)")
    same(["e1", "e3", "e4", "e7", "e8"], gauges, "elements with a live part")
    same(WATCHED, browser.value("document.querySelector('#editor').value"), "the text in the editor")


def number_of(browser, name):
    """Returns the count that the page shows for a counter."""
    row = f"[...document.querySelectorAll('#panel tbody tr')].find((it) => it.cells[0].textContent === {name!r})?.cells[2].textContent ?? ''"
    return int(browser.value(row).replace(",", "").replace("-", "") or 0)


def counter_grows(browser):
    first = until(lambda: number_of(browser, "c"), "the count of c is more than 0")
    until(lambda: number_of(browser, "c") > first, "the count of c grows")
    until(lambda: re.fullmatch(r"[\d.]+[KMB]?/s[\d.]+[KMB]?", browser.text("#e1 .gauge")), "c has a rate and a count in the drawing")
    until(lambda: browser.value("document.querySelector('#e1 .gauge path').getAttribute('d').length") > 10, "c has a line of the last minute")
    until(lambda: browser.text("#e4 .gauge").endswith("/64"), "left/q has its length and capacity in the drawing")


def rates_of(browser, name):
    """Returns what the page shows for a counter: the time, the count and the rate, each as a number.

    It waits for the next read with a rate.
    """
    row = f"[...document.querySelectorAll('#panel tbody tr')].find((it) => it.cells[0].textContent === {name!r})"
    shown = lambda: browser.value(f"[performance.now(), ...[...{row}.cells].slice(1).map((it) => it.textContent)]")
    _, _, before = shown()
    now, rate, count = until(lambda: (it := shown())[2] not in (before, "-") and it[1].endswith("/s") and it, f"the page reads {name} again")
    number, unit = re.fullmatch(r"([\d.]+)([KMBT]?)/s", rate).groups()
    return now / 1000, int(count.replace(",", "")), float(number) * 1000 ** " KMBT".index(unit or " ")


def shows_rates(browser):
    """Checks that a rate is what a count grew in a second, within a factor of 10.

    On a busy machine the speed of the router changes from one second to the next.
    """
    (began, before, _), (ended, after, rate) = (rates_of(browser, "c") for _ in range(2))
    grown = (after - before) / (ended - began)
    if not grown / 10 <= rate <= grown * 10:
        raise Wrong(f"the rate of c is {rate}, and its count grew by {grown:.0f} in a second")


def reddens_full_queues(browser, session):
    """Checks that the bar of a queue is red exactly if the queue is full, as right/q soon is."""
    same(b"200 Write handler 's.switch' OK\r\n", session.write("s.switch", "1"), "a write of s.switch")
    gauges = "[...document.querySelectorAll('#drawing .gauge')].map((it) => [it.textContent.match(/(\\d+)\\/(\\d+)$/), it.querySelector('.full') !== null])"

    def with_full():
        found = [(numbers[1] == numbers[2], is_red) for numbers, is_red in browser.value(gauges) if numbers]
        return any(is_full for is_full, _ in found) and found

    try:
        found = until(with_full, "a full queue is shown")
    finally:
        session.write("s.switch", "0")
    same([], [it for it in found if it[0] != it[1]], "queues that are full and not red, or red and not full")


def opens_by_keyboard(browser, at, name):
    browser.value(f"document.querySelector('#e{at}').focus()")
    browser.press("Enter", "\r")
    until(lambda: browser.text("#panel-title") == name, f"Enter opens the panel of {name}")
    same("panel-title", browser.value("document.activeElement.id"), "what has the focus")


def opens_panel(browser):
    opens_by_keyboard(browser, 2, "s")
    until(lambda: browser.text("#reads output") == "0", "s.switch is shown as 0")
    panel = browser.text("#panel")
    for wanted in ("Switch", "input 0", "output 1", "push", "c [0]", "right/c [0]", "switch"):
        if wanted not in panel:
            raise Wrong(f"the panel of s has no {wanted!r}")
    same("s, Switch", browser.value("document.querySelector('#e2').getAttribute('aria-label')"), "the accessible name of s")
    browser.press("Escape")
    until(lambda: browser.value("document.activeElement.id") == "e2", "Escape goes back to s")


def keeps_markup_out(browser):
    opens_by_keyboard(browser, 0, "InfiniteSource@1")
    same('"<b>ab</b>", -1, 1', browser.text("#facts pre"), "the text of the source")
    same(0, browser.value("document.querySelectorAll('#panel b').length"), "elements of HTML made of it")


def writes(browser, session):
    opens_by_keyboard(browser, 2, "s")
    browser.type("#write-switch", "x")
    browser.press("Enter", "\r")
    fault = "520-Write handler 's.switch' error:\r\n520 not a number\r\n"
    until(lambda: browser.text("#panel .write output") == fault, "the fault of a write is shown as it is")
    same("0", session.read("s.switch"), "s.switch after a fault")
    browser.type("#write-switch", "1")
    browser.click("#panel .write button")
    until(lambda: browser.text("#panel .write output") == "done", "the page says that the write was done")
    same("1", session.read("s.switch"), "s.switch, as a session reads it")
    until(lambda: browser.text("#reads output") == "1", "the panel reads it anew")


def shows_faults(browser, session):
    """Checks the position of a fault: its column counts bytes, and the caret counts characters."""
    text = "// \u00e4\u20ac\n/* \u00e4\u20ac \U0001f600 */ Idle -> nowhere;\n"
    column = len(text.split("\n")[1].split("nowhere")[0].encode()) + 1
    browser.type("#editor", text)
    browser.click("#swap")
    until(lambda: browser.text("#swap-said").startswith(f"Line 2, column {column}:"), f"the fault's place is shown: line 2, column {column}")
    fault = f"520-Write handler 'hotconfig' error:\r\n520 11 UnknownName at 2:{column}\r\n"
    if fault not in browser.text("#swap-said"):
        raise Wrong(f"the fault is shown as {browser.text('#swap-said')!r}")
    caret = len(text.split("nowhere")[0].encode("utf-16-le")) // 2
    same(["editor", caret], browser.value("[document.activeElement.id, document.querySelector('#editor').selectionStart]"), "where the caret is")
    same(WATCHED, session.read("config"), "the text that runs")
    same(len(WATCHED_NAMES), browser.value("document.querySelectorAll('#drawing g[id^=e]').length"), "elements drawn")


def names_drawn(browser):
    return browser.value("[...document.querySelectorAll('#drawing g[id^=e]')].map((it) => it.querySelector('text').textContent)")


def swaps(browser, session):
    browser.type("#editor", SWAPPED)
    browser.click("#swap")
    until(lambda: names_drawn(browser) == SWAPPED_NAMES, "the drawing is of the new text")
    same(SWAPPED_CONNECTIONS, browser.value("document.querySelectorAll('#drawing polyline').length"), "connections drawn")
    same(SWAPPED, session.read("config"), "the text that runs")
    same("Swapped: this text runs.", browser.text("#swap-said"), "what is said of it")
    until(lambda: number_of(browser, "fresh"), "the new counter counts")


def sees_swaps(browser, session):
    typed = "// not swapped yet"
    browser.type("#editor", typed)
    same(b"200 Write handler 'hotconfig' OK\r\n", session.write("hotconfig", WATCHED), "a swap by a session")
    until(lambda: names_drawn(browser) == WATCHED_NAMES, "the drawing is of the session's text")
    same(typed, browser.value("document.querySelector('#editor').value"), "what was typed")
    if "swapped elsewhere" not in browser.text("#news") or "still here" not in browser.text("#kept"):
        raise Wrong("the page does not say that another session has swapped")
    browser.click("#take")
    same(WATCHED, browser.value("document.querySelector('#editor').value"), "the running text")


READS = "performance.getEntriesByType('resource').filter((it) => it.name.includes('/read?')).map((it) => it.startTime)"


def reads_seldom(browser):
    browser.value("performance.clearResourceTimings()")
    time.sleep(4)
    began = browser.value(READS)
    if not 2 <= len(began) <= 5:
        raise Wrong(f"in 4 s it reads {len(began)} times")


def is_quiet_when_hidden(browser):
    hide = "Object.defineProperty(document, 'visibilityState', {{ value: '{}', configurable: true }}); document.dispatchEvent(new Event('visibilitychange'))"
    browser.value(hide.format("hidden"))
    time.sleep(1.5)
    browser.value("performance.clearResourceTimings()")
    time.sleep(3)
    same([], browser.value(READS), "reads in a hidden tab")
    browser.value(hide.format("visible"))
    until(lambda: browser.value(READS), "it reads again once it is seen")


def looks_by_media(browser):
    """Checks that the page is dark on a dark screen, and without controls on paper."""
    colour = "getComputedStyle(document.querySelector('#panel')).backgroundColor"
    light = browser.value(colour)
    browser.ask("Emulation.setEmulatedMedia", features=[{"name": "prefers-color-scheme", "value": "dark"}])
    if browser.value(colour) == light:
        raise Wrong("it is not dark")
    browser.ask("Emulation.setEmulatedMedia", media="print", features=[])
    shown = "[...document.querySelectorAll('{}')].filter((it) => it.checkVisibility()).length"
    same(0, browser.value(shown.format("textarea, input, select, button:not(.name)")), "controls on paper")
    same(2, browser.value(shown.format("#drawing svg, #panel")), "the drawing and the panel on paper")
    browser.ask("Emulation.setEmulatedMedia", media="", features=[])


def has_no_errors(browser):
    same([], browser.errors(), "errors in the console")


def survives_router(browser, router):
    router.stop()
    until(lambda: "cannot be read" in browser.text("#trouble"), "the page says that the router is gone")
    router.start()
    until(lambda: browser.text("#trouble") == "", "the page reads the router again")


def shows_denials(browser, command):
    with Router(command, WATCHED, "--readonly") as router:
        opens(browser, router)
        opens_by_keyboard(browser, 2, "s")
        browser.type("#write-switch", "1")
        browser.press("Enter", "\r")
        until(lambda: browser.text("#panel .write output") == "530 Permission denied for 's.switch'\r\n", "a write is denied")
        browser.type("#editor", SWAPPED)
        browser.click("#swap")
        until(lambda: browser.text("#swap-said") == "530 Permission denied for 'hotconfig'\r\n", "a swap is denied")
        same(WATCHED_NAMES, names_drawn(browser), "names in the drawing")


def try_browser(tally, browser, router, session, command):
    tally.check("the page opens", opens, browser, router)
    for what, act, *words in [
        ("the drawing has each element and each connection", shows_drawing, session),
        ("a counter's number grows", counter_grows),
        ("a rate is that of a second", shows_rates),
        ("the bar of a full queue is red", reddens_full_queues, session),
        ("a panel opens and closes by the keyboard", opens_panel),
        ("names and texts are no markup", keeps_markup_out),
        ("a write by the page is seen by a session", writes, session),
        ("a fault of a swap is shown with its place and changes nothing", shows_faults, session),
        ("a good swap redraws", swaps, session),
        ("a swap by a session is noticed", sees_swaps, session),
        ("it reads once a second", reads_seldom),
        ("it reads nothing in a hidden tab", is_quiet_when_hidden),
        ("it is dark on a dark screen, and prints", looks_by_media),
        ("the browser finds no error", has_no_errors),
    ]:
        tally.check(what, act, browser, *words)
    session.close()
    tally.check("a router that is gone and comes back", survives_router, browser, router)
    tally.check("a router that may only be read", shows_denials, browser, command)


def try_large(tally, browser, command, only):
    """Makes the checks over the mesh, of a router of its own: all, or the first and this one."""
    with Router(command, mesh.text()) as router:
        session = Session(router)
        large = large_page.Large(browser, router, session, large_page.Picture(Client(router, session).ask("/picture.svg").body.decode()))
        for at, (what, act) in enumerate(large_page.CHECKS.items()):
            if at == 0 or only in (None, what):
                tally.check(what, act, large)
        if not only:
            tally.check(large_page.SWAP, large_page.swaps_mesh, large, SWAPPED)
            tally.check("the browser finds no error with it", has_no_errors, browser)
        session.close()


def take_shots(browser, command, folder):
    os.makedirs(folder, exist_ok=True)
    browser.ask("Emulation.setEmulatedMedia", features=[{"name": "prefers-color-scheme", "value": "light"}])
    for name, path in SHOTS.items():
        with Router(command, text_of(path)) as router:
            opens(browser, router)
            time.sleep(15)
            browser.shoot(f"{folder}/{name}.png")


# ---- All of it

# The checks of each part but `browser`.
PARTS = {"sockets": SOCKETS, "figures": FIGURES, "connections": CONNECTIONS, "prometheus": PROMETHEUS, "large": large_page.CHECKS}
# The program that a part needs besides the router's.
NEEDS = {"prometheus": "prometheus", "browser": "chromium", "large": "chromium"}
# The number of wrong mocks that are tried at the same time. Most of their time they wait.
AT_ONCE = 4
# For each point in which the mock can be wrong, the check that has to fail.
SEEN_BY = {
    "no-host-check": "a foreign Host is refused",
    "no-target-check": "a target elsewhere is refused",
    "no-absolute-form": "a target that names this page is taken",
    "capital-hosts": "a foreign Host is refused",
    "no-allow": "other methods and places are refused",
    "no-head": "HEAD is there where GET is",
    "empty-handler": "queries have 1 to 256 handlers",
    "utf-8-names": "bytes of handlers appear as bytes",
    "no-types": "/metrics has each number of each element",
    "all-gauges": "/metrics has each number of each element",
    "less-metrics": "/metrics has each number of each element",
    "other-metrics": "/metrics has the values of the handlers",
    "no-figures": "/metrics has each number of each element",
    "figures-twice": "/metrics has each number of each element",
    "zero-sessions": "/metrics counts the sessions",
    "endless-sessions": "/metrics counts the sessions",
    "zero-links": "/metrics counts the datagrams of links",
    "exchanged-links": "/metrics counts the datagrams of links",
    "start-is-now": "/metrics has the time of the start",
    "start-in-milliseconds": "/metrics has the time of the start",
    "memory-in-pages": "/metrics has the memory of the process",
    "makes-flat-again": "the flat form and the picture are made once",
    "makes-picture-again": "the flat form and the picture are made once",
    "kept-flat": "the flat form and the picture are of the running configuration",
    "kept-picture": "the flat form and the picture are of the running configuration",
    "other-picture": "the flat form and the picture are of the running configuration",
    "fault-redraws": "the flat form and the picture are of the running configuration",
    "lost-answer": "a run that ends answers what it has read",
    "parting-words": "a run that ends answers what it has read",
    "bad-sample": "Prometheus scrapes the page",
    "still-metrics": "Prometheus sees a counter grow",
    "untyped": "Prometheus knows the types of the metrics",
    "no-mark-check": "a post of a foreign page is refused and changes nothing",
    "cors": "no foreign page is let in",
    "no-policy": "every answer has the policy and the other guards",
    "other-policy": "every answer has the policy and the other guards",
    "other-page": "GET / is the page",
    "no-method-check": "other methods and places are refused",
    "any-query": "queries have 1 to 256 handlers",
    "slow-heads": "a slow head is ended",
    "takes-garbage": "garbage is refused",
    "other-reasons": "garbage is refused",
    "garbage-ends-all": "garbage is refused",
    "long-heads": "a long head is refused",
    "long-bodies": "a long body is refused",
    "no-chunks": "a body may come in chunks",
    "decimal-chunks": "a body may come in chunks",
    "takes-chunks": "a malformed chunk is refused",
    "long-chunks": "a long body in chunks is refused",
    "late-chunks": "a chunk that announces too many bytes is refused at once",
    "early-chunks": "a chunk that announces too many bytes is refused at once",
    "first-chunks": "a chunk that announces too many bytes is refused at once",
    "chunks-anywhere": "a chunk that announces too many bytes is refused at once",
    "waits-for-readers": "a peer that never reads is cut off",
    "cuts-off-early": "a peer that never reads is cut off",
    "cuts-off-slow-readers": "a peer that never reads is cut off",
    "many-connections": "a 33rd connection is refused",
    "late-refusal": "a 33rd connection is refused",
    "no-end-of-heads": "a 33rd connection is refused",
    "no-room": "the connection that waited longest makes room",
    "other-room": "the connection that waited longest makes room",
    "one-at-once": "connections that come at once are answered",
    "end-ends-all": "a connection is answered after others have ended",
    "stuck-sessions": "a control session answers meanwhile",
    "other-flat": "/flat is the flat form",
    "other-element": "the drawing has each element and each connection",
    "less-connections": "the drawing has each element and each connection",
    "still-counter": "a counter's number grows",
    "page-of-other-rates": "a rate is that of a second",
    "page-without-red": "the bar of a full queue is red",
    "lost-write": "a write by the page is seen by a session",
    "other-place": "a fault of a swap is shown with its place and changes nothing",
    "no-place": "a fault of a swap is shown with its place and changes nothing",
    "fault-installs": "a fault of a swap is shown with its place and changes nothing",
    "no-redraw": "a good swap redraws",
    "unseen-swap": "a swap by a session is noticed",
    "no-denial": "a router that may only be read",
    "page-with-markup": "names and texts are no markup",
    "page-without-keys": "a panel opens and closes by the keyboard",
    "page-of-characters": "a fault of a swap is shown with its place and changes nothing",
    "page-that-forgets": "a swap by a session is noticed",
    "page-in-a-hurry": "it reads once a second",
    "page-unseen": "it reads nothing in a hidden tab",
    "page-light": "it is dark on a dark screen, and prints",
    "page-on-paper": "it is dark on a dark screen, and prints",
    "page-from-elsewhere": "the browser finds no error",
    "page-with-attribute": "the browser finds no error",
    "page-that-says-nothing": "a router that is gone and comes back",
    "page-that-gives-up": "a router that is gone and comes back",
    "page-that-draws-all": "what is seen of it is in the page, and no more",
    "page-that-never-looks-again": "what is seen of it is in the page, and no more",
    "page-that-reads-all": "what is seen of it is read, and no more",
    "page-that-reads-less": "what is seen of it is read, and no more",
    "page-that-answers-late": f"a click on one of its elements answers within {large_page.MS} ms",
    "page-that-works-on": f"it takes less than {large_page.PART:.0%} of a processor",
    "page-with-all-rows": "its lists have the rows that are seen",
    "page-without-neighbours": "Tab goes through its elements",
    "page-with-a-dead-map": "a click on its map opens an element",
    "page-that-prints-less": "it is printed as a whole",
}


def part_of(what):
    """Returns the part that has a check."""
    return next((part for part, checks in PARTS.items() if what in checks), "browser")


def left_out(part):
    """Returns whether a part is left out, because its program is not installed, and says so."""
    program = NEEDS.get(part)
    if not program or shutil.which(program):
        return False
    print(f"left out: the part {part}, because {program} is not installed (apt-get install {program})", flush=True)
    return True


def over_mock(what, wrong=None):
    """Makes a check over the mock, and all of its part if that is `browser`; returns what came."""
    part = part_of(what)
    words = ["--part", part] if part == "browser" else ["--check", what]
    return subprocess.run([sys.executable, __file__, "--mock", *(["--wrong", wrong] if wrong else []), *words], capture_output=True, text=True)


def ended(did, status, line):
    """Checks the status of a run of this script, and that it printed a line that begins so."""
    if did.returncode != status or f"\n{line}" not in f"\n{did.stdout}":
        raise Wrong(f"it ended with status {did.returncode} and printed {did.stdout[-1500:]}{did.stderr[-500:]}")


def passes_over_mock(what):
    ended(over_mock(what), 0, f"passed  {what}")


def is_found_out(what, wrong):
    ended(over_mock(what, wrong), 1, f"FAILED  {what}")


def wrongs_of(names):
    """Returns the points of these names, and of these parts, each with its check."""
    if unknown := set(names) - set(SEEN_BY) - set(NEEDS) - set(PARTS):
        raise Wrong(f"the mock cannot be wrong in {' '.join(sorted(unknown))}")
    return {wrong: what for wrong, what in SEEN_BY.items() if not names or wrong in names or part_of(what) in names}


def try_wrongs(names):
    """Checks that the check of a point fails if the mock is wrong in it, and only then."""
    tally = Tally()
    same(sorted(page_mock.WRONGS), sorted(SEEN_BY), "what the mock can be wrong in")
    wrongs = wrongs_of(names)
    without = {part for part in sorted({part_of(it) for it in wrongs.values()}) if left_out(part)}
    wrongs = {wrong: what for wrong, what in wrongs.items() if part_of(what) not in without}
    # A browser takes a processor, and its checks measure time.
    for at_once, is_browsed in ((AT_ONCE, False), (1, True)):
        some = {wrong: what for wrong, what in wrongs.items() if (NEEDS.get(part_of(what)) == "chromium") == is_browsed}
        with concurrent.futures.ThreadPoolExecutor(at_once) as pool:
            tries = [(f"the right mock passes: {what}", pool.submit(passes_over_mock, what)) for what in dict.fromkeys(some.values())]
            tries += [(f"a mock with {wrong} is found out by: {what}", pool.submit(is_found_out, what, wrong)) for wrong, what in some.items()]
            for title, it in tries:
                tally.check(title, it.result)
    return tally


def try_all(command, given):
    tally, only = Tally(), given.check
    part = part_of(only) if only else given.part
    with contextlib.ExitStack() as beside:
        if part == "connections" or not (given.mock or part):
            beside.enter_context(connections_tried(tally, command, only))
        if part in (None, "figures"):
            try_figures(tally, command, only)
        if part not in ("connections", "figures"):
            try_router(tally, command, part, given)
    return tally


def try_router(tally, command, part, given):
    """Makes the checks by sockets and in the browser, of one router."""
    with Router(command, WATCHED) as router:
        session = Session(router)
        if part in (None, "sockets"):
            try_sockets(tally, router, session, given.check)
        if part in (None, "prometheus"):
            try_prometheus(tally, router, given.check)
        if part in (None, "browser"):
            with browser_of("browser") as browser:
                if browser:
                    try_browser(tally, browser, router, session, command)
                if browser and given.shots:
                    take_shots(browser, command, given.shots)
    if part in (None, "large"):
        # It measures times, so it does not give way to others as much.
        with browser_of("large", nice=0) as browser:
            if browser:
                try_large(tally, browser, command, given.check)


@contextlib.contextmanager
def browser_of(part, nice=15):
    """Yields a browser for a part of the checks, or None if Chromium is not installed."""
    if left_out(part):
        yield None
        return
    browser = Browser(shutil.which("chromium"), nice)
    try:
        yield browser
    finally:
        browser.close()


def main():
    words = argparse.ArgumentParser()
    words.add_argument("--mock", action="store_true")
    words.add_argument("--wrong", choices=page_mock.WRONGS)
    words.add_argument("--wrongs", nargs="*", metavar="WHAT")
    words.add_argument("--part", choices=[*PARTS, "browser"])
    words.add_argument("--check", choices=[what for checks in PARTS.values() for what in checks], metavar="WHAT")
    words.add_argument("--shots")
    words.add_argument("command", nargs=argparse.REMAINDER)
    given = words.parse_args()
    command = given.command or [path_of("click_prog")]
    if given.mock:
        command = [sys.executable, f"{TOP}/tools/page_mock.py", *(["--wrong", given.wrong] if given.wrong else [])]
    try:
        tally = try_all(command, given) if given.wrongs is None else try_wrongs(given.wrongs)
    except (Wrong, BrowserFault, OSError) as wrong:
        sys.exit(f"page.py: {wrong}")
    print(f"{tally.passed} passed, {len(tally.failed)} failed")
    return 1 if tally.failed else 0


if __name__ == "__main__":
    sys.exit(main())
