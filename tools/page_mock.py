#!/usr/bin/env python3
"""Serves the page without a router, to try crates/click_page/page/page.html and tools/page.py when
no program is built. It answers as crates/click_page/specs defines, over a few configurations whose
pictures are stored, with numbers that change over time.

    page_mock.py -e TEXT --page PORT [-p PORT] [--readonly] [--wrong WHAT]

Without -p it has one session on its standard input and output, and ends with it.

It knows the configurations of tools/page_mock, examples/counter.click, examples/compounds.click and
examples/calls/ip_router.click, and the mesh of tools/lib/mesh.py. All others have a fault, at the word `nowhere` or else at their end.
With --wrong it is wrong in one point (WRONGS below), to show that tools/page.py checks this point.
Other options of click_prog are accepted and ignored.
"""
import argparse
import base64
import hashlib
import json
import math
import os
import re
import select
import socket
import sys
import threading
import time
import urllib.parse

sys.dont_write_bytecode = True
TOP = os.path.dirname(os.path.dirname(os.path.realpath(__file__)))
sys.path.insert(0, f"{TOP}/tools/lib")
import mesh  # noqa: E402

MOCK = f"{TOP}/tools/page_mock"
PAGE = f"{TOP}/crates/click_page/page/page.html"
PICTURES = {
    f"{MOCK}/watched.click": f"{MOCK}/watched.svg",
    f"{MOCK}/swapped.click": f"{MOCK}/swapped.svg",
    f"{MOCK}/linked.click": f"{MOCK}/linked.svg",
    f"{TOP}/examples/counter.click": f"{MOCK}/counter.svg",
    f"{TOP}/examples/compounds.click": f"{MOCK}/compounds.svg",
    f"{TOP}/examples/calls/ip_router.click": f"{TOP}/docs/ip_router.svg",
}
QUEUE = ["length", "highwater_length", "drops", "capacity"], ["capacity", "reset_counts", "reset"]
HANDLERS = {
    "Queue": QUEUE,
    "FrontDropQueue": QUEUE,
    "Counter": (["count", "byte_count"], ["reset_counts"]),
    "Switch": (["switch"], ["switch"]),
    "InfiniteSource": (["active", "count"], ["active", "reset"]),
    "StaticIPLookup": (["lookup"], []),
}
OWN = ["version", "list", "config", "flatconfig", "classes", "overruns"]
REASONS = {200: "OK", 400: "Bad Request", 403: "Forbidden", 404: "Not Found", 405: "Method Not Allowed", 413: "Content Too Large", 431: "Request Header Fields Too Large", 503: "Service Unavailable"}
READING = ["GET", "HEAD"]
ALLOWED = {"/": READING, "/picture.svg": READING, "/flat": READING, "/read": READING, "/metrics": READING, "/write": ["POST"], "/swap": ["POST"]}
LEVELS, TOTALS = ["length", "highwater_length", "capacity", "switch"], ["count", "byte_count", "drops"]
LINK_COUNTS = ["received", "strangers", "too_long", "no_room", "no_memory", "entered", "sent", "failed"]
# The elements of a large configuration, and the seconds that it takes to make its flat form or its
# picture.
LARGE, MAKING = 1000, 1
MOST_HEAD, MOST_BODY, MOST_CONNECTIONS = 65536, 1048576, 32
# The number of bytes of a body in which a wrong mock looks for chunks that are too long.
SEEN_BYTES = 16384
# Shorter than those of the router, so that tests are faster. The last is the time in which a peer
# has to take a part of the output.
SECONDS_FOR_A_HEAD, SECONDS_BETWEEN, SECONDS_FOR_OUTPUT = 3, 30, 3
# How long a swap to a text of more than 100,000 bytes takes, so that a session can end meanwhile.
SECONDS_FOR_A_LONG_TEXT = 0.5
# The points in which the mock can be wrong. tools/page.py has to find each of them.
WRONGS = """no-host-check no-target-check no-mark-check cors no-policy other-policy other-page no-method-check slow-heads takes-garbage long-heads long-bodies
many-connections stuck-sessions other-element less-connections other-flat still-counter lost-write other-place no-place fault-installs no-redraw unseen-swap
no-denial any-query empty-handler utf-8-names no-absolute-form capital-hosts no-allow no-head no-types less-metrics other-metrics all-gauges
bad-sample still-metrics untyped no-room other-room no-figures figures-twice zero-sessions endless-sessions zero-links exchanged-links
start-is-now start-in-milliseconds memory-in-pages kept-flat kept-picture other-picture fault-redraws makes-flat-again makes-picture-again other-reasons garbage-ends-all
late-refusal lost-answer parting-words no-chunks decimal-chunks takes-chunks long-chunks late-chunks early-chunks first-chunks chunks-anywhere
waits-for-readers cuts-off-early cuts-off-slow-readers one-at-once end-ends-all no-end-of-heads""".split()
# Edits of the page: texts that occur once, each followed by its replacement.
DRAWS_ALL = "isWhole = isAll || parts.length <= PARTS.whole", "isWhole = true"
READS_ALL = "if (watches.reduce((sum, it) => sum + it.handlers.length, 2) <= MOST_HANDLERS) return watches;", "return watches;"
PAGE_EDITS = {
    "page-with-markup": ("it.textContent = text;\n  for", "it.innerHTML = text;\n  for"),
    "page-without-keys": ('$("drawing").addEventListener("keydown", press);', ""),
    "page-of-characters": ('encoder.encode(lines.pop() ?? "").subarray(0, column - 1)', 'encoder.encode((lines.pop() ?? "").slice(0, column - 1))'),
    "page-that-forgets": ("isKept = isTouched()", "isKept = false"),
    "page-in-a-hurry": ("began + SECOND - performance.now()", "began + SECOND / 5 - performance.now()"),
    "page-unseen": ('document.visibilityState === "hidden"', "false"),
    "page-light": ("screen and (prefers-color-scheme: dark)", "screen and (prefers-color-scheme: none)"),
    "page-on-paper": ("@media print", "@media speech"),
    "page-from-elsewhere": ('href="data:,"', 'href="https://127.0.0.1:1/icon.png"'),
    "page-with-attribute": ('<main>', '<main onclick="this.title = 1"><script>0</script>'),
    "page-that-says-nothing": ("The router cannot be read, and is tried", "The router is tried"),
    "page-that-gives-up": ("  isRunning = false;\n  plan();\n", '  if ($("trouble").textContent === "") isRunning = false, plan();\n'),
    "page-that-draws-all": DRAWS_ALL,
    "page-that-never-looks-again": ('document.addEventListener("scroll", seeAgain, { capture: true, passive: true });', ""),
    "page-that-reads-all": READS_ALL,
    "page-that-reads-less": ("it.at === chosen || it.row || isSeen(it)", "it.at === chosen || it.row"),
    "page-that-answers-late": (*DRAWS_ALL, *READS_ALL),
    "page-that-works-on": (*DRAWS_ALL, *READS_ALL),
    "page-with-all-rows": ("isLong = count > ROWS.all", "isLong = false"),
    "page-without-neighbours": ("Math.abs(at - focused) <= 1", "at === focused"),
    "page-of-other-rates": ("Number(value - watch.value) * SECOND", "Number(value - watch.value)"),
    "page-without-red": ("Number(value) >= capacity);", "Number(value) > capacity);"),
    "page-with-a-dead-map": ("figure || !drawing.isMap", "figure || true"),
    "page-that-prints-less": ("showVisible(true, isAll);", "showVisible(true);"),
}
WRONGS += PAGE_EDITS


class Fault(Exception):
    """The refusal of a call: its number, and the lines that a session gets."""

    def __init__(self, number, *lines):
        super().__init__(number)
        self.number = number
        self.text = "".join(f"{number}{' ' if line is lines[-1] else '-'}{line}\r\n" for line in lines)


class Refused(Exception):
    """The status that refuses a request, because of its form or its length."""

    def __init__(self, status):
        super().__init__(status)
        self.status = status


def text_in(text, name, kind):
    """Returns the configuration string of an element.

    For a parameter it is the argument of the compound around the element.
    """
    *way, own = map(re.escape, name.split("/"))
    found = re.search(rf"\b{own} :: \w+\(([^;]*?)\)(?= ->|;)", text) or re.search(rf"\b{kind}\(([^;]*?)\)(?= ->|;)", text)
    written = found[1] if found else ""
    return text_in(text, way[-1], "") if way and written.startswith("$") else written


def flat_of(picture, text_of):
    """Returns the flat form of a picture. `text_of` returns the text of an element, by name and class.

    The marks of the ports show their kinds, and the ends of the lines show which ports are
    connected.
    """
    elements, places = [], {}
    for at, x, y, rest in re.findall(r'<g id="e(\d+)" transform="translate\((\d+),(\d+)\)">(.*)</g>', picture):
        name, kind = re.findall(r"<text[^>]*>([^<]*)</text>", rest)
        marks = re.findall(r'<path class="(push|pull)" d="M(\d+) \d+(h10l-5|h8v7h)[^>]*/>(<path class="rim")?', rest)
        sides = [[], []]
        for way, mark, outline, rim in marks:
            is_output = outline == "h8v7h"
            end = (int(x) + int(mark) + (4 if is_output else 5), int(y) + (46 if is_output else 0))
            places[is_output, end] = int(at), len(sides[is_output])
            sides[is_output].append({"agnostic": bool(rim), "pull": way == "pull"})
        reads, writes = HANDLERS.get(kind, ([], []))
        elements.append({"class": kind, "inputs": sides[0], "name": name, "outputs": sides[1], "reads": reads, "text": text_of(name, kind), "writes": writes})
    connections = []
    for points in re.findall(r'<polyline id="c\d+" points="([^"]*)"', picture):
        ends = [tuple(map(int, point.split(","))) for point in points.split()]
        connections.append([*places[True, ends[0]], *places[False, ends[-1]]])
    return {"connections": connections, "elements": elements}


def file_text(path):
    with open(path, encoding="utf-8", newline="") as it:
        return it.read()


class Router:
    """The router of the mock: handlers, which the page and the sessions call."""

    def __init__(self, text, readonly, wrong):
        self.readonly, self.wrong, self.began = readonly, wrong, time.monotonic()
        self.lock, self.written, self.begins = threading.Lock(), {}, {}
        self.install(text)

    def install(self, text):
        """Makes a configuration the running one, or raises its fault.

        Line ends at the end of the text are ignored, because a shell removes them from arguments.
        """
        if len(text) > 100_000:
            time.sleep(SECONDS_FOR_A_LONG_TEXT)
        for file, picture in PICTURES.items():
            if file_text(file).rstrip() == text.rstrip():
                return self.start(text, file_text(picture), lambda name, kind: text_in(text, name, kind))
        if text.rstrip() == mesh.text().rstrip():
            head = re.search(r"<style>.*</marker>\n", file_text(f"{MOCK}/watched.svg"), re.S)[0]
            return self.start(text, mesh.picture(head), lambda _, kind: mesh.TEXTS.get(kind, ""))
        before = text[: text.find("nowhere")] if "nowhere" in text else text
        line, column = before.count("\n") + 1, len(before.encode().split(b"\n")[-1]) + 1
        name = "11 UnknownName" if "nowhere" in text else "4 Unexpected"
        place = {"other-place": f" at {line}:{column + 1}", "no-place": ""}.get(self.wrong, f" at {line}:{column}")
        if self.wrong == "fault-installs":
            self.text = text
        if self.wrong == "fault-redraws":
            self.picture = file_text(PICTURES[f"{MOCK}/swapped.click"]) + " "
        raise Fault(520, "Write handler 'hotconfig' error:", name + place)

    def start(self, text, picture, text_of):
        self.text, self.picture, self.flat = text, picture, flat_of(picture, text_of)
        self.places = {it["name"]: at for at, it in enumerate(self.flat["elements"])}

    def element(self, handler):
        """Returns the index of a handler's element, the element, and the handler's name in it."""
        name, _, own = handler.rpartition(".")
        if name not in self.places:
            raise Fault(510, f"No element named '{name}'")
        at = self.places[name]
        return at, self.flat["elements"][at], own

    def moving(self, at, own, element):
        """Returns the present value of a number.

        Counts grow at a varying rate, and lengths rise and fall.
        """
        seconds = time.monotonic() - self.began
        if own == "length":
            return int(self.capacity(element) * min(1, max(0, 0.5 + 0.6 * math.sin(seconds / 4 + at))))
        grown = 0 if self.wrong == "still-counter" else int(1000 * (at + 1) * (seconds + 3 * math.sin(seconds / 3 + at) + 3))
        return (grown - self.begins.get(element["name"], 0)) * (64 if own == "byte_count" else 1)

    def capacity(self, element):
        return int(self.written.get(element["name"] + ".capacity", element["text"] if element["text"].isdigit() else "64"))

    def read(self, handler):
        if handler in OWN:
            return self.read_own(handler)
        if handler == "hotconfig":
            raise Fault(530, "Handler 'hotconfig' write-only")
        if "." not in handler:
            raise Fault(511, f"No handler named '{handler}'")
        at, element, own = self.element(handler)
        if own not in element["reads"]:
            raise Fault(530, f"Handler '{handler}' write-only") if own in element["writes"] else Fault(511, f"No handler named '{handler}'")
        if own == "lookup":
            raise Fault(520, f"Read handler '{handler}' error:", "not an address")
        fixed = {"switch": "0", "active": "true", "drops": "0", "capacity": str(self.capacity(element)), "highwater_length": str(self.capacity(element))}
        return self.written.get(handler) or fixed.get(own) or str(self.moving(at, own, element))

    def read_own(self, handler):
        names = [it["name"] for it in self.flat["elements"]]
        joined = [f"{names[a]} [{p}] -> [{q}] {names[b]};\n" for a, p, b, q in self.flat["connections"]]
        declared = [f"{it['name']} :: {it['class']}({it['text']});\n" for it in self.flat["elements"]]
        made = {"version": "1", "overruns": "0", "classes": "".join(it + "\n" for it in HANDLERS), "flatconfig": "".join(declared + joined)}
        return {**made, "list": "\n".join([str(len(names)), *names, ""]), "config": self.text}[handler]

    def write(self, handler, text):
        if self.readonly and self.wrong != "no-denial":
            raise Fault(530, f"Permission denied for '{handler}'")
        if handler == "hotconfig":
            return self.install(text)
        if handler in OWN:
            raise Fault(530, f"Handler '{handler}' read-only")
        at, element, own = self.element(handler)
        if own not in element["writes"]:
            raise Fault(530, f"Handler '{handler}' read-only") if own in element["reads"] else Fault(511, f"No handler named '{handler}'")
        if own in ("switch", "capacity") and not text.strip().isdigit():
            raise Fault(520, f"Write handler '{handler}' error:", "not a number")
        if own == "reset_counts":
            self.begins[element["name"]] = self.begins.get(element["name"], 0) + self.moving(at, "count", element)
        elif own in element["reads"]:
            self.written[handler] = text.strip()

    def call(self, act, *words):
        """Makes a call. Returns a value, None if something was done, or a Fault."""
        with self.lock:
            try:
                return act(*words)
            except Fault as fault:
                return fault


def as_json(data):
    """Returns the data as JSON in UTF-8."""
    said = json.dumps(data, separators=(",", ":"), ensure_ascii=False, default=str)
    return said.encode()


def as_bytes(text):
    """Returns a text with a character for each byte of its UTF-8 form, as in the page's JSON."""
    return text.encode(errors="surrogateescape").decode("latin-1")


def entry(answer):
    """Returns the JSON object for the answer of a call."""
    if isinstance(answer, Fault):
        return {"fault": answer.number, "text": as_bytes(answer.text)}
    return {"done": True} if answer is None else {"value": as_bytes(answer)}


def edited_page(wrong):
    """Returns the page, wrong in one point if it is one of the page's."""
    page, edits = file_text(PAGE), PAGE_EDITS.get(wrong, ())
    for old, new in zip(edits[::2], edits[1::2]):
        page = page.replace(old, new)
    return page


class Page:
    """The HTTP service of the page, over a router."""

    def __init__(self, router, port, wrong, figures):
        self.router, self.port, self.wrong, self.figures = router, port, wrong, figures
        self.page = edited_page(wrong).encode() + (b"<!-- -->\n" if wrong == "other-page" else b"")
        self.places, self.lock = MOST_CONNECTIONS, threading.Lock()
        # The connections that wait for a request, and since when.
        self.waiting = {}
        # Connections that get no answer, if the mock is wrong about those that come at once.
        self.left = []
        # When the first answer of a connection began.
        self.begun = {}
        # The configuration for which the flat form and the picture were made last, by their paths.
        self.made = {}
        # The flat form that was written as JSON last, and this JSON.
        self.kept = None, b""
        script = max(re.findall(rb"<script>(.*?)</script>", self.page, re.S), key=len)
        digest = base64.b64encode(hashlib.sha256(script).digest()).decode()
        self.policy = f"default-src 'none'; script-src 'sha256-{digest}'; style-src 'unsafe-inline'; connect-src 'self'; img-src 'self' data:; base-uri 'none'; form-action 'none'; frame-ancestors 'none'"
        if wrong == "other-policy":
            self.policy += "; font-src *"

    def respond(self, status, kind, body, closes=False, more=()):
        """Returns a response with the headers that protect the page."""
        guards = {"cache-control": "no-store", "content-security-policy": self.policy, "x-content-type-options": "nosniff", "x-frame-options": "DENY"}
        guards |= {"cross-origin-resource-policy": "same-origin", "referrer-policy": "no-referrer"}
        if self.wrong == "no-policy":
            del guards["content-security-policy"]
        if self.wrong == "cors":
            guards["access-control-allow-origin"] = "*"
        fields = {"content-type": kind, **guards, "content-length": len(body), **({"connection": "close"} if closes else {}), **dict(more)}
        reason = "Refused" if self.wrong == "other-reasons" and status >= 400 else REASONS[status]
        lines = [f"HTTP/1.1 {status} {reason}", *(f"{name}: {value}" for name, value in fields.items())]
        ends = b"\r\n" if self.wrong == "no-end-of-heads" and closes else b"\r\n\r\n"
        return "\r\n".join(lines).encode() + ends + body

    def refuse(self, status, line):
        return self.respond(status, "text/plain; charset=utf-8", line.encode() + b"\n")

    def answer(self, method, target, fields, body):
        """Returns the response to a request, as the specs of click_page define it."""
        names = [f"{name}{port}" for name in ("127.0.0.1", "localhost", "[::1]") for port in ([f":{self.port}", ""] if self.port == 80 else [f":{self.port}"])]
        hosts = [value for name, value in fields if name == "host"]
        place = urllib.parse.urlsplit(target)
        if not self.is_own(place, hosts, names):
            return self.refuse(403, "this page is at 127.0.0.1 alone")
        wanted = ALLOWED.get(place.path)
        if wanted is None:
            return self.refuse(404, "there is nothing of that name")
        if (method not in wanted or method == "HEAD" and self.wrong == "no-head") and self.wrong != "no-method-check":
            allow = {} if self.wrong == "no-allow" else {"allow": ", ".join(wanted)}
            return self.respond(405, "text/plain; charset=utf-8", b"another method is wanted here\n", more=allow)
        if "POST" in wanted and self.wrong != "no-mark-check" and not any(name == "x-click-page" for name, _ in fields):
            return self.refuse(403, "a write needs the header x-click-page")
        pairs = urllib.parse.parse_qsl(place.query, keep_blank_values=True, errors="replace" if self.wrong == "utf-8-names" else "surrogateescape")
        handlers = [value for name, value in pairs if name == "handler"]
        most = {"/read": 256, "/write": 1}.get(place.path)
        is_wrong = len(handlers) != len(pairs) or not 1 <= len(handlers) <= (most or 0) or self.wrong != "empty-handler" and "" in handlers
        if most and self.wrong != "any-query" and is_wrong:
            return self.refuse(400, "the query names no handlers, or too many")
        said = self.say(place.path, handlers, body.decode(errors="replace"))
        return said.partition(b"\r\n\r\n")[0] + b"\r\n\r\n" if method == "HEAD" else said

    def is_own(self, place, hosts, names):
        """Returns whether the target, or else the only Host, names this page."""
        if place.netloc and self.wrong != "no-target-check":
            return self.wrong != "no-absolute-form" and place.scheme.lower() == "http" and place.netloc.lower() in names
        hosts = hosts if self.wrong == "capital-hosts" else [it.lower() for it in hosts]
        return self.wrong == "no-host-check" or len(hosts) == 1 and hosts[0] in names

    def say(self, path, handlers, text):
        """Returns the response of a path to a request that was not refused."""
        call, router = self.router.call, self.router
        if path == "/":
            return self.respond(200, "text/html; charset=utf-8", self.page)
        if path in ("/picture.svg", "/flat"):
            self.wait_for(path)
        if path == "/picture.svg":
            return self.respond(200, "image/svg+xml", self.picture().encode())
        if path == "/flat":
            flat = router.flat if self.wrong != "other-flat" else {**router.flat, "elements": router.flat["elements"][::-1]}
            if self.wrong == "kept-flat":
                self.flat = flat = getattr(self, "flat", flat)
            kept = self.kept if self.kept[0] is flat else (flat, as_json(flat))
            self.kept = kept
            return self.respond(200, "application/json", kept[1])
        if path == "/metrics":
            return self.respond(200, "text/plain; version=0.0.4; charset=utf-8", self.metrics().encode())
        if path == "/read":
            said = [entry(call(router.read, it)) for it in handlers]
            return self.respond(200, "application/json", as_json(self.read(handlers, said)))
        if self.wrong == "lost-write" and path == "/write":
            return self.respond(200, "application/json", as_json({"done": True}))
        return self.respond(200, "application/json", as_json(entry(call(router.write, "hotconfig" if path == "/swap" else handlers[0], text))))

    def wait_for(self, path):
        """Waits as long as a router takes to make this for a large configuration, the first time."""
        is_again = self.wrong == {"/flat": "makes-flat-again", "/picture.svg": "makes-picture-again"}[path]
        if len(self.router.places) > LARGE and (is_again or self.made.get(path) != self.router.text):
            time.sleep(MAKING)
        self.made[path] = self.router.text

    def read(self, handlers, said):
        if self.wrong == "unseen-swap":
            self.first = getattr(self, "first", as_bytes(self.router.text))
            return [{"value": self.first} if it == "config" else answer for it, answer in zip(handlers, said)]
        return said

    def metrics(self):
        """Returns the metrics of the running configuration, or wrong ones."""
        groups = {"click_elements": ("gauge", [("", len(self.router.flat["elements"]))]), "click_overruns_total": ("counter", [("", 0)])}
        for metric, kind, handlers in (("click_handler", "gauge", LEVELS), ("click_handler_total", "counter", TOTALS)):
            groups[metric] = kind, [(labels, value) for handler, labels, value in self.numbers() if handler in handlers]
        text = "click_elements many\n" if self.wrong == "bad-sample" else ""
        for metric, (kind, samples) in groups.items():
            kind = {"all-gauges": "gauge", "untyped": "untyped"}.get(self.wrong, kind)
            text += "" if self.wrong == "no-types" else f"# TYPE {metric} {kind}\n"
            text += "".join(f"{metric}{labels} {value}\n" for labels, value in samples)
        return text + self.figures.text() * {"no-figures": 0, "figures-twice": 2}.get(self.wrong, 1)

    def numbers(self):
        """Yields the read handlers of elements whose values are numbers, with labels and values."""
        for element in self.router.flat["elements"]:
            for handler in element["reads"]:
                value = self.router.call(self.router.read, f"{element['name']}.{handler}")
                if isinstance(value, str) and value.isdigit() and not (self.wrong == "less-metrics" and handler == "drops"):
                    labels = f'{{element="{element["name"]}",class="{element["class"]}",handler="{handler}"}}'
                    value = int(value) + (self.wrong == "other-metrics" and handler == "capacity")
                    yield handler, labels, 7 if self.wrong == "still-metrics" else value

    def picture(self):
        """Returns the picture of the running configuration, or a wrong one."""
        picture = self.router.picture
        if self.wrong in ("no-redraw", "kept-picture"):
            self.old = picture = getattr(self, "old", picture)
        if self.wrong == "other-picture":
            self.drawn = getattr(self, "drawn", 0) + 1
            picture += f"<!-- {self.drawn} -->"
        if self.wrong == "less-connections":
            picture = re.sub(r"<polyline [^>]*/>\n", "", picture, count=1)
        return picture.replace(">rt<", ">rx<") if self.wrong == "other-element" else picture

    def make_room(self):
        """Ends the connection that has waited longest for a request, if one waits and no slot is free."""
        with self.lock:
            if self.places or not self.waiting or self.wrong in ("no-room", "many-connections"):
                return
            choose = max if self.wrong == "other-room" else min
            # A request may have come that its thread has not seen yet.
            waiting = {it: since for it, since in list(self.waiting.items()) if not select.select([it], [], [], 0)[0]}
            if not waiting:
                return
            longest = choose(waiting, key=waiting.get)
            del self.waiting[longest]
            longest.shutdown(socket.SHUT_RDWR)
        ends = time.monotonic() + 1
        while self.places == 0 and time.monotonic() < ends:
            time.sleep(0.01)

    def take(self, peer):
        """Takes a slot for a connection, or refuses it with status 503 and returns False."""
        self.make_room()
        with self.lock:
            if self.places == 0 and self.wrong != "many-connections":
                if self.wrong == "late-refusal":
                    peer.recv(1)
                peer.sendall(self.respond(503, "text/plain; charset=utf-8", b"", True))
                return False
            self.places -= 1
            return True

    def admit(self, listener, peer):
        """Takes a slot for a connection, or else ends it; returns whether it has a slot."""
        while self.wrong == "one-at-once" and select.select([listener], [], [], 0)[0]:
            self.left.append(listener.accept())
        try:
            is_in = self.take(peer)
        except OSError:
            is_in = False
        if not is_in:
            peer.close()
        return is_in

    def serve(self, peer):
        """Serves a connection that has a slot."""
        try:
            try:
                self.converse(peer)
            finally:
                with self.lock:
                    self.places += 1
                if self.wrong == "end-ends-all":
                    self.end_waiting()
        except OSError:
            pass  # the peer has left, or was too slow
        finally:
            peer.close()

    def converse(self, peer):
        rest = b""
        while True:
            head, rest = self.head(peer, rest)
            if head is None:
                return
            asked = self.request(head)
            if refusal := self.refusal_of(head, asked):
                return self.part(peer, refusal)
            method, target, fields, length = asked
            peer.settimeout(SECONDS_BETWEEN)
            try:
                body, rest = self.body(peer, fields, length, rest)
            except Refused as it:
                return self.part(peer, it.status)
            self.send(peer, self.answer(method, target, fields, body))
            if ("connection", "close") in fields:
                return

    def send(self, peer, answer):
        """Sends an answer. Raises OSError if its peer takes none of it for some time."""
        peer.settimeout({"waits-for-readers": 60, "cuts-off-early": 1}.get(self.wrong, SECONDS_FOR_OUTPUT))
        if self.wrong == "cuts-off-slow-readers" and time.monotonic() > self.begun.setdefault(peer, time.monotonic()) + SECONDS_FOR_OUTPUT:
            raise OSError("the connection is as old as a peer may take for a part of the output")
        rest = memoryview(answer)
        while rest:
            rest = rest[peer.send(rest):]

    def body(self, peer, fields, length, rest):
        """Returns the body of a request, and the bytes after it."""
        coding = next((value.lower() for name, value in fields if name == "transfer-encoding"), None)
        if coding == "chunked" and self.wrong != "no-chunks":
            return self.joined_chunks(peer, rest)
        while len(rest) < length:
            rest += self.more(peer)
        if self.wrong == "chunks-anywhere" and b"transfer-encoding: chunked" in rest[:length]:
            raise Refused(413)
        return rest[:length], rest[length:]

    def joined_chunks(self, peer, rest):
        """Returns a body that comes in chunks, and the bytes after it."""
        body = b""
        while True:
            line, rest = self.line(peer, rest)
            size = self.size_of(line)
            if self.announces_too_much(size) and not (self.wrong == "first-chunks" and len(body) > SEEN_BYTES):
                raise Refused(413)
            if size == 0:
                while line:
                    line, rest = self.line(peer, rest)
                return body, rest
            while len(rest) < size + 2:
                self.check_length(len(body) + min(len(rest), size))
                rest += self.more(peer)
            self.check_length(len(body) + size)
            body += rest[:size]
            if rest[size : size + 2] != b"\r\n" and self.wrong != "takes-chunks":
                raise Refused(400)
            rest = rest[size + 2 :]

    def size_of(self, line):
        """Returns the length of a chunk, by the line in front of it."""
        found = re.fullmatch(rb"([0-9A-Fa-f]+)[ \t]*(;.*)?", line)
        if found and int(found[1], 16) < 1 << 64:
            return int(found[1], 10 if self.wrong == "decimal-chunks" and found[1].isdigit() else 16)
        if self.wrong == "takes-chunks":
            return 1
        raise Refused(400)

    def announces_too_much(self, size):
        """Returns whether a chunk is refused for its length alone."""
        most = {"late-chunks": math.inf, "long-chunks": math.inf, "early-chunks": MOST_BODY - 1}
        return size > most.get(self.wrong, MOST_BODY)

    def check_length(self, length):
        if length > MOST_BODY and self.wrong != "long-chunks":
            raise Refused(413)

    def line(self, peer, rest):
        """Returns a line of a body in chunks, and the bytes after it."""
        while b"\r\n" not in rest:
            rest += self.more(peer)
        line, _, rest = rest.partition(b"\r\n")
        return line, rest

    def refusal_of(self, head, asked):
        """Returns the status that refuses a request, because of its length or form, or None."""
        if len(head) > MOST_HEAD:
            return 431
        if asked is None:
            return 400
        return 413 if asked[3] > MOST_BODY and self.wrong != "long-bodies" else None

    def part(self, peer, status):
        """Ends a connection with this status.

        What the peer still sends is read. Otherwise closing would reset the connection before the
        peer has read the response.
        """
        peer.sendall(self.respond(status, "text/plain; charset=utf-8", b"", True))
        if self.wrong == "garbage-ends-all":
            self.end_waiting()
        peer.shutdown(socket.SHUT_WR)
        while peer.recv(65536):
            pass

    def end_waiting(self):
        """Ends each connection that waits for a request."""
        for other in list(self.waiting):
            other.shutdown(socket.SHUT_RDWR)

    def end(self):
        """Waits until each connection waits for a request, because the process ends then."""
        if self.wrong == "parting-words":
            for peer in list(self.waiting):
                peer.sendall(self.respond(503, "text/plain; charset=utf-8", b"", True))
        while len(self.waiting) < MOST_CONNECTIONS - self.places and self.wrong != "lost-answer":
            time.sleep(0.01)

    def more(self, peer):
        piece = peer.recv(65536)
        if not piece:
            raise OSError("the peer has left")
        return piece

    def head(self, peer, rest):
        """Reads a head up to its blank line, with limits to its length and its time.

        Returns it with the bytes after it, or None if the peer closes before it is complete.
        """
        ends = None
        while b"\r\n\r\n" not in rest and (len(rest) <= MOST_HEAD or self.wrong == "long-heads") and rest.count(b"\n") == rest.count(b"\r\n"):
            peer.settimeout(SECONDS_BETWEEN if ends is None or self.wrong == "slow-heads" else max(0.01, ends - time.monotonic()))
            if not rest:
                self.waiting[peer] = time.monotonic()
            piece = peer.recv(65536)
            self.waiting.pop(peer, None)
            if not piece:
                return None, b""
            ends = ends or time.monotonic() + SECONDS_FOR_A_HEAD
            rest += piece
        head, _, rest = rest.partition(b"\r\n\r\n")
        return (head[:MOST_HEAD] if self.wrong == "long-heads" else head), rest

    def request(self, head):
        """Returns the method, target, fields and body length of a head, or None if faulty."""
        try:
            first, *lines = head.decode("latin-1").split("\r\n")
            method, target, version = re.fullmatch(r"([!-~]+) ([!-~]+) HTTP/1\.([01])", first).groups()
            fields = [re.fullmatch(r"([!#-'*+.0-9A-Z^-z|~-]+):[ \t]*(.*?)[ \t]*", line).groups() for line in lines]
        except AttributeError:
            return ("GET", "/", [("host", f"127.0.0.1:{self.port}")], 0) if self.wrong == "takes-garbage" else None
        fields = [(name.lower(), value) for name, value in fields]
        names = [name for name, _ in fields]
        if names.count("host") != 1 or {"content-length", "transfer-encoding"} <= set(names) and self.wrong != "takes-chunks":
            return None
        return method, target, fields, int(dict(fields).get("content-length", 0))


class Links:
    """Links that receive datagrams, and the counts of each.

    Packets of device a leave at device b, as the configuration linked.click says.
    """

    def __init__(self, options):
        self.counts, self.sockets, self.peers = {}, {}, {}
        for option in options:
            device, _, ports = option.rpartition("=")
            here, there = map(int, ports.split(","))
            self.counts[device] = dict.fromkeys(LINK_COUNTS, 0)
            self.sockets[device] = socket.socket(socket.AF_INET, socket.SOCK_DGRAM)
            self.sockets[device].bind(("127.0.0.1", here))
            self.peers[device] = "127.0.0.1", there
            threading.Thread(target=self.receive, args=(device,), daemon=True).start()

    def receive(self, device):
        while True:
            packet, sender = self.sockets[device].recvfrom(65536)
            counts = self.counts[device]
            counts["received"] += 1
            if sender != self.peers[device]:
                counts["strangers"] += 1
            elif len(packet) > 1600:
                counts["too_long"] += 1
            elif device == "a":
                counts["entered"] += 1
                self.sockets["b"].sendto(packet, self.peers["b"])
                self.counts["b"]["sent"] += 1


class Figures:
    """The counts of sessions and links, and the start and the memory of the process, or wrong ones."""

    def __init__(self, slots, links, wrong):
        self.slots, self.links, self.wrong = slots, links, wrong
        self.open, self.begun, self.lock = 0, 0, threading.Lock()
        self.start = int(time.time())

    def text(self):
        is_zero = self.wrong == "zero-sessions"
        groups = {"click_sessions": ("gauge", [("", 0 if is_zero else self.open)]), "click_session_slots": ("gauge", [("", self.slots)])}
        groups["click_sessions_total"] = "counter", [("", self.begun)]
        for count in LINK_COUNTS if self.links.counts else ():
            groups[f"click_link_{count}_total"] = "counter", [(self.label(device), self.count(device, count)) for device in self.links.counts]
        start = int(time.time()) if self.wrong == "start-is-now" else self.start
        groups["process_start_time_seconds"] = "gauge", [("", start * (1000 if self.wrong == "start-in-milliseconds" else 1))]
        with open("/proc/self/statm", encoding="ascii") as it:
            mapped, resident, *_ = (int(number) * (1 if self.wrong == "memory-in-pages" else 4096) for number in it.read().split())
        groups |= {"process_resident_memory_bytes": ("gauge", [("", resident)]), "process_virtual_memory_bytes": ("gauge", [("", mapped)])}
        return "".join(f"# TYPE {metric} {kind}\n" + "".join(f"{metric}{label} {value}\n" for label, value in samples) for metric, (kind, samples) in groups.items())

    def label(self, device):
        return f'{{device="{device}"}}'

    def count(self, device, count):
        if self.wrong == "exchanged-links":
            count = {"strangers": "too_long", "too_long": "strangers", "sent": "failed", "failed": "sent"}.get(count, count)
        return 0 if self.wrong == "zero-links" and count == "entered" else self.links.counts[device][count]

    def begins(self):
        with self.lock:
            self.open, self.begun = self.open + 1, self.begun + 1

    def ends(self):
        with self.lock:
            self.open -= self.wrong != "endless-sessions"


class Sessions:
    """Control sessions with the commands that tools/page.py uses."""

    def __init__(self, router, page, figures):
        self.router, self.page, self.figures = router, page, figures

    def serve(self, peer):
        with peer, peer.makefile("rwb") as it:
            self.converse(it, it)

    def converse(self, commands, replies):
        self.figures.begins()
        try:
            self.reply_to_all(commands, replies)
        finally:
            self.figures.ends()

    def reply_to_all(self, commands, replies):
        replies.write(b"Click::ControlSocket/1.3\r\n")
        replies.flush()
        while line := commands.readline():
            while self.page.wrong == "stuck-sessions" and self.page.places < 2:
                time.sleep(0.1)
            word, _, rest = line.decode().strip().partition(" ")
            handler, _, text = rest.partition(" ")
            if word == "WRITEDATA":
                text = commands.read(int(text)).decode()
            replies.write(self.reply(word, handler, text))
            replies.flush()
            if word == "QUIT":
                return

    def reply(self, word, handler, text):
        if word == "QUIT":
            return b"200 Goodbye!\r\n"
        answer = self.router.call(self.router.read, handler) if word == "READ" else self.router.call(self.router.write, handler, text)
        if isinstance(answer, Fault):
            return answer.text.encode()
        if answer is None:
            return f"200 Write handler '{handler}' OK\r\n".encode()
        return f"200 Read handler '{handler}' OK\r\nDATA {len(answer.encode())}\r\n{answer}".encode()


def listen(port, serve, admit=lambda *_: True):
    """Serves each connection at a port of 127.0.0.1 in its own thread, if it is admitted."""
    listener = socket.create_server(("127.0.0.1", port), backlog=128)

    def accept():
        while True:
            peer, _ = listener.accept()
            if admit(listener, peer):
                threading.Thread(target=serve, args=(peer,), daemon=True).start()

    threading.Thread(target=accept, daemon=True).start()


def main():
    words = argparse.ArgumentParser()
    words.add_argument("-e", dest="text", required=True)
    words.add_argument("--page", type=int, required=True)
    words.add_argument("-p", dest="port", type=int)
    words.add_argument("-n", dest="slots", type=int, default=1)
    words.add_argument("--link", dest="links", action="append", default=[])
    words.add_argument("--readonly", action="store_true")
    words.add_argument("--wrong", choices=WRONGS, default="")
    given, _ = words.parse_known_args()
    for name, edits in PAGE_EDITS.items():
        for old in (it for it in edits[::2] if file_text(PAGE).count(it) != 1):
            sys.exit(f"page_mock.py: {name}: this does not occur exactly once in the page: {old}")
    router = Router(given.text, given.readonly, given.wrong)
    figures = Figures(given.slots, Links(given.links), given.wrong)
    page = Page(router, given.page, given.wrong, figures)
    sessions = Sessions(router, page, figures)
    # A client that reaches the page reaches the sessions too.
    if given.port:
        listen(given.port, sessions.serve)
    listen(given.page, page.serve, page.admit)
    if given.port:
        threading.Event().wait()
    sessions.converse(sys.stdin.buffer, sys.stdout.buffer)
    page.end()


if __name__ == "__main__":
    main()
