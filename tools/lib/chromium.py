"""Controls a headless Chromium (Debian's package) over its DevTools protocol, for tools/page.py."""

import base64
import contextlib
import fcntl
import json
import os
import select
import subprocess
import tempfile
import time

# The maximum duration of an answer.
SECONDS = 30


class BrowserFault(Exception):
    """The browser did not answer in time, or answered with an error."""


class Browser:
    """A Chromium without a window. Its messages are JSON, over two pipes; a zero byte ends each."""

    def __init__(self, program, nice=15):
        self.folder = tempfile.TemporaryDirectory(prefix="page-")
        reads, self.writes = os.pipe()
        self.reads, writes = os.pipe()
        words = ["nice", "-n", str(nice), program, "--headless=new", "--remote-debugging-pipe", f"--user-data-dir={self.folder.name}", "--no-sandbox", "--disable-gpu"]
        words += ["--no-first-run", "--disable-background-networking", "--disable-component-update", "--disable-dev-shm-usage", "--hide-scrollbars", "about:blank"]

        def at_3_and_4():
            for high, low in [(fcntl.fcntl(reads, fcntl.F_DUPFD, 10), 3), (fcntl.fcntl(writes, fcntl.F_DUPFD, 10), 4)]:
                os.dup2(high, low)

        how = {"stdin": subprocess.DEVNULL, "stdout": subprocess.DEVNULL, "stderr": subprocess.DEVNULL, "start_new_session": True}
        self.process = subprocess.Popen(words, preexec_fn=at_3_and_4, pass_fds=(3, 4), **how)
        os.close(reads)
        os.close(writes)
        self.rest, self.number, self.events, self.tab = b"", 0, [], None
        try:
            self.begin()
        except BrowserFault:
            self.close()
            raise

    def begin(self):
        """Opens a tab of 1360 by 900 pixels and turns on the events of page, scripts and log."""
        target = self.ask("Target.createTarget", url="about:blank")["targetId"]
        self.tab = self.ask("Target.attachToTarget", targetId=target, flatten=True)["sessionId"]
        # The time of a thread is the time that it ran, so a busy machine adds nothing to it.
        self.ask("Performance.enable", timeDomain="threadTicks")
        for it in ("Page.enable", "Runtime.enable", "Log.enable"):
            self.ask(it)
        self.ask("Emulation.setDeviceMetricsOverride", width=1360, height=900, deviceScaleFactor=1, mobile=False)

    def message(self, ends):
        """Returns the next message. Raises BrowserFault if none comes before `ends`."""
        while b"\0" not in self.rest:
            if not select.select([self.reads], [], [], max(0.0, ends - time.monotonic()))[0]:
                raise BrowserFault("the browser does not answer")
            piece = os.read(self.reads, 1 << 20)
            if not piece:
                raise BrowserFault("the browser has ended")
            self.rest += piece
        message, _, self.rest = self.rest.partition(b"\0")
        return json.loads(message)

    def ask(self, method, **words):
        """Calls a method and returns its result. Events that come first are stored."""
        self.number += 1
        asked = {"id": self.number, "method": method, "params": words, **({"sessionId": self.tab} if self.tab else {})}
        os.write(self.writes, json.dumps(asked).encode() + b"\0")
        ends = time.monotonic() + SECONDS
        while (came := self.message(ends)).get("id") != self.number:
            self.events.append(came)
        if "error" in came:
            raise BrowserFault(f"{method}: {came['error']}")
        return came["result"]

    def value(self, script):
        """Returns the value of a JavaScript expression in the page."""
        came = self.ask("Runtime.evaluate", expression=script, awaitPromise=True, returnByValue=True)
        if "exceptionDetails" in came:
            raise BrowserFault(f"{script}: {came['exceptionDetails'].get('exception', {}).get('description')}")
        return came["result"].get("value")

    def press(self, key, text=""):
        """Presses and releases Enter, Escape or Tab."""
        code = {"Tab": 9, "Enter": 13, "Escape": 27}[key]
        for kind in ("keyDown", "keyUp"):
            self.ask("Input.dispatchKeyEvent", type=kind, key=key, code=key, windowsVirtualKeyCode=code, text=text if kind == "keyDown" else "")

    def type(self, place, text):
        """Replaces the text of a field, as typing would."""
        self.value(f"(() => {{ const it = document.querySelector({place!r}); it.focus(); it.select(); }})()")
        self.ask("Input.insertText", text=text)

    def click(self, place):
        """Clicks the element of this CSS selector."""
        self.value(f"document.querySelector({place!r}).click()")

    def click_at(self, x, y):
        """Clicks with the mouse at a place in the window."""
        for kind in ("mousePressed", "mouseReleased"):
            self.ask("Input.dispatchMouseEvent", type=kind, x=x, y=y, button="left", clickCount=1)

    def busy_seconds(self):
        """Returns seconds so far: those that the page's main thread ran, and those that it waited for a
        processor, and those that all processes of the browser ran.
        """
        main = next(it["value"] for it in self.ask("Performance.getMetrics")["metrics"] if it["name"] == "TaskDuration")
        tab, self.tab = self.tab, None
        processes = self.ask("SystemInfo.getProcessInfo")["processInfo"]
        self.tab = tab
        page = max((it["cpuTime"], it["id"]) for it in processes if it["type"] == "renderer")[1]
        with open(f"/proc/{page}/schedstat", encoding="ascii") as row:
            waited = int(row.read().split()[1]) / 1e9
        return main, waited, sum(it["cpuTime"] for it in processes)

    def text(self, place):
        """Returns the text of the element of this CSS selector, or '' if there is none."""
        return self.value(f"document.querySelector({place!r})?.textContent ?? ''")

    def shoot(self, path):
        """Writes a picture of the page, as PNG."""
        shot = self.ask("Page.captureScreenshot", format="png")
        with open(path, "wb") as it:
            it.write(base64.b64decode(shot["data"]))

    def errors(self):
        """Returns the errors in the browser's console, with violations of the content policy."""
        self.value("0")
        events = {kind: [it["params"] for it in self.events if it.get("method") == kind] for kind in ("Log.entryAdded", "Runtime.exceptionThrown")}
        logged = [it["entry"]["text"] for it in events["Log.entryAdded"] if it["entry"]["level"] == "error"]
        return logged + [str(it["exceptionDetails"]) for it in events["Runtime.exceptionThrown"]]

    def close(self):
        """Ends the browser: by its own command, or by SIGKILL if it does not end in time."""
        with contextlib.suppress(BrowserFault, OSError):
            self.tab = None
            self.ask("Browser.close")
        with contextlib.suppress(subprocess.TimeoutExpired):
            self.process.wait(SECONDS)
        if self.process.poll() is None:
            os.killpg(self.process.pid, 9)
        self.folder.cleanup()
