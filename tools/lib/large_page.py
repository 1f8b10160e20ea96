"""Checks the page over a mesh of 4,000 elements, for tools/page.py.

The page has the parts of the picture that are in view, and reads their numbers. A click is answered
soon, and an idle page takes little time.
"""
import json
import re
import statistics
import time
import urllib.parse

import mesh
from outcome import Wrong, same, until

ELEMENTS = mesh.elements()
NAMES = [name for name, *_ in ELEMENTS]
KINDS = {name: kind for name, kind, *_ in ELEMENTS}
WATCHED = {"Counter": ["count"], "Queue": ["length", "capacity"]}
# The maximum milliseconds from a click to the details, as the median of a round of clicks, and the
# clicks in a round. The best round counts, since the machine may be busy. Neither the router's time
# for the values nor the time without a processor is counted.
MS, CLICKS, ROUNDS = 100, 9, 3
# The maximum part of one processor, and the seconds over which it is measured.
PART, IDLE_SECONDS = 0.2, 10
# The seconds until the page has drawn the mesh, on a busy machine.
OPENING = 60
# The distance from the view, in pixels, within which the page may have parts. Further ones are for
# the keyboard (three elements at most), or have their panel open.
AROUND, MORE = 400, 4

# Resolves with two numbers of milliseconds. The first is from the next click to the first frame with
# the panel of this element and the values of its handlers. The second is the router's, for these
# values.
PROBE = """((name, reads) => new Promise((done) => {
  let began = 0;
  const asked = () => performance.getEntriesByType("resource").filter((it) => it.startTime >= began && it.name.includes("/read?handler=" + name + ".")).at(-1);
  const stop = () => done([performance.now() - began, (asked()?.responseEnd ?? 0) - (asked()?.startTime ?? 0)]);
  const values = () => [...document.querySelectorAll("#reads output")];
  const isShown = () => document.getElementById("panel-title")?.textContent === name && values().length === reads && values().every((it) => it.textContent);
  const poll = () => isShown() && began ? requestAnimationFrame(() => setTimeout(stop)) : setTimeout(poll, 1);
  document.addEventListener("click", (event) => { began = event.timeStamp; performance.clearResourceTimings(); poll(); }, { capture: true, once: true });
}))"""
# The left side of the drawing in the window, its upper side, its scale, and what can be seen of it,
# in its own coordinates.
VIEW = """(() => {
  const svg = document.querySelector("#drawing svg"), room = document.querySelector("#drawing").getBoundingClientRect(), at = svg.getBoundingClientRect();
  const scale = at.width / svg.viewBox.baseVal.width, x = (it) => (it - at.left) / scale, y = (it) => (it - at.top) / scale;
  return [at.left, at.top, scale, x(Math.max(room.left, 0)), y(Math.max(room.top, 0)), x(Math.min(room.right, innerWidth)), y(Math.min(room.bottom, innerHeight))];
})()"""
# The number of an element or a connection that is in the page, and the middle of its rectangle.
ATTACHED = """[...document.querySelectorAll("#drawing g[id^=e], #drawing polyline")].map((it) => {
  const at = (it.querySelector(".box") ?? it).getBoundingClientRect();
  return [it.id, at.left + at.width / 2, at.top + at.height / 2];
})"""
FRAMES = "new Promise((done) => requestAnimationFrame(() => requestAnimationFrame(() => setTimeout(done))))"
READS = "performance.getEntriesByType('resource').filter((it) => it.name.includes('/read?')).map((it) => it.name)"


class Picture:
    """The rectangles of the elements and connections of a picture, by their ids."""

    def __init__(self, text):
        self.boxes, self.lines = {}, {}
        for at, *numbers in re.findall(r'<g id="(e\d+)" transform="translate\((\d+),(\d+)\)"><rect class="box" width="(\d+)" height="(\d+)"', text):
            x, y, width, height = map(int, numbers)
            self.boxes[at] = x, y, x + width, y + height
        for at, points in re.findall(r'<polyline id="(c\d+)" points="([^"]*)"', text):
            xs, ys = zip(*(map(int, it.split(",")) for it in points.split()))
            self.lines[at] = min(xs), min(ys), max(xs), max(ys)

    def within(self, view, around=0):
        """Returns the ids of the parts that meet a rectangle, or are within a distance of it."""
        left, top, right, bottom = view
        return {at for at, (a, b, c, d) in (self.boxes | self.lines).items() if a <= right + around and c >= left - around and b <= bottom + around and d >= top - around}


class Large:
    """The page over the mesh, in a browser, with a session of the same router."""

    def __init__(self, browser, router, session, picture):
        self.browser, self.router, self.session, self.picture = browser, router, session, picture

    def count(self, place):
        return self.browser.value(f"document.querySelectorAll({place!r}).length")

    def set_size(self, size):
        self.browser.value(f"(() => {{ const it = document.querySelector('#size'); it.value = {size!r}; it.dispatchEvent(new Event('change')); }})()")
        self.browser.value(FRAMES)

    def scroll(self, place, left, top):
        self.browser.value(f"document.querySelector({place!r}).scrollTo({left}, {top})")
        self.browser.value(FRAMES)

    def view(self):
        """Returns the scale of the drawing, and what can be seen of it, in its own coordinates."""
        _, _, scale, *view = self.browser.value(VIEW)
        return scale, view

    def is_map(self):
        return self.count("#drawing .map path") > 0

    def middles(self, boxes):
        """Returns the places of the middles of these boxes in the window."""
        left, top, scale, *_ = self.browser.value(VIEW)
        sides = (self.picture.boxes[at] for at in boxes)
        return [(left + (a + c) / 2 * scale, top + (b + d) / 2 * scale) for a, b, c, d in sides]

    def click(self, at):
        self.browser.click_at(*self.middles([at])[0])

    def open_list(self):
        """Closes what is open in the panel, if it is not the list of counters and queues."""
        if self.browser.text("#panel-title") != "Counters and queues":
            self.browser.value("document.querySelector('#panel-title').focus()")
            self.browser.press("Escape")
        same("Counters and queues", self.browser.text("#panel-title"), "the panel")

    def click_time(self, at):
        """Clicks an element. Returns the milliseconds until its details are there, and how many of them
        are the page's own: not the router's, and not those that its thread waited for a processor.
        The thread may wait and run while the router answers, so what it ran counts at least.
        """
        name = NAMES[int(at[1:])]
        reads = {"Counter": 2, "Queue": 4, "Switch": 1, "InfiniteSource": 2}.get(KINDS[name], 0)
        self.browser.value(f"(() => {{ window.answered = {PROBE}({json.dumps(name)}, {reads}); }})()")
        before = self.browser.busy_seconds()
        self.click(at)
        whole, router = self.browser.value("window.answered")
        ran, waited, _ = (1000 * (now - then) for then, now in zip(before, self.browser.busy_seconds()))
        return whole, max(ran, whole - router - waited)


def opens_mesh(large):
    browser, began = large.browser, time.monotonic()
    browser.ask("Page.navigate", url=f"http://127.0.0.1:{large.router.page}/")
    until(lambda: large.count("#drawing [role=button]"), "the page has drawn the mesh", OPENING)
    print(f"        opens in {time.monotonic() - began:.1f} s", flush=True)
    same(True, large.is_map(), "whether a map stands in for parts that are too small")
    # Each box is a closed path.
    same(len(ELEMENTS), browser.value("[...document.querySelectorAll('#drawing .map .cells')].map((it) => it.getAttribute('d')).join('').split('z').length - 1"), "boxes of the map")
    until(lambda: f"{len(ELEMENTS)} elements" in browser.text("#summary"), "the page counts the elements")


def draws_what_is_seen(large):
    """Checks at several places what is in the page, and where, against the router's picture."""
    large.set_size("1")
    for left, top in ((0, 0), (3000, 2500), (3300, 2500), (9999, 9999), (200, 4000)):
        large.scroll("#drawing", left, top)
        scale, view = large.view()
        found = {at: place for at, *place in large.browser.value(ATTACHED)}
        if missing := large.picture.within(view) - set(found):
            raise Wrong(f"at {left}, {top} these are not in the page: {sorted(missing)[:9]}")
        needless = set(found) - large.picture.within(view, AROUND / scale)
        if len(needless) > MORE:
            raise Wrong(f"at {left}, {top} {len(needless)} parts are in the page without need")
        boxes = [it for it in found if it in large.picture.boxes]
        for at, (x, y) in zip(boxes, large.middles(boxes)):
            if abs(x - found[at][0]) + abs(y - found[at][1]) > 2:
                raise Wrong(f"{at} is at {found[at]} and not at {x:.0f}, {y:.0f}")


def reads_of(large, seconds=3):
    """Returns the handlers of each request of the page for values, for some seconds."""
    # A request that began before may still be under way.
    time.sleep(1.5)
    large.browser.value("performance.clearResourceTimings()")
    time.sleep(seconds)
    return [urllib.parse.parse_qs(urllib.parse.urlsplit(it).query)["handler"] for it in large.browser.value(READS)]


def elements_of(reads):
    """Returns the names of the elements whose handlers are in these requests."""
    return {name for handlers in reads for name, dot, _ in (it.rpartition(".") for it in handlers) if dot}


def reads_what_is_seen(large):
    """Checks which handlers the page reads: of elements in the view, of rows, and of the open panel."""
    large.open_list()
    large.set_size("1")
    large.scroll("#drawing", 3000, 2500)
    large.scroll("#panel", 0, 5000)
    reads = reads_of(large)
    same(True, bool(reads) and max(map(len, reads)) <= 256, "whether each read has 1 to 256 handlers")
    scale, view = large.view()
    near = {NAMES[int(it[1:])] for it in large.picture.within(view, 40 / scale) if it in large.picture.boxes}
    seen = {NAMES[int(it[1:])] for it in large.picture.within(view) if it in large.picture.boxes}
    rows = set(large.browser.value("[...document.querySelectorAll('#panel tbody .name')].map((it) => it.textContent)"))
    watched = {name for name, kind in KINDS.items() if kind in WATCHED}
    same(set(), (seen | rows) & watched - elements_of(reads), "elements that are seen and not read")
    same(set(), elements_of(reads) - (near | rows), "elements that are read and not seen")
    numbers = until(lambda: large.browser.value("[...document.querySelectorAll('#drawing .gauge')].filter((it) => /[0-9]/.test(it.textContent)).length"), "numbers in the drawing")
    if numbers < len(seen & watched):
        raise Wrong(f"{numbers} elements have numbers, and {len(seen & watched)} are seen")
    large.browser.value("document.querySelector('#panel tbody .name').click()")
    chosen = large.browser.text("#panel-title")
    large.scroll("#drawing", 0, 0)
    same(True, chosen in elements_of(reads_of(large, 2)), f"whether {chosen} is read, whose panel is open")
    large.open_list()


def clicks_of(large):
    """Clicks elements in the view and returns the median of the page's own times."""
    _, (left, top, right, bottom) = large.view()
    inside = [at for at, (a, b, c, d) in large.picture.boxes.items() if a > left and b > top and c < right and d < bottom]
    took = []
    for click in range(CLICKS):
        # The page reads once a second; the clicks come at different times after that.
        time.sleep(0.3 + 0.13 * (click % 7))
        took.append(large.click_time(inside[click * 7919 % len(inside)]))
    own, whole = sorted(it for _, it in took), [it for it, _ in took]
    print(f"        clicks on the {'map' if large.is_map() else 'drawing'}: {', '.join(f'{it:.0f}' for it in own)} ms; with the router and the waiting the median is {statistics.median(whole):.0f} ms", flush=True)
    return statistics.median(own)


def answers_clicks(large):
    """Checks the time of clicks, first at full size and then on the map."""
    for size in ("1", ""):
        large.set_size(size)
        large.scroll("#drawing", 2000, 1800)
        medians = []
        while min(medians, default=MS + 1) > MS:
            if len(medians) == ROUNDS:
                raise Wrong(f"the medians of {CLICKS} clicks are {', '.join(f'{it:.0f}' for it in medians)} ms, and at most {MS} ms are allowed")
            medians.append(clicks_of(large))
    large.open_list()


def idles(large):
    """Checks the browser's processor time while there is no input and the numbers change."""
    large.open_list()
    for size in ("1", ""):
        large.set_size(size)
        large.scroll("#drawing", 2000, 1800)
        time.sleep(2)
        texts = "[...document.querySelectorAll('#drawing .gauge text, #panel tbody td')].map((it) => it.textContent).join()"
        before, text, began = large.browser.busy_seconds(), large.browser.value(texts), time.monotonic()
        time.sleep(IDLE_SECONDS)
        main, waited, whole = (now - then for then, now in zip(before, large.browser.busy_seconds()))
        seconds = time.monotonic() - began
        # On a busy machine the thread has less time to run in.
        parts = main / (seconds - waited), whole / seconds
        same(True, text != large.browser.value(texts), "whether numbers of the page changed")
        print(f"        idle with the {'map' if large.is_map() else 'drawing'}: {parts[0]:.1%} of a processor in the main thread, {parts[1]:.1%} in all processes", flush=True)
        if max(parts) > PART:
            raise Wrong(f"the idle page takes {max(parts):.0%} of a processor, and at most {PART:.0%} are allowed")


def makes_rows_seen(large):
    """Checks the list of counters and queues, and that of elements that are looked for."""
    browser, watched = large.browser, [name for name, kind in KINDS.items() if kind in WATCHED]
    large.open_list()
    same(f"{len(watched) + 1}", browser.value("document.querySelector('#panel table').getAttribute('aria-rowcount')"), "the number of rows of the list")
    for top in (0, 9000, 10**6):
        large.scroll("#panel", 0, top)
        if large.count("#panel tbody tr") > 100:
            raise Wrong(f"{large.count('#panel tbody tr')} rows are in the page")
        middle = browser.value("(({ left, top, height }) => document.elementFromPoint(left + 30, top + height / 2).closest('tr')?.ariaRowIndex)(document.querySelector('#panel').getBoundingClientRect())")
        row = f"document.querySelector('#panel tr[aria-rowindex=\"{middle}\"]')"
        same(watched[int(middle) - 2], browser.value(f"{row}.cells[0].textContent"), f"the name in row {middle}")
        until(lambda: re.search(r"\d", browser.value(f"{row}?.cells[1].textContent ?? ''")), f"row {middle} has its number")
    same(watched[-1], browser.value("[...document.querySelectorAll('#panel .name')].at(-1).textContent"), "the last row")
    browser.type("#find", "Q12_")
    same([f"q12_{row}" for row in range(mesh.ROWS)], browser.value("[...document.querySelectorAll('#panel .name')].map((it) => it.textContent)"), "the elements that are found")
    browser.press("Enter", "\r")
    same("q12_0", browser.text("#panel-title"), "what Enter opens")
    browser.press("Escape")
    same("Elements", browser.text("#panel-title"), "where Escape goes back to")
    browser.type("#find", "")
    browser.press("Escape")
    same("Counters and queues", browser.text("#panel-title"), "the panel after that")


def goes_by_tab(large):
    """Checks that Tab goes through the elements in flat order, and scrolls to each.

    The last element of a column is followed by the first one of the next column, far above.
    """
    first = 1 + mesh.ROWS * len(mesh.PLACE) - 5
    large.set_size("1")
    left, top, *_ = large.picture.boxes[f"e{first}"]
    large.scroll("#drawing", left - 100, top - 100)
    large.browser.value(f"document.querySelector('#e{first}').focus()")
    for at in range(first + 1, first + 10):
        large.browser.press("Tab")
        large.browser.value(FRAMES)
        same(f"e{at}", large.browser.value("document.activeElement.id"), f"what has the focus after e{at - 1}")
        _, view = large.view()
        same(True, f"e{at}" in large.picture.within(view), f"whether e{at} is in view")


def opens_on_map(large):
    large.set_size("")
    same(True, large.is_map(), "whether a map is shown")
    large.scroll("#drawing", 0, 0)
    for at in ("e1", "e2025"):
        large.click(at)
        until(lambda: large.browser.text("#panel-title") == NAMES[int(at[1:])], f"a click on the map opens {NAMES[int(at[1:])]}")
    large.set_size("1")
    same(True, "e2025" in large.picture.within(large.view()[1]), "whether the open element stays in view at another size")
    large.open_list()


def prints_all(large):
    large.open_list()
    large.browser.value("dispatchEvent(new Event('beforeprint'))")
    same(len(ELEMENTS), large.count("#drawing g[id^=e]"), "elements on paper")
    same(sum(kind in WATCHED for kind in KINDS.values()), large.count("#panel tbody .name"), "rows on paper")
    large.browser.value("dispatchEvent(new Event('afterprint'))")
    if large.count("#drawing g[id^=e]") > 500:
        raise Wrong("after printing all elements stay in the page")


def swaps_mesh(large, small):
    """Checks a swap from the mesh to a small configuration and back, by a session."""
    until(lambda: large.count("#drawing .gauge"), "the mesh is drawn")
    same(b"200 Write handler 'hotconfig' OK\r\n", large.session.write("hotconfig", small), "a swap by a session")
    until(lambda: large.browser.value("document.querySelector('#editor').value") == small, "the page has the small text")
    same(False, large.is_map(), "whether a map is shown")
    same(b"200 Write handler 'hotconfig' OK\r\n", large.session.write("hotconfig", mesh.text()), "a swap back")
    until(lambda: large.count("#drawing g[id^=e]") > 20, "the mesh is drawn again", OPENING)
    draws_what_is_seen(large)


CHECKS = {
    "a mesh of 4,000 elements opens": opens_mesh,
    "what is seen of it is in the page, and no more": draws_what_is_seen,
    "what is seen of it is read, and no more": reads_what_is_seen,
    f"a click on one of its elements answers within {MS} ms": answers_clicks,
    f"it takes less than {PART:.0%} of a processor": idles,
    "its lists have the rows that are seen": makes_rows_seen,
    "Tab goes through its elements": goes_by_tab,
    "a click on its map opens an element": opens_on_map,
    "it is printed as a whole": prints_all,
}
SWAP = "a swap of it redraws"
