#!/usr/bin/env python3
"""Compares the examples of pages and files with what the programs do: statuses and messages,
sessions with their transcripts, calls with their replies, and books that are replayed. Others are
texts with their faults, pictures, captures, and the commands of README.

    tools/examples.py [KIND..] [PROGRAM..]               checks all rows of TABLE except `tries`, or
                                                         those of these kinds and programs
    tools/examples.py --with FILE PAGE [KIND..] ..       checks the rows of that page, with FILE
                                                         instead of it

TABLE has a row for each page or folder, with the programs and the kind of example. The programs
must have been built. PROGRAM and PLAYER name other programs to check, CALLS and PCAP other programs
for the modes --calls and --pcap of click_prog. QUICK=1 leaves out the longest capture. `tries`
builds two programs with the real `rt`, which takes minutes, so it runs only if it is named. The
first failure ends the script with status 1.
"""

import os
import re
import select
import shlex
import subprocess
import sys
import tempfile
import time
import xml.etree.ElementTree as xml
from collections import namedtuple

sys.dont_write_bytecode = True
sys.path.insert(0, f"{os.path.dirname(os.path.realpath(__file__))}/lib")
from programs import VARIABLES
from trying import GREETING, TOP, answered, begun, bytes_of, command_of, fail, in_folder, is_there, lines_of, names_in, program, ran, same, stand_ins, text_of

COUNTER = "Idle -> c :: Counter -> Discard;"


# Reading pages


def indented(lines):
    """Returns the lines of a page that are indented by four blanks, without the blanks."""
    return [it[4:] for it in lines if it.startswith("    ")]


def between(lines, first, last):
    """Returns the lines from the first match of `first` to the line before a match of `last`."""
    at = next((at for at, it in enumerate(lines) if re.match(first, it)), len(lines))
    end = next((end for end, it in enumerate(lines) if end > at and re.match(last, it)), len(lines))
    return lines[at:end]


def parted(lines):
    """Separates a dialogue into what is sent, after `> `, and the expected answer, which is the
    rest.

    After a value, which has no line end, `> ` stands in the middle of a line. The `> ` of `-> ` is
    not such a sign.
    """
    sent, wanted = "", ""
    for line in lines:
        sign = re.search(r"(?:^|(?<=[^-]))> ", line)
        wanted += line[: sign.start()] if sign else line + "\n"
        sent += line[sign.end() :] + "\n" if sign else ""
    return sent.encode(), wanted.encode()


def blocks(page, *begins):
    """Returns the fenced blocks that begin with one of these lines.

    Each comes with the page's lines before and after it.
    """
    lines, found, at = lines_of(page), [], 0
    while at < len(lines):
        if lines[at] in begins:
            if "```" not in lines[at + 1 :]:
                fail(f"{page}: its last block is not closed")
            end = lines.index("```", at + 1)
            found.append((lines[at + 1 : end], lines[:at], lines[end + 1 :]))
            at = end
        at += 1
    return found


# Kinds of examples: each function checks a row and returns a sentence about it


def dialogue(row):
    """Checks the example dialogue of a page, with the configuration in the line before it."""
    name, page = row.programs[0], row.pages[0]
    begin = {"click_prog": "An example, with", "click_prog --calls": "An example of calls, with"}[name]
    lines = between(lines_of(page), begin, "## ")
    text = re.match(rf"{begin} `-e '(.*)'`", lines[0]) if lines else None
    if not text:
        fail(f"{page} shows no example for {name}")
    sent, wanted = parted(indented(lines))
    is_there(sent, f"what {page} sends")
    came = ran([*command_of(name), "-e", text[1]], sent)
    # Pages do not show the CR of a line end.
    answered(came._replace(out=came.out.replace(b"\r", b"")) if name == "click_prog" else came, f"the example of {page}", out=wanted)
    return "the example is answered as it shows"


def client(row):
    """Checks the page's client in Python: it prints the block after the command of its router."""
    page = row.pages[0]
    scripts = blocks(page, "```python")
    same(1, len(scripts), f"the clients of {page}")
    script, _, after = scripts[0]
    command = next((found[1] for it in after if (found := re.fullmatch(r"With `(\./run\.sh .*)` it prints", it))), None)
    shown = "\n".join(between(after, "```$", "## ")[1:]).partition("\n```")[0] + "\n"
    if not command:
        fail(f"{page} does not name the router of its client")
    with in_folder(("run.sh", program("click_prog"))) as folder:
        streams = {"stdin": subprocess.DEVNULL, "stdout": subprocess.PIPE, "stderr": subprocess.STDOUT}
        router = subprocess.Popen(["timeout", "20", "bash", "-c", f"exec {command}"], cwd=folder, **streams)
        # Waits until the router listens on 127.0.0.1:7777. A connection, as a test, would use up
        # the session.
        for _ in range(100):
            with open("/proc/net/tcp", encoding="ascii") as it:
                if "0100007F:1E61 00000000:0000 0A" in it.read():
                    break
            time.sleep(0.1)
        came = ran([sys.executable, "-I", "-c", "\n".join(script)], seconds=10)
        if came.status:
            router.kill()
        same(0, came.status, f"the status of {page}'s client, which said {came.err.decode()[-300:]}")
        answered(came, f"what the client of {page} prints", out=shown.encode())
        same(b"", router.communicate(timeout=30)[0], f"the output of the router of the client of {page}")
        same(0, router.returncode, f"the status of the router of the client of {page}")
    return "the client prints what it shows"


def script(row):
    """Checks that the page's script in Python, which runs ./run.sh, prints the block after it."""
    page = row.pages[0]
    scripts = blocks(page, "```python")
    same(1, len(scripts), f"the scripts of {page}")
    lines, _, after = scripts[0]
    shown = "\n".join(between(after, "It prints$", "## ")).partition("```\n")[2].partition("```")[0]
    is_there(shown, f"what the script of {page} prints")
    with in_folder(("run.sh", program("click_prog"))) as folder:
        came = ran([sys.executable, "-I", "-c", "\n".join(lines)], seconds=20, cwd=folder)
    answered(came, f"what the script of {page} prints", out=shown.encode())
    return "the script prints what it shows"


def sections(row):
    """Checks that each section has one block of calls.

    The block begins with a configuration, and its calls get the replies that it shows.
    """
    page, calls = row.pages[0], command_of("click_prog --calls")
    called = []
    for lines, before, _ in blocks(page, "```calls"):
        called += [it for it in before if it.startswith("## ")][-1:]
        sent, replies = parted(lines[1:])
        is_there(sent, f"the calls of {called[-1]}")
        answered(ran([*calls, "-e", lines[0]], sent), f"the calls of {called[-1]}", out=replies)
    same([it for it in lines_of(page) if it.startswith("## ")], called, f"{page}: a block of calls in each section")
    return f"the calls of {len(called)} sections are answered as it says"


def readings(row):
    """Checks the examples of the language, which are blocks of pages, in order.

    A line of readings.txt has what the parser reads in an example and, after a tab, the first line
    of the example. If `Fault: ..` follows the block, the program refuses the example with this
    fault; otherwise it serves it.
    """
    (list_of, *pages), prog = row.pages, program(row.programs[0])
    found = [(page, *it) for page in pages for it in blocks(page, "```click")]
    first = lambda lines: lines[0] if lines else ""
    listed = [it.split("\t", 1)[-1] for it in lines_of(list_of)]
    same(listed, [first(lines) for _, lines, _, _ in found], f"the first lines of the examples, as {list_of} has them")
    shown = 0
    play("what is read in the examples", [("parsed", "\n".join(lines) + "\n", line.split("\t")[0]) for line, (_, lines, _, _) in zip(lines_of(list_of), found)])
    for page, lines, _, after in found:
        text = "\n".join(lines) + "\n"
        what = f"the example that begins with: {first(lines)}"
        faults = [it[7:] for it in after[: next((at for at, it in enumerate(after) if it == "```click"), len(after))] if it.startswith("Fault: ")]
        shown += len(faults)
        if len(faults) > 1:
            fail(f"{page}: a second fault of {what}")
        is_served(prog, what, text) if not faults else is_refused(prog, what, text, f"click_prog: {faults[0]}")
    same(sum(it.startswith("Fault: ") for page in pages for it in lines_of(page)), shown, "the faults of examples, and all that the pages show")
    return f"{len(found) - shown} examples served and {shown} refused, each read as the list says"


def texts(row):
    """Checks what the parser reads in each text, and the limits of connections and elements."""
    rows = [it.split("\t", 1) for it in lines_of(row.pages[0])]
    play(f"what is read in {row.pages[0]}", [("parsed", text, reading) for reading, text in rows])
    crossed = lambda sources, sinks: "elementclass H { input -> output } h :: H;\n" + "Idle -> h;\n" * sources + "h -> Discard;\n" * sinks
    limits_of = (
        (crossed(128, 128), "256 elements, 16384 connections"),
        (crossed(129, 128), "TooMany"),
        ("Idle" + " -> Null" * 4095, "4096 elements, 4095 connections"),
    )
    play("as many connections as there may be, and one chain more", [("expanded", text, wanted) for text, wanted in limits_of])
    return f"{len(rows)} texts read as it says, and as many connections made as there may be"


def play(what, steps):
    """Plays a test script with a case for each step, which is given by its word, text and reply."""
    with tempfile.TemporaryDirectory(prefix="examples-") as folder:
        with open(f"{folder}/steps.script", "wb") as it:
            it.writelines(b"case\tThe text is read as it is listed.\n%s\t%s\t%s\n" % (word.encode(), spelled(text), reply.encode()) for word, text, reply in steps)
        came = ran([program("click_player"), f"{folder}/steps.script"])
    answered(came, what, out=f"{len(steps)} cases passed, 0 failed\n".encode())


def spelled(text):
    """Returns the bytes of a text, escaped as in a test script."""
    return b"".join(b"%c" % it if 32 <= it < 127 and it != 92 else b"\\%02x" % it for it in text.encode())


def is_served(prog, what, text):
    """Checks that the program serves this configuration."""
    answered(ran([prog, "-e", text]), what, out=GREETING)


def is_refused(prog, what, text, line):
    """Checks that the program refuses this configuration with this line on standard error."""
    answered(ran([prog, "-e", text]), what, err=f"{line}\n".encode(), status=1)


def fault_rows(page):
    """Yields of each row of docs/FAULTS.md the number and name of the fault, its example and its
    line.

    A bar in a cell is written `\\|`.
    """
    for line in (it for it in lines_of(page) if re.match(r"\| [0-9]", it)):
        cells = [it.replace("\\|", "|").strip() for it in re.split(r"(?<!\\)\|", line)]
        code = lambda cell: cell.partition("`")[2].rpartition("`")[0]
        yield cells[1], code(cells[4]), code(cells[5])


# The files in which the layers name their faults.
FAULT_KINDS = ["crates/click_text/src/syntax.rt", *(f"crates/click_{it}/src/fault.rt" for it in ("scopes", "expand", "classes", "ports"))]


def faults(row):
    """Checks that each fault of the code has a row, in order of the numbers and with its name.

    Each row's example is refused with exactly the line that the row shows.
    """
    (page, *layers), prog, tried = row.pages, program(row.programs[0]), []
    for fault, example, line in fault_rows(page):
        tried.append(fault)
        if fault == "6 TooLarge":
            # No argument of a command can be that long, so a test script checks the limit.
            play("texts of the greatest size and of one byte more", [("prepared", " " * 1048576, "0"), ("prepared", " " * 1048577, fault)])
        # tools/alloc_failures.py checks this fault.
        elif fault != "7 NoMemory":
            if line != f"click_prog: {fault}" and not line.startswith(f"click_prog: {fault} "):
                fail(f"the row of {fault} shows the line {line}")
            is_refused(prog, f"the example of fault {fault}", example, line)
    # The faults of each layer; out of memory is a fault of each.
    kinds = {kind for it in layers for kind in re.findall(r'^ *\w+::\w+ => "(\d+ \w+)",$', text_of(it), re.M)}
    same(sorted(kinds, key=lambda it: int(it.split()[0])), tried, f"the faults of {page}, in order")
    return f"{len(tried)} faults, each shown by its example"


def driver(row):
    """Checks that the lines of the page's block are consecutive lines of the source."""
    page, source = row.pages
    block = [it.strip() for it in indented(lines_of(page))]
    if len(block) < 5:
        fail(f"the block of {page} has only {len(block)} lines, which cannot be a driver")
    lines = [it.strip() for it in lines_of(source)]
    if not any(lines[at : at + len(block)] == block for at in range(len(lines))):
        fail(f"the driver of {page} is not in {source}")
    return "the driver is that of the tests"


def captures(row):
    """Checks captures, and the example of the page, by tools/pcap_example.sh."""
    page = os.path.realpath(stand_ins.get(row.pages[0]) or f"{TOP}/{row.pages[0]}")
    came = ran([f"{TOP}/tools/pcap_example.sh", page], seconds=1200, env={**os.environ, "PCAP": program("click_prog --pcap")})
    if came.status:
        sys.stderr.buffer.write(came.err)
        sys.exit(came.status)
    return came.out.decode().strip()


# The endings of the files of an example NAME.click: for each program its input, its output, and
# others.
ENDINGS = {"click_prog": (".session", ".transcript", ".fault", ".status", ".options"), "click_prog --calls": (".calls", ".out")}


def files(row):
    """Checks the examples of a folder: the program with NAME.click reads one file and writes the
    other.

    Further files of an example have options, the exit status and the line on standard error.
    """
    name, folder = row.programs[0], row.pages[0]
    given, out, *more = ENDINGS[name]
    for example in names_in(folder, ".click"):
        part = lambda ending: bytes_of(f"{folder}/{example}{ending}", b"")
        text, words = part(".click").rstrip(b"\n"), part(".options").split(b"\n")[:-1]
        came = ran([*command_of(name), "-e", text, *words], part(given))
        answered(came, f"example {example}", out=part(out), err=part(".fault"), status=int(part(".status") or 0))
    # A file that belongs to no example would be ignored.
    for stray in set(names_in(folder, given, out, *more)) - set(names_in(folder, ".click")):
        fail(f"{folder} has files of an example {stray}, but no {stray}.click")
    return f"{len(names_in(folder, '.click'))} examples answered"


def books(row):
    """Checks that replaying NAME.book with the configuration NAME.click prints NAME.out.

    NAME.status has the exit status, if it is not 0. If there is a NAME.session, the book is exactly
    what the program prints on standard error for this session.
    """
    folder = row.pages[0]
    sessions = names_in(folder, ".session")
    for example in names_in(folder, ".click"):
        part = lambda ending: bytes_of(f"{folder}/{example}{ending}", b"")
        text = part(".click").rstrip(b"\n")
        if example in sessions:
            came = ran([program("click_prog"), "-e", text, "--book"], part(".session"))
            same((part(".book"), 0), (came.err, came.status), f"the book of session {example}, and its status")
        came = ran([*command_of("click_prog --calls"), "-e", text, "--replay"], part(".book"))
        answered(came, f"book {example}", out=part(".out"), status=int(part(".status") or 0))
    for stray in set(names_in(folder, ".book", ".out", ".session", ".status")) - set(names_in(folder, ".click")):
        fail(f"{folder} has files of an example {stray}, but no {stray}.click")
    is_there(sessions, f"sessions of {folder}")
    long_book()
    return f"{len(names_in(folder, '.click'))} books made again, {len(sessions)} of them as a session writes it"


def long_book():
    """Checks a book with lines of 8,000 to 50,000 bytes: it is written and replayed completely.

    If the last digit of a long line is another one, the replay reports this line.
    """
    text = f"{COUNTER} // " + "".join(map(str, range(2_300)))
    asked = f"WRITEDATA hotconfig {len(text)}\n{text}READ config\nREADDATA c.count 50000\n{'x' * 50_000}READ c.none\nQUIT\n"
    came = ran([program("click_prog"), "-e", "", "--book"], asked.encode())
    lines = [f"write hotconfig {text.replace(' ', '%20')}\tdone", f"read config \tvalue {text.encode().hex()}", f"read c.count {'x' * 50_000}\tvalue 30", "read c.none \trefused NoHandler"]
    book = "".join(f"0\t{line}\n" for line in lines).replace("%", "\\").encode()
    same((book, 0), (came.err, came.status), "a book with long lines, and its status")
    calls = [*command_of("click_prog --calls"), "-e", "", "--replay"]
    answered(ran(calls, book), "a book with long lines", out=b"replayed 4 calls, all replies the same\n")
    changed = ran(calls, book.replace(b"39\n", b"38\n", 1))
    same((True, 1), (changed.out.startswith(b"line 2: "), changed.status), f"a book with another digit in a long line, which prints {changed.out[-200:]!r}")


def refused(row):
    """Checks that each text is refused with the fault before it, and texts past the limits."""
    prog = program("click_prog")
    doubling = "elementclass B0 { }" + "".join(f" elementclass B{k} {{ x, y :: B{k - 1}; }}" for k in range(1, 16))
    rows = [it.split("\t", 1) for it in lines_of(row.pages[0])] + [
        ("4 Unexpected at 1:33", "{" * 32),
        ("5 TooDeep at 1:33", "{" * 33),
        ("16 TooMany", "Idle;" * 4097),
        # A wrong class is found before an exceeded limit, and that before a repeated flat name.
        ("13 UnknownClass at 1:20491", "Idle;" * 4097 + "x :: Foo;"),
        ("16 TooMany", "a :: { b :: Idle; }; a/b :: Idle; " + "Idle;" * 4097),
        ("16 TooMany", f"{doubling} z :: B15;"),
    ]
    for fault, text in rows:
        is_refused(prog, f"refused: {text[:200]}", text, f"click_prog: {fault}")
    return f"{len(rows)} texts refused"


def opens(row):
    """Checks that each text is served, and a text with the maximum number of elements."""
    for text in [*lines_of(row.pages[0]), "Idle;" * 4096]:
        is_served(program("click_prog"), f"opens: {text[:200]}", text)
    return f"{len(lines_of(row.pages[0]))} texts served"


def flat_form(came):
    """Returns the elements, as names and classes in order, and the connections, as pairs of names.

    They are read from a session's replies to `READ list` and `READ flatconfig`.
    """
    values, rest = [], came.out
    while found := re.search(rb"DATA (\d+)\r\n", rest):
        rest = rest[found.end() :]
        values.append(rest[: int(found[1])].decode())
        rest = rest[int(found[1]) :]
    names = values[0].splitlines()[1:]
    classes = [re.search(rf"^{re.escape(name)} :: (\w+)", values[1], re.M)[1] for name in names]
    joined = re.findall(r"^(\S+)(?: \[\d+\])? -> (?:\[\d+\] )?(\S+);$", values[1], re.M)
    return list(zip(names, classes)), joined


# The namespace of the elements of a picture.
SVG = "{http://www.w3.org/2000/svg}"
PAIR = "elementclass P { input -> a :: Null -> b :: Null -> output; }"
# Configurations with the names of their frames, and the elements in each. They have an element that
# only looks as if it were in a compound, compounds in a compound, and one in a ring.
FRAMES = {
    "x/y :: Idle; x/z :: Idle;": {},
    f"{PAIR} Idle -> x :: P -> x/q :: Null -> Discard;": {"x": {"x/a", "x/b"}},
    f"{PAIR} elementclass O {{ input -> i :: P -> n :: Null -> output; }} Idle -> o :: O -> Discard;": {"o": {"o/i/a", "o/i/b", "o/n"}, "o/i": {"o/i/a", "o/i/b"}},
    f"{PAIR} InfiniteSource -> m :: Null -> x :: P -> s :: Switch(0); s [0] -> m; s [1] -> Discard;": {"x": {"x/a", "x/b"}},
}


def box_of(group):
    """Returns the left, upper, right and lower side of the rectangle of a group."""
    left, upper = map(int, re.fullmatch(r"translate\((\d+),(\d+)\)", group.get("transform")).groups())
    box = next(group.iter(f"{SVG}rect"))
    return left, upper, left + int(box.get("width")), upper + int(box.get("height"))


def is_within(box, frame):
    return frame[0] <= box[0] and frame[1] <= box[1] and box[2] <= frame[2] and box[3] <= frame[3]


def is_over(frame, box):
    """Returns whether two rectangles have a common area."""
    return frame[0] < box[2] and box[0] < frame[2] and frame[1] < box[3] and box[1] < frame[3]


def frames_of(top, boxes, what):
    """Returns the names of the frames of a picture, and the elements in each. Checks the frames.

    A frame has the box of an element. It is over no box that is not in it, and its name is the
    beginning of the names of the elements in it.
    """
    found = {}
    for it in top.iter(f"{SVG}g"):
        if it.get("class") == "frame":
            [name], frame = [text.text for text in it.iter(f"{SVG}text")], box_of(it)
            same(False, name in found, f"a second frame {name} of {what}")
            same([], [at for at, box in boxes.items() if is_over(frame, box) and not is_within(box, frame)], f"the boxes that the frame {name} cuts, in {what}")
            found[name] = {at for at, box in boxes.items() if is_within(box, frame)}
            same([], [at for at in found[name] if not at.startswith(f"{name}/")], f"foreign elements in the frame {name} of {what}")
            is_there(found[name], f"the frame {name} of {what}")
    return found


def shows(picture, elements, joined, what):
    """Checks a picture: it is XML, with a box for each element, in order, and a line for each
    connection. Returns the frames, by `frames_of`.

    The line begins at the lower side of the source's box and ends at the upper side of the
    target's.
    """
    boxes = {}
    try:
        top = xml.fromstring(picture)
    except xml.ParseError as error:
        fail(f"{what} is no XML: {error}")
    groups = [it for it in top.iter(f"{SVG}g") if it.get("id")]
    same([f"e{at}" for at in range(len(elements))], [it.get("id") for it in groups], f"the elements of {what}")
    for (name, named), it in zip(elements, groups):
        same([name, named], [text.text for text in it.iter(f"{SVG}text")], f"a box of {what}")
        boxes[name] = box_of(it)
    lines = list(top.iter(f"{SVG}polyline"))
    same([f"c{at}" for at in range(len(joined))], [it.get("id") for it in lines], f"the lines of {what}")
    for (source, target), it in zip(joined, lines):
        points = [tuple(map(int, point.split(","))) for point in it.get("points").split()]
        (x, y), (to_x, to_y), source, target = points[0], points[-1], boxes[source], boxes[target]
        is_there(source[0] < x < source[2] and y == source[3], f"the beginning of line {it.get('id')} of {what}")
        is_there(target[0] < to_x < target[2] and to_y == target[1], f"the end of line {it.get('id')} of {what}")
    return frames_of(top, boxes, what)


def draws(prog, text):
    """Checks that the program draws what a session lists, or refuses the text as a run does.

    A text without a brace has no compound, and so no frame. Returns whether the program drew it.
    """
    what = f"the picture of {text[:200]}"
    run, drawn = ran([prog, "-e", text], b"READ list\nREAD flatconfig\nQUIT\n"), ran([prog, "--draw", "-e", text], b"READ list\n")
    if run.status:
        answered(drawn, what, err=run.err, status=1)
        return False
    answered(drawn._replace(out=b""), what)
    frames = shows(drawn.out, *flat_form(run), what)
    if text in FRAMES or "{" not in text:
        same(FRAMES.get(text, {}), frames, f"the frames of {what}, with the elements in them")
    return True


def pictures(row):
    """Checks that the page's command writes the picture that the page shows, and other drawings.

    These are the drawings of all examples, of texts that are served, of texts that are refused, and
    of those of FRAMES. A picture that cannot be written is a failed write.
    """
    (page, *folders), prog = row.pages, program("click_prog")
    command = re.search(r"^    (\./run\.sh --draw .* > (\S+\.svg))$", text_of(page), re.M)
    if not command or f"]({command[2]})" not in text_of(page):
        fail(f"{page} has no picture with its command")
    with in_folder(("run.sh", prog), ("examples", f"{TOP}/examples")) as folder:
        answered(ran(["bash", "-c", command[1]], cwd=folder), f"the command of {page}")
        with open(f"{folder}/{command[2]}", "rb") as it:
            same(bytes_of(f"docs/{command[2]}"), it.read(), f"what the command of {page} writes, and what the page shows")
    texts = [text_of(f"{folder}/{it}.click").rstrip("\n") for folder in folders for it in names_in(folder, ".click")]
    texts += [*lines_of("examples/opens.txt"), *(it.split("\t", 1)[1] for it in lines_of("examples/faults.txt")), "Idle -> Null;" * 2048, "Idle;" * 4097, *FRAMES]
    drawn = sum(draws(prog, text) for text in texts)
    with open("/dev/full", "wb") as full:
        answered(ran([prog, "--draw", "-e", COUNTER], stdout=full), "a picture that cannot be written", err=b"click_prog: a write failed\n", status=4)
    return f"the picture is as it shows; {drawn} texts drawn, {len(texts) - drawn} refused"


def wrong_lines(row):
    """Checks that a line that is not a call ends the program, after replies to earlier calls."""
    calls, text, longest = command_of("click_prog --calls"), "FromDevice(a) -> q :: Queue -> ToDevice(b);", "00" * 1600
    rows = [it.split("\t", 1) for it in lines_of(row.pages[0])] + [
        ("a packet has more than 1600 bytes", f"arrive a 00{longest}"),
        ("a packet has more than 1600 bytes", f"poll a 00,00{longest}"),
        ("the line has more than 131072 bytes", "read q.length " + "x" * 131059),
    ]
    for wrong, line in rows:
        came = ran([*calls, "-e", text], f"round\ntransmit b\n{line}\nround\n".encode())
        answered(came, f"the line that begins with: {line[:100]}", out=b"worked 0\nsent none\n", err=f"error 3: {wrong}\n".encode(), status=2)
    # The longest packet and the longest line.
    sent = f"arrive a {longest}\npoll a {','.join([longest] * 32)}\nread q.length {'x' * 131058}\ntransmit b\n"
    answered(ran([*calls, "-e", text], sent.encode()), "the longest packets and lines", out=f"entered 1\nentered 32\nvalue 3333\nsent {longest} 0 0.0.0.0\n".encode())
    return f"{len(rows)} lines refused, and the longest answered"


def arguments(row):
    """Checks command lines: each row has a program, with its mode if any, arguments, and a line.

    The program prints the line on standard error, nothing on standard output, and exits with status
    2. If the line is `good`, it serves a session and then prints the counts of each link.
    """
    rows = [it.split("\t") for it in lines_of(row.pages[0]) if not it.startswith("#")]
    for name, words, line in rows:
        came = ran([*command_of(name), *(it.encode().decode("unicode_escape").encode("latin-1") for it in shlex.split(words))], b"QUIT\n")
        what = f"{name} {words}"
        if line == "good":
            counts = "received 0, from elsewhere 0, too long 0, no room 0, no memory 0, entered 0, sent 0, failed 0"
            told = "".join(f"link {device}: {counts}\n" for device in re.findall(r"--link[ =]([^ =]+)=", words))
            answered(came, what, out=GREETING + b"200 Goodbye!\r\n", err=told.encode())
            continue
        same(b"", came.out, f"standard output of {what}")
        same(2, came.status, f"the status of {what}")
        # A message of the program is one line; a message of clap has more lines around it.
        if line.encode() not in came.err.splitlines() or line.startswith(name.split()[0]) and came.err.count(b"\n") != 1:
            fail(f"{what}: no line of standard error is as it should be", f"wanted: {line}", f"came:   {came.err.decode(errors='replace')[:600]}")
    return f"{len(rows)} command lines answered"


def fails_at_devices(prog, text, given, greeting, line):
    """Checks that a full output and a closed standard input end the program with status 4 and a line."""
    with open("/dev/full", "wb") as full:
        answered(ran([*prog, "-e", text], given, stdout=full), "a full device", err=line, status=4)
    answered(ran([*prog, "-e", ""], None, preexec_fn=lambda: os.close(0)), "closed standard input", out=greeting, err=line, status=4)


def limits(row):
    """Checks the longest line and payload of a session, other lengths, and failing devices."""
    prog, greeting = program("click_prog"), GREETING.decode()
    done = f"{greeting}200 Write handler 'c.reset_counts' OK\r\n"
    line, payload = "WRITE c.reset_counts ", "WRITEDATA c.reset_counts 1048576\r\n"
    for what, sent, wanted in (
        ("the longest line", f"{line}{'x' * (65536 - len(line))}\nQUIT\n", f"{done}200 Goodbye!\r\n"),
        ("a line that is too long", f"{line}{'x' * (65537 - len(line))}\nQUIT\n", f"{greeting}500 Line too long\r\n"),
        ("the longest payload", payload + "\0" * 1048576, done),
        ("a payload that lacks a byte", payload + "\0" * 1048575, greeting),
    ):
        answered(ran([prog, "-e", COUNTER], sent.encode()), what, out=wanted.encode())
    fails_at_devices([prog], "", bytes_of("examples/counter.session"), GREETING, b"click_prog: a read or a write failed\n")
    return "the longest lines and payloads, and devices that fail"


def call_limits(row):
    """Checks arguments through sixty compounds, a faulty configuration, and failing devices.

    Also checks that each reply is written before the next call is read.
    """
    calls, folder = command_of("click_prog --calls"), "examples/calls"
    # A value is passed on unchanged. If the empty value were expanded again at each level, the time
    # would double with each of the sixty levels.
    text = "elementclass P0 { $x | input -> Strip($x$x) -> output } elementclass D0 { $x, $y | input -> Strip(1$x) -> output }"
    for level in range(1, 61):
        text += f" elementclass P{level} {{ $x | input -> P{level - 1}($x) -> output }} elementclass D{level} {{ $x, $y | input -> D{level - 1}($x$x, ) -> output }}"
    text += " FromDevice(a) -> P60(1) -> Queue -> ToDevice(b); FromDevice(c) -> D60(,) -> Queue -> ToDevice(d);"
    sent = b"arrive a 000102030405060708090a0b\ntransmit b\narrive c 000102\ntransmit d\n"
    answered(ran([*calls, "-e", text], sent), "arguments through sixty compounds", out=b"entered 1\nsent 0b 0 0.0.0.0\nentered 1\nsent 0102 0 0.0.0.0\n")
    given, config = bytes_of(f"{folder}/counter.calls"), text_of(f"{folder}/counter.click").rstrip("\n")
    answered(ran([*calls, "-e", "Counter -> Discard;"], given), "a faulty configuration", err=b"31 Count at Counter@1 inputs 0\n", status=1)
    fails_at_devices(calls, config, given, b"", b"error: a read or a write failed\n")
    step_by_step([*calls, "-e", config], given, bytes_of(f"{folder}/counter.out"))
    return "arguments through sixty compounds, devices that fail, and each reply before the next call"


def step_by_step(words, given, wanted):
    """Checks that each line is answered before the next one is sent."""
    with subprocess.Popen(words, stdin=subprocess.PIPE, stdout=subprocess.PIPE, bufsize=0) as peer:
        for line, reply in zip(given.splitlines(True), wanted.splitlines(True)):
            peer.stdin.write(line)
            came = b""
            while not came.endswith(b"\n") and select.select([peer.stdout], [], [], 20)[0]:
                piece = os.read(peer.stdout.fileno(), 65536)
                came += piece or b" and then its end\n"
            if not came:
                fail(f"no reply to: {line.decode().strip()}")
            same(reply, came, f"the reply to: {line.decode().strip()}")
        peer.stdin.close()
        same(0, peer.wait(30), "the status after calls that wait for each reply")


# README's commands


def block_after(lines, sign):
    """Returns the first indented block after a line that begins with `sign`."""
    at = next((at for at, it in enumerate(lines) if it.startswith(sign)), len(lines))
    first = next((first for first in range(at, len(lines)) if lines[first].startswith("    ")), len(lines))
    last = next((last for last in range(first, len(lines)) if not lines[last].startswith("    ")), len(lines))
    return "".join(it + "\n" for it in indented(lines[first:last])).encode()


def commands(row):
    """Checks the commands of README.

    The first command that begins with ./run.sh is shown with --quick and without, and prints the
    block after `The replies are`. The capture prints what the page has after `The line is`. The
    toolchain is the one that the page names. tools/run_sh_test.sh tests --quick.
    """
    page = row.pages[0]
    text, lines = text_of(page), lines_of(page)
    quick, command = [*(it.strip() for it in lines if it.startswith("    ./run.sh")), None, None][:2]
    if not command or quick != command.replace("./run.sh ", "./run.sh --quick ", 1):
        fail(f"the first two indented lines of {page} that begin with ./run.sh are not one command, with --quick and without")
    wanted = block_after(lines, "The replies are")
    is_there(wanted, f"the block after 'The replies are' in {page}")
    # If another program is checked, ./run.sh is a link to it, next to the files that the command
    # reads.
    with in_folder(("run.sh", program("click_prog")), ("crates", f"{TOP}/crates")) as folder:
        came = ran(["bash", "-c", command], cwd=folder if "PROGRAM" in os.environ else TOP)
    answered(came._replace(out=came.out.replace(b"\r", b"")), f"{page}'s command {command}", out=wanted)
    # The command may continue on further lines, after backslashes. Its output file is written to a
    # temporary folder.
    capture = re.search(r"^    (crates/click_prog/out/click_prog --pcap (?:.*\\\n)*.*)$", text, re.M)
    says = re.search(r"^The line is `(.*)`\.$", text, re.M)
    if not capture or not says:
        fail(f"{page} has no capture command, or no line 'The line is'")
    with in_folder(("crates/click_prog/out/click_prog", program("click_prog --pcap")), ("examples", f"{TOP}/examples")) as folder:
        answered(ran(["bash", "-c", capture[1]], cwd=folder), f"{page}'s capture", err=says[1].encode() + b"\n")
        is_there(os.path.exists(f"{folder}/out.pcap") and os.path.getsize(f"{folder}/out.pcap"), f"what {page}'s capture writes")
    named = re.search(r"`rt version` is `(\S+) (logic \w+)`, or `(\S+)` with the same logic", re.sub(r"\s+", " ", text))
    here = ran(["rt", "version"]).out.decode().strip()
    if not named or here not in (f"{named[1]} {named[2]}", f"{named[3]} {named[2]}"):
        fail(f"{page} does not name the toolchain that is here, {here}")
    return "the first command answers as it shows, and the capture says what it shows"


def tries(row):
    """Checks the commands that compile and run a program without its proofs (`rt try`).

    Each is an indented `cd crates/..` and the indented line after it. Its output is the stored
    output of that folder, or that of the calls that the command reads. If a block after `The
    replies are` comes before the next such command, it is the output too.
    """
    page = row.pages[0]
    lines = lines_of(page)
    places = [at for at, it in enumerate(lines) if it.startswith("    cd crates/")]
    is_there(places, f"what {page} tries in a crate's folder")
    for at, end in zip(places, [*places[1:], len(lines)]):
        folder, command = lines[at].split()[1], lines[at + 1]
        calls = re.search(r"< (\S+)\.calls$", command)
        answer = f"{folder}/{calls[1]}.out" if calls else f"{folder}/stdout"
        if not command.startswith("    ") or not os.path.exists(f"{TOP}/{answer}"):
            fail(f"{folder}, which {page} goes into, has no command or no stored answer")
        came = ran(["bash", "-c", command.strip()], seconds=900, cwd=f"{TOP}/{folder}")
        same(bytes_of(answer), came.out, f"in {folder}, {command.strip()}")
        same(0, came.status, f"the status in {folder} of {command.strip()}")
        shown = block_after(lines[at:end], "The replies are")
        if shown:
            same(shown, came.out.replace(b"\r", b""), f"in {folder}, {command.strip()}, and what {page} shows")
    return f"{len(places)} programs tried in their folders as it shows"


Row = namedtuple("Row", "pages programs kind")
TABLE = (
    Row(["README.md"], ["click_prog", "click_prog --pcap"], commands),
    Row(["README.md"], [], tries),
    Row(["docs/CONTROL.md"], ["click_prog"], dialogue),
    Row(["docs/CONTROL.md"], ["click_prog"], client),
    Row(["docs/HOTSWAP.md"], ["click_prog"], dialogue),
    Row(["docs/HOTSWAP.md"], ["click_prog --calls"], dialogue),
    Row(["docs/CALLS.md"], ["click_prog --calls"], dialogue),
    Row(["docs/PCAP.md"], ["click_prog --pcap"], captures),
    Row(["docs/LINKS.md"], ["click_prog"], script),
    Row(["docs/PICTURE.md", "examples", "examples/calls", "examples/gateway", "examples/ethernet", "examples/pcap"], ["click_prog"], pictures),
    Row(["docs/FEEDS.md", "crates/click_tests/src/drivers.rt"], [], driver),
    Row(["docs/FAULTS.md", *FAULT_KINDS], ["click_prog", "click_player"], faults),
    Row(["docs/ELEMENTS.md"], ["click_prog --calls"], sections),
    Row(["examples/readings.txt", "docs/LANGUAGE.md", "docs/ELEMENTS.md"], ["click_prog", "click_player"], readings),
    Row(["examples/texts.txt"], ["click_player"], texts),
    Row(["examples/faults.txt"], ["click_prog"], refused),
    Row(["examples/opens.txt"], ["click_prog"], opens),
    Row(["examples/arguments.txt"], ["click_prog", "click_prog --calls", "click_prog --pcap"], arguments),
    Row(["examples"], ["click_prog"], files),
    Row(["examples/counter.session"], ["click_prog"], limits),
    Row(["examples/calls"], ["click_prog --calls"], files),
    Row(["examples/books"], ["click_prog", "click_prog --calls"], books),
    Row(["examples/calls/wrong_lines.txt"], ["click_prog --calls"], wrong_lines),
    # This row checks that replies are not late. A wrapper that runs a program to its end before it
    # writes fails here, so this row is the last one.
    Row(["examples/calls/counter.calls"], ["click_prog --calls"], call_limits),
)


def main(words):
    rows = TABLE
    if words[:1] == ["--with"]:
        file, page, *words = words[1:]
        stand_ins[page] = os.path.realpath(file)
        rows = [it for it in rows if any(page == at or page.startswith(f"{at}/") for at in it.pages)]
    kinds, programs = {it.kind.__name__ for it in TABLE} & set(words), set(VARIABLES) & set(words)
    rows = [it for it in rows if (it.kind.__name__ in kinds if kinds else it.kind is not tries) and (not programs or programs & set(it.programs))]
    if not rows or set(words) - kinds - programs:
        sys.exit(f"examples.py: no row has this: {' '.join(words)}")
    for row in rows:
        print(f"{row.pages[0]}: {row.kind(row)}", flush=True)
    return 0


begun(main)
