#!/usr/bin/env python3
"""Repeats runs of the programs, each time with another allocation refused, until every allocation
of the run was refused once. Either the call is answered with out of memory and the run goes on, or
the run ends with status 3. In both cases no output is wrong.

    tools/alloc_failures.py [RUNS..]    these runs, or all

    session     control sessions, and configurations that are prepared
    drivers     a session with drivers in their own threads, and the book of such a run
    swaps       a session with swaps
    pictures    drawings
    calls       handlers and swaps, by calls
    pcap        a capture
    scripts     the steps of tests/memory.script
    full_swaps  swaps of a full queue, in a session
    views       a view that the install signal does not reach
    datagrams   a datagram for whose packet there is no memory

The programs must have been built. PROGRAM and PLAYER name other programs to check, CALLS and PCAP
other programs for the modes --calls and --pcap of click_prog. SCRIPT is the path of another
script than tests/memory.script, from the top of the repository. tools/alloc_failures.c is compiled
with the C compiler cc. The first failure ends the script with status 1.
"""

from __future__ import annotations

import glob
import os
import re
import shutil
import subprocess
import sys
import tempfile
from collections.abc import Callable, Iterator
from typing import NamedTuple

sys.dont_write_bytecode = True
sys.path.insert(0, f"{os.path.dirname(os.path.realpath(__file__))}/lib")
from trying import GREETING, TOP, Ran, begun, bytes_of, command_of, fail, lines_of, program, ran, same, shown, text_of

# The descriptor to which a refused allocation is noted, and the maximum number of allocations of a
# run.
NOTES, MOST = 9, 6000
# The status of a run that is out of memory.
NO_MEMORY = 3
OUT_OF_MEMORY = b"520 Out of memory\r\n"
GOODBYE = b"200 Goodbye!\r\n"


class Refusal(NamedTuple):
    """A run with one allocation refused.

    It has the number of the allocation, a description of the run, the note of the refusal, and what
    the program did.
    """

    nth: int
    run: str
    note: bytes
    did: Ran


def compiled(folder: str) -> str:
    """Compiles the library that refuses allocations, and opens the file for its notes."""
    library, source = f"{folder}/alloc_failures.so", f"{TOP}/tools/alloc_failures.c"
    if not shutil.which("cc"):
        fail("there is no C compiler cc, which tools/alloc_failures.c needs")
    if subprocess.run(["cc", "-O1", "-shared", "-fPIC", "-o", library, source, "-ldl"], check=False).returncode:
        fail("tools/alloc_failures.c does not compile")
    os.dup2(os.open(f"{folder}/notes", os.O_CREAT | os.O_RDWR), NOTES, inheritable=True)
    return library


def refusals(library: str, what: str, words: list[str], given: bytes) -> Iterator[Refusal]:
    """Runs the command once for each of its allocations, which is refused in that run."""
    for nth in range(1, MOST):
        os.ftruncate(NOTES, 0)
        os.lseek(NOTES, 0, os.SEEK_SET)
        did = ran(words, given, env={**os.environ, "LD_PRELOAD": library, "REFUSE": str(nth)}, pass_fds=(NOTES,))
        note = os.pread(NOTES, 100, 0)
        if not note:
            return
        yield Refusal(nth, f"{what}, allocation {nth} refused", note, did)
    fail(f"{what}: more than {MOST - 1} allocations")


class Refusing:
    """The counts of allocations that were refused in some runs, and that were answered."""

    def __init__(self, library: str):
        self.library, self.tried, self.answered = library, 0, 0

    def each(self, what: str, words: list[str], given: bytes) -> Iterator[Refusal]:
        """Runs the command with each of its allocations refused in turn, and counts them."""
        for refusal in refusals(self.library, what, words, given):
            self.tried += 1
            yield refusal

    def in_turn(self, what: str, words: list[str], given: bytes, whole: bytes, answers: tuple[bytes, ...] = (), front: bytes | None = None) -> None:
        """Runs the command over the input `given` with each allocation refused in turn, and checks
        it.

        Without a refusal it writes `whole`. Otherwise it writes one of `answers`, or ends with
        status 3 after a prefix of `front` (of `whole`, if `front` is None). Each of `answers` has
        to occur.

        One refused allocation of a run may have no effect: the command line is collected in a list
        that works with and without its initial allocation. An allocation that makes a block smaller
        may have none either.
        """
        unnoticed, came = 0, set()
        is_whole(ran(words, given), whole, what)
        for _, run, note, did in self.each(what, words, given):
            same(b"", did.err, f"{run}: standard error")
            if did.status == 0 and did.out == whole and may_pass(note, unnoticed):
                unnoticed += 1
            elif did.status == 0 and did.out in answers:
                came.add(did.out)
                self.answered += 1
            else:
                is_cut(did, whole if front is None else front, run)
        for lacking in set(answers) - came:
            fail(f"{what}: no refused request is answered by:", shown(lacking))

    def passed(self, what: str) -> None:
        """Prints how many allocations of these runs were refused, and resets the counts."""
        if not self.tried:
            fail(f"{what}: no allocation was refused")
        print(f"{self.tried} allocations refused {what}: {self.answered} answered, and the run ended at the others", flush=True)
        self.tried = self.answered = 0


def is_whole(did: Ran, whole: bytes, what: str) -> None:
    """Checks a run in which no allocation was refused."""
    same(whole, did.out, what)
    same(b"", did.err, f"{what}: standard error")
    same(0, did.status, f"{what}: its status")


def may_pass(note: bytes, unnoticed: int) -> bool:
    """Returns whether the allocation that was refused may have no effect."""
    return not unnoticed or note == b"smaller\n"


def is_cut(did: Ran, front: bytes, run: str) -> None:
    """Checks that the run ended with out of memory, and that its output is a prefix of `front`."""
    same(NO_MEMORY, did.status, f"{run}: its status")
    if not front.startswith(did.out):
        fail(run, f"wanted the first bytes of: {shown(front)}", f"came: {shown(did.out)}")


def stored_run() -> tuple[list[str], bytes, bytes]:
    """Returns the command, the input and the output of the program's stored run."""
    folder = "crates/click_prog"
    return [program("click_prog"), *lines_of(f"{folder}/args")], bytes_of(f"{folder}/stdin"), bytes_of(f"{folder}/stdout")


def texts() -> list[tuple[str, str]]:
    """Returns the names and the texts of the configurations in tools/texts."""
    return [(os.path.basename(it), text_of(os.path.relpath(it, TOP)).rstrip("\n")) for it in sorted(glob.glob(f"{TOP}/tools/texts/*.click"))]


SESSIONS = (
    ("WRITE", b"WRITE q.capacity 9\n", b"200 Write handler 'q.capacity' OK\r\n"),
    ("WRITEDATA", b"WRITEDATA q.capacity 1\r\n7", b"200 Write handler 'q.capacity' OK\r\n"),
    ("READDATA", b"READDATA q.length 2\nab", b"200 Read handler 'q.length' OK\r\nDATA 1\r\n0"),
    ("READ", b"READ list\n", b"200 Read handler 'list' OK\r\nDATA 28\r\n3\nFromDevice@1\nq\nToDevice@3\n"),
)


def session(it: Refusing) -> None:
    """Checks the stored session and some others: a refused call is answered and the session goes
    on.

    Also checks starts with larger configurations, which are prepared before the session.
    """
    answer = GREETING + OUT_OF_MEMORY + GOODBYE
    words, given, stored = stored_run()
    it.in_turn("the stored session", words, given, stored, (answer,))
    it.passed("in the stored session")
    text = "FromDevice(a) -> q :: Queue(5) -> ToDevice(b);"
    for name, command, reply in SESSIONS:
        it.in_turn(f"a session of {name}", [program("click_prog"), "-e", text], command + b"QUIT\n", GREETING + reply + GOODBYE, (answer,))
        it.passed(f"in a session of {name}")
    for name, text in texts():
        it.in_turn(f"the program with {name}", [program("click_prog"), "-e", text], b"", GREETING)
    it.passed("while configurations are prepared")


def drivers(it: Refusing) -> None:
    """Checks the stored session with drivers, each in its own thread.

    A driver whose allocation is refused stops early, and the session still gets its replies.
    """
    words, given, stored = stored_run()
    words += ["-w", "2", "--rounds", "3"]
    what, answer = "the stored session with drivers", GREETING + OUT_OF_MEMORY + GOODBYE
    for _, run, _, did in it.each(what, words, given):
        same(b"", did.err, f"{run}: standard error")
        if did.status:
            is_cut(did, stored, run)
        elif did.out != stored:
            same(answer, did.out, run)
            it.answered += 1
    is_whole(ran(words, given), stored, what)
    if not it.answered:
        fail(f"{what}: no refused allocation is answered")
    it.passed("in the stored session with drivers")
    books(it)


# The rounds of each of two drivers, and a configuration whose source emits a packet in as many.
ROUNDS, COUNTED = 9, "InfiniteSource(ab, 9, 1) -> c :: Counter -> Discard;"


def books(it: Refusing) -> None:
    """Checks the book of a session with two drivers, which make rounds.

    It replays with the same replies. If a refused Round had moved a packet, a later reply of the
    book would differ. A driver makes all its rounds unless one of its allocations is refused.
    """
    words = [program("click_prog"), "-e", COUNTED, "-w", "2", "--rounds", str(ROUNDS), "--book"]
    what, given, short = "the book of a run with drivers", b"READ c.count\nQUIT\n", 0
    whole = ran(words, given)
    same(0, whole.status, f"{what}: its status")
    same([1, ROUNDS, ROUNDS], is_replayed(whole, what), f"{what}: the calls of each seat")
    for _, run, _, did in it.each(what, words, given):
        if did.status:
            is_cut(did, whole.out, run)
            continue
        session, *rounds = is_replayed(did, run)
        # The session fails, or a driver, or the writing of the book stops at a line.
        same(True, session <= 1 and max(rounds) <= ROUNDS, f"{run}: {session} calls of the session and {rounds} rounds")
        short += max(rounds) == ROUNDS > min(rounds)
        it.answered += 1
    if not short:
        fail(f"{what}: no refused allocation stops one driver alone")
    it.passed("in a run with drivers and a book")


def is_replayed(did: Ran, what: str) -> list[int]:
    """Checks that the lines of a book, on standard error, are replayed with the same replies.

    Returns the numbers of the calls of the seats of the session and of both drivers.
    """
    lines = did.err.splitlines()
    came = ran([*command_of("click_prog --calls"), "-e", COUNTED, "--replay"], did.err)
    same((b"replayed %d calls, all replies the same\n" % len(lines), 0), (came.out, came.status), f"{what}: the replay of {shown(did.err)}")
    return [sum(line.startswith(b"%d\t" % seat) for line in lines) for seat in range(3)]


# The running configuration, and the one that replaces it.
RUNNING, SUCCESSOR = "FromDevice(a) -> q :: Queue(3) -> ToDevice(b);", "FromDevice(a) -> q :: Queue(2) -> ToDevice(b);"


def session_said(commands: list[str], states: list[dict[str, str]], refused: int) -> bytes:
    """Returns the output of a session with these commands, without its greeting.

    The command with the number `refused`, from 1, fails with out of memory; for 0 none does. Reads
    return the values of the first state, and after each successful swap those of the next one.
    """
    now, *later = states
    said = b""
    for at, command in enumerate(commands, 1):
        word, name, *value = command.split(" ", 2)
        if at == refused:
            said += OUT_OF_MEMORY
        elif word == "READ":
            said += f"200 Read handler '{name}' OK\r\nDATA {len(now[name])}\r\n{now[name]}".encode()
        else:
            now, later = ({**now, name: value[0]}, later) if name in now else (later[0], later[1:])
            said += f"200 Write handler '{name}' OK\r\n".encode()
    return said + GOODBYE


def swaps(it: Refusing) -> None:
    """Checks a session that makes a swap twice.

    If an allocation of the first swap is refused, nothing is changed, and the second one succeeds.
    """
    commands = ["WRITE q.capacity 9", *[f"WRITE hotconfig {SUCCESSOR}", "READ config", "READ q.capacity"] * 2]
    after = {"config": SUCCESSOR, "q.capacity": "2"}
    states = [{"config": RUNNING, "q.capacity": "3"}, after, after]
    given = "".join(f"{command}\n" for command in [*commands, "QUIT"]).encode()
    whole, *answers = (GREETING + session_said(commands, states, at) for at in range(len(commands) + 1))
    it.in_turn("a session with swaps", [program("click_prog"), "-e", RUNNING], given, whole, tuple(answers))
    it.passed("in a session with swaps")


def full_swaps(it: Refusing) -> None:
    """Checks swaps in a session at a desk whose queue of capacity three got three or five packets.

    If a swap is refused, the length, the drops and the highest length of the queue are unchanged.
    """
    reads = [f"READ {it}" for it in ("q.length", "q.drops", "q.highwater_length", "config")]
    commands = [f"WRITE hotconfig {SUCCESSOR}", *reads] * 2
    for count, drops in ((3, "0"), (5, "2")):
        before = {"q.length": "3", "q.drops": drops, "q.highwater_length": "3", "config": RUNNING}
        after = {"q.length": "2", "q.drops": "1", "q.highwater_length": "2", "config": SUCCESSOR}
        # The second swap has room for all packets that are left.
        states = [before, after, {**after, "q.drops": "0"}]
        session_in_turn(it, count, commands, [session_said(commands, states, at) for at in range(len(commands) + 1)])
        it.passed(f"in a session at a desk that {count} packets entered")


def session_in_turn(it: Refusing, count: int, commands: list[str], said: list[bytes]) -> None:
    """Plays a script with a session after `count` packets entered, with each allocation refused in
    turn.

    The player prints the output of the session. It is the first of `said`, or another one if a
    command is refused. Each of them has to occur.
    """
    lines = [f"case\tIt says this.\nopen\t{RUNNING}\topened\n", *(f"0\tarrive a 0{at + 1}\tentered 1\n" for at in range(count))]
    lines += ["session\t0 pieces=4096\tquit\n", *(f"< {command}\n" for command in [*commands, "QUIT"]), *output_lines(said[0])]
    with tempfile.TemporaryDirectory(prefix="alloc-failures-") as folder:
        with open(f"{folder}/session.script", "w", encoding="ascii") as file:
            file.writelines(lines)
        words, came, what = [program("click_player"), f"{folder}/session.script"], set(), f"the session after {count} packets"
        whole, unnoticed = b"1 cases passed, 0 failed\n", 0
        is_whole(ran(words), whole, what)
        for _, run, note, did in it.each(what, words, b""):
            same(b"", did.err, f"{run}: standard error")
            if did.status == 0 and did.out == whole and may_pass(note, unnoticed):
                unnoticed += 1
            elif did.status == 1:
                # A step before the session, the session itself, or one of its calls ran out of
                # memory.
                if b"\n  actual:   out of memory\n" not in did.out:
                    fail(f"{run}: wanted a reply that is out of memory, but came:", shown(did.out))
                output = re.search(rb"\n  actual output:   (.*)\n", did.out)
                came.update(at for at, it in enumerate(said) if output and output[1] == spelled(it))
                if output and output[1] not in map(spelled, said) and not spelled(said[0]).startswith(output[1]):
                    fail(f"{run}: none of the answers came, but:", shown(did.out))
                it.answered += 1
            else:
                is_cut(did, whole, run)
    same(set(range(1, len(said))), came, f"{what}: the commands that were refused")


def output_lines(said: bytes) -> list[str]:
    """Returns the lines of a test script that expect this output of a session."""
    *lines, last = said.decode("ascii").split("\r\n")
    return [f"> {line}\n" for line in lines] + ([f"> {last}\\\n"] if last else [])


def spelled(said: bytes) -> bytes:
    """Returns bytes as the player prints them, with escapes."""
    return b"".join(b"%c" % it if 32 <= it < 127 and it != 92 else b"\\%02x" % it for it in said)


def pictures(it: Refusing) -> None:
    """Checks that a picture is written completely or not at all."""
    for name, text in texts():
        words = [program("click_prog"), "--draw", "-e", text]
        it.in_turn(f"the picture of {name}", words, b"", ran(words).out, front=b"")
    it.passed("while pictures are drawn")


def calls(it: Refusing) -> None:
    """Checks calls of handlers of each kind, of global handlers, and swaps.

    The replies before the refused allocation are written.
    """
    for name in ("swap", "capacity", "lookup", "suppressor", "switches", "source_handlers", "globals", "globals_of_compounds"):
        example = f"examples/calls/{name}"
        words = [*command_of("click_prog --calls"), "-e", text_of(f"{example}.click").rstrip("\n")]
        it.in_turn(f"the calls of {name}", words, bytes_of(f"{example}.calls"), bytes_of(f"{example}.out"))
    it.passed("while handlers are read and written, and configurations are swapped")


def pcap(it: Refusing) -> None:
    """Checks a capture of three packets.

    A refused run ends with status 3 after a prefix of its output, and prints the reason if it has
    written some. If everything else succeeded, only the line of counts at the end may be missing.
    """
    words = [*command_of("click_prog --pcap"), "-e", text_of("examples/pcap/gateway.click").rstrip("\n"), "--in", "eth0", "--out", "eth1"]
    given, unnoticed, said = bytes_of("examples/pcap/three.pcap"), 0, 0
    whole = ran(words, given)
    same(0, whole.status, "the status of a capture")
    if not whole.err:
        fail("a capture says no numbers")
    for _, run, note, did in it.each("a capture", words, given):
        if did.status == 0:
            same(whole.out, did.out, run)
            if did.err:
                same(whole.err, did.err, f"{run}: the numbers")
                if not may_pass(note, unnoticed):
                    fail(f"{run}: it changes nothing")
                unnoticed += 1
        else:
            is_cut(did, whole.out, run)
            if did.out:
                same(b"error: out of memory", did.err.split(b"\n")[0], f"{run}: what is said once some is written")
                said += 1
    if not said:
        fail("a capture: no allocation is refused after the first bytes are written")
    it.passed("while a capture goes through a router")


SCRIPT = os.environ.get("SCRIPT") or "tests/memory.script"
# The number of allocations of the script that may have no effect. One is for the command line. The
# other one is for the install signal of the swap at a desk with a view. That signal carries no
# guarantee: the view learns of the swap by its notice.
UNNOTICED = 2


def steps_of(file: str) -> dict[int, str]:
    """Returns the steps of a test script that make a call or list names, by line number."""
    steps = {at: line for at, line in enumerate(lines_of(file), 1) if line and not line.startswith(("#", "case\t"))}
    return {at: line for at, line in steps.items() if line.split("\t")[0] in CALLING or re.match(CALLS, line)}


# The first columns of the steps that call a function that allocates, and the words of calls that do
# and of a view that lists names.
CALLING = ("parsed", "prepared", "make", "open", "poll", "round", "settle")
CALLS = r"\d+\t(read|write|checkread|checkwrite|swap|arrive|transmit) |\d+\tround\t|view\t\d+ names\t"


def scripts(it: Refusing) -> None:
    """Checks the steps of tests/memory.script, or of the script that SCRIPT names.

    A refused call is made again, and each later step gets the reply that the script expects.
    """
    path, steps = f"{TOP}/{SCRIPT}", steps_of(SCRIPT)
    words, again, unnoticed = [program("click_player"), "--again", path], {}, 0
    whole = b"%d cases passed, 0 failed\n" % sum(line.startswith("case\t") for line in lines_of(SCRIPT))
    is_whole(ran(words), whole, SCRIPT)
    for nth, run, note, did in it.each(SCRIPT, words, b""):
        same(b"", did.err, f"{run}: standard error")
        called = re.fullmatch(rb"%s:(\d+): out of memory; the step is played again\n%s" % (re.escape(path.encode()), re.escape(whole)), did.out)
        if did.status == 0 and called:
            again.setdefault(int(called[1]), []).append(nth)
            it.answered += 1
        elif did.status == 0:
            same(whole, did.out, run)
            unnoticed += note != b"smaller\n"
        else:
            is_cut(did, whole, run)
    if unnoticed > UNNOTICED:
        fail(f"{SCRIPT}: {unnoticed} refused allocations had no effect, and at most {UNNOTICED} may")
    for line, step in steps.items():
        if line not in again:
            fail(f"{SCRIPT}:{line}: no allocation of this step was refused: {step}")
        # A step that prepares, swaps or lists names answers with out of memory, whichever of its
        # allocations is refused. So between the first and the last of them no refusal ends the run.
        if step.startswith(("prepared\t", "view\t")) or "\tswap " in step:
            same(again[line][-1] - again[line][0] + 1, len(again[line]), f"{SCRIPT}:{line}: the refused allocations that were answered, of those from the first to the last")
    it.passed(f"in {SCRIPT}")


def comes_alone(it: Refusing, what: str, steps: list[str], count: int) -> None:
    """Plays a script whose last replies come only if one of `count` allocations is refused.

    Without a refusal, and if another allocation is refused, the script fails or ends.
    """
    whole, passed = b"1 cases passed, 0 failed\n", 0
    with tempfile.TemporaryDirectory(prefix="alloc-failures-") as folder:
        with open(f"{folder}/alone.script", "w", encoding="ascii") as file:
            file.writelines(f"{step}\n" for step in ["case\tIt says this.", *steps])
        words = [program("click_player"), f"{folder}/alone.script"]
        same(1, ran(words).status, f"{what}: the status without a refusal")
        for _, run, _, did in it.each(what, words, b""):
            same(b"", did.err, f"{run}: standard error")
            if did.status == 0:
                same(whole, did.out, run)
                passed += 1
            elif did.status != 1:
                is_cut(did, whole, run)
    same(count, passed, f"{what}: the number of refused allocations with these replies")
    it.answered += passed
    it.passed(f"in {what}")


def views(it: Refusing) -> None:
    """Checks a view whose install signal is out of memory.

    It shows the old configuration until it learns of the swap, and the new one from then on.
    """
    steps = [
        "open\troom=10 views=1 Idle -> c :: Counter -> Discard;\topened",
        "0\tswap Idle -> n :: Counter -> Discard;\tdone",
        "view\t0 names\tIdle@1 c Discard@3 ",
        "view\t0 read c.count\tyes",
        "view\t0 write n.reset_counts\tNoElement",
        "view\t0 learn 0\tlearned",
        "view\t0 names\tIdle@1 n Discard@3 ",
        "view\t0 read c.count\tNoElement",
        "view\t0 write n.reset_counts\tyes",
    ]
    comes_alone(it, "a swap that is not announced to a view", steps, 1)


def datagrams(it: Refusing) -> None:
    """Checks a link that receives sixteen datagrams, of which each cause drops another number.

    If there is no memory for the packet of one datagram, exactly this one is dropped.
    """
    steps = [
        "open\tfeeds=a:4 FromDevice(a) -> Queue(8) -> ToDevice(b);\topened",
        "links\ta,b b 8\tlinked",
        "receive\ta !02 01 01 !03 01 {0} 01 !- 01 !{0} 01 {0} !04 01 !05 01\tlink ended, strangers 6, too long 2, no room 3, no memory 1".format("\\*1601(00)"),
        "counts\ta\treceived 16, strangers 6, too long 2, no room 3, no memory 1, entered 0, sent 0, failed 0",
        "forward\t0 a\tentered 4, sent 0, lost 0",
        "forward\t0 b\tentered 0, sent 4, lost 0",
        "sent\tb\t01,01,01,01",
    ]
    comes_alone(it, "a link that drops a datagram without memory for it", steps, 8)


RUNS: dict[str, Callable[[Refusing], None]] = {it.__name__: it for it in (session, drivers, swaps, pictures, calls, pcap, scripts, full_swaps, views, datagrams)}


def main(words: list[str]) -> int:
    if set(words) - set(RUNS):
        print(f"alloc_failures.py: there are no runs of {' '.join(sorted(set(words) - set(RUNS)))}", file=sys.stderr)
        return 2
    with tempfile.TemporaryDirectory(prefix="alloc-failures-") as folder:
        it = Refusing(compiled(folder))
        for name in words or RUNS:
            RUNS[name](it)
    return 0


begun(main)
