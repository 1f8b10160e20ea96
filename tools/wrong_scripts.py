#!/usr/bin/env python3
"""Checks that the player of test scripts can fail. It reports a wrong expected reply of each kind
of step at a desk, and of the steps that prepare a text. A fault of a script ends it.

    tools/wrong_scripts.py

The program is the proved click_player, or the one that PLAYER names.
"""

from __future__ import annotations

import os
import subprocess
import sys
import tempfile

sys.dont_write_bytecode = True
sys.path.insert(0, f"{os.path.dirname(os.path.realpath(__file__))}/lib")
from programs import path_of

PLAYER = os.path.realpath(path_of("click_player"))
OPEN = "open\tseats=2 views=1 feeds=a:2 FromDevice(a) -> c :: Counter -> q :: Queue(2) -> ToDevice(b);\t"
DESK = f"case\tA case.\n{OPEN}opened\n"
LINKED = f"{DESK}links\ta a 1\tlinked\n"
CLOSED = f"{DESK}close\t0 1\tclosed 0\n"
FULL = "case\tA case.\nopen\troom=1 Idle -> c :: Counter -> Discard;\topened\n0\tread c.count\ttext 0\n"
# Lines of a script whose last step expects a wrong reply, and the actual reply.
WRONG_REPLIES = [
    (f"case\tA case.\n{OPEN}open\n", "opened"),
    (f"{DESK}0\tread c.count\ttext 1\n", "text 0"),
    (f"{DESK}0\tread c.count\tvalue 31\n", "value 30"),
    (f"{DESK}0\tread c.none\tdone\n", "refused NoHandler"),
    (f"{DESK}put\ta 00\tfull\n", "put"),
    (f"{DESK}put\ta 00\tput\npoll\t0 a 32\tentered 2\n", "entered 1"),
    (f"{DESK}round\t0\tworked 1\n", "worked 0"),
    (f"{DESK}drop\ta\tput\n", "dropped"),
    (f"{DESK}view\t0 read c.count\tNoElement\n", "yes"),
    (f"{DESK}view\t0 learn 0\tno\n", "learned"),
    (f"{DESK}view\t0 names\tc \n", "FromDevice@1 c q ToDevice@4 "),
    (f"{DESK}views\t\t2\n", "1"),
    (f"{DESK}calls\t0\t1\n", "0"),
    (f"{DESK}note\t0\tno\n", "noted"),
    (f"{DESK}close\t0 1\tclosed 1\n", "closed 0"),
    (f"{DESK}close\t0\tclosed 0\n", "seats missing"),
    (f"{DESK}0\tround\tworked 0\nclose\t0 1\tclosed 1\nentry\t0\t1\tround\tworked 0\n", "0\tround\tworked 0"),
    (f"{CLOSED}entry\t0\t0\tround\tworked 0\n", "no entry"),
    (f"{CLOSED}calls\t1\t1\n", "0"),
    (f"{CLOSED}meet\t0\tno\n", "met"),
    (f"{CLOSED}settle\ta\tleft 00\n", "left none"),
    (f"{CLOSED}settle\ta 01\tleft none\n", "left none; no such feed, left 01"),
    (f"{DESK}links\ta a 1\tno\n", "linked"),
    (f"{LINKED}receive\ta 00\tno\n", "link ended, strangers 0, too long 0, no room 0, no memory 0"),
    (f"{LINKED}forward\t0 a\tentered 1, sent 0, lost 0\n", "idle"),
    (f"{LINKED}sweep\t0\tentered 1, sent 0, lost 0; rounds 0\n", "idle"),
    (
        f"{LINKED}counts\ta\tno\n",
        "received 0, strangers 0, too long 0, no room 0, no memory 0, entered 0, sent 0, failed 0",
    ),
    (f"{LINKED}sent\ta\t00\n", "none"),
    ("case\tA case.\nframes\tx/y :: Idle; x/z :: Idle;\tx: x/y x/z|\n", ""),
    (
        "case\tA case.\nframe\t50 60 1 2 30 40 a\tno\n",
        r'<svg xmlns="http://www.w3.org/2000/svg" width="50" height="60" viewBox="0 0 50 60">\0a..</marker>\0a'
        r'<g class="frame" transform="translate(1,2)"><rect rx="8" width="30" height="40"/><text x="8" y="14">a</text></g>\0a</svg>\0a',
    ),
    # The picture is that of tests/pictures.script.
    (
        "case\tA case.\npicture\ts :: InfiniteSource -> d :: Discard;\tno\n",
        r'<svg xmlns="http://www.w3.org/2000/svg" width="172" height="196" viewBox="0 0 172 196">\0a..</marker>\0a<polyline id="c0" points="86,86 86,130"/>\0a'
        r'<g id="e0" transform="translate(20,40)"><rect class="box" width="132" height="46"/><text y="21" x="66">s</text>'
        r'<text class="class" y="33" x="66">InfiniteSource</text><path class="push" d="M62 39h8v7h-8z"/></g>\0a'
        r'<g id="e1" transform="translate(48,130)"><rect class="box" width="76" height="46"/><text y="21" x="38">d</text>'
        r'<text class="class" y="33" x="38">Discard</text><path class="push" d="M33 0h10l-5 7z"/><path class="rim" d="M29 0h18l-9 12z"/></g>\0a</svg>\0a',
    ),
    (f"{FULL}0\tread c.count\ttext 0\n", "history full"),
    (f"{FULL}round\t0\tworked 0\n", "history full"),
    (f"{FULL}calls\t0\t2\n", "1"),
    ("case\tA case.\nmake\tClassifier \\*256(0/00, )-\tmade\n", "21 ArgumentCount"),
    ("case\tA case.\nmake\tStaticIPLookup \\*1025(1.2.3.4 0, )\t26 BadEntry\n", "21 ArgumentCount"),
    ("case\tA case.\nparsed\t\\*2({{}};)\t2 statements, 2 bodies\n", "2 statements, 4 bodies"),
    ("case\tA case.\nprepared\t\\*1048577( )\t0\n", "6 TooLarge"),
]
READS = "< READ x.count\n> 510 No element named 'x'\n< FOO\n> 501 Unimplemented command 'FOO'\n"
FIRST = r"510 No element named 'x'\0d\0a"
SECOND = r"501 Unimplemented command 'FOO'\0d\0a"
BOTH = FIRST + SECOND
COUNTED = "Idle -> c :: Counter -> Discard;"
# A step with a session and its lines, the actual reply, and the expected and the actual output if
# they differ.
WRONG_SESSIONS = [
    (f"session\t0\tquit\n{READS}", "end of input", None),
    (f"session\t0\tend of input\n{READS}> x\n", "end of input", (BOTH + r"x\0d\0a", BOTH)),
    ("session\t0 pieces=1 reads=2\tread failed\n< READ x.count\n", "read failed, 2 reads", None),
    # The input has 17 bytes, and the fourth read finds its end.
    (f"session\t0 pieces=7 reads=9\tend of input, 3 reads\n{READS}", "end of input, 4 reads", None),
    ("session\t0 takes=5 fails=write:1\twrite failed\n", "write failed, no greeting", None),
    (f"run\t{COUNTED}\tend of input, 2 calls\n{READS}", "end of input, 1 calls", None),
    (f"run\tcheck=c.count {COUNTED}\tend of input, 1 calls, no\n{READS}", "end of input, 1 calls, yes", None),
    (f"run\tIdle -> d;\tend of input, 1 calls\n{READS}", "11 UnknownName at 1:9", (BOTH, "")),
    (f"run\tfails=each-read {COUNTED}\tread failed, 0 0 0 calls\n{READS}", "read 14: read failed, 1 calls", (BOTH, FIRST)),
    (f"run\tfails=each-write {COUNTED}\twrite failed, 0 0 0 calls\n{READS}", "write 27: write failed, 1 calls", (BOTH, "")),
    ("port\tfails=each-write\twrite failed, 0 0 calls\n< FOO\n> 501\\\n", "write 0: end of input, 0 calls", ("501", SECOND)),
    (f"port\tpieces=4096,2 fails=write:40\tend of input, 1 calls\n{READS}", "pieces of 2: write failed, 1 calls", (BOTH, BOTH[:56])),
    (f"port\tturns=2\tquit, 1 calls\n{READS}", "gate closed, 1 calls, before 1 0 26, after 1 1 52, before 2 1 52", (BOTH, FIRST)),
    (f"port\twaits\tend of input, 1 calls\n< FOO\n{READS}", "read failed, 1 calls", (BOTH, SECOND + FIRST)),
]
NO_STEP = "the words are not a step that is allowed here"
NO_ESCAPE = "a backslash must be followed by two lower-case hex digits or by *N(TEXT)"
# Lines of a script with a fault, the line number of the fault, and its message.
FAULTS = [
    ("", 1, "the file has no case"),
    ("# A comment.\n\n", 3, "the file has no case"),
    ("case\tA.\ncase\tB.\n", 1, "the case has no step"),
    (f"{DESK}case\tB.\n", 3, "the case has no step"),
    (f"0\tround\tworked 0\n{DESK}", 1, "the step comes before the first case"),
    ("case\t\n", 1, "the case has no sentence"),
    (f"{DESK}0\tround\n", 3, "the step has no expected reply"),
    (f"{DESK}frob\tx\ty\n", 3, NO_STEP),
    (f"{DESK}2\tround\tworked 0\n", 3, NO_STEP),
    (f"{DESK}0\tfrob\tdone\n", 3, NO_STEP),
    (f"{DESK}0\tarrive a 0\tentered 1\n", 3, NO_STEP),
    (f"{DESK}poll\t0 a 0\tentered 0\n", 3, NO_STEP),
    (f"{DESK}poll\t0 a 33\tentered 0\n", 3, NO_STEP),
    (f"{DESK}round\t2\tworked 0\n", 3, NO_STEP),
    (f"{DESK}view\t1 names\t\n", 3, NO_STEP),
    (f"{DESK}view\t0 frob\t\n", 3, NO_STEP),
    (f"{DESK}view\t0 learn note\tlearned\n", 3, NO_STEP),
    (f"{DESK}put\tz 00\tput\n", 3, NO_STEP),
    (f"{DESK}drop\ta\tdropped\nput\ta 00\tput\n", 4, NO_STEP),
    (f"{DESK}{OPEN}opened\n", 3, NO_STEP),
    (f"{DESK}entry\t0\t0\tround\tworked 0\n", 3, NO_STEP),
    (f"{DESK}forward\t0 a\tidle\n", 3, NO_STEP),
    (f"{CLOSED}0\tround\tworked 0\n", 4, NO_STEP),
    (f"{CLOSED}settle\tb\tleft none\n", 4, NO_STEP),
    ("case\tA.\n0\tround\tworked 0\n", 2, NO_STEP),
    (f"{DESK}0\tread c.count\ttext 0\n< x\n", 3, NO_STEP),
    (f"{DESK}0\tread c.\\5C\tdone\n", 3, NO_ESCAPE),
    (f"{DESK}0\tread \\zz\tdone\n", 3, NO_ESCAPE),
    (f"{DESK}0\tread \\*3(ab\tdone\n", 3, NO_ESCAPE),
    (f"{DESK}0\tread \\*x(ab)\tdone\n", 3, NO_ESCAPE),
    (f"{DESK}0\tread c.count\t\\q\n", 3, NO_ESCAPE),
    (f"{DESK}0\tread c.count\\\tdone\n", 3, NO_ESCAPE),
    (f"< x\n{DESK}", 1, "the bytes come before the first step"),
    ("case\tA.\n< x\n", 2, "the bytes come before the first step"),
    (f"{DESK}<x\n", 3, "the mark < or > must be followed by a space"),
    (f"{DESK}session\t2\tquit\n", 3, NO_STEP),
    (f"{DESK}session\t0 frob\tquit\n", 3, NO_STEP),
    (f"{DESK}session\t0 pieces=0\tquit\n", 3, NO_STEP),
    (f"{DESK}session\t0 pieces=1,2\tquit\n", 3, NO_STEP),
    (f"{DESK}session\t0 fails=each-read\tread failed, 0 calls\n", 3, NO_STEP),
    (f"{DESK}session\t0 check=c.count\tquit\n", 3, NO_STEP),
    ("case\tA.\nsession\t0\tquit\n", 2, NO_STEP),
    (f"case\tA.\nrun\treads=1 {COUNTED}\tquit\n", 2, NO_STEP),
    (f"case\tA.\nrun\tturns=1 {COUNTED}\tquit\n", 2, NO_STEP),
    (f"case\tA.\nrun\tfails=each-read {COUNTED}\tread failed, 0 1 calls\n{READS}", 2, NO_STEP),
    (f"case\tA.\nrun\tfails=each-write {COUNTED}\tread failed, 0 1 1 calls\n{READS}", 2, NO_STEP),
    ("case\tA.\nport\tcheck=c.count\tquit\n", 2, NO_STEP),
    ("case\tA.\nport\tIdle;\tquit\n", 2, NO_STEP),
    ("case\tA.\nport\ttakes=x\tquit\n", 2, NO_STEP),
    ("case\tA.\nport\tfails=read\tquit\n", 2, NO_STEP),
]


def play(folder: str, lines: str) -> tuple[int, str, str]:
    """Plays a script of these lines, and returns the player's status, output and standard error."""
    with open(f"{folder}/a.script", "w", encoding="utf-8") as script:
        script.write(lines)
    ran = subprocess.run([PLAYER, "a.script"], cwd=folder, stdout=subprocess.PIPE, stderr=subprocess.PIPE, timeout=120)
    return ran.returncode, ran.stdout.decode(), ran.stderr.decode()


def check(lines: str, expected: tuple[int, str, str], actual: tuple[int, str, str]) -> None:
    """Ends this script with status 1 if the player did not end as expected."""
    if actual != expected:
        print("wrong_scripts.py:", repr(lines), f"expected: {expected}", f"actual:   {actual}", sep="\n  ", file=sys.stderr)
        sys.exit(1)


def report_of(steps: str, reply: str, outputs: tuple[str, str] | None) -> str:
    """Returns the player's report of the last step of a case with a wrong reply or output."""
    lines = steps.splitlines()
    last = max(at for at, line in enumerate(lines) if line[0] not in "<>")
    report = f"a.script:{last + 1}: A case.\n  expected: {lines[last].split(chr(9), 2)[2]}\n  actual:   {reply}\n"
    if outputs:
        report += f"  expected output: {outputs[0]}\n  actual output:   {outputs[1]}\n"
    return report


def main() -> None:
    with tempfile.TemporaryDirectory(prefix="wrong-scripts-") as folder:
        for lines, reply in WRONG_REPLIES:
            last = lines.splitlines()[-1]
            report = f"a.script:{lines.count(chr(10))}: A case.\n  expected: {last.split(chr(9), 2)[2]}\n  actual:   {reply}\n"
            check(lines, (1, f"{report}0 cases passed, 1 failed\n", ""), play(folder, lines))
            # The next case is played.
            more = f"{lines}case\tNext.\nopen\tIdle -> Discard;\topened\n"
            check(more, (1, f"{report}1 cases passed, 1 failed\n", ""), play(folder, more))
        for step, reply, outputs in WRONG_SESSIONS:
            report = report_of(DESK + step, reply, outputs)
            check(DESK + step, (1, f"{report}0 cases passed, 1 failed\n", ""), play(folder, DESK + step))
        for lines, number, why in FAULTS:
            check(lines, (2, "", f"a.script:{number}: {why}\n"), play(folder, lines))
    print(f"wrong_scripts.py: {len(WRONG_REPLIES) + len(WRONG_SESSIONS)} wrong replies and {len(FAULTS)} faults of scripts are reported")


if __name__ == "__main__":
    main()
