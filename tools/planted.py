#!/usr/bin/env python3
"""Checks that a mistake planted in each of ten layers is caught by the script that should catch it.
Each mistake is a mutant of a crate. It is made in a copy of the sources, from which the program is
built unproved. The script then has to fail, with a message that names what the mistake does wrong.
Over the unchanged program it has to pass.

    tools/planted.py [CRATE..]    tries the mistakes in these crates, or all
    tools/planted.py --list       prints each crate, its mistake and the script that should catch it

Each build takes about two minutes of a processor, so the gate runs this only by its name. A
mistake that is not caught is printed on standard error and leads to status 1. The last line is
'N passed, M failed'.
"""

from __future__ import annotations

import functools
import os
import re
import shutil
import subprocess
import sys
import tempfile
from typing import NamedTuple

sys.dont_write_bytecode = True
TOP = os.path.dirname(os.path.dirname(os.path.realpath(__file__)))
sys.path.insert(0, f"{TOP}/tools/lib")
import mutants  # noqa: E402
from programs import VARIABLES  # noqa: E402

# The time limit of a script, in seconds.
SECONDS = 900


class Mistake(NamedTuple):
    """A mutant of a crate, and the script that should catch it over this program.

    `says` is a pattern of the script's message.
    """

    crate: str
    edit: str
    program: str
    script: str
    says: str


class NotCaught(Exception):
    """A mistake that is not caught as it should be; the text says why."""


def played(crate: str, edit: str, script: str, sentence: str, wanted: str, came: str) -> Mistake:
    """Returns a mistake that a case of a test script should catch, by a wrong reply.

    The report has the sentence of the case, which may be given only by its first words.
    """
    lines = (rf"tests/{script}\.script:\d+: {re.escape(sentence)}.*", f"  expected: {re.escape(wanted)}", f"  actual:   {re.escape(came)}")
    return Mistake(crate, edit, "click_player", f"tools/test_scripts.sh tests/{script}.script", "\n".join(lines))


# A datagram of UDP without the fragment word and what follows it, and what a transmit says of it.
BEFORE, AFTER = "sent 450000180000", "401100000a0100020a02000900500051 0 0.0.0.0"
NAMED = r"a :: Idle;\0aQueue@{0} :: Queue;\0ab :: Discard;\0aa -> Queue@{0};\0aQueue@{0} -> [1] b;\0a"
REPLIED = r"530 Handler 'c\.count' {}-only"
MISTAKES = (
    # The byte of the escape \t.
    played("click_text", "by-hand/escaped__reads_a_tab_as_a_line_feed", "arguments", "A quoted argument is unquoted to its bytes", r'\0d\09q"\5cn', r'\0d\0aq"\5cn'),
    # The generated name of the second element.
    played("click_scopes", "by-hand/numbered__counts_from_0", "expansion", "In the flat form each element has a name", NAMED.format(2), NAMED.format(1)),
    # Tee(257).
    played("click_classes", "by-hand/copies__accepts_257_outputs", "classes", "A Tee and a PullTee accept", "24 OutOfRange", "made"),
    # The first packet, which is a later fragment, goes through a filter of ports.
    played("click_filter", "wrong-bodies/transport_at__reads_later_fragments", "patterns", "The transport header is in first fragments only", f"{BEFORE}0000{AFTER}", f"{BEFORE}0001{AFTER}"),
    # A burst of two packets.
    played("click_engine", "wrong-bodies/emit_burst__emits_one_packet_less", "packets", "An InfiniteSource emits bursts", "worked 2", "worked 1"),
    # The count behind a port of a Suppressor that a write of `false` leaves active.
    played("click_handlers", "wrong-bodies/write_port__negates_the_flag", "handlers", "A write deactivates a port of a Suppressor", "text 0", "text 1"),
    # The second call at a desk with room for one entry; the value is in hex digits.
    played("click_desk", "wrong-bodies/is_full__accepts_one_entry_more", "seats", "A desk with room for one entry refuses the second call", "history full", "value 30"),
    # Of the packets, of two, of no and of two bytes, only the empty one counts as sent.
    played("click_links", "wrong-bodies/send_one__sends_nothing", "links", "A device turn sends three packets in order", "entered 3, sent 3, lost 0", "entered 3, sent 1, lost 2"),
    # The line of a session.
    Mistake(
        "click_control",
        "by-hand/push_wrong_way__reports_read_only_as_write_only",
        "click_player",
        "tools/test_scripts.sh tests/commands.script",
        rf"tests/commands\.script:\d+: A write of a read-only handler is answered 530\.\n(?:  .*\n)*  expected output: .*{REPLIED.format('read')}.*\n  actual output:   .*{REPLIED.format('write')}",
    ),
    # A request for the name of another machine, as a page of another site can send it.
    Mistake("click_page", "wrong-bodies/has_own_host__accepts_a_foreign_host", "click_prog", "tools/page.py --part sockets", r"FAILED  a foreign Host is refused: Host evil\.example: wanted 403, came 200"),
)


def build(top: str, program: str) -> str:
    """Builds the unproved program of a checkout and returns its path."""
    ran = subprocess.run([f"{top}/tools/quick_build.py", program], stdin=subprocess.DEVNULL, capture_output=True, text=True, errors="replace", check=False)
    path = f"{top}/crates/{program}/out/quick/{program}"
    if ran.returncode or not os.access(path, os.X_OK):
        raise NotCaught(f"the program is not built: {ran.stderr[-600:]}")
    return path


def run_script(script: str, program: str, path: str) -> tuple[int | None, str]:
    """Returns the status and the output of a script over a program.

    The status is None if the script exceeded its time limit.
    """
    try:
        ran = subprocess.run(["bash", "-c", f"exec {script}"], cwd=TOP, env={**os.environ, VARIABLES[program]: path}, stdin=subprocess.DEVNULL, stdout=subprocess.PIPE, stderr=subprocess.STDOUT, text=True, errors="replace", timeout=SECONDS, check=False)
    except subprocess.TimeoutExpired:
        return None, f"not done after {SECONDS} s"
    return ran.returncode, ran.stdout


@functools.cache
def passes_unchanged(script: str, program: str) -> None:
    """Checks that a script passes over the unchanged program."""
    status, said = run_script(script, program, build(TOP, program))
    if status != 0:
        raise NotCaught(f"{script} fails over the unchanged {program}: {said[-600:]}")


def plant(mistake: Mistake, room: str) -> None:
    """Copies the sources to a folder and makes the mistake there."""
    for part in ("crates", "tools"):
        shutil.copytree(f"{TOP}/{part}", f"{room}/{part}", ignore=shutil.ignore_patterns("out"))
    shutil.copy(f"{TOP}/crates.txt", room)
    shutil.copy(f"{TOP}/HANDLES", room)
    folder = f"{room}/crates/{mistake.crate}"
    edit = mutants.read_edit(mistake.crate, folder, f"{folder}/{mistake.edit}.edit")
    mutants.write_all(folder, mutants.changed(folder, {}, edit))


def caught(mistake: Mistake) -> str:
    """Returns the message by which the script catches the mistake. Raises NotCaught."""
    passes_unchanged(mistake.script, mistake.program)
    with tempfile.TemporaryDirectory(prefix="planted-") as room:
        plant(mistake, room)
        status, said = run_script(mistake.script, mistake.program, build(room, mistake.program))
    if status == 0:
        raise NotCaught(f"{mistake.script} passes")
    found = re.search(mistake.says, said)
    if not found:
        raise NotCaught(f"{mistake.script} does not name it: {said[-600:]}")
    return found[0]


def main(names: list[str]) -> int:
    if names == ["--list"]:
        print("".join(f"{it.crate}  {it.edit}  {it.script}\n" for it in MISTAKES), end="")
        return 0
    unknown = sorted(set(names) - {it.crate for it in MISTAKES})
    if unknown:
        print(f"planted.py: there is no mistake in {' '.join(unknown)}; --list names the crates", file=sys.stderr)
        return 2
    chosen, failed = [it for it in MISTAKES if not names or it.crate in names], 0
    for it in chosen:
        try:
            print(f"{it.crate}: {os.path.basename(it.edit)}: caught by {it.script}:\n{caught(it)}", flush=True)
        except (NotCaught, mutants.BadEdit) as why:
            failed += 1
            print(f"{it.crate}: {os.path.basename(it.edit)}: NOT CAUGHT: {why}", file=sys.stderr, flush=True)
    print(f"{len(chosen) - failed} passed, {failed} failed")
    return 1 if failed else 0


if __name__ == "__main__":
    sys.exit(main(sys.argv[1:]))
