#!/usr/bin/env python3
"""Runs the merge gate, or parts of it. ./test.sh calls it.

    ./test.sh                   runs all parts: the scripts over unproved programs, the proofs,
                                the mutants, and the scripts over the proved programs
    ./test.sh --quick           builds unproved programs and runs the scripts over them
    ./test.sh [--quick] PART..  runs these parts over the proved programs that an earlier run
                                built; with --quick, over unproved programs
    ./test.sh --list            prints the name and the purpose of each part

A part runs even if an earlier one failed. If its program is not built, it is not run and counts as
failed. At the end the gate prints the times of each part (also in out/gate-times.txt), what the
parts left out for lack of a package, the failures, and `N passed, M failed`. The output of each
part is in out/gate/. The exit status is 0 if all parts passed, 1 if one failed, and 2 for a name
that is not a part.
"""

from __future__ import annotations

import hashlib
import os
import signal
import subprocess
import sys
import time
from typing import NamedTuple

sys.dont_write_bytecode = True
sys.path.insert(0, f"{os.path.dirname(os.path.realpath(__file__))}/lib")
from programs import PROGRAMS, TOP, VARIABLES, proved_path, unproved_path
from running import Run, Running, minutes, say

OUT = f"{TOP}/out"
TIMES = f"{OUT}/gate-times.txt"
# The processor minutes that the proofs took for each crate.
CRATE_TIMES = f"{OUT}/crate-times.txt"
# The programs that were proved, each with the checksums of its sources and of the program.
PROVED = f"{OUT}/proved.txt"


class Part(NamedTuple):
    """A part of the gate.

    It has a command and needs these programs. Two parts with a common lock never run at the same
    time. A part that exceeds its number of minutes is killed.
    """

    name: str
    sentence: str
    command: str
    needs: tuple[str, ...] = ()
    locks: tuple[str, ...] = ()
    minutes: float = 30

    @property
    def processors(self) -> int:
        """Returns the number of processors to reserve: 2 for a part that measures time, else 1."""
        return 2 if "time" in self.locks else 1


PROG, PLAYER = PROGRAMS

# The parts that need no program (run.sh is tested with programs of its own). They run once.
TEXTS = (
    Part("run_sh", "run.sh builds if it has to, reports progress, and becomes the program", "tools/run_sh_test.sh"),
    Part("links", "pages name only files, headings, functions and definitions that exist", "tools/links.py"),
    Part("definitions", "each definition that a contract cites has a row in its crate's README", "tools/definitions.py"),
    Part("mutant_names", "each mutant is named by the function that it changes and by the mutation", "tools/mutants.py --check-names"),
    Part("tests_page", "docs/TESTS.md has the sentences of the tests", "tools/tests_page.py --check"),
    Part("elements_page", "docs/ELEMENTS.md has the manual pages of the code", "tools/elements_page.py --check"),
    Part("prose", "the number of findings of tools/prose.py is the one that is stored", "tools/prose.py --check-count"),
    Part("lint", "shellcheck and ruff, if installed, find nothing in the scripts", "tools/lint.sh"),
    Part("page_text", "the program serves the page that is in page.html", "tools/page_text.py --check"),
)

# The parts that run over programs, the longest first. No two parts that listen on port 7777 run at
# the same time, and no two that measure time.
SCRIPTS = (
    Part("hostile", "hostile clients do not affect other sessions", "tools/hostile.sh", (PROG,), ("time",)),
    Part("udp_links", "each packet of a UDP link arrives or is counted", "tools/udp_links.py", (PROG,), ("time",)),
    Part("scripts", "the test scripts of tests/ get the replies that they expect", "tools/test_scripts.sh", (PLAYER,)),
    Part("wrong_scripts", "the player reports each wrong reply, and each fault of a script", "tools/wrong_scripts.py", (PLAYER,)),
    Part("alloc_scripts", "each allocation of tests/memory.script, of swaps of a full queue, of a view and of a link is refused in turn", "tools/alloc_failures.py scripts full_swaps views datagrams", (PLAYER,)),
    Part("alloc_session", "each allocation of some sessions is refused in turn", "tools/alloc_failures.py session", (PROG,)),
    Part("alloc_calls", "each allocation of calls and swaps is refused in turn", "tools/alloc_failures.py calls", (PROG,)),
    Part("examples", "the examples of pages and files give the output that they show", "tools/examples.py", (PROG, PLAYER), ("7777",)),
    Part("tutorial", "the commands of docs/TUTORIAL.md print what it shows", "tools/tutorial.py", (PROG,)),
    Part("sessions", "concurrent sessions over TCP get replies that one thread could get", "tools/sessions.sh", (PROG,), ("7777",)),
    Part("service", "sessions end in time, lose no reply at their end, leave nothing behind, and swaps return memory", "tools/service.py", (PROG,), ("time",)),
    Part("log", "--log prints a line for each session, swap and write, which no client can forge", "tools/session_log.py", (PROG,)),
    Part("filters", "IPFilter and IPClassifier decide, and refuse texts, as a model of their patterns does, and tcpdump", "tools/filters.py", (PROG,)),
    Part("gateway", "the router connects two Linux networks", "examples/gateway/run.sh", (PROG,)),
    Part("ethernet", "the router answers ARP and ICMP between two Ethernets with Linux hosts", "examples/ethernet/run.sh", (PROG,)),
    Part("testbed", "a line, a ring and a tree of routers carry pings over swaps, around a dead router and in a flood", "examples/testbed/run.sh --test", (PROG,), ("time",)),
    Part("page", "the page answers, shows and controls a running router", "tools/page.py", (PROG,)),
    Part("install", "what ./install.sh installs works, and is removed completely", "tools/install.py", (PROG,)),
    Part("package", "the Debian package works in a clean root, with systemd", "tools/package.py", (PROG,)),
    Part("alloc_swaps", "each allocation of a session with swaps is refused in turn", "tools/alloc_failures.py swaps", (PROG,)),
    Part("alloc_drivers", "each allocation of a session with drivers is refused in turn", "tools/alloc_failures.py drivers", (PROG,)),
    Part("alloc_pictures", "each allocation of a drawing is refused in turn", "tools/alloc_failures.py pictures", (PROG,)),
    Part("alloc_pcap", "each allocation of a capture is refused in turn", "tools/alloc_failures.py pcap", (PROG,)),
    Part("swap_faults", "a swap to a faulty configuration changes nothing", "tools/swap_faults.sh", (PROG,)),
    Part("swap_sizes", "swaps at the limits take over each packet", "tools/swap_sizes.sh", (PROG,)),
    Part("client", "a client that waits for each reply gets it", "tools/client.sh", (PROG,)),
    Part("clickctl", "clickctl and its library answer byte by byte, also over wrong routers", "tools/clickctl.py", (PROG,)),
)

PROOFS = Part("proofs", "everything that is not kept is proved, with its tests, stored runs and must-fail mutants", "tools/lib/proofs.sh", minutes=600)
MUTANTS = Part("mutants", "the prover refuses the mutants of the crates that changed, and a tenth of the others", "tools/mutants.py --changed --record-to out/mutants.txt", minutes=600)

# The parts that show that the scripts and tools can fail. They need proofs of some small crates, so
# --quick runs them only by name. They run once.
WRONGS = (
    Part("mutants_test", "the runner of the mutants reports those that are not refused, and faulty edits", "tools/mutants_test.sh"),
    Part("mutants_wrongs", "the test of this runner fails over a wrong runner", "tools/mutants_test.sh --wrongs"),
    Part("run_sh_wrongs", "each test of run.sh fails over a wrong run.sh", "tools/run_sh_test.sh --wrongs"),
    Part("page_wrongs", "the checks of the page without a browser fail over a wrong router", "tools/page.py --wrongs sockets figures connections prometheus"),
    Part("clickctl_wrongs", "the checks of clickctl fail over wrong clients", "tools/clickctl.py --wrongs", (PROG,)),
    Part("filters_wrongs", "the comparison of the filters fails over wrong models and wrong translations", "tools/filters.py --wrong", (PROG,)),
    Part("wrong_testbeds", "the testbed refuses wrong configurations, swaps and scripts", "examples/testbed/run.sh --wrongs", (PROG,), ("time",)),
    Part("install_wrongs", "each check of the installation fails over a wrong script or unit", "tools/install.py --wrongs", (PROG,)),
    Part("package_wrongs", "each check of the package fails over a wrong script or unit", "tools/package.py --wrongs", (PROG,)),
    Part("wrong_network", "the scripts of sessions and links refuse wrong programs", "tools/wrong_programs.sh network", (PROG,), ("time",)),
    Part("wrong_programs", "the other scripts refuse wrong programs", "tools/wrong_programs.sh programs", (PROG, PLAYER), ("7777",)),
    Part("wrong_pages", "the scripts refuse wrong pages and examples", "tools/wrong_programs.sh pages", (PROG, PLAYER), ("7777",)),
    Part("wrong_values", "the player reports a wrong value in each test script", "tools/wrong_programs.sh scripts", (PLAYER,)),
    Part("wrong_gate", "the runner of the gate fails if a part fails or is not run", "tools/wrong_programs.sh gate"),
    Part("wrong_planted", "a planted mistake that its script does not catch is reported", "tools/wrong_programs.sh planted"),
)

# The parts that run only if they are named.
EXTRA = (
    Part("tries", "README's commands that try unproved programs work (two builds)", "tools/examples.py tries"),
    Part("planted", "a mistake in each of ten layers is caught by the script that should catch it (twelve builds)", "tools/planted.py", minutes=120),
)

ALL = (*TEXTS, *SCRIPTS, PROOFS, MUTANTS, *WRONGS, *EXTRA)


def run_of(part: Part, over: str = "", variables: dict[str, str] | None = None) -> Run:
    return Run(part.name, over, part.command, part.needs, part.locks, variables or {}, part.minutes, part.processors)


def sum_of_all() -> str:
    """Returns one checksum of all sources from which the programs are proved."""
    files = [f"{TOP}/crates.txt", f"{TOP}/HANDLES"]
    for crate in os.listdir(f"{TOP}/crates"):
        for part in ("src", "specs", "proofs"):
            files += [f"{folder}/{it}" for folder, _, names in os.walk(f"{TOP}/crates/{crate}/{part}") for it in names]
    whole = hashlib.sha256(subprocess.run(["bash", "-c", "rt version"], capture_output=True, check=False).stdout)
    for file in sorted(files):
        whole.update(f"{os.path.relpath(file, TOP)} {sum_of(file)}\n".encode())
    return whole.hexdigest()


def sum_of(file: str) -> str:
    with open(file, "rb") as it:
        return hashlib.sha256(it.read()).hexdigest()


def built_programs() -> list[str]:
    return [it for it in PROGRAMS if os.access(proved_path(it), os.X_OK)]


def note_proved(sources: str) -> None:
    """Records the programs that were just proved, and the checksum of their sources."""
    with open(PROVED, "w", encoding="ascii") as it:
        it.writelines(f"{name} {sources} {sum_of(proved_path(name))}\n" for name in built_programs())


def proved_programs() -> set[str]:
    """Returns the programs that an earlier run proved from the present sources."""
    if not os.path.exists(PROVED):
        return set()
    sources = sum_of_all()
    with open(PROVED, encoding="ascii") as it:
        noted = it.read().splitlines()
    return {name for name in built_programs() if f"{name} {sources} {sum_of(proved_path(name))}" in noted}


def run_unproved(parts: list[Part], running: Running) -> list[Run]:
    """Builds, unproved, the programs that the parts need, and runs the parts over them."""
    needed = [it for it in PROGRAMS if any(it in part.needs for part in parts)]
    # Most parts need click_prog, and some measure time, so the other builds have a lower priority.
    runs = [Run(f"build_{it}", "", f"nice -n {0 if it == PROG else 10} tools/quick_build.py {it}", makes=it, product=unproved_path(it)) for it in needed]
    variables = {VARIABLES[it]: unproved_path(it) for it in PROGRAMS}
    runs += [run_of(it, "unproved", variables) if it.needs else run_of(it) for it in parts]
    running.programs = set()
    running.all_of(runs)
    return runs


def run_proofs(running: Running) -> list[Run]:
    """Proves everything and records the programs that this builds.

    Programs of earlier runs are removed first, so that no part tests a program of other sources.
    """
    for name in PROGRAMS:
        if os.path.exists(proved_path(name)):
            os.remove(proved_path(name))
    sources, runs = sum_of_all(), [run_of(PROOFS)]
    running.all_of(runs, alone=True)
    if not runs[0].why:
        note_proved(sources)
    return runs


def run_proved(parts: list[Part], running: Running, programs: set[str]) -> list[Run]:
    """Runs the parts over the proved programs, in parallel."""
    running.programs = programs
    runs = [run_of(it, "proved" if it.needs else "") for it in parts]
    running.all_of(runs)
    return runs


def run_full(running: Running) -> list[Run]:
    """Runs the whole gate.

    The scripts run twice: first over unproved programs, so that a wrong program is found before the
    long proofs, and then over the proved ones. A failure in either run fails the gate.
    """
    say("scripts over unproved programs, so that a wrong program is found before the proofs")
    runs = run_unproved([*TEXTS, *SCRIPTS], running)
    say("proofs")
    runs += run_proofs(running)
    say("mutants")
    runs.append(run_of(MUTANTS))
    running.all_of(runs[-1:], alone=True)
    say("scripts over the proved programs")
    return runs + run_proved([*SCRIPTS, *WRONGS], running, set(built_programs()))


def run_named(parts: list[Part], running: Running) -> list[Run]:
    """Runs these parts, in the order of the gate, over the proved programs."""
    runs = run_proofs(running) if PROOFS in parts else []
    if MUTANTS in parts:
        runs.append(run_of(MUTANTS))
        running.all_of(runs[-1:], alone=True)
    rest = [it for it in parts if it not in (PROOFS, MUTANTS)]
    programs = set(built_programs()) if PROOFS in parts else proved_programs() if any(it.needs for it in rest) else set()
    return runs + run_proved(rest, running, programs)


def table_of(runs: list[Run], clock: float) -> str:
    """Returns a table with the times of each run, in minutes."""
    rows = [("part", "over", "processors", "clock", "result")]
    rows += [(it.name, it.over, minutes(it.processors), minutes(it.clock), it.result) for it in runs]
    rows.append(("all", "", minutes(sum(it.processors for it in runs)), minutes(clock), ""))
    name, over = (max(len(it[at]) for it in rows) for at in (0, 1))
    return "".join(f"{row[0]:{name}}  {row[1]:{over}}  {row[2]:>10}  {row[3]:>7}  {row[4]}".rstrip() + "\n" for row in rows)


def left_out_of(runs: list[Run]) -> str:
    """Returns a line for each check that a run left out, as its output says."""
    begins = "left out: "
    found = [(run.title, line.removeprefix(begins)) for run in runs for line in run.lines() if line.startswith(begins)]
    return "".join(f"    {title}: {what}\n" for title, what in dict.fromkeys(found))


def report(runs: list[Run], clock: float) -> int:
    """Prints the table, what was left out, the end of each failed run's output, and the counts.

    Returns the status.
    """
    table = table_of(runs, clock)
    with open(TIMES, "w", encoding="utf-8") as it:
        it.write(table)
    say(f"what each part took, in minutes (also in {os.path.relpath(TIMES, TOP)})")
    print(table, end="")
    if any(it.name == PROOFS.name for it in runs) and os.path.exists(CRATE_TIMES):
        say("what the proofs took, in minutes of processors")
        with open(CRATE_TIMES, encoding="ascii") as it:
            print(it.read(), end="")
    left_out = left_out_of(runs)
    say("left out for lack of a package or a right:" if left_out else "nothing was left out")
    print(left_out, end="")
    failed = [it for it in runs if it.why]
    for run in failed:
        say(f"FAILED: {run.title}: {run.why}")
        print("".join(f"    {it}\n" for it in run.lines()[-12:]), end="")
    print(f"{len(runs) - len(failed)} passed, {len(failed)} failed", flush=True)
    return 1 if failed else 0


def interrupted(*_: object) -> None:
    """Handles SIGTERM as Ctrl-C."""
    raise KeyboardInterrupt


def parts_of(words: list[str], is_quick: bool) -> list[Part]:
    """Returns the parts of these names, or exits with status 2 if there is no such part."""
    known = {it.name for it in ALL if not is_quick or it not in (PROOFS, MUTANTS, *EXTRA)}
    unknown = [it for it in words if it not in known]
    if unknown:
        print(f"test.sh: there is no part {' '.join(unknown)}{' with --quick' if is_quick else ''}; ./test.sh --list names the parts", file=sys.stderr)
        sys.exit(2)
    return [it for it in ALL if it.name in words]


def main(words: list[str]) -> int:
    if words == ["--list"]:
        print("".join(f"{it.name:{max(len(part.name) for part in ALL)}}  {it.sentence}\n" for it in ALL), end="")
        return 0
    is_quick = words[:1] == ["--quick"]
    parts = parts_of(words[is_quick:], is_quick)
    signal.signal(signal.SIGTERM, interrupted)
    begun = time.monotonic()
    running = Running(f"{OUT}/gate", len(os.sched_getaffinity(0)))
    os.chdir(TOP)
    for name in VARIABLES.values():
        os.environ.pop(name, None)
    if is_quick:
        print("test.sh --quick: NOTHING IS PROVED: this tries unproved programs", flush=True)
    try:
        if is_quick:
            runs = run_unproved(parts or [*TEXTS, *SCRIPTS], running)
        else:
            runs = run_named(parts, running) if parts else run_full(running)
    except KeyboardInterrupt:
        running.end_all()
        say("interrupted")
        return 130
    status = report(runs, time.monotonic() - begun)
    if is_quick:
        print("test.sh --quick: NOTHING WAS PROVED", flush=True)
    return status


if __name__ == "__main__":
    sys.exit(main(sys.argv[1:]))
