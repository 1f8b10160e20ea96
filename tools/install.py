#!/usr/bin/env python3
"""Checks ./install.sh: the files that it installs, and a router that the installed clickd starts,
changes and refuses to change.

    tools/install.py [CHECK..]              makes all checks, or these
    tools/install.py --wrongs [NAME..]      checks that they fail over wrong scripts and units

Everything is installed into a temporary folder, from a copy of the scripts. The program is the
proved one, or the one that PROGRAM names. A check whose tool is missing is left out, which a line
says.
"""

from __future__ import annotations

import os
import re
import shlex
import shutil
import signal
import socket
import subprocess
import sys
import threading
import time
import urllib.request
from collections.abc import Iterator
from contextlib import ExitStack, contextmanager, suppress
from unittest.mock import patch

sys.dont_write_bytecode = True
sys.path.insert(0, f"{os.path.dirname(os.path.realpath(__file__))}/lib")
from alerts import metrics_of, test_of
from installing import SECONDS, Edit, LeftOut, Ran, Tree, Wrong, ask, files_below, free_ports, has, main_of, ran, same, until, value_of

PREFIX = "usr/local"
FILES = {
    "bin/click_prog": "755",
    "libexec/click/clickd": "755",
    "lib/systemd/system/click@.service": "644",
    "share/bash-completion/completions/click_prog": "644",
    "share/man/man1/click_prog.1": "644",
    "share/man/man5/click.5": "644",
    "share/doc/wuthkeam/examples/line.click": "644",
    "share/doc/wuthkeam/examples/line.conf": "644",
    "share/doc/wuthkeam/examples/alerts.yml": "644",
}
FILES_OF_CLICKCTL = {
    "bin/clickctl": "-> ../lib/click/clickctl",
    "lib/click/clickctl": "755",
    "lib/click/click_client.py": "644",
    "share/bash-completion/completions/clickctl": "644",
    "share/man/man1/clickctl.1": "644",
}
# The exposure that `systemd-analyze security` has to stay below.
MAX_EXPOSURE = 2.0
OLD = b"// The old text, with lines at its end.\nIdle -> c :: Counter -> Discard;\n\n"
NEW = b"InfiniteSource(ab, 5, 1) -> d :: Counter -> Discard;\n"
FAULTY = b"Idle -> Discard;\nIdle -> nowhere;\n"
FAULT = "11 UnknownName at 2:9"


# ---- What is installed


def only_proved(tree: Tree) -> None:
    """Checks that a program is installed only if it is proved from the present sources."""
    tree.install()
    tree.write("crates/click_prog/src/main.rt", b"// changed\n")
    shutil.rmtree(tree.dest)
    try:
        did = tree.run("./install.sh")
        same((5, ""), (did.status, did.out), "an installation of a program that is not proved")
        for line in ("crates/click_prog/out/click_prog is not proved from the present sources", "./run.sh --version proves and builds it", "./install.sh --quick"):
            has(did.err, f"install.sh: {line}", "why it is refused")
        same({}, files_below(tree.dest), "what a refused installation left")
    finally:
        tree.write("crates/click_prog/src/main.rt", b"\n")
    without = f"{tree.folder}/without"
    os.makedirs(without, exist_ok=True)
    for name in ("bash", "dirname", "readlink", "cat", "env"):
        if not os.path.exists(f"{without}/{name}"):
            os.symlink(shutil.which(name) or "", f"{without}/{name}")
    did = tree.run("./install.sh", PATH=without)
    same(5, did.status, "an installation without rt")
    has(did.err, "install.sh: the command rt of the toolchain is not on the PATH", "an installation without rt")


def says_unproved(tree: Tree) -> None:
    """Checks that --quick installs the unproved program and says so, and only then."""
    for word in ("", "--quick"):
        did = tree.install(*filter(None, [word]))
        with open(f"{tree.dest}/{PREFIX}/bin/click_prog", "rb") as it:
            same(True, it.read() == tree.programs[word], f"./install.sh {word} installs the program unchanged")
        same(word == "--quick", "NOT PROVED" in did.err, f"./install.sh {word} says that the program is not proved")
    tree.write("tools/fails", b"")
    did = tree.run("./install.sh", "--quick")
    os.remove(f"{tree.top}/tools/fails")
    same(5, did.status, "a build that fails")


def files(tree: Tree) -> None:
    """Checks the list of files with their modes, in two prefixes."""
    wanted = {**FILES, **(FILES_OF_CLICKCTL if tree.has_clients else {})}
    for words in ([], ["/opt/a/"]):
        tree.install(*words)
        prefix = words[0].strip("/") if words else PREFIX
        same({f"{prefix}/{it}": mode for it, mode in wanted.items()}, files_below(tree.dest), f"the files in /{prefix}")
        same(True, os.path.isdir(f"{tree.dest}/etc/click"), "the folder of the configurations")
    unit = open(f"{tree.dest}/{prefix}/lib/systemd/system/click@.service", encoding="utf-8").read()
    has(unit, "ExecStart=/opt/a/libexec/click/clickd run /etc/click/%i.click $OPTIONS\n", "the unit")


def wrong_words(tree: Tree) -> None:
    """Checks that wrong words are refused, and that nothing is installed then."""
    shutil.rmtree(tree.dest, ignore_errors=True)
    for words in (["--fast"], ["here"], ["/a b"], ["/a|b"], ["/a", "/b"], ["--quick", "--uninstall"]):
        did = tree.run("./install.sh", *words)
        same((2, ""), (did.status, did.out), f"./install.sh {words}")
        has(did.err, "install.sh: ", f"./install.sh {words}")
    same({}, files_below(tree.dest), "what was installed")


def never_half(tree: Tree) -> None:
    """Checks that nothing is installed if one of the files cannot be made."""
    shutil.rmtree(tree.dest, ignore_errors=True)
    os.rename(f"{tree.top}/docs/CONTROL.md", f"{tree.top}/docs/ELSEWHERE.md")
    did = tree.run("./install.sh")
    os.rename(f"{tree.top}/docs/ELSEWHERE.md", f"{tree.top}/docs/CONTROL.md")
    same((1, ""), (did.status, did.out), "an installation without a page")
    same({}, files_below(tree.dest), "what it installed")


def uninstalls(tree: Tree) -> None:
    """Checks that --uninstall removes the files of the installation and no others."""
    tree.installed()
    foreign = ["etc/click/a.click", "etc/click/a.conf", f"{PREFIX}/bin/other", f"{PREFIX}/share/man/man1/other.1", f"{PREFIX}/lib/systemd/system/other.service"]
    for name in foreign:
        with open(f"{tree.dest}/{name}", "w", encoding="ascii") as it:
            it.write("x")
    for _ in range(2):
        did = tree.run("./install.sh", "--uninstall")
        same((0, ""), (did.status, did.err), "./install.sh --uninstall")
        same(sorted(foreign), sorted(files_below(tree.dest)), "the files that are left")
    for folder in ("libexec/click", "lib/click", "share/doc/wuthkeam"):
        same(False, os.path.exists(f"{tree.dest}/{PREFIX}/{folder}"), f"a folder {folder}")


def upgrades(tree: Tree) -> None:
    """Checks that an installation over a running router leaves that router alone."""
    tree.installed()
    with started(tree, OLD) as (port, process):
        did = tree.run("./install.sh", "--quick")
        same(0, did.status, f"an installation over a running router: {did.err}")
        same(OLD, value_of(port, "config"), "the configuration that runs")
        same(None, process.poll(), "the end of the router")


def pages(tree: Tree) -> None:
    """Checks that the manual pages are printed without warnings, with all options and statuses."""
    if not shutil.which("man"):
        raise LeftOut("there is no man (apt-get install man-db)")
    tree.installed()
    shown = {}
    for name in ("man1/click_prog.1", "man5/click.5", *(["man1/clickctl.1"] if tree.has_clients else [])):
        did = ran("man", "--warnings", "-E", "UTF-8", "-l", f"{tree.dest}/{PREFIX}/share/man/{name}", env={**os.environ, "MANWIDTH": "160", "LC_ALL": "C.UTF-8", "MANPAGER": "cat"})
        same((0, ""), (did.status, did.err), f"the warnings of {name}")
        shown[name] = " ".join(did.out.split())
    text = ran(f"{tree.dest}/{PREFIX}/bin/click_prog", "--help").err
    for option in re.findall(r"^ +(-\w|--\w+)", text, re.M):
        has(shown["man1/click_prog.1"], option, "click_prog.1")
    for part in ("EXIT STATUS", "4 A socket could not be opened", "530 Permission denied for 'H'", 'outcome=fault fault="11 UnknownName at 2:9"', "or --help or --version was given"):
        has(shown["man1/click_prog.1"], part, "click_prog.1")
    for part in ("/etc/click/NAME.click", "/etc/click/NAME.conf", "OPTIONS=", "systemctl reload"):
        has(shown["man5/click.5"], part, "click.5")
    for name, page in shown.items():
        if re.search(r"\]\(|`` |\*\*|\|---", page):
            raise Wrong(f"{name} has marks of Markdown")
    if tree.has_clients:
        for part in ("EXIT STATUS 0 done", "usage: clickctl swap", "SWAPS A fault (FAULTS.md) is printed", "$ clickctl watch c.count"):
            has(shown["man1/clickctl.1"], part, "clickctl.1")


def completed(tree: Tree, *words: str) -> list[str]:
    """Returns what bash offers for the last of the words of a command line."""
    script = 'source "$1"; shift; COMP_WORDS=("$@"); COMP_CWORD=$(($# - 1)); "_$1"; printf "%s\\n" "${COMPREPLY[@]}"'
    share = f"{tree.dest}/{PREFIX}/share/bash-completion/completions/{words[0]}"
    did = ran("bash", "-c", script, "bash", share, *words, env={**os.environ, "PATH": f"{tree.dest}/{PREFIX}/bin:{os.environ['PATH']}"})
    same((0, ""), (did.status, did.err), f"the completion of {words}")
    return did.out.split()


def completes(tree: Tree) -> None:
    """Checks what the completions offer."""
    tree.installed()
    text = ran(f"{tree.dest}/{PREFIX}/bin/click_prog", "--help").err
    every = sorted(re.findall(r"(?<![\w-])--?\w[\w-]*(?=[ ,\n])", "\n".join(re.findall(r"^ {2,6}(-.*?)  ", text, re.M)) + "\n"))
    same(sorted({*every, "--calls", "--pcap"}), sorted(completed(tree, "click_prog", "-")), "all words")
    same(["--readonly"], completed(tree, "click_prog", "-e", "", "--re"), "--re")
    same(["--calls"], completed(tree, "click_prog", "--ca"), "--ca as the first word")
    same([], completed(tree, "click_prog", "-w", "1", "--ca"), "--ca as a later word")
    same(["--replay"], completed(tree, "click_prog", "--calls", "--re"), "--re after --calls")
    same(["--in"], completed(tree, "click_prog", "--pcap", "--i"), "--i after --pcap")
    same([], completed(tree, "click_prog", "-p", ""), "the value of -p of click_prog")
    share = f"{tree.dest}/{PREFIX}/share/bash-completion/completions/click_prog"
    has(ran("bash", "-c", f"source {share}; complete -p click_prog").out, "-F _click_prog click_prog", "complete -p")
    if tree.has_clients:
        completes_clickctl(tree)


def completes_clickctl(tree: Tree) -> None:
    """Checks what the completion of clickctl offers, also of a running router."""
    same(["swap"], completed(tree, "clickctl", "-p", "7777", "s"), "s of clickctl")
    same([f"{tree.top}/crates.txt"], completed(tree, "clickctl", "swap", f"{tree.top}/crates."), "the file of swap")
    same([], completed(tree, "clickctl", "-p", ""), "the value of -p of clickctl")
    with started(tree, b"Idle -> count :: Counter -> cue :: Queue -> Discard;") as (port, _):
        same(["count.", "cue."], completed(tree, "clickctl", "-p", str(port), "read", "c"), "elements")
        same(["count.byte_count"], completed(tree, "clickctl", "-p", str(port), "watch", "count.b"), "handlers of an element")
        for command, writes in (("read", False), ("watch", False), ("wait", False), ("write", True)):
            wanted = ["cue.capacity", *(["cue.reset", "cue.reset_counts"] if writes else ["cue.drops", "cue.highwater_length", "cue.length"])]
            same(wanted, completed(tree, "clickctl", "-p", str(port), command, "cue."), f"the handlers of {command}")
            same(wanted, completed(tree, "clickctl", command, "-h", "127.0.0.1", "--port", str(port), "cue."), f"the handlers of {command} with options after it")
        same(6, len(completed(tree, "clickctl", "-p", str(port), "check", "cue.")), "the handlers of check")
        same(["cue."], completed(tree, "clickctl", "-p", str(port), "read", "count.count", "cu"), "a second element of read")
        same([], completed(tree, "clickctl", "-p", str(port), "write", "cue.capacity", "c"), "the text of write")
    shared = ["--help", "--host", "--port", "--timeout"]
    same(sorted([*shared, "--count", "--interval"]), sorted(completed(tree, "clickctl", "watch", "--")), "the options of watch")
    same(sorted([*shared, "--text"]), sorted(completed(tree, "clickctl", "read", "c.count", "--")), "the options of read")
    same([], completed(tree, "clickctl", "watch", "--count", ""), "the value of --count")


def alerts(tree: Tree) -> None:
    """Checks when the alerts for Prometheus come, and that a router has their metrics."""
    tree.installed()
    examples = f"{tree.dest}/{PREFIX}/share/doc/wuthkeam/examples"
    with open(f"{examples}/alerts.yml", encoding="ascii") as it:
        wanted = metrics_of(it.read())
    page, ports = free_ports(1)[0], free_ports(2, socket.SOCK_DGRAM)
    with started(tree, b"FromDevice(a) -> c :: Counter -> q :: Queue -> ToDevice(a);", "--page", str(page), "--link", f"a={ports[0]},{ports[1]}"):
        with urllib.request.urlopen(f"http://127.0.0.1:{page}/metrics", timeout=SECONDS) as response:
            metrics = response.read().decode()
    same([], sorted(wanted - set(re.findall(r"^# TYPE (\w+) ", metrics, re.M))), "the metrics of the alerts that a router does not have")
    for handler in ("drops", "length", "capacity"):
        has(metrics, f'class="Queue",handler="{handler}"', "the metrics of a queue")
    if not shutil.which("promtool"):
        raise LeftOut("there is no promtool (apt-get install prometheus)")
    did = ran("promtool", "test", "rules", tree.write("../alerts_test.yml", test_of(f"{examples}/alerts.yml").encode()))
    same(0, did.status, f"the alerts: {did.out}{did.err}")


# ---- The unit


def unit_of(tree: Tree) -> str:
    """Returns the path of the installed unit, whose commands are those of this installation."""
    tree.installed()
    with open(f"{tree.dest}/{PREFIX}/lib/systemd/system/click@.service", encoding="utf-8") as it:
        text = it.read()
    return tree.write("../click@.service", text.replace("/usr/local/", f"{tree.dest}/usr/local/").encode())


def accepted(tree: Tree) -> None:
    """Checks that systemd accepts the unit, and how much a router of it may do."""
    unit = unit_of(tree)
    if not shutil.which("systemd-analyze"):
        raise LeftOut("there is no systemd-analyze (apt-get install systemd)")
    did = ran("systemd-analyze", "verify", "--man=no", unit)
    same((0, "", ""), did, "systemd-analyze verify")
    did = ran("systemd-analyze", "security", "--offline=true", "--no-pager", unit)
    found = re.search(r"Overall exposure level for \S+: ([\d.]+)", did.out)
    if not found or float(found[1]) >= MAX_EXPOSURE:
        raise Wrong(f"the exposure is not below {MAX_EXPOSURE}: {did.out[-200:]} {did.err}")


def unit_lines(tree: Tree) -> None:
    """Checks the lines of the unit that no tool checks."""
    with open(unit_of(tree), encoding="utf-8") as it:
        lines = it.read().splitlines()
    clickd = f"{tree.dest}/usr/local/libexec/click/clickd"
    for line in [
        "EnvironmentFile=/etc/click/%i.conf",
        f"ExecStart={clickd} run /etc/click/%i.click $OPTIONS",
        f"ExecStartPost={clickd} wait /etc/click/%i.click $OPTIONS",
        f"ExecReload={clickd} reload /etc/click/%i.click $OPTIONS",
        "Restart=on-failure",
        "RestartPreventExitStatus=1 2",
        "DynamicUser=yes",
        "ProtectSystem=strict",
        "CapabilityBoundingSet=",
        "WantedBy=multi-user.target",
    ]:
        same(1, lines.count(line), f"the lines {line}")


# ---- Routers that clickd starts and changes


def clickd(tree: Tree, *words: str, **variables: str) -> Ran:
    return ran(f"{tree.dest}/{PREFIX}/libexec/click/clickd", *words, env={**os.environ, **variables})


@contextmanager
def started(tree: Tree, text: bytes, *options: str, waits: bool = True) -> Iterator[tuple[int, subprocess.Popen[bytes]]]:
    """Starts a router from a file of this text, and yields its port and its process."""
    port = free_ports(1)[0]
    file = tree.write("../etc/a.click", text)
    words = ["-p", str(port), "-n", "4", *options]
    process = subprocess.Popen([f"{tree.dest}/{PREFIX}/libexec/click/clickd", "run", file, *words], stdin=subprocess.DEVNULL, stdout=subprocess.DEVNULL, stderr=subprocess.PIPE, start_new_session=True)
    try:
        if waits:
            did = clickd(tree, "wait", file, *words, MAINPID=str(process.pid))
            same((0, ""), (did.status, did.err), "clickd wait")
        yield port, process
    finally:
        # A wrong clickd may have a child.
        with suppress(ProcessLookupError):
            os.killpg(process.pid, signal.SIGKILL)
        process.communicate()


def reload(tree: Tree, port: int, text: bytes, **variables: str) -> Ran:
    return clickd(tree, "reload", tree.write("../etc/a.click", text), "-p", str(port), **variables)


def starts(tree: Tree) -> None:
    """Checks that a router starts from the example's file with the example's options."""
    tree.installed()
    examples = f"{tree.dest}/{PREFIX}/share/doc/wuthkeam/examples"
    with open(f"{examples}/line.conf", encoding="ascii") as it:
        options = shlex.split(next(line.removeprefix("OPTIONS=") for line in it if line.startswith("OPTIONS=")))
    with open(f"{examples}/line.click", "rb") as it:
        text = it.read()
    ports = dict(zip(("5001", "5002", "5003", "5004"), free_ports(4, socket.SOCK_DGRAM)))
    options = [re.sub(r"\b500[1-4]\b", lambda it: str(ports[it[0]]), it) for it in options]
    same(["-p", "7777", "-n", "16"], options[:4], "the first options of the example")
    with started(tree, text + b"\n\n", *options[4:]) as (port, process):
        same(text + b"\n\n", value_of(port, "config"), "the configuration, to its last byte")
        program = f"{tree.dest}/{PREFIX}/bin/click_prog"
        same(os.path.realpath(program), os.path.realpath(f"/proc/{process.pid}/exe"), "the program that clickd became")
        same(None, variable_of(process, "MALLOC_MMAP_THRESHOLD_"), "the limit of blocks whose memory is returned")
        with socket.socket(socket.AF_INET, socket.SOCK_DGRAM) as left, socket.socket(socket.AF_INET, socket.SOCK_DGRAM) as right:
            left.bind(("127.0.0.1", ports["5002"]))
            right.bind(("127.0.0.1", ports["5004"]))
            right.settimeout(SECONDS)
            left.sendto(b"a packet", ("127.0.0.1", ports["5001"]))
            same(b"a packet", right.recv(2048), "the datagram that leaves")
        process.send_signal(signal.SIGTERM)
        same(-signal.SIGTERM, process.wait(SECONDS), "the end by SIGTERM")
    with patch.dict(os.environ, {"MALLOC_MMAP_THRESHOLD_": "131072"}), started(tree, OLD) as (_, process):
        same("131072", variable_of(process, "MALLOC_MMAP_THRESHOLD_"), "the limit that the operator sets")


def variable_of(process: subprocess.Popen[bytes], name: str) -> str | None:
    """Returns a variable of a process."""
    with open(f"/proc/{process.pid}/environ", encoding="utf-8") as it:
        return dict(row.split("=", 1) for row in it.read().split("\0") if "=" in row).get(name)


def reloads(tree: Tree) -> None:
    """Checks that a reload installs a new text, and that a refused one changes nothing, by clickctl
    if it is there, and without it."""
    tree.installed()
    try_reloads(tree)
    if tree.has_clients:
        os.remove(f"{tree.dest}/{PREFIX}/bin/clickctl")
        try_reloads(tree)


def try_reloads(tree: Tree) -> None:
    with started(tree, OLD, "-w", "1") as (port, process):
        did = reload(tree, port, NEW + b"\n\n")
        same((0, ""), (did.status, did.err), "a reload")
        same(NEW + b"\n\n", value_of(port, "config"), "the configuration after a reload")
        until(lambda: value_of(port, "d.count") == b"5", "the packets of the new configuration")
        did = reload(tree, port, FAULTY)
        same((1, ""), (did.status, did.out), "a refused reload")
        has(did.err, FAULT, "why a reload is refused")
        same(NEW + b"\n\n", value_of(port, "config"), "the configuration after a refused reload")
        same(b"5", value_of(port, "d.count"), "the count after a refused reload")
        same(None, process.poll(), "the end of the router")
        did = reload(tree, port, b"// \xff\x00\nIdle -> e :: Counter -> Discard;")
        same((0, ""), (did.status, did.err), "a reload of bytes")
        same(b"// \xff\x00\nIdle -> e :: Counter -> Discard;", value_of(port, "config"), "the bytes after a reload")
        did = reload(tree, port, b"/" * 1_048_577)
        same((2, ""), (did.status, did.out), "a reload of a text that is too long")
        has(did.err, "the text has 1048577 bytes, and at most 1048576 are allowed", "why it is refused")


EMPTY = "the text is empty or has only white space"
# White space by docs/LANGUAGE.md, also more of it than an argument of a program has.
BLANKS = (b"", b"\n", b" \t\n\r\v\f\r\n", b" " * 200_000)


def empty_texts(tree: Tree) -> None:
    """Checks that a text without a word or a sign neither replaces a running one nor starts a router."""
    tree.installed()
    for has_clickctl in (True, False) if tree.has_clients else (False,):
        if tree.has_clients and not has_clickctl:
            os.remove(f"{tree.dest}/{PREFIX}/bin/clickctl")
        with started(tree, OLD) as (port, _):
            for text in BLANKS:
                did = reload(tree, port, text)
                same((2, ""), (did.status, did.out), f"a reload of {text[:20]!r}")
                has(did.err, EMPTY, f"a reload of {text[:20]!r}")
                same(OLD, value_of(port, "config"), "the configuration")
            same((0, b"//"), (reload(tree, port, b"//").status, value_of(port, "config")), "a reload of a comment")
    for text in BLANKS:
        with started(tree, text, waits=False) as (port, process):
            same(2, process.wait(SECONDS), f"the start of a router with {text[:20]!r}")
            has((process.stderr.read() if process.stderr else b"").decode(), EMPTY, "why it does not start")


# What clickd prints about the router for a status of clickctl.
UNCHANGED, UNKNOWN = "and the router goes on unchanged", "the router did not confirm the swap; it may have done it, or still do it"
MEANINGS = {1: f"the swap was refused, {UNCHANGED}", 2: f"nothing was sent, {UNCHANGED}", 4: UNKNOWN, 130: UNKNOWN}


def unknown_outcomes(tree: Tree) -> None:
    """Checks what a reload that fails says of the router, by a stand-in for clickctl and without it."""
    tree.installed()
    command, port = f"{tree.dest}/{PREFIX}/bin/clickctl", free_ports(1)[0]
    for status, meaning in MEANINGS.items() if tree.has_clients else ():
        os.remove(command)
        tree.script(os.path.relpath(command, tree.top), f"#!/bin/sh\nexit {status}\n")
        did = reload(tree, port, NEW)
        same((status, ""), (did.status, did.out), f"a reload with status {status} of clickctl")
        is_said(did, meaning)
    if tree.has_clients:
        os.remove(command)
    script = f"{tree.dest}/{PREFIX}/libexec/click/clickd"
    with open(script, encoding="utf-8") as it:
        text = it.read()
    same(1, text.count("reply_seconds=60\n"), "the time of a reply in clickd")
    tree.script(os.path.relpath(script, tree.top), text.replace("reply_seconds=60\n", "reply_seconds=1\n"))
    for sent, ends, why in (
        (b"", True, "the router ended the session without a complete reply"),
        (b"520-Write handler 'hotconfig' error:\r\n520 4 Unexp", True, "the router ended the session without a complete reply"),
        (b"", False, "no complete reply within 1 s"),
        (b"520-Write handler 'hotconfig' error:\r\n", False, "no complete reply within 1 s"),
    ):
        with half_router(sent, ends) as port:
            did = reload(tree, port, NEW)
        same((4, ""), (did.status, did.out), f"a reload of a router that sends {sent!r}")
        has(did.err, why, "the cause")
        is_said(did, UNKNOWN)


def is_said(did: Ran, meaning: str) -> None:
    """Checks that a reload says this of the router, and nothing else."""
    has(did.err, meaning, "what a reload says of the router")
    for other in (UNCHANGED, UNKNOWN):
        same(other in meaning, other in did.err, f"that a reload says {other!r}")


@contextmanager
def half_router(sent: bytes, ends: bool) -> Iterator[int]:
    """Serves one session that sends this after a command, and then ends it or is silent."""
    with socket.create_server(("127.0.0.1", 0)) as server, ExitStack() as sessions:

        def serve() -> None:
            peer = sessions.enter_context(server.accept()[0])
            peer.sendall(b"Click::ControlSocket/1.3\r\n")
            # clickd sends QUIT last.
            came = b""
            while not came.endswith(b"QUIT\n"):
                came += peer.recv(65536)
            peer.sendall(sent)
            if ends:
                peer.shutdown(socket.SHUT_WR)

        thread = threading.Thread(target=serve)
        thread.start()
        yield server.getsockname()[1]
        thread.join(SECONDS)


def other_port(tree: Tree) -> None:
    """Checks that a reload reaches the router of the unit, even if its options have changed to the
    port of another router."""
    tree.installed()
    with started(tree, OLD) as (port, _), started(tree, OLD) as (own, process):
        did = reload(tree, port, NEW, MAINPID=str(process.pid))
        same((0, ""), (did.status, did.err), "a reload after a change of the options")
        same((OLD, NEW), (value_of(port, "config"), value_of(own, "config")), "what the other router and the own one run")


def readonly(tree: Tree) -> None:
    """Checks that the reload of a router that may only be read fails."""
    tree.installed()
    for has_clickctl in (True, False) if tree.has_clients else (False,):
        if tree.has_clients and not has_clickctl:
            os.remove(f"{tree.dest}/{PREFIX}/bin/clickctl")
        with started(tree, OLD, "--readonly") as (port, _):
            did = reload(tree, port, NEW)
            same((1, ""), (did.status, did.out), "a reload with --readonly")
            has(did.err, "Permission denied for 'hotconfig'", "why it is refused")
            same(OLD, value_of(port, "config"), "the configuration")
    for text in (b"//" + b"x" * 131_070, b"// a byte 0: \x00\n" + OLD, b"// not UTF-8: \xff\n" + OLD):
        with started(tree, text, "--readonly", waits=False) as (port, process):
            until(lambda: process.poll() is not None or listens(port), "a router with --readonly whose text is no argument ends or starts")
            same(2, process.poll(), f"the status with --readonly and {text[:20]!r}")
            why = (process.stderr.read() if process.stderr else b"").decode()
            for part in (f"a.click: the text has {len(text)} bytes; with --readonly at most 131071 bytes of UTF-8 without a byte 0 are allowed", "change the text, or leave out --readonly"):
                has(why, part, "why it does not start")
    with started(tree, b"//" + b"x" * 131_069, "--readonly") as (port, _):
        same(131_071, len(value_of(port, "config")), "the bytes of the longest text with --readonly")


def no_router(tree: Tree) -> None:
    """Checks that clickd fails if no router answers, and waits no longer than the router lives."""
    tree.installed()
    port, file = free_ports(1)[0], tree.write("../etc/a.click", OLD)
    same(4, reload(tree, port, OLD).status, "a reload without a router")
    begun = time.monotonic()
    ended = subprocess.Popen(["true"])
    ended.wait()
    did = clickd(tree, "wait", file, "-p", str(port), MAINPID=str(ended.pid))
    same((4, "clickd: the router has ended\n"), (did.status, did.err), "waiting for a router that has ended")
    same(True, time.monotonic() - begun < 50, "it ends before the 60 seconds for which it waits for a router")
    with started(tree, FAULTY, waits=False) as (port, process):
        same(1, process.wait(SECONDS), "the status of a router with a fault")
        same(f"click_prog: {FAULT}\n".encode(), process.stderr and process.stderr.read(), "what it prints")


def all_slots(tree: Tree) -> None:
    """Checks that a start succeeds if clients keep all session slots, and that a reload waits."""
    tree.installed()
    with started(tree, OLD) as (port, process), ExitStack() as sessions:
        for _ in range(4):
            session = sessions.enter_context(socket.create_connection(("127.0.0.1", port), timeout=SECONDS))
            same(b"Click::", session.recv(7), "a greeting")
        did = clickd(tree, "wait", f"{tree.folder}/etc/a.click", "-p", str(port), MAINPID=str(process.pid))
        same((0, "clickd: clients keep all session slots of the router\n"), (did.status, did.err), "waiting for a router without a free slot")
        reloading = subprocess.Popen([f"{tree.dest}/{PREFIX}/libexec/click/clickd", "reload", tree.write("../etc/a.click", NEW), "-p", str(port)], stdout=subprocess.DEVNULL)
        time.sleep(3)
        same(None, reloading.poll(), "the end of a reload without a free slot")
        sessions.close()
        same(0, reloading.wait(SECONDS), "a reload after a slot is free")
        same(NEW, value_of(port, "config"), "the configuration after it")


def long_texts(tree: Tree) -> None:
    """Checks that a text that cannot be an argument of a program is swapped in at the start."""
    tree.installed()
    rest = b"Idle -> f :: Counter -> Discard;\n"
    for text in (b"// " + b"x" * 200_000 + b"\n" + rest, b"// a byte 0: \x00\n" + rest, b"// not UTF-8: \xff\n" + rest):
        with started(tree, text) as (port, _):
            same(True, text == value_of(port, "config"), f"the configuration that begins with {text[:20]!r}")
    longest = b"// " + b"x" * (131_071 - 4 - len(rest)) + b"\n" + rest
    with started(tree, longest, waits=False) as (port, process):
        until(lambda: listens(port) or process.poll() is not None, "the router starts")
        same(True, longest == value_of(port, "config"), "a text of 131,071 bytes is an argument")
    with started(tree, b"// \x00\nIdle -> nowhere;", waits=False) as (port, process):
        did = clickd(tree, "wait", f"{tree.folder}/etc/a.click", "-p", str(port), MAINPID=str(process.pid))
        same(1, did.status, "the start with a fault in such a text")
        has(did.err, FAULT, "the start with a fault in such a text")


def listens(port: int) -> bool:
    try:
        socket.create_connection(("127.0.0.1", port), timeout=SECONDS).close()
    except ConnectionRefusedError:
        return False
    return True


def wrong_options(tree: Tree) -> None:
    """Checks that clickd refuses wrong words, files and options, with status 2 and the reason."""
    tree.installed()
    file = tree.write("../etc/a.click", OLD)
    for words, why in [
        ([], "usage: clickd"),
        (["run"], "usage: clickd"),
        (["stop", file], "usage: clickd"),
        (["run", file], "the options have no -p PORT"),
        (["run", file, "--check", "-p"], "the options have no -p PORT"),
        (["run", file, "-p", "0"], "-p: '0' is not a number from 1 to 65535"),
        (["reload", file, "-p65536"], "-p: '65536' is not a number from 1 to 65535"),
        (["wait", file, "-p=+1"], "-p: '+1' is not a number from 1 to 65535"),
        (["run", f"{file}.none", "-p", "7"], f"{file}.none: there is no such file"),
        (["run", file, "-p", "7", "--bok"], "error: unexpected argument '--bok' found"),
        (["run", file, "-p", "7", "--book"], "--live cannot be used with --book"),
    ]:
        did = clickd(tree, *words)
        same((2, ""), (did.status, did.out), f"clickd {words}")
        has(did.err, why, f"clickd {words}")
    with started(tree, OLD, "--live", waits=True) as (port, _):
        has(ask(port, "READ list"), "DATA 21", "a router whose options have --live")


CHECKS = {
    "only a proved program is installed": only_proved,
    "an unproved program is said to be unproved": says_unproved,
    "the files and their modes": files,
    "wrong words install nothing": wrong_words,
    "nothing is half installed": never_half,
    "an uninstallation removes exactly the files": uninstalls,
    "an upgrade leaves a running router alone": upgrades,
    "the manual pages": pages,
    "the completion": completes,
    "the alerts for Prometheus": alerts,
    "systemd accepts the unit": accepted,
    "the lines of the unit": unit_lines,
    "a router starts from a file with options": starts,
    "a reload installs or changes nothing": reloads,
    "a reload of a router that may only be read": readonly,
    "an empty text is refused": empty_texts,
    "what a failed reload says": unknown_outcomes,
    "a reload after a change of the port": other_port,
    "no router": no_router,
    "a router without a free session": all_slots,
    "texts that cannot be an argument": long_texts,
    "wrong options are refused": wrong_options,
}

WRONGS = {
    "any-program": Edit("only a proved program is installed", "install.sh", 'is_built_from "$sources" ||', "true ||"),
    "other-stamp": Edit("only a proved program is installed", "tools/lib/built.sh", '[ "$(cat "$stamp")" = "$1 $(sum_of_program)" ]', "true"),
    "silent-quick": Edit("an unproved program is said to be unproved", "install.sh", "NOT PROVED (--quick)", "installed"),
    "quick-is-proved": Edit("an unproved program is said to be unproved", "install.sh", "program=$top/crates/click_prog/out/quick/click_prog", "program=$built"),
    "mode": Edit("the files and their modes", "install.sh", "755 libexec/click/clickd", "700 libexec/click/clickd"),
    "no-page": Edit("the files and their modes", "install.sh", "644 share/man/man5/click.5 (click)\n", ""),
    "other-prefix": Edit("the files and their modes", "install.sh", "s|@libexec@|$prefix/libexec/click|", "s|@libexec@|/usr/local/libexec/click|"),
    "any-prefix": Edit("wrong words install nothing", "install.sh", "*) stop 2 \"PREFIX: '$prefix' does not begin with /\" ;;", "*) ;;"),
    "removes-folder": Edit("an uninstallation removes exactly the files", "install.sh", 'rmdir --ignore-fail-on-non-empty "$destdir$configurations"', 'rm -r "$destdir$configurations"'),
    "leaves-files": Edit("an uninstallation removes exactly the files", "install.sh", 'rm -f "$destdir$prefix/$to"; done', 'case $to in */doc/*) ;; *) rm -f "$destdir$prefix/$to" ;; esac; done'),
    "in-place": Edit("an upgrade leaves a running router alone", "install.sh", 'cp -P --preserve=mode "$made/$1" "$to.new"', 'cp "$made/$1" "$to" && cp -P "$made/$1" "$to.new"'),
    "page-of-markdown": Edit("the manual pages", "service/manual.py", "if is_row(lines[0]):", "if False:"),
    "page-that-warns": Edit("the manual pages", "service/manual.py", '".SH SEE ALSO"', '".SH SEE ALSO", ".NO"'),
    "page-without-options": Edit("the manual pages", "service/manual.py", "sections += [f'.SH", "continue\n            sections += [f'.SH"),
    "completes-values": Edit("the completion", "service/click_prog.bash", "-e | -p | -n", "-e | -n"),
    "completes-any-access": Edit("the completion", "service/clickctl.bash", '"$(_clickctl_asks "$access" ', "\"$(_clickctl_asks '' "),
    "completes-no-options": Edit("the completion", "service/clickctl.bash", "    *,-*) _clickctl_offer", "    ,*,-*) _clickctl_offer"),
    "completes-before-options": Edit("the completion", "service/clickctl.bash", 'else count=$((count + 1)); fi ;;', 'else count=$((count + 1)); fi && break ;;'),
    "completes-texts": Edit("the completion", "service/clickctl.bash", "    write,0,* | wait,0,* |", "    write,* | wait,* |"),
    "completes-no-mode": Edit("the completion", "service/click_prog.bash", '${mode:+"$mode"} ', ""),
    "alert-of-no-metric": Edit("the alerts for Prometheus", "service/alerts.yml", "process_resident_memory_bytes", "process_memory_bytes"),
    "alert-that-never-comes": Edit("the alerts for Prometheus", "service/alerts.yml", "click_sessions >= click", "click_sessions > click"),
    "alert-of-two-restarts": Edit("the alerts for Prometheus", "service/alerts.yml", "[1h]) > 0", "[1h]) > 1"),
    "alert-of-idle-links": Edit("the alerts for Prometheus", "service/alerts.yml", " and click_link_received_total > 0", ""),
    "alert-of-old-drops": Edit("the alerts for Prometheus", "service/alerts.yml", 'increase(click_handler_total{handler="drops"}[5m])', 'click_handler_total{handler="drops"}'),
    "unknown-key": Edit("systemd accepts the unit", "service/click@.service", "RestartSec=1", "RestartSecs=1"),
    "root": Edit("systemd accepts the unit", "service/click@.service", "DynamicUser=yes\nCapabilityBoundingSet=\n", ""),
    "always-restarts": Edit("the lines of the unit", "service/click@.service", "RestartPreventExitStatus=1 2\n", ""),
    "no-wait": Edit("the lines of the unit", "service/click@.service", "ExecStartPost=", "#"),
    "strips-lines": Edit("a router starts from a file with options", "service/clickd.sh", "IFS= read -r -d '' text < \"$1\" || true", 'text=$(cat "$1") size=${#text}'),
    "no-exec": Edit("a router starts from a file with options", "service/clickd.sh", 'exec "$bin/click_prog"', '"$bin/click_prog"'),
    "loses-options": Edit("a router starts from a file with options", "service/clickd.sh", '-e "$text" "$@"', '-e "$text" -p "$port"'),
    "returns-memory": Edit("a router starts from a file with options", "service/clickd.sh", 'exec "$bin/click_prog"', 'MALLOC_MMAP_THRESHOLD_=131072 exec "$bin/click_prog"'),
    "no-limit": Edit("a router starts from a file with options", "service/clickd.sh", 'exec "$bin/click_prog"', 'exec env -u MALLOC_MMAP_THRESHOLD_ "$bin/click_prog"'),
    "reload-that-lies": Edit("a reload installs or changes nothing", "service/clickd.sh", "[0-9][0-9][0-9]' '*) stop 1", "[0-9][0-9][0-9]' '*) echo"),
    "reload-of-lines": Edit("a reload installs or changes nothing", "service/clickd.sh", "copy=$(mktemp)\n", 'copy=$(mktemp)\n    set -- <(tr "\\n" " " < "$1")\n'),
    "reload-without-fault": Edit("a reload installs or changes nothing", "service/clickd.sh", "goes on unchanged: ${reply#520 }", "goes on unchanged"),
    "readonly-that-lies": Edit("a reload of a router that may only be read", "service/clickd.sh", "'200 Write handler'*) ;;", "'200 Write handler'* | 530*) ;;"),
    "readonly-by-clickctl": Edit("a reload of a router that may only be read", "service/clickd.sh", '|| not_swapped $? "$file"', "|| true"),
    "readonly-that-stays-empty": Edit("a reload of a router that may only be read", "service/clickd.sh", "--readonly) is_readonly=1 ;;", "--readonly) ;;"),
    "readonly-without-texts": Edit("a reload of a router that may only be read", "service/clickd.sh", '[ -z "$is_argument" ] && [ -n "$is_readonly" ]', '[ -n "$is_readonly" ]'),
    "empties": Edit("an empty text is refused", "service/clickd.sh", "grep -qa '[^[:space:]]' \"$1\" ||", "true ||"),
    "empties-by-lines": Edit("an empty text is refused", "service/clickd.sh", "grep -qa '[^[:space:]]'", "grep -qa '[^ ]'"),
    "empty-by-comments": Edit("an empty text is refused", "service/clickd.sh", "grep -qa '[^[:space:]]'", "grep -qa '^[^/]*[[:alpha:]]'"),
    "unchanged-by-guess": Edit("what a failed reload says", "service/clickd.sh", '"$2: the router did not confirm the swap; it may have done it, or still do it"', '"$2: the swap failed, and the router goes on unchanged"'),
    "unknown-refusal": Edit("what a failed reload says", "service/clickd.sh", '1) stop 1 "$2: the swap was refused, and the router goes on unchanged" ;;\n', ""),
    "silent-is-ended": Edit("what a failed reload says", "service/clickd.sh", "if [ $? -gt 128 ]; then why=", "if false; then why="),
    "half-a-refusal": Edit("what a failed reload says", "service/clickd.sh", "    '200 Write handler'*) ;;\n    [0-9][0-9][0-9]' '*)", "    '200 Write handler'*) ;;\n    [0-9][0-9][0-9]*)"),
    "reload-of-others": Edit("a reload after a change of the port", "service/clickd.sh", 'set -- "${words[@]:2}"', ":"),
    "half-installed": Edit("nothing is half installed", "install.sh", "    make_all\n", "    make_all || true\n"),
    "waits-too-long": Edit("no router", "service/clickd.sh", "if has_ended; then stop 4 'the router has ended'; fi\n        if [ $status", "if [ $status"),
    "needs-a-slot": Edit("a router without a free session", "service/clickd.sh", "if [ $status = 2 ] &&", "if false &&"),
    "hurried-reload": Edit("a router without a free session", "service/clickd.sh", "reply_seconds=60", "reply_seconds=0.1"),
    "no-empty-start": Edit("texts that cannot be an argument", "service/clickd.sh", 'if [ -z "$is_argument" ]; then reload "$file" "$@"; fi', ":"),
    "short-arguments": Edit("texts that cannot be an argument", "service/clickd.sh", "max_argument_bytes=131071", "max_argument_bytes=100000"),
    "long-arguments": Edit("texts that cannot be an argument", "service/clickd.sh", "max_argument_bytes=131071", "max_argument_bytes=1048576"),
    "any-port": Edit("wrong options are refused", "service/clickd.sh", '[ "$((10#$port))" -le 65535 ]', "true"),
    "twice-live": Edit("wrong options are refused", "service/clickd.sh", "--live) live='' ;;", "--live) ;;"),
}

if __name__ == "__main__":
    sys.exit(main_of(__file__, CHECKS, WRONGS))
