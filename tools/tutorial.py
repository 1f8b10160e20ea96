#!/usr/bin/env python3
"""Runs the commands of docs/TUTORIAL.md and compares what they print with the page.

    tools/tutorial.py [PAGE]

The program must have been built; the variable PROGRAM names another one. PAGE is a file that is
taken instead of docs/TUTORIAL.md. The build in section 1 is not run. Ports are changed, so that a
running router is not disturbed. The first difference ends the script with status 1.
"""

from __future__ import annotations

import os
import re
import subprocess
import sys

sys.dont_write_bytecode = True
sys.path.insert(0, f"{os.path.dirname(os.path.realpath(__file__))}/lib")
from trying import TOP, begun, fail, in_folder, is_there, program

PAGE = f"{TOP}/docs/TUTORIAL.md"
# The ports of the page, and those that are used here.
PORTS = {"5001": "5801", "5002": "5802", "5003": "5803", "5004": "5804", "7777": "7799"}
# The lines before commands that are followed by what they print.
SHOWN = ("## 3. Send packets", "## 4. Read and write handlers", "and run it:")
# The seconds after which a command is ended.
MAX_SECONDS = 60
# The number of lines of counts, two each second, of which two have to be those of the page.
MAX_COUNT_LINES = 20


def block_after(page: str, sign: str) -> str:
    """Returns the first indented block after a sign, without its indent."""
    found = re.search(r"(?:^    .*\n)+", page[offset_after(page, sign) :], re.M)
    is_there(found, f"a block after '{sign}'")
    return re.sub(r"^    ", "", found[0], flags=re.M)


def offset_after(page: str, sign: str) -> int:
    """Returns the offset at which the first occurrence of a sign ends."""
    is_there(sign in page, f"'{sign}' in the page")
    return page.index(sign) + len(sign)


def command_in(page: str, pattern: str) -> str:
    """Returns the indented command that has this form; a backslash continues it in the next line."""
    found = re.search(rf"^    ({pattern})$", page, re.M)
    is_there(found, f"a command like {pattern}")
    return found[1]


def contains(what: str, wanted: str, came: str) -> None:
    if wanted not in came:
        fail(what, f"wanted: {wanted!r}", f"came:   {came!r}")


class Shell:
    """Runs commands in a folder in which click_prog is on the PATH."""

    def __init__(self, folder: str) -> None:
        self.folder = folder
        self.variables = dict(os.environ, PATH=f"{folder}/bin:{os.environ['PATH']}")

    def start(self, words: list[str]) -> subprocess.Popen[str]:
        """Starts a command whose standard error is read."""
        return subprocess.Popen(
            words, cwd=self.folder, env=self.variables, text=True, stderr=subprocess.PIPE
        )

    def run(self, words: list[str]) -> subprocess.CompletedProcess[str]:
        return subprocess.run(
            words,
            cwd=self.folder,
            env=self.variables,
            text=True,
            capture_output=True,
            timeout=MAX_SECONDS,
            check=False,
        )

    def run_line(self, command: str) -> subprocess.CompletedProcess[str]:
        return self.run(["bash", "-c", command])


def save_files(page: str, folder: str) -> None:
    """Saves the files that the page has the reader save."""
    for name in ("my.click", "swap.session"):
        with open(f"{folder}/{name}", "w", encoding="utf-8") as file:
            file.write(block_after(page, f"`{name}`"))


def check_sessions(page: str, shell: Shell) -> None:
    """Runs the commands that are followed by 'It prints:' and a block."""
    for sign in SHOWN:
        came = shell.run_line(block_after(page, sign))
        wanted = block_after(page[offset_after(page, sign) :], "It prints:")
        if wanted.strip() != came.stdout.replace("\r", "").strip():
            fail(f"the commands after '{sign}'", f"wanted: {wanted!r}", f"came:   {came.stdout!r}")


def check_refusals(page: str, shell: Shell) -> None:
    """Runs the configurations that are refused; the page has the line of each."""
    commands = re.findall(r"^    (click_prog .* < /dev/null)$", page, re.M)
    is_there(commands, "a configuration that is refused")
    for command in commands:
        came = shell.run_line(command)
        contains(command, f"`{came.stderr.strip()}`", page)
        if came.returncode != 1:
            fail(command, "wanted: status 1", f"came:   status {came.returncode}")


def check_picture(page: str, shell: Shell) -> None:
    came = shell.run_line(command_in(page, r"click_prog .* > my\.svg"))
    if came.returncode or came.stderr:
        fail("--draw", "wanted: status 0", f"came:   status {came.returncode}, {came.stderr!r}")
    with open(f"{shell.folder}/my.svg", encoding="utf-8") as file:
        contains("my.svg", "<svg", file.read())


def check_links(page: str, shell: Shell) -> None:
    """Runs the live router with its two hosts, and reads its counts each second."""
    command = command_in(page, r"click_prog .* --live .* --tell 5")
    hosts = re.search(r"```python\n(.*?)```", page, re.S)
    is_there(hosts, "the hosts in Python")
    counts = block_after(page, "prints the counts of both links:").splitlines()
    router = shell.start(["bash", "-c", f"exec {command.replace('--tell 5', '--tell 1')}"])
    try:
        # The first counts are printed once the router serves.
        router.stderr.readline()
        came = shell.run([sys.executable, "-c", hosts[1]])
        contains("the hosts", f"(b'three', ('127.0.0.1', {PORTS['5003']}))", came.stdout)
        contains("the hosts", "DATA 1\n3200 Goodbye!", came.stdout)
        lines: list[str] = []
        while len(lines) < MAX_COUNT_LINES and not set(counts) <= set(lines):
            lines.append(router.stderr.readline().rstrip("\n"))
        for line in counts:
            contains("the counts", line, "\n".join(lines))
    finally:
        router.terminate()
        router.wait(timeout=10)


def check_capture(page: str, shell: Shell) -> None:
    came = shell.run_line(command_in(page, r"click_prog --pcap (?:.*\\\n)*.*"))
    contains("the capture", f"`{came.stderr.strip()}`", page)


def main(words: list[str]) -> int:
    if len(words) > 1:
        sys.exit("usage: tools/tutorial.py [PAGE]")
    with open(words[0] if words else PAGE, encoding="utf-8") as file:
        page = file.read()
    for port, other in PORTS.items():
        page = page.replace(port, other)
    links = (("bin/click_prog", program("click_prog")), ("examples", f"{TOP}/examples"))
    with in_folder(*links) as folder:
        save_files(page, folder)
        shell = Shell(folder)
        for check in (check_sessions, check_refusals, check_picture, check_links, check_capture):
            check(page, shell)
    print("docs/TUTORIAL.md: its commands print what it shows")
    return 0


begun(main)
