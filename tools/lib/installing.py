"""Defines what tools/install.py and tools/package.py share: a tree with the scripts of the
installation and stand-ins for the rest, routers that are started from it, and the checks.

The tree is a checkout with one crate, the program to check as both the proved and the unproved
program, and a stand-in for `rt`. A wrong script is an edit of one of its files.
"""

from __future__ import annotations

import argparse
import contextlib
import os
import re
import shutil
import socket
import subprocess
import sys
import tempfile
import time
from typing import Callable, NamedTuple

from programs import TOP, path_of

# The maximum seconds of a reply and of a command. Both are long, because the machine may be busy.
SECONDS, COMMAND_SECONDS = 60, 600
# The files of the installation, as folders and files from the top of the repository.
COPIED = ("install.sh", "package.sh", "service", "docs/CONTROL.md", "docs/OPERATING.md", "docs/CLICKCTL.md", "tools/lib/built.sh", "clients")
RT = "#!/bin/sh\necho stand-in\n"
BUILDS = '#!/bin/sh\n[ "$*" = click_prog ] && ! [ -e "$(dirname "$0")/fails" ]\n'


class Wrong(Exception):
    """A check failed, for the reason of the text."""


class LeftOut(Exception):
    """A check is not made, for the reason of the text."""


class Ran(NamedTuple):
    """The status and the outputs of a command."""

    status: int
    out: str
    err: str


class Edit(NamedTuple):
    """A wrong file: a text of it that is replaced by another, and the check that has to fail."""

    check: str
    path: str
    old: str
    new: str


def same(wanted: object, came: object, what: str) -> None:
    """Checks that two values are equal."""
    if wanted != came:
        raise Wrong(f"{what}: wanted {wanted!r:.700}, came {came!r:.700}")


def has(text: str, part: str, what: str) -> None:
    """Checks that a text has a part."""
    if part not in text:
        raise Wrong(f"{what}: wanted a text with {part!r}, came {text!r:.700}")


def until(is_so: Callable[[], object], what: str, seconds: float = SECONDS) -> None:
    """Waits until `is_so` returns something true; raises Wrong after `seconds`."""
    ends = time.monotonic() + seconds
    while not is_so():
        if time.monotonic() > ends:
            raise Wrong(f"in {seconds} s not: {what}")
        time.sleep(0.02)


def ran(*words: str, seconds: float = COMMAND_SECONDS, **how: object) -> Ran:
    """Runs a command to its end, without standard input."""
    did = subprocess.run(words, stdin=subprocess.DEVNULL, capture_output=True, timeout=seconds, check=False, **how)
    return Ran(did.returncode, did.stdout.decode(errors="replace"), did.stderr.decode(errors="replace"))


def free_ports(count: int, kind: socket.SocketKind = socket.SOCK_STREAM) -> list[int]:
    """Returns ports of 127.0.0.1 that are free."""
    with contextlib.ExitStack() as all_of_them:
        probes = [all_of_them.enter_context(socket.socket(socket.AF_INET, kind)) for _ in range(count)]
        for it in probes:
            it.bind(("127.0.0.1", 0))
        return [it.getsockname()[1] for it in probes]


def ask(port: int, *commands: str) -> str:
    """Returns all that a control session with these commands is answered, after the greeting."""
    with socket.create_connection(("127.0.0.1", port), timeout=SECONDS) as peer, peer.makefile("rwb") as session:
        session.write("".join(f"{it}\n" for it in (*commands, "QUIT")).encode())
        session.flush()
        return session.read().decode("latin-1").split("\r\n", 1)[1]


def value_of(port: int, handler: str) -> bytes:
    """Returns the value of a handler."""
    answer = ask(port, f"READ {handler}").encode("latin-1")
    head, count, rest = answer.split(b"\r\n", 2)
    same(f"200 Read handler '{handler}' OK".encode(), head, f"READ {handler}")
    return rest[: int(count.removeprefix(b"DATA "))]


class Tree:
    """A checkout in a temporary folder, and the folder of its last installation, `dest`."""

    def __init__(self, folder: str, edits: list[Edit]):
        self.folder, self.top, self.dest = folder, f"{folder}/tree", f"{folder}/dest"
        self.path = f"{folder}/kit:{os.environ['PATH']}"
        for name in COPIED:
            self.copy(name)
        for name, text in (("crates.txt", "click_prog:\n"), ("HANDLES", "none\n"), ("crates/click_prog/src/main.rt", "\n")):
            self.write(name, text.encode())
        self.script("tools/quick_build.py", BUILDS)
        os.makedirs(f"{folder}/kit")
        self.script("../kit/rt", RT)
        with open(path_of("click_prog"), "rb") as it:
            program = it.read()
        # The programs differ in a byte after their end, so that the checks can distinguish them.
        self.programs = {"": program + b"p", "--quick": program + b"q"}
        self.script("crates/click_prog/out/click_prog", self.programs[""])
        self.script("crates/click_prog/out/quick/click_prog", self.programs["--quick"])
        for it in edits:
            self.edit(it)
        self.stamp()

    def copy(self, name: str) -> None:
        """Copies a file or a folder of the repository, if there is one."""
        os.makedirs(os.path.dirname(f"{self.top}/{name}"), exist_ok=True)
        if os.path.isdir(f"{TOP}/{name}"):
            shutil.copytree(f"{TOP}/{name}", f"{self.top}/{name}", ignore=shutil.ignore_patterns("__pycache__"))
        elif os.path.exists(f"{TOP}/{name}"):
            shutil.copy(f"{TOP}/{name}", f"{self.top}/{name}")

    def write(self, name: str, data: bytes) -> str:
        """Writes a file of the tree and returns its path."""
        os.makedirs(os.path.dirname(f"{self.top}/{name}"), exist_ok=True)
        with open(f"{self.top}/{name}", "wb") as it:
            it.write(data)
        return f"{self.top}/{name}"

    def script(self, name: str, text: str | bytes) -> None:
        os.chmod(self.write(name, text if isinstance(text, bytes) else text.encode()), 0o755)

    def edit(self, edit: Edit) -> None:
        """Makes a file of the tree wrong."""
        with open(f"{self.top}/{edit.path}", encoding="utf-8") as it:
            text = it.read()
        if text.count(edit.old) != 1:
            sys.exit(f"{edit.path} has {text.count(edit.old)} times {edit.old!r}")
        self.write(edit.path, text.replace(edit.old, edit.new).encode())

    def stamp(self) -> None:
        """Records that the program of the tree was proved from its sources."""
        same(0, self.run("bash", "-c", '. tools/lib/built.sh; write_stamp "$(sum_of_sources)"').status, "the stamp")

    def run(self, *words: str, **variables: str) -> Ran:
        """Runs a command in the tree, with the stand-in for `rt`."""
        return ran(*words, cwd=self.top, env={**os.environ, "PATH": self.path, "DESTDIR": self.dest, **variables})

    def install(self, *words: str) -> Ran:
        """Installs into an empty folder, which is `dest` then, and returns the outputs."""
        shutil.rmtree(self.dest, ignore_errors=True)
        did = self.run("./install.sh", *words)
        if did.status:
            raise Wrong(f"install.sh {' '.join(words)} ended with status {did.status}: {did.err}")
        return did

    def installed(self) -> None:
        """Makes `dest` a copy of an installation of the proved program."""
        kept = f"{self.folder}/kept"
        if not os.path.exists(kept):
            self.install()
            shutil.copytree(self.dest, kept, symlinks=True)
        shutil.rmtree(self.dest, ignore_errors=True)
        shutil.copytree(kept, self.dest, symlinks=True)

    @property
    def has_clients(self) -> bool:
        """Returns whether the repository has clickctl."""
        return os.path.exists(f"{self.top}/clients/clickctl")


def files_below(folder: str) -> dict[str, str]:
    """Returns the files below a folder, each with its mode, or with the target of the link."""
    found = {}
    for at, _, names in os.walk(folder):
        for name in names:
            path = f"{at}/{name}"
            mode = f"-> {os.readlink(path)}" if os.path.islink(path) else f"{os.stat(path).st_mode & 0o7777:o}"
            found[os.path.relpath(path, folder)] = mode
    return found


class Tally:
    """The number of checks that passed, and the names of those that failed."""

    def __init__(self) -> None:
        self.passed, self.failed = 0, 0

    def check(self, what: str, act: Callable[[], None]) -> None:
        """Makes a check, and prints whether it passed."""
        try:
            act()
        except LeftOut as why:
            print(f"left out: {what}: {why}", flush=True)
        except (Wrong, OSError, ValueError, IndexError, subprocess.SubprocessError) as error:
            self.failed += 1
            print(f"FAILED  {what}: {error}", flush=True)
        else:
            self.passed += 1
            print(f"passed  {what}", flush=True)


def try_wrongs(script: str, wrongs: dict[str, Edit], names: list[str]) -> Tally:
    """Checks that the check of each edit fails over the tree with that edit."""
    tally = Tally()
    for name in names or wrongs:

        def is_seen(name: str = name) -> None:
            did = ran(sys.executable, script, "--wrong", name, seconds=3 * COMMAND_SECONDS)
            left_out = re.search(rf"^left out: {re.escape(wrongs[name].check)}: (.*)", did.out, re.M)
            if did.status == 0 and left_out:
                raise LeftOut(left_out[1])
            if did.status != 1 or f"FAILED  {wrongs[name].check}: " not in did.out:
                raise Wrong(f"it ended with status {did.status} and printed {did.out[-1500:]}{did.err[-500:]}")

        tally.check(f"{name} is refused by: {wrongs[name].check}", is_seen)
    return tally


def try_checks(checks: dict[str, Callable[[Tree], None]], names: list[str], edits: list[Edit]) -> Tally:
    """Makes the checks of these names over a new tree with these edits."""
    tally = Tally()
    with tempfile.TemporaryDirectory(prefix="installing-") as folder:
        tree = Tree(folder, edits)
        for name in names:
            tally.check(name, lambda name=name: checks[name](tree))
    return tally


def main_of(script: str, checks: dict[str, Callable[[Tree], None]], wrongs: dict[str, Edit]) -> int:
    """Runs a script of checks and returns its status.

    Without options it makes all checks, or those whose names are given. With `--wrongs` it checks
    that they can fail, and with `--wrong NAME` it makes the check of one wrong tree.
    """
    words = argparse.ArgumentParser()
    words.add_argument("--wrongs", nargs="*", metavar="NAME")
    words.add_argument("--wrong", choices=wrongs)
    words.add_argument("checks", nargs="*")
    given = words.parse_args()
    unknown = [it for it in given.checks if it not in checks] + [it for it in given.wrongs or [] if it not in wrongs]
    if unknown:
        words.error(f"there is no check {unknown}")
    if not os.access(path_of("click_prog"), os.X_OK):
        sys.exit(f"{os.path.basename(script)}: there is no {path_of('click_prog')}: ./test.sh builds it, and so does rt run in its crate's folder")
    if given.wrongs is not None:
        tally = try_wrongs(script, wrongs, given.wrongs)
    elif given.wrong:
        tally = try_checks(checks, [wrongs[given.wrong].check], [wrongs[given.wrong]])
    else:
        tally = try_checks(checks, given.checks or list(checks), [])
    print(f"{tally.passed} passed, {tally.failed} failed")
    return 1 if tally.failed else 0
