"""Defines what tools/examples.py and tools/alloc_failures.py share: files, programs and checks.

The first check that fails prints the expected and the actual value and exits with status 1. A
script that fails with an exception of its own exits with status 70, so that it is not taken for a
failed check.
"""

import os
import subprocess
import sys
import tempfile
import traceback
from collections import namedtuple

from programs import TOP, path_of

GREETING = b"Click::ControlSocket/1.3\r\n"

# The exit status and the outputs of a program.
Ran = namedtuple("Ran", "status out err")

# Files to read instead of others: from a path below the top of the repository to a path of a file.
stand_ins = {}


def fail(*lines):
    """Prints the lines on standard error and exits with status 1."""
    print(f"{os.path.basename(sys.argv[0])}:", *lines, sep="\n  " if len(lines) > 1 else " ", file=sys.stderr)
    sys.exit(1)


def program(name):
    """Returns the path of a built program. Its name may have a mode, as in `click_prog --calls`."""
    path = path_of(name)
    if not os.access(path, os.X_OK):
        fail(f"there is no {path}: ./test.sh builds it, and so does rt run in its crate's folder")
    return os.path.realpath(path)


def command_of(name):
    """Returns the first words of a command: the path of the program and its mode, if it has one."""
    return [program(name), *name.split()[1:]]


def bytes_of(path, missing=None):
    """Returns the bytes of a file of the repository, or `missing` if there is no such file."""
    path = stand_ins.get(path) or f"{TOP}/{path}"
    if missing is not None and not os.path.exists(path):
        return missing
    with open(path, "rb") as it:
        return it.read()


def text_of(path):
    """Returns the text of a file of the repository."""
    return bytes_of(path).decode()


def lines_of(path):
    """Returns the lines of a file. Only LF ends a line; a CR is part of it."""
    return text_of(path).removesuffix("\n").split("\n") if text_of(path) else []


def names_in(folder, *endings):
    """Returns the names of the files in a folder with one of these endings, without it, sorted."""
    return sorted({os.path.splitext(it)[0] for it in os.listdir(f"{TOP}/{folder}") if it.endswith(endings)})


def ran(words, given=b"", seconds=120, **how):
    """Runs a program to its end, with the bytes `given` on standard input.

    If `given` is None, standard input is as `how` says. Fails after `seconds`.
    """
    if given is not None:
        how["input"] = given
    try:
        did = subprocess.run(words, stdout=how.pop("stdout", subprocess.PIPE), stderr=subprocess.PIPE, timeout=seconds, **how)
    except subprocess.TimeoutExpired:
        fail(f"this did not end in {seconds} s: {' '.join(map(str, words))[:300]}")
    return Ran(did.returncode, did.stdout or b"", did.stderr)


def shown(value):
    """Returns the first 1,000 characters of a value, with control characters made visible."""
    return repr(value if len(value) <= 1000 else value[:1000]) if isinstance(value, (bytes, str)) else repr(value)[:1000]


def same(wanted, came, what):
    """Checks that two values are equal."""
    if wanted != came:
        fail(what, f"wanted: {shown(wanted)}", f"came:   {shown(came)}")


def answered(came, what, out=b"", err=b"", status=0):
    """Checks the outputs and the status of a program."""
    same(out, came.out, what)
    same(err, came.err, f"{what}, on standard error")
    same(status, came.status, f"{what}, its status")


def is_there(value, what):
    """Checks that a list of examples, or another value, is not empty."""
    if not value:
        fail(f"there is nothing of {what}")


def in_folder(*links):
    """Returns a temporary folder with symbolic links, each given as its name and its target."""
    folder = tempfile.TemporaryDirectory(prefix="examples-")
    for name, path in links:
        os.makedirs(os.path.dirname(f"{folder.name}/{name}"), exist_ok=True)
        os.symlink(path, f"{folder.name}/{name}")
    return folder


def begun(main):
    """Runs the script's `main` and exits with its status, or with 70 after an exception."""
    try:
        sys.exit(main(sys.argv[1:]))
    except Exception:
        traceback.print_exc()
        sys.exit(70)
