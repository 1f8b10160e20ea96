"""Finds the programs that the test scripts check.

A proved program is where ./test.sh builds it. An environment variable can name another program
instead. A program can be named together with a mode, such as `click_prog --calls`, which has a
variable of its own. tools/lib/checking.sh does this for the scripts in bash.
"""

import os

TOP = os.path.dirname(os.path.dirname(os.path.dirname(os.path.realpath(__file__))))
VARIABLES = {"click_prog": "PROGRAM", "click_prog --calls": "CALLS", "click_prog --pcap": "PCAP", "click_player": "PLAYER"}
PROGRAMS = ("click_prog", "click_player")


def proved_path(crate: str) -> str:
    """Returns the path at which the proved program of a crate is built."""
    return f"{TOP}/crates/{crate}/out/{crate}"


def unproved_path(crate: str) -> str:
    """Returns the path at which tools/quick_build.py builds the unproved program of a crate."""
    return f"{TOP}/crates/{crate}/out/quick/{crate}"


def path_of(name: str) -> str:
    """Returns the path of the program to check.

    The variable of its mode takes precedence, then that of the program, then the proved program.
    """
    crate = name.split()[0]
    return os.environ.get(VARIABLES[name]) or os.environ.get(VARIABLES[crate]) or proved_path(crate)
