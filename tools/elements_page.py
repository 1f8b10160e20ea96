#!/usr/bin/env python3
"""Writes docs/ELEMENTS.md, the manual of the element classes, from the docstrings of their makers.

    tools/elements_page.py            writes the page
    tools/elements_page.py --check    compares it, and ends with status 1 and a diff if it differs

A maker is a function `make_..` of crates/click_classes/src/classes. The first line of its docstring
begins with the class and its arguments in backquotes. The docstring ends with two blocks of code: a
configuration (`click`), and a configuration with calls and their replies (`calls`). To keep lines
short, a configuration may have several lines, which the page joins by spaces, and a call that ends
with a comma goes on in the next line. The classes have the order of click_base. A class without a
manual page ends this with status 1, and so does a manual page of no class."""

import difflib
import os
import re
import sys
from typing import Iterator, NamedTuple

TOP = os.path.dirname(os.path.dirname(os.path.realpath(__file__)))
PAGE = "docs/ELEMENTS.md"
MAKERS = "crates/click_classes/src/classes"
CLASSES = "crates/click_base/src/class.rt"
HERE = "tools/elements_page.py"

INTRODUCTION = f"""\
# The element classes

For those who write configurations: the manual page of each element class, in the order of the Click
element reference. It has the arguments, the ports, what the class does with a packet, and the
handlers. `{HERE}` writes this page from docstrings of the code, so change those.

Below each class is a configuration that uses it. After it comes one with calls and their replies,
in the format of [CALLS.md](CALLS.md). `>` marks a call, and packets and values are in hex digits.
The replies were worked out by hand from the text. `tools/examples.py` starts the program with all
of these configurations and makes the calls.

**Arguments.** Square brackets mark optional arguments. The program refuses a configuration with
wrong arguments or ports ([FAULTS.md](FAULTS.md)).

| Argument | How it is written |
|---|---|
| a number | decimal digits, or `0x` and hexadecimal digits |
| a truth value | `true`, `yes` or `1`; `false`, `no` or `0` |
| an address | four decimal numbers from 0 to 255, of one to three digits, joined by `.` |
| a prefix | an address, `/` and a length from 0 to 32 in decimal digits; an address alone has length 32. The bits past the length count as 0. |
| an Ethernet address | six groups of one or two hexadecimal digits, joined by `:` |
| a device | 1 to 64 letters, digits, `_`, `.`, `:`, `-` |

**Ports.** A port is push, pull or agnostic. An agnostic port is push or pull according to the ports
that it is connected to. A task is work that an element does once in each round. Packets come from
InfiniteSource elements and from devices; `--link` makes a pair of UDP addresses a device
([LINKS.md](LINKS.md)).

**Handlers.** A handler is named `element.handler`. Reading a handler changes nothing. Its value is
a number in decimal digits, `true` or `false`, or what the class says. Spaces and tabs at the ends
of a text are ignored. So is a whole text that the class does not mention. A number that is written
has decimal digits only, as many as you like. A write that is refused changes nothing. The reasons
are in parentheses: not a number, out of range, not a truth value, not an address.
"""

MAKER = re.compile(r"((?:^///.*\n)+)(?:^#\[.*\n)*^pub fn make_", re.M)
HEAD = re.compile(r"`(?P<name>[A-Za-z]+)(?:\(.*?\))?` ")
BLOCK = re.compile(r"^```(\w+)\n(.*?)^```$", re.M | re.S)


class ManualPage(NamedTuple):
    """The manual page of a class: its name, its text, and its blocks of code in order."""

    name: str
    text: str
    kinds: list[str]


def read(path: str) -> str:
    with open(os.path.join(TOP, path), encoding="utf-8") as file:
        return file.read()


def joined(kind: str, lines: list[str]) -> list[str]:
    """Returns the lines of a block, with its configuration on one line and each call on one."""
    ends = (at for at, line in enumerate(lines) if kind == "calls" and line.startswith("> "))
    end = next(ends, len(lines))
    calls = "\n".join(lines[end:]).replace(",\n", ",")
    return [" ".join(line.strip() for line in lines[:end]), *calls.splitlines()]


def block(found: re.Match) -> str:
    kind, lines = found[1], found[2].splitlines()
    return "\n".join([f"```{kind}", *joined(kind, lines), "```"])


def manual_pages(path: str) -> Iterator[ManualPage]:
    """Yields the manual pages of a source file."""
    for docs in MAKER.findall(read(path)):
        text = "\n".join(line[4:] for line in docs.splitlines())
        head = HEAD.match(text)
        if not head:
            sys.exit(f"{HERE}: {path}: a maker has no manual page, but {text.splitlines()[0]!r}")
        kinds = [kind for kind, _ in BLOCK.findall(text)]
        yield ManualPage(head["name"], BLOCK.sub(block, text), kinds)


def page() -> str:
    classes = re.findall(r"^    Class::(\w+),$", read(CLASSES), re.M)
    files = sorted(file for file in os.listdir(os.path.join(TOP, MAKERS)) if file.endswith(".rt"))
    found = [it for file in files for it in manual_pages(f"{MAKERS}/{file}")]
    names = [it.name for it in found]
    if sorted(names) != sorted(classes):
        odd = sorted(set(names) ^ set(classes)) or sorted(it for it in names if names.count(it) > 1)
        sys.exit(f"{HERE}: not one manual page for each class: {', '.join(odd)}")
    bare = [it.name for it in found if it.kinds != ["click", "calls"]]
    if bare:
        sys.exit(f"{HERE}: not one block of click and then one of calls: {', '.join(bare)}")
    found.sort(key=lambda it: classes.index(it.name))
    return "\n".join([INTRODUCTION, *(f"## {it.name}\n\n{it.text}\n" for it in found)])


def main() -> int:
    if sys.argv[1:] not in ([], ["--check"]):
        sys.exit(f"usage: {HERE} [--check]")
    written = page()
    if not sys.argv[1:]:
        with open(os.path.join(TOP, PAGE), "w", encoding="utf-8") as file:
            file.write(written)
        return 0
    there = read(PAGE)
    if there == written:
        print(f"{PAGE} is what {HERE} writes")
        return 0
    sys.stderr.writelines(
        difflib.unified_diff(
            there.splitlines(True),
            written.splitlines(True),
            PAGE,
            f"what {HERE} writes",
        )
    )
    return 1


if __name__ == "__main__":
    sys.exit(main())
