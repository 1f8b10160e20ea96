#!/usr/bin/env python3
"""Writes docs/TESTS.md, the list of what each test shows, from sentences in the sources of the
tests.

    tools/tests_page.py            writes the page
    tools/tests_page.py --check    compares it, and ends with status 1 and a diff if it differs

The sentences are those of the cases of tests/*.script and the docstrings of the tests of the
crates. For a script that tests from outside it is the first paragraph of its docstring, or of its
first comment. For a shell script next to a .py file with the same name, it is that of the .py file.
A test without a sentence ends the script with status 1.
"""

import ast
import difflib
import glob
import itertools
import os
import re
import sys
import textwrap
from typing import Iterator

TOP = os.path.dirname(os.path.dirname(os.path.realpath(__file__)))
PAGE = "docs/TESTS.md"
MAX_COLUMNS = 100
# The minimum number of words of a sentence, which has at least a subject and a verb.
MIN_WORDS = 3
HERE = "tools/tests_page.py"

# Scripts of tools/ that test nothing by themselves.
NO_TESTS = {HERE, "tools/gate.py", "tools/page_mock.py", "tools/quick_build.py", "tools/wrap.py"}

INTRODUCTION = f"""\
# Tests

This page lists what each test of the gate shows, for engineers who change the code.
`{HERE}` writes it from sentences in the sources of the tests, so change those. The
expected values come from Click's manual, from RFCs, from the pages, or from arithmetic done by
hand. A test shows what no contract states. The contracts are in the READMEs of the crates, which
[DEFINITIONS.md](DEFINITIONS.md) lists.
"""

SCRIPTS = """\
## Scripts of the player

Each file of tests/ has the cases of one subject. A case has steps, each with its expected reply.
The proved program click_player plays them.
"""

RUST = """\
## Tests in Rust

These need threads, rows or tables of handlers, or values that no script can make.
"""

OUTSIDE = """\
## Scripts that test from outside

They run the programs, or read the pages and sources.
"""

TEST = re.compile(r"((?:^[ \t]*///.*\n)*)^[ \t]*#\[test\]\n(?:^[ \t]*#\[.*\n)*^[ \t]*fn (\w+)", re.M)


def read(path: str) -> str:
    with open(os.path.join(TOP, path), encoding="utf-8") as file:
        return file.read()


def paths(pattern: str) -> list[str]:
    found = glob.glob(os.path.join(TOP, pattern), recursive=True)
    return sorted(os.path.relpath(path, TOP) for path in found)


def sentence(text: str, where: str) -> str:
    """Returns a text as one line with a full stop, and ends the program if it has too few words."""
    # In the comment of a script crates/NAME/ means each crate, which a page writes with a star.
    line = " ".join(text.split()).rstrip(":").replace("crates/NAME/", "crates/*/")
    if len(line.split()) < MIN_WORDS:
        sys.exit(f"{HERE}: {where} has no sentence that says what it shows, but {line!r}")
    return line if line.endswith(".") else line + "."


def escaped(line: str) -> str:
    """Returns a line with Markdown's signs escaped, except in backquotes."""
    parts = line.split("`")
    parts[::2] = [re.sub(r"([\\*<])", r"\\\1", part) for part in parts[::2]]
    return "`".join(parts)


def filled(line: str, **indents: str) -> str:
    """Returns a line as Markdown, wrapped to the width of a page."""
    return textwrap.fill(
        escaped(line), MAX_COLUMNS, break_long_words=False, break_on_hyphens=False, **indents
    )


def item(line: str) -> str:
    return filled(line, initial_indent="- ", subsequent_indent="  ")


def first_comment(lines: list[str]) -> str:
    """Returns the first paragraph of the comment with which these lines begin."""
    said = itertools.takewhile(lambda line: re.match("# *[^# ]", line), lines)
    return "\n".join(line[1:] for line in said)


def script_part(path: str) -> Iterator[str]:
    """Yields the lines of a script's cases, below its first comment."""
    lines = read(path).splitlines()
    cases = [
        (number, line.split("\t", 1)[1])
        for number, line in enumerate(lines, 1)
        if line.startswith("case\t")
    ]
    if not cases:
        sys.exit(f"{HERE}: {path} has no case")
    yield f"### [{os.path.basename(path)}](../{path})\n"
    yield filled(sentence(first_comment(lines), path)) + "\n"
    for number, case in cases:
        yield item(sentence(case, f"{path}:{number}"))
    yield ""


def tests_of(path: str) -> Iterator[str]:
    """Yields an item for each test of a source file."""
    module = os.path.splitext(os.path.relpath(path, path.split("/src/")[0] + "/src"))[0]
    for docs, name in TEST.findall(read(path)):
        test = f"{module.replace('/', '::')}::{name}"
        text = " ".join(line.strip()[3:] for line in docs.splitlines())
        yield item(f"`{test}`: " + sentence(text, f"{path}: {name}"))


def rust_part(crate: str) -> Iterator[str]:
    """Yields the lines of the tests of a crate, if it has any."""
    tests = [test for path in paths(f"crates/{crate}/src/**/*.rt") for test in tests_of(path)]
    if tests:
        yield f"### [{crate}](../crates/{crate}/README.md)\n"
        yield from tests
        yield ""


def first_paragraph(path: str) -> str:
    """Returns the first paragraph of a script's docstring, or of its first comment."""
    if path.endswith(".py"):
        return (ast.get_docstring(ast.parse(read(path))) or "").split("\n\n")[0]
    return first_comment(read(path).splitlines()[1:])


def outside_scripts() -> list[str]:
    tools = [path for path in paths("tools/*.sh") + paths("tools/*.py") if path not in NO_TESTS]
    runs = [path for path in tools if os.access(os.path.join(TOP, path), os.X_OK)]
    return sorted(runs) + paths("examples/*/run.sh")


def outside_item(path: str) -> str:
    stem, kind = os.path.splitext(path)
    sibling = stem + ".py"
    said = sibling if kind == ".sh" and os.path.exists(os.path.join(TOP, sibling)) else path
    return item(f"[{path}](../{path}): " + sentence(first_paragraph(said), said))


def page() -> str:
    lines = [INTRODUCTION, SCRIPTS]
    for path in paths("tests/*.script"):
        lines += script_part(path)
    lines.append(RUST)
    for crate in sorted(os.listdir(os.path.join(TOP, "crates"))):
        lines += rust_part(crate)
    lines.append(OUTSIDE)
    lines += [outside_item(path) for path in outside_scripts()]
    return "\n".join(lines) + "\n"


def main() -> int:
    if sys.argv[1:] not in ([], ["--check"]):
        sys.exit(f"usage: {HERE} [--check]")
    written = page()
    if not sys.argv[1:]:
        with open(os.path.join(TOP, PAGE), "w", encoding="utf-8") as file:
            file.write(written)
        return 0
    there = read(PAGE)
    if there == written:
        print(f"{PAGE} is what {HERE} writes")
        return 0
    sys.stderr.writelines(
        difflib.unified_diff(
            there.splitlines(True),
            written.splitlines(True),
            PAGE,
            f"what {HERE} writes",
        )
    )
    return 1


if __name__ == "__main__":
    sys.exit(main())
