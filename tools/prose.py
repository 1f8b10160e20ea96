#!/usr/bin/env python3
"""Checks the prose of the project: sentences, words and line widths of pages, comments and docstrings.

    tools/prose.py [--all] [--by area|file] [--only KIND,..] [--since REV] [PATH..]
    tools/prose.py --check-count
    tools/prose.py --store-count

Reads the pages (.md) and the comments of all .rt, .antt, .sh and .py files and of clickctl, or only
of the PATHs. Prints a table of counts and the first findings; --all prints every finding. The status
is 1 if there is a finding.

--check-count compares the number of findings in all files with tools/prose-count.txt. More
findings are an error, and so are fewer: then --store-count has to store the smaller number, so that
the number can only fall.

Kinds of findings:
    long       a sentence of more than 30 words
    opening    a comment that begins with 'The same', 'So' or 'As of', or a sentence with 'Where'
    subject    'who', 'whoever' or 'that one' as a subject
    word       a phrase that docs/GLOSSARY.md forbids
    width      a line of a page over 100 columns, or a row of a table over 240
    commit     a commit subject over 72 characters since REV (checked only with --since)

The forbidden phrases are the quoted ones in the columns 'Not' and 'Instead of' of docs/GLOSSARY.md.
The exceptions are the lines of tools/prose-allow.txt: a kind, a path (with `*`) and a part of the
finding's text, with tabs between them. docs/STYLE.md has the rules.
"""

from __future__ import annotations

import argparse
import fnmatch
import os
import re
import subprocess
import sys
from collections import Counter
from typing import Callable, Iterator, NamedTuple

TOP = os.path.dirname(os.path.dirname(os.path.realpath(__file__)))
GLOSSARY = f"{TOP}/docs/GLOSSARY.md"
ALLOWED = f"{TOP}/tools/prose-allow.txt"
COUNT = f"{TOP}/tools/prose-count.txt"

MAX_WORDS = 30
MAX_COLUMNS = 100
MAX_ROW_COLUMNS = 240
MAX_SUBJECT = 72
# The number of findings that are printed without --all.
MAX_SHOWN = 12
KINDS = ("long", "opening", "subject", "word", "width", "commit")
# These files quote what they forbid.
NO_PROSE = ("GLOSSARY.md", "STYLE.md", "prose.py")

# The marker of a comment line, by the file's ending.
MARKERS = {".rt": r"//[/!]?", ".antt": r"--", ".sh": r"#", ".py": r"#"}

FREE_WHO = re.compile(
    r"\b(?:since|that|than|by|to|from|of|for|until|when|what|while|with|lets?|keeps?|tells?|asks?"
    r"|wakes?|looks|slows down|gives?|leaves) who\b"
    r"|^who\b(?!.*\?$)|[,;:] who (?:has|finds|comes|looks|learns|calls|waits|takes)\b"
    r"|\bwhoever\b|\bthat one\b",
    re.I,
)
OPENING = re.compile(r"(?:The same|So|As of)\b", re.I)
WHERE = re.compile(r"Where\b(?!.*\?$)")


class Finding(NamedTuple):
    kind: str
    path: str
    line: int
    text: str


class Block(NamedTuple):
    """A paragraph, list item, table cell or comment, with the number of its first line."""

    line: int
    text: str
    is_comment: bool


class Words(NamedTuple):
    """The forbidden phrases: a pattern that finds them, and what to write instead of each."""

    pattern: re.Pattern[str]
    instead: dict[str, str]


class Exemption(NamedTuple):
    kind: str
    path: str
    part: str


def read(path: str) -> str:
    with open(path, encoding="utf-8", errors="replace") as file:
        return file.read()


def all_files() -> list[str]:
    """Returns the paths of all files from the top, in order, without what builds left."""
    paths = []
    for at, folders, names in os.walk(TOP):
        folders[:] = [it for it in folders if it not in ("out", ".git", "target", "__pycache__")]
        paths += [os.path.relpath(f"{at}/{it}", TOP) for it in names]
    return sorted(paths)


def comment_blocks(text: str, marker: str) -> Iterator[Block]:
    """Yields the comments; consecutive lines with one marker are one block, except list items."""
    own_line = re.compile(rf"\s*({marker})(?: (.*))?$")
    item = re.compile(r"[-*] |\d+\. ")
    lines: list[str] = []
    first, previous = 0, None
    for number, line in enumerate([*text.splitlines(), ""], 1):
        found = own_line.match(line)
        if found and found[1] == previous and found[2] and not item.match(found[2]):
            lines.append(found[2])
            continue
        if lines:
            yield Block(first, " ".join(lines), True)
        lines = [found[2]] if found and found[2] else []
        first, previous = number, found[1] if found else None


def docstring_blocks(text: str) -> Iterator[Block]:
    """Yields the paragraphs of the docstrings of Python, except the indented ones."""
    for found in re.finditer(r'^\s*"""(.*?)"""', text, re.M | re.S):
        line = text.count("\n", 0, found.start(1)) + 1
        for paragraph in re.split(r"(\n\s*\n)", found[1]):
            if paragraph.strip() and not re.match(r"\n?    ", paragraph):
                yield Block(line, " ".join(paragraph.split()), True)
            line += paragraph.count("\n")


def page_blocks(text: str) -> Iterator[Block]:
    """Yields the paragraphs, list items and cells of a page, without code and headings."""
    lines: list[str] = []
    first, fenced = 0, False

    def ended() -> Iterator[Block]:
        if lines:
            yield Block(first, " ".join(lines), False)
        lines.clear()

    for number, line in enumerate([*text.splitlines(), ""], 1):
        if re.match(r"\s*```", line):
            fenced = not fenced
        stripped = line.strip()
        is_code = fenced or (line.startswith("    ") and not lines)
        if is_code or not stripped or re.match(r"#+ |```|<|!\[|What it stands on:", stripped):
            yield from ended()
        elif stripped.startswith("|"):
            yield from ended()
            for cell in re.split(r"(?<!\\)\|", stripped)[1:-1]:
                if cell.strip(" -:"):
                    yield Block(number, cell.strip(), False)
        else:
            if re.match(r"[-*] |\d+\. ", stripped):
                yield from ended()
                stripped = re.sub(r"^([-*]|\d+\.) ", "", stripped)
            if not lines:
                first = number
            lines.append(stripped)
    yield from ended()


def ending_of(path: str) -> str:
    """Returns the ending of a file's name, and that of a Python file for clickctl, which has none."""
    return ".py" if os.path.basename(path) == "clickctl" else os.path.splitext(path)[1]


def blocks_of(path: str, text: str) -> Iterator[Block]:
    ending = ending_of(path)
    if ending == ".md":
        yield from page_blocks(text)
    elif ending in MARKERS:
        yield from comment_blocks(text, MARKERS[ending])
        if ending == ".py":
            yield from docstring_blocks(text)


def without_code(text: str) -> str:
    """Returns the text with each piece of code as the one word `x`, and links as their texts."""
    text = re.sub(r"``.*?``|`[^`]*`", "x", text)
    text = re.sub(r"!?\[([^]]*)\]\([^)]*\)", r"\1", text)
    return re.sub(r"(?<![\w*])([*]{1,2}|_)(\S.*?\S|\S)\1(?!\w)", r"\2", text)


def sentences_of(text: str) -> list[str]:
    text = re.sub(r"\b(e\.g|i\.e|etc|vs|cf|Fig|Sec)\.", lambda it: it[0].replace(".", ""), text)
    return [it for it in re.split(r"(?<=[.!?])[\")']?\s+(?=[A-Zx\"'(\[])", text) if it.strip()]


def word_count(sentence: str) -> int:
    return len(re.findall(r"[\w][\w'/,.:=-]*", sentence))


def forbidden_words() -> Words:
    """Returns the phrases that the glossary forbids."""
    instead: dict[str, str] = {}
    heads: list[str] = []
    for line in read(GLOSSARY).splitlines():
        if not line.startswith("|"):
            heads = []
            continue
        cells = [it.strip() for it in re.split(r"(?<!\\)\|", line)[1:-1]]
        if not heads:
            heads = cells
            continue
        for head, cell in zip(heads, cells):
            if head in ("Not", "Instead of"):
                better = cells[0] if head == "Not" else cells[1]
                for phrase in re.findall(r'"([^"]+)"', cell):
                    instead[phrase.lower()] = re.sub(r"[*`]", "", better)
    phrases = sorted(instead, key=len, reverse=True)
    parts = "|".join(re.escape(it).replace(r"\ ", " ") for it in phrases)
    return Words(re.compile(rf"(?<![\w-])(?:{parts})(?![\w-])", re.I), instead)


def text_findings(path: str, text: str, words: Words) -> Iterator[Finding]:
    for block in blocks_of(path, text):
        if block.is_comment and OPENING.match(block.text):
            yield Finding("opening", path, block.line, block.text[:60])
        plain = without_code(block.text)
        for sentence in sentences_of(plain):
            count = word_count(sentence)
            if count > MAX_WORDS:
                yield Finding("long", path, block.line, f"{count} words: {sentence[:60]}..")
            if WHERE.match(sentence):
                yield Finding("opening", path, block.line, sentence[:60])
            found = FREE_WHO.search(sentence)
            if found:
                yield Finding("subject", path, block.line, f"'{found[0]}' in: {sentence[:60]}")
        for found in words.pattern.finditer(plain):
            better = words.instead[found[0].lower()]
            yield Finding("word", path, block.line, f"'{found[0]}': write '{better}'")


def width_findings(path: str, text: str) -> Iterator[Finding]:
    """Yields the lines of a page that are too wide, except code and links, which cannot be wrapped."""
    fenced = False
    for number, line in enumerate(text.splitlines(), 1):
        if line.startswith("```"):
            fenced = not fenced
        if fenced or line.startswith("    "):
            continue
        limit = MAX_ROW_COLUMNS if line.startswith("|") else MAX_COLUMNS
        if len(line) > limit and not re.fullmatch(r"\S*\]\(\S+\)\S*", line.strip()):
            yield Finding("width", path, number, f"{len(line)} columns: {line[:40]}..")


def commit_findings(since: str) -> Iterator[Finding]:
    log = subprocess.run(
        ["git", "-C", TOP, "log", "--format=%h%x09%s", f"{since}..HEAD"],
        capture_output=True,
        text=True,
        check=False,
    )
    if log.returncode:
        sys.exit(f"prose.py: {log.stderr.strip()}")
    for line in log.stdout.splitlines():
        commit, _, subject = line.partition("\t")
        if len(subject) > MAX_SUBJECT:
            text = f"{commit} has {len(subject)} characters: {subject[:50]}.."
            yield Finding("commit", "(log)", 0, text)


def exemptions() -> list[Exemption]:
    """Returns the exceptions, or ends the program if a line is not one."""
    found = []
    for line in read(ALLOWED).splitlines():
        if not line.strip() or line.startswith("#"):
            continue
        cells = line.split("\t")
        if len(cells) != 3 or cells[0] not in KINDS:
            sys.exit(f"prose.py: {ALLOWED}: not an exception: {line}")
        found.append(Exemption(*cells))
    return found


def is_exempt(finding: Finding, exempt: list[Exemption]) -> bool:
    return any(
        finding.kind == it.kind
        and fnmatch.fnmatch(finding.path, it.path)
        and it.part in finding.text
        for it in exempt
    )


def findings_in(paths: list[str], folder: str) -> tuple[list[Finding], int]:
    """Returns the findings in files of a folder, and the number of files that were read."""
    words, exempt = forbidden_words(), exemptions()
    found: list[Finding] = []
    count = 0
    for path in paths:
        is_text = ending_of(path) in (".md", *MARKERS)
        if not is_text or os.path.basename(path) in NO_PROSE:
            continue
        text = read(os.path.join(folder, path))
        count += 1
        found += text_findings(path, text, words)
        if path.endswith(".md"):
            found += width_findings(path, text)
    return [it for it in found if not is_exempt(it, exempt)], count


def area_of(path: str) -> str:
    """Returns the crate, the subfolder of bench/ or examples/, or the folder of a path."""
    parts = path.split("/")
    is_deep = parts[0] in ("crates", "bench", "examples") and len(parts) > 2
    return "/".join(parts[:2]) if is_deep else parts[0]


def print_table(found: list[Finding], group: Callable[[str], str]) -> None:
    """Prints the counts by kind, with a row for each group, the largest first."""
    counts = Counter((group(it.path), it.kind) for it in found)
    kinds = [it for it in KINDS if any(kind == it for _, kind in counts)]
    sums = Counter(group(it.path) for it in found)
    print(f"{'':44}" + "".join(f"{it:>9}" for it in [*kinds, "all"]))
    for name, total in sums.most_common():
        print(f"{name[-43:]:44}" + "".join(f"{counts[name, it]:9}" for it in kinds) + f"{total:9}")
    totals = Counter(it.kind for it in found)
    print(f"{'all':44}" + "".join(f"{totals[it]:9}" for it in kinds) + f"{len(found):9}")


def check_count() -> int:
    """Compares the number of findings in all files with the stored one, and returns the status."""
    found, files = findings_in(all_files(), TOP)
    count, stored = len(found), int(read(COUNT))
    if count == stored:
        print(f"{files} files: {count} findings, as stored")
        return 0
    if count < stored:
        print(
            f"prose.py: {count} findings, and {stored} are stored:"
            " run tools/prose.py --store-count to store the smaller number",
            file=sys.stderr,
        )
        return 1
    print_table(found, area_of)
    print(
        f"prose.py: {count} findings, and at most {stored} are allowed (tools/prose-count.txt):"
        " tools/prose.py --all PATH.. prints those of the files that you changed",
        file=sys.stderr,
    )
    return 1


def store_count() -> int:
    """Stores the number of findings in all files if it is smaller, and returns the status."""
    count = len(findings_in(all_files(), TOP)[0])
    stored = int(read(COUNT))
    if count > stored:
        print(f"prose.py: {count} findings, and {stored} are stored", file=sys.stderr)
        return 1
    with open(COUNT, "w", encoding="ascii") as file:
        file.write(f"{count}\n")
    print(f"{count} findings are stored")
    return 0


def report(options: argparse.Namespace) -> int:
    """Prints the findings that the options ask for, and returns the status."""
    paths, folder = (options.paths, ".") if options.paths else (all_files(), TOP)
    found, files = findings_in(paths, folder)
    if options.since:
        found += commit_findings(options.since)
    kinds = options.only.split(",")
    found = [it for it in found if it.kind in kinds]
    if not found:
        print(f"{files} files: no finding")
        return 0
    print_table(found, area_of if options.by == "area" else str)
    print()
    shown = found if options.all else found[:MAX_SHOWN]
    for it in shown:
        print(f"{it.path}:{it.line}: {it.kind}: {it.text}")
    if len(shown) < len(found):
        print(f".. and {len(found) - len(shown)} more; --all prints them")
    return 1


def main() -> int:
    parser = argparse.ArgumentParser(
        description=__doc__, formatter_class=argparse.RawDescriptionHelpFormatter
    )
    parser.add_argument("--all", action="store_true", help="print every finding")
    parser.add_argument("--by", choices=("area", "file"), default="area", help="the table's rows")
    parser.add_argument("--only", default=",".join(KINDS), help="the kinds, with commas between")
    parser.add_argument("--since", help="also check the commit subjects since this revision")
    parser.add_argument("--check-count", action="store_true", help="compare with the stored number")
    parser.add_argument("--store-count", action="store_true", help="store a smaller number")
    parser.add_argument("paths", nargs="*", help="files to check; default: all")
    options = parser.parse_args()
    if options.check_count:
        return check_count()
    if options.store_count:
        return store_count()
    return report(options)


if __name__ == "__main__":
    sys.exit(main())
