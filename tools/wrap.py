#!/usr/bin/env python3
"""Wraps prose at 100 columns, in place.

    wrap.py FILE..

In Markdown pages it wraps paragraphs and list items, and leaves headings, tables, code, quotes and
pictures unchanged. In .rt, .antt, .sh and .py files it wraps the paragraphs of comments that have a
line over 100 columns. A span of code, and a link, is not broken. Code is never changed.
"""

import os
import re
import sys

MAX_COLUMNS = 100
# Lines that are not wrapped: headings, tables, quotes, pictures, and lines that a script reads.
KEPT = re.compile(r"#|\s*\||>|!\[|<|What it stands on:|An example(?: of calls)?, with `-e")


def wrapped(text, first, rest):
    """Returns the lines of a paragraph, the first one with one indent and the others with another."""
    tokens = re.findall(r"(?:`[^`]*`|!?\[[^]]*\]\([^)]*\)|\S)+", text)
    lines, line = [], first
    for token in tokens:
        if line.strip() and len(line) + 1 + len(token) > MAX_COLUMNS and line not in (first, rest):
            lines.append(line.rstrip())
            line = rest
        line += token if line in (first, rest) else f" {token}"
    return lines + [line.rstrip()]


def wrap(text):
    done, held, first, rest, fenced = [], [], "", "", False

    def ended():
        if held:
            done.extend(wrapped(" ".join(held), first, rest))
        held.clear()

    for line in text.split("\n"):
        if line.startswith("```"):
            fenced = not fenced
            ended()
            done.append(line)
            continue
        item = re.match(r"( *(?:[-*]|\d+\.) )(.*)", line)
        is_code = line.startswith("    ") and not item and not held
        if fenced or is_code or not line.strip() or KEPT.match(line):
            ended()
            done.append(line)
        elif item and len(item[1]) < 8:
            ended()
            first, rest = item[1], " " * len(item[1])
            held.append(item[2])
        else:
            if not held:
                first = rest = ""
            held.append(line.strip())
    ended()
    return "\n".join(done)


def wrap_comments(text, marker):
    done, held, start = [], [], None

    def ended():
        if held and any(len(it) > MAX_COLUMNS for it in held):
            words = " ".join(it[len(start) :].strip() for it in held)
            done.extend(wrapped(words, start, start))
        else:
            done.extend(held)
        held.clear()

    for line in text.split("\n"):
        found = re.match(rf"(\s*{marker} )(?=\S)", line)
        if not found:
            ended()
            done.append(line)
            continue
        # An item of a list, or a tag, begins a paragraph of its own.
        is_new = re.match(r"([-*] |\d+\. |(perf|proof|SAFETY): )", line[len(found[1]) :])
        if held and (found[1] != start or is_new):
            ended()
        start = found[1]
        held.append(line)
    ended()
    return "\n".join(done)


MARKERS = {".rt": r"//[/!]?", ".antt": r"--", ".sh": r"#", ".py": r"#"}

for page in sys.argv[1:]:
    with open(page, encoding="utf-8") as file:
        before = file.read()
    ending = os.path.splitext(page)[1]
    after = wrap_comments(before, MARKERS[ending]) if ending in MARKERS else wrap(before)
    if after != before:
        with open(page, "w", encoding="utf-8") as file:
            file.write(after)
