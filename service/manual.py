#!/usr/bin/env python3
"""Writes manual pages, in the language of man(7), to standard output.

    service/manual.py click_prog PROGRAM    the page of the program, from its --help and CONTROL.md
    service/manual.py clickctl PROGRAM      the page of the command, from its --help and CLICKCTL.md
    service/manual.py click                 the page of the files in /etc/click, from OPERATING.md

The folder docs/ has the pages. ./install.sh calls this script.
"""

from __future__ import annotations

import os
import re
import subprocess
import sys

TOP = os.path.dirname(os.path.dirname(os.path.realpath(__file__)))
SEE_ALSO = {
    "click_prog": "click(5), clickctl(1), systemctl(1)",
    "clickctl": "click_prog(1), click(5)",
    "click": "click_prog(1), clickctl(1), systemctl(1), systemd.exec(5)",
}
# Sections of help texts that have another name in manual pages.
HEADINGS = {"status": "exit status"}


def escaped(text: str) -> str:
    """Returns the text so that troff prints each character as it stands here."""
    text = text.replace("\\", "\\e").replace("-", "\\-").replace("'", "\\(aq").replace("`", "\\(ga").replace("^", "\\(ha").replace("~", "\\(ti")
    return re.sub(r"^\.", r"\\&.", text, flags=re.M)


def inline(text: str) -> str:
    """Returns a paragraph of Markdown: code and strong text in bold, and links as their texts."""
    text = re.sub(r"\[([^]]*)\]\([^)]*\)", r"\1", " ".join(text.split()))
    parts = re.split(r"(``.*?``|`[^`]*`|\*\*[^*]*\*\*)", text)
    return "".join(rf"\fB{escaped(it.strip('`*'))}\fR" if at % 2 else escaped(it) for at, it in enumerate(parts))


def block(lines: list[str]) -> list[str]:
    """Returns lines that are printed unchanged."""
    text = "\n".join(escaped(it) for it in lines)
    return [".PP", ".RS 4", ".nf", text, ".fi", ".RE"]


def section_of(page: str, heading: str) -> str:
    """Returns the text of a page below a heading, up to the next heading of the same level."""
    with open(f"{TOP}/docs/{page}", encoding="utf-8") as it:
        text = it.read()
    found = re.search(rf"^(#+) {re.escape(heading)}\n(.*?)(?=^\1 |\Z)", text, re.M | re.S)
    if not found:
        sys.exit(f"manual.py: docs/{page} has no heading '{heading}'")
    return found[2].strip("\n")


def is_row(line: str) -> bool:
    return line.startswith("|")


def rows_of(lines: list[str]) -> list[str]:
    """Returns a table as a list: the first cell of each row, and the other cells below it."""
    out = []
    for line in lines[2:]:
        first, *rest = (it.strip() for it in re.split(r"(?<!\\)\|", line)[1:-1])
        out += [".TP", inline(first), inline(". ".join(it.rstrip(".") for it in rest if it) + ".")]
    return out


def markdown(text: str) -> list[str]:
    """Returns paragraphs, lists, tables, indented blocks and subheadings of Markdown in man(7)."""
    out: list[str] = []
    # A block of lines ends at an empty line; an indented block may have empty lines inside.
    for part in re.split(r"\n\n+(?!    )", text):
        lines = part.split("\n")
        if lines[0].startswith("#"):
            out += [f'.SS "{escaped(lines[0].lstrip("# "))}"']
            lines = lines[1:]
        if not "".join(lines).strip():
            continue
        if is_row(lines[0]):
            out += rows_of(lines)
        elif lines[0].startswith("    "):
            out += block([it[4:] for it in lines])
        elif re.match(r"(-|\d+\.) ", lines[0]):
            for item in re.split(r"\n(?=(?:-|\d+\.) )", "\n".join(lines)):
                mark, words = item.split(" ", 1)
                out += [f".IP {escaped(mark).replace(chr(92) + '-', chr(92) + '(bu')} 4", inline(words)]
        else:
            before, _, shown = part.partition("\n\n    ")
            out += [".PP", inline(before)]
            if shown:
                out += block([it.removeprefix("    ") for it in f"    {shown}".split("\n")])
    return out


def options(lines: list[str]) -> list[str]:
    """Returns the entries of a list of a help text, such as `  -p PORT  Port`, each as a tag."""
    out: list[str] = []
    for line in lines:
        found = re.match(r" {2,6}(\S.*?)(?: {2,}(\S.*))?$", line)
        if found and len(line) - len(line.lstrip()) <= 6:
            out += [".TP", rf"\fB{escaped(found[1])}\fR"]
            out += [escaped(found[2])] if found[2] else []
        elif line.strip():
            out.append(escaped(line.strip()))
    return out


def help_of(program: str) -> str:
    """Returns the help text of a program, which may be on standard error."""
    ran = subprocess.run([program, "--help"], stdin=subprocess.DEVNULL, stdout=subprocess.PIPE, stderr=subprocess.STDOUT, env={**os.environ, "COLUMNS": "100"}, check=False)
    text = ran.stdout.decode()
    if not re.search(r"^usage: ", text, re.M | re.I):
        sys.exit(f"manual.py: {program} --help prints no usage: {text[:200]!r}")
    return text


def page_of_help(text: str) -> tuple[str, list[str]]:
    """Returns what a program is for, in one line, and the sections of its page."""
    about, synopsis, sections, rest = "", [], [], []
    for part in re.split(r"\n\n+", text.strip("\n")):
        lines = part.split("\n")
        heading = re.fullmatch(r"([A-Za-z ]+):", lines[0])
        if re.match("usage: ", part, re.I):
            synopsis = [".SH SYNOPSIS", ".nf", escaped(re.sub(r"^usage: ", "", part, flags=re.I)), ".fi"]
        elif heading and heading[1] == "positional arguments":
            # The section COMMANDS has them.
            continue
        elif heading and len(lines) > 1 and lines[1].startswith("  "):
            name = HEADINGS.get(heading[1], heading[1])
            sections += [f'.SH "{escaped(name.upper())}"', *options(lines[1:])]
        elif part.startswith("  "):
            sections += options(lines)
        elif about:
            rest += [".PP", escaped(" ".join(lines))]
        else:
            about = " ".join(" ".join(lines).split())
    return about, [*synopsis, ".SH DESCRIPTION", ".PP", escaped(about.rstrip(".") + "."), *rest, *sections]


def pages_of_commands(program: str, text: str) -> list[str]:
    """Returns a section with what each command of clickctl prints at --help."""
    out = [".SH COMMANDS"]
    for name in re.findall(r"^    ([a-z]+) {2,}", text, re.M):
        ran = subprocess.run([program, name, "--help"], stdin=subprocess.DEVNULL, capture_output=True, env={**os.environ, "COLUMNS": "80"}, check=True)
        out += [f'.SS "{name}"', *block(ran.stdout.decode().strip().split("\n"))[2:-1]]
    return out


def page(name: str, section: int, about: str, body: list[str]) -> str:
    """Returns a whole page. The first letter of `about` is made lower case."""
    head = [f'.TH {name.upper()} {section} "" "Wuthkeam 1" "Click router"', ".SH NAME", rf"{escaped(name)} \- {escaped(about[0].lower() + about[1:].rstrip('.'))}"]
    return "\n".join([*head, *body, ".SH SEE ALSO", escaped(SEE_ALSO[name])]) + "\n"


def main(words: list[str]) -> None:
    if words == ["click"]:
        text = section_of("OPERATING.md", "The files of a router")
        print(page("click", 5, "files of the unit click@NAME", [".SH DESCRIPTION", *markdown(text)]), end="")
        return
    if len(words) != 2 or words[0] not in ("click_prog", "clickctl"):
        sys.exit("usage: service/manual.py click_prog|clickctl PROGRAM, or service/manual.py click")
    name, program = words
    text = help_of(program)
    about, body = page_of_help(text)
    if name == "clickctl":
        body += pages_of_commands(program, text)
        for heading in ("Values", "Swaps", "Watching and waiting"):
            body += [f'.SH "{heading.upper()}"', *markdown(section_of("CLICKCTL.md", heading))]
    else:
        body += [".SH EXIT STATUS", *markdown(section_of("CONTROL.md", "Exit status"))]
        body += [".SH LOG", *markdown(section_of("CONTROL.md", "The log"))]
        body += [".SH PROTOCOL OF CONTROL SESSIONS", *markdown(section_of("CONTROL.md", "The protocol"))]
    print(page(name, 1, about, body), end="")


if __name__ == "__main__":
    main(sys.argv[1:])
