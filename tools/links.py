#!/usr/bin/env python3
"""Checks the links and names in all pages. Each link leads to a file and, if it has an anchor, to a
heading. Each path and each name of the code exists. examples/README.md names each example, and
README.md fits on two screens.

    tools/links.py [PAGE AS]

With PAGE, checks only that file, as if it were at the path AS.

In backquotes these are checked: paths that begin with a folder of the top or of a crate, file
names, `a::b`, words in snake_case or CamelCase, and single words. A path or file has to exist,
except below out/, which has build results. For `a::b` some file of the code has to contain both
words, in its text or in its path. A word has to occur in some file of the code. Names that no
longer exist are written without backquotes.
"""

import os
import re
import sys

TOP = os.path.dirname(os.path.dirname(os.path.realpath(__file__)))
OF_TOP = ("docs", "tools", "examples", "bench", "crates", "clients", ".ci")
OF_CRATES = ("src", "specs", "proofs", "wrong-bodies", "by-hand", "must-fail")
CODE = (".rt", ".antt", ".edit", ".sh", ".py", ".rs", ".c", ".txt", ".click", ".calls", ".rattle", "/clickctl")
# This script contains wrong names on purpose, to show that they are refused.
SHOWN_TO_FAIL = "tools/wrong_programs.sh"
LINES, COLUMNS = 130, 120


def files_of_the_tree():
    """Returns the path of each file from the top of the repository, without build results."""
    found = []
    for folder, folders, names in os.walk(TOP):
        folders[:] = [it for it in folders if it not in ("out", ".git", "target")]
        found += [os.path.relpath(f"{folder}/{it}", TOP) for it in names]
    return found


def text_of(path):
    with open(path, encoding="utf-8", errors="replace") as it:
        return it.read()


class Tree:
    """The files and folders of the repository, and the words of its code."""

    def __init__(self):
        self.files = set(files_of_the_tree())
        self.folders = {os.path.dirname(it) for it in self.files}
        self.folders |= {"/".join(it.split("/")[:n]) for it in self.folders for n in range(1, it.count("/") + 2)}
        self.bases = {os.path.basename(it) for it in self.files} | {os.path.basename(it) for it in self.folders}
        # Each word of the code, with the files that have it in their text or their path.
        self.places = {}
        for path in sorted(self.files):
            if path.endswith(CODE) and path != SHOWN_TO_FAIL:
                words = set(re.findall(r"\w+", text_of(f"{TOP}/{path}"))) | set(re.findall(r"\w+", path))
                for word in words:
                    self.places.setdefault(word, set()).add(path)

    def has(self, path):
        """Returns whether a file or folder exists at a path from the top, which may have `*`."""
        path = path.rstrip("/")
        if "*" in path:
            wanted = re.compile(re.escape(path).replace(r"\*", "[^/]*"))
            return any(wanted.fullmatch(it) for it in self.files | self.folders)
        return path in self.files or path in self.folders

    def has_in_crates(self, path):
        """Returns whether a path exists in the folder of some crate. Its ending may be left out."""
        path = path.rstrip("/")
        wanted = re.compile(r"crates/\w+/" + re.escape(path).replace(r"\*", "[^/]*") + r"(\.rt|\.antt|\.edit)?")
        return any(wanted.fullmatch(it) for it in self.files | self.folders)

    def has_name(self, names):
        """Returns whether some file has the last two of these words, as in `a::b`."""
        files = [self.places.get(it, set()) for it in names if it != "*"]
        return not files or bool(set.intersection(*files[-2:]))


def anchors_of(text):
    """Returns the anchors of a page's headings, as GitHub makes them."""
    found = []
    for head in re.findall(r"^#+ +(.*)$", without_blocks(text), re.M):
        words = re.sub(r"\[([^]]*)\]\([^)]*\)", r"\1", head).strip().lower()
        anchor = re.sub(r"[^\w\- ]", "", words).replace(" ", "-")
        found.append(anchor if anchor not in found else f"{anchor}-{found.count(anchor)}")
    return found


def without_blocks(text):
    """Returns a page's text without its fenced and indented blocks."""
    text = re.sub(r"^```.*?^```", "", text, flags=re.M | re.S)
    return "\n".join("" if it.startswith("    ") and not re.match(r" +([-*]|\d+\.) ", it) else it for it in text.split("\n"))


def faults_of_links(tree, name, text):
    """Yields the faults of a page's links."""
    for target in re.findall(r"\]\(([^)\s]*)\)", text):
        if re.match(r"\w+:", target):
            continue
        path, _, anchor = target.partition("#")
        at = os.path.normpath(os.path.join(os.path.dirname(name), path)) if path else name
        if not tree.has(at):
            yield f"the link {target} leads to no file"
        elif anchor and at.endswith(".md") and anchor not in anchors_of(text if at == name else text_of(f"{TOP}/{at}")):
            yield f"the link {target} leads to no heading"


def is_page(tree, word):
    """Returns whether a page of this name exists."""
    return f"docs/{word}" in tree.files or word in tree.bases


def faults_of_names(tree, text):
    """Yields the faults of a page's paths, page names, and names of the code."""
    # Paths and pages are also checked outside of backquotes.
    bare = re.sub(r"\]\([^)]*\)", "]", text)
    for path in re.findall(r"(?<![\w/.-])((?:docs|tools|examples|bench|crates)/[\w./*-]*\w)", bare):
        if "/out/" not in path and not tree.has(path) and not tree.has_in_crates(path):
            yield f"there is no {path}"
    for page in re.findall(r"(?<![\w/])([A-Z]+\.md)\b", bare):
        if not is_page(tree, page):
            yield f"there is no page {page}"
    for code in re.findall(r"(?<!`)`([^`\n]+(?:\n[^`\n]+)?)`(?!`)", bare):
        yield from faults_of_code(tree, code)


def faults_of_code(tree, code):
    """Yields the faults of a piece of text in backquotes."""
    if re.fullmatch(r"[\w.*-]+(/[\w.*-]+)*/?", code):
        first = code.split("/")[0]
        if first in OF_CRATES and "/" in code and not tree.has_in_crates(code):
            yield f"no crate has `{code}`"
        if first in OF_TOP and "/" in code and "/out/" not in code and not tree.has(code):
            yield f"there is no `{code}`"
        if re.search(r"\.(rt|antt|sh|py|md|edit)$", code) and os.path.basename(code) not in tree.bases and "*" not in code:
            yield f"there is no file `{code}`"
        if "/" in code or re.search(r"\.\w+$", code):
            return
    for names in re.findall(r"\w+(?:::[\w*]+)+", code):
        if not tree.has_name(names.split("::")):
            yield f"`{code}`: no file of the code has {names}"
    if re.fullmatch(r"[A-Za-z]\w+", code) and code not in tree.places:
        yield f"`{code}` does not occur in the code"
        return
    for word in re.findall(r"(?<![\w/$.-])(?:[a-z][a-z0-9]*(?:_[a-z0-9]+)+|[A-Z][a-z]+(?:[A-Z][a-z]+)+)(?![\w/-])", code):
        if word not in tree.places:
            yield f"`{code}`: {word} does not occur in the code"


def faults_of(tree, path, name):
    """Yields the faults of the page in a file, which stands for the page of that name."""
    text = text_of(path)
    prose = without_blocks(text)
    yield from faults_of_links(tree, name, prose)
    yield from faults_of_names(tree, prose)
    if name == "examples/README.md":
        for path in sorted(it for it in tree.files if re.fullmatch(r"examples/.*(\.click|\.txt)", it)):
            example = os.path.basename(path)
            if f"`{example}`" not in text and f"`{example.removesuffix('.click')}`" not in text:
                yield f"it does not name {path}"
    if name == "README.md":
        lines = text.splitlines()
        if len(lines) > LINES:
            yield f"it has {len(lines)} lines, and at most {LINES} are allowed (two screens)"
        for number, line in enumerate(lines, 1):
            if len(line) > COLUMNS:
                yield f"line {number} has {len(line)} columns, and at most {COLUMNS} are allowed"


def main(words):
    tree = Tree()
    pages = [(words[0], words[1])] if words else [(f"{TOP}/{it}", it) for it in sorted(tree.files) if it.endswith(".md")]
    wrong = [f"{name}: {fault}" for path, name in pages for fault in dict.fromkeys(faults_of(tree, path, name))]
    for line in wrong:
        print(f"links.py: {line}", file=sys.stderr)
    if wrong:
        sys.exit(1)
    print(f"{len(pages)} pages: each link, path and name is there")


main(sys.argv[1:])
