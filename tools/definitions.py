#!/usr/bin/env python3
"""Checks that each definition that a public contract cites has a row in the README of its crate.
Each row names a definition and the file that has it. Each crate of crates.txt has a README, which
docs/DEFINITIONS.md links. Its line "What it stands on" names the same crates as crates.txt.

    tools/definitions.py [PAGE AS]

With PAGE, checks that file instead of the one at the path AS.

A table of definitions has the columns Definition, Says and File, and optionally Source. In the
first column, the first word of each piece of code is the name of a definition.

Public contracts are the clauses `requires` and `ensures` of the functions that other crates can
call; in a program, of all functions that are `pub`. The clauses in `ghost` of public traits also
count, except `view` and `invariant`, which describe the fields of the code.

A definition that the compiler declares for a type of the code (in `declared`) needs no row. Neither
does a case of a `data`.
"""

import os
import re
import sys

TOP = os.path.dirname(os.path.dirname(os.path.realpath(__file__)))
LIST = "docs/DEFINITIONS.md"
HEADS = (["Definition", "Says", "File"], ["Definition", "Says", "File", "Source"])
STANDS_ON = "What it stands on: "
WORD = r"[\w◌>=?'-]+"


def files_below(folder, ending):
    """Returns the texts of the files below a folder, by their paths in it without the ending."""
    found = {}
    for at, _, names in os.walk(f"{TOP}/{folder}"):
        for path in (f"{at}/{it}" for it in names if it.endswith(ending)):
            with open(path, encoding="utf-8") as it:
                found[os.path.relpath(path, f"{TOP}/{folder}").removesuffix(ending)] = it.read()
    return dict(sorted(found.items()))


class Specs:
    """The public definitions of a crate and the cases of each `data`, each with its files."""

    def __init__(self, crate):
        self.places, self.cases = {}, {}
        for file, text in files_below(f"crates/{crate}/specs", ".antt").items():
            text = re.sub(r"--.*", "", text)
            for name in re.findall(rf"^\s*(?:(?:abbrev|unfoldable|def) pub|pub (?:record|data)) ({WORD})", text, re.M):
                self.places.setdefault(name, set()).add(file)
            for block in re.findall(r"^(?:abbrev|unfoldable) mutual\n((?: .*\n|\s*\n)*)", text, re.M):
                for name in re.findall(rf"^ +pub ({WORD}) :", block, re.M):
                    self.places.setdefault(name, set()).add(file)
            for _, block in re.findall(r"^( *)pub data .*\n((?:\1 .*\n|\s*\n)*)", text, re.M):
                for name in re.findall(rf"^ +(?:pub )?({WORD})", block, re.M):
                    self.cases.setdefault(name, set()).add(file)


class Page:
    """The README of a crate: its faults, and each name in its tables with the files of its rows."""

    def __init__(self, text, specs, uses):
        self.rows, self.faults = {}, []
        heads = None
        for number, line in enumerate(text.splitlines(), 1):
            cells = [it.strip() for it in re.split(r"(?<!\\)\|", line)[1:-1]]
            if not line.startswith("|"):
                heads = None
            elif heads is None:
                heads = cells
            elif heads in HEADS and not re.fullmatch(r"\|(---\|)+", line):
                self.take_row(f"line {number}", cells, specs, len(heads))
        stands = [it for it in text.splitlines() if it.startswith(STANDS_ON)]
        named = re.findall(r"[`[](\w+)[]`]", " ".join(stands))
        if len(stands) != 1 or sorted(named) != sorted(uses):
            self.faults.append(f"it has no line '{STANDS_ON}..' that names the same crates as crates.txt: {' '.join(uses)}")

    def take_row(self, line, cells, specs, wide):
        """Reads a row of a table of definitions, and adds its faults."""
        names = [it.split()[0] for it in re.findall(r"`([^`]+)`", cells[0])]
        if len(cells) != wide or not names or not cells[1] or not cells[2]:
            self.faults.append(f"{line} is not a row of definitions")
            return
        files = set(cells[2].split(", "))
        for name in names:
            places = specs.places.get(name, set())
            if not places:
                self.faults.append(f"{line}: `{name}` is defined nowhere in the crate's specs")
            elif not places & files:
                self.faults.append(f"{line}: `{name}` is defined in {', '.join(sorted(places))}, and not in {cells[2]}")
            if self.rows.get(name, set()) & files:
                self.faults.append(f"{line}: `{name}` has a row before this")
            self.rows.setdefault(name, set()).update(files)


class Surface:
    """The public functions and types of a crate: those that other crates can name.

    In a program, on which no crate stands, everything that is `pub` counts.
    """

    def __init__(self, texts):
        self.is_program = "lib" not in texts
        self.modules, self.functions, self.types = set(), set(), set()
        waiting = [] if self.is_program else ["lib"]
        while waiting:
            module = waiting.pop()
            below = "" if module == "lib" else f"{module}/"
            self.modules.add(module)
            waiting += [below + it for it in re.findall(r"^pub mod (\w+);", texts[module], re.M)]
            self.types |= set(re.findall(r"^pub (?:struct|enum|trait|type) (\w+)", texts[module], re.M))
            for path, group, single in re.findall(r"^pub use ((?:\w+::)+)(?:\{([^}]*)\}|(\w+));", texts[module], re.M):
                names = re.findall(r"\w+", group or single)
                self.types |= set(names)
                self.functions |= {(below + path.removesuffix("::").replace("::", "/"), it) for it in names}

    def has_function(self, module, name):
        """Returns whether other crates can name a function of a module."""
        return self.is_program or module in self.modules or (module, name) in self.functions

    def has_type(self, name):
        """Returns whether other crates can name a type or trait."""
        return self.is_program or name in self.types


def imports_of(line):
    """Returns the names that a `ghost use` imports, each with its crate, file and name in the file.

    A name that stands for a whole file has None instead of the last one.
    """
    path = re.match(r"ghost use Rattle\.(\w+)\.specs\.([\w.]+?)(?:\.\{(.*)\}| as (\w+));", re.sub(r"\s+", " ", line))
    if not path:
        return {}
    place = (path[1], path[2].replace(".", "/"))
    if path[4]:
        return {path[4]: (*place, None)}
    pairs = [it.split(" as ") for it in path[3].split(",") if it.strip()]
    return {it[-1].strip(): (*place, it[0].strip()) for it in pairs}


STRING = r'r#".*?"#|"(?:\\.|[^"\\])*"'
TOKEN = re.compile(
    rf"//[^\n]*|{STRING}|'(?:\\.|[^'\\])'|ghost\s+use\s[^;]*;|(?:pub\s+)?trait\s+\w+|^ *impl\b[^{{}};]*\{{|(?:pub(?:\([^)]*\))?\s+)?(?:const\s+)?fn\s+\w+"
    r"|(?:requires|ensures)\*?(?:\s+\w+)?\s*\{|ghost\s+\w+\s*[:=]\s*\{|[()[\]{};]",
    re.S | re.M,
)


def end_of_clause(text, at):
    """Returns the position after the brace that closes the one just before `at`."""
    depth = 1
    while depth:
        token = re.compile(rf"{STRING}|//[^\n]*|[{{}}]", re.S).search(text, at)
        depth, at = depth + {"{": 1, "}": -1}.get(token[0], 0), token.end()
    return at


class Reading:
    """A source file that is read block by block: for each open block its imports, and its kind."""

    def __init__(self, module, text, surface):
        self.module, self.text, self.surface = module, text, surface
        self.scopes, self.kinds = [{}], ["file"]
        # The kind of the next block, the function whose clauses come next, and the number of open
        # parentheses.
        self.kind, self.name, self.round = "", "", 0

    def opens(self, kind):
        """Enters a block of a kind: `file`, `trait`, `type`, or none of these."""
        self.scopes.append({})
        self.kinds.append(kind)
        self.kind, self.name = "", ""

    def kind_of_impl(self, head):
        """Returns the kind of an impl's block: `trait`, `type`, or '' if its type is not public."""
        while "<" in head.replace("->", ""):
            head = re.sub(r"<[^<>]*>", "", head.replace("->", ""))
        words = head.split()
        owner = words[words.index("for") + 1 if "for" in words else 1]
        return ("trait" if "for" in words else "type") if self.surface.has_type(owner) else ""

    def takes_function(self, token):
        """Notes the name of a public function, whose clauses come next."""
        called, kind = token.split()[-1], self.kinds[-1]
        is_public = kind == "file" and self.surface.has_function(self.module, called) or kind == "type"
        self.name = called if kind == "trait" or is_public and re.match(r"pub\s", token) else ""

    def takes_word(self, token):
        """Reads an import, or the head of a trait, an impl or a function."""
        if re.match(r"ghost\s+use\s", token):
            self.scopes[-1].update(imports_of(token))
        elif re.match(r"(pub\s+)?trait\s", token):
            self.kind = "trait" if self.surface.has_type(token.split()[-1]) else ""
        elif token.startswith("impl"):
            self.opens(self.kind_of_impl(token[:-1]))
        elif re.search(r"\bfn\s+\w+$", token) and not self.round:
            self.takes_function(token)

    def takes_bracket(self, token):
        """Reads a bracket or a semicolon, and enters or leaves a block."""
        if token in "()[]":
            self.round += 1 if token in "([" else -1
        elif token == "{":
            self.opens(self.kind)
        elif token == "}":
            self.scopes.pop()
            self.kinds.pop()
        elif not self.round:
            self.name = ""

    def clauses(self):
        """Yields the clauses of public functions and traits: name, text, and the imports there."""
        at = 0
        while found := TOKEN.search(self.text, at):
            token, at = found[0].strip(), found.end()
            own = re.match(r"ghost\s+(\w+)\s*[:=]\s*\{", token)
            if own or re.match(r"(requires|ensures)\b", token):
                begin, at = at, end_of_clause(self.text, at)
                is_own = own and self.kinds[-1] == "trait" and own[1] not in ("view", "invariant")
                if is_own or self.name and not own:
                    yield own[1] if own else self.name, self.text[begin : at - 1], {word: it for scope in self.scopes for word, it in scope.items()}
            elif token in "()[]{};":
                self.takes_bracket(token)
            elif token[0] not in "/\"'" and not token.startswith("r#"):
                self.takes_word(token)
        if len(self.scopes) != 1 or self.round:
            sys.exit(f"definitions.py: {self.module}.rt cannot be read: its brackets do not pair up")


def cited_in(clause, imports):
    """Yields the definitions that a clause cites, as crate, file and name."""
    clause = re.sub(rf"{STRING}|//[^\n]*", " ", clause, flags=re.S)
    for word in re.findall(rf"(?<![\w.'-]){WORD}(?:\.{WORD})*", clause):
        parts = word.split(".")
        crate, file, name = imports.get(parts[0], (None, None, None))
        if crate and (name or len(parts) > 1):
            yield crate, file, name or parts[1]


def citations(crates):
    """Returns the definitions that public contracts cite, and the set of all public contracts.

    Each definition has the list of functions that cite it.
    """
    cited, contracts = {}, set()
    for crate in crates:
        texts = files_below(f"crates/{crate}/src", ".rt")
        surface = Surface(texts)
        for module, text in texts.items():
            for name, clause, imports in Reading(module, text, surface).clauses():
                contracts.add((crate, module, name))
                for it in cited_in(clause, imports):
                    if it[0] in crates and not it[1].startswith("declared/"):
                        cited.setdefault(it, []).append(f"crates/{crate}/src/{module}.rt, `{name}`")
    return cited, contracts


def text_at(name, words):
    """Returns the text of a file, or of its stand-in from the command line, or None."""
    path = words[0] if words[1:] == [name] else f"{TOP}/{name}"
    if not os.path.exists(path):
        return None
    with open(path, encoding="utf-8") as it:
        return it.read()


def main(words):
    lines = [it.split(":") for it in text_at("crates.txt", []).splitlines() if it.strip() and not it.startswith("#")]
    crates = {head.split()[0]: uses.split() for head, uses in lines}
    specs, pages, wrong = {it: Specs(it) for it in crates}, {}, []
    for crate, uses in crates.items():
        name = f"crates/{crate}/README.md"
        text = text_at(name, words)
        if text is None:
            wrong.append(f"there is no {name}")
            continue
        pages[crate] = Page(text, specs[crate], uses)
        wrong += [f"{name}: {it}" for it in pages[crate].faults]
        if f"](../{name})" not in text_at(LIST, words):
            wrong.append(f"{LIST}: it has no link to {name}")
    cited, contracts = citations(crates)
    cited = {it: places for it, places in cited.items() if it[2] in specs[it[0]].places or it[1] not in specs[it[0]].cases.get(it[2], ())}
    for (crate, file, name), places in cited.items():
        if crate in pages and file not in pages[crate].rows.get(name, ()):
            wrong.append(f"crates/{crate}/README.md: no row has `{name}` of {file}, which is cited in {places[0]}")
    for line in wrong:
        print(f"definitions.py: {line}", file=sys.stderr)
    if wrong:
        sys.exit(1)
    rows = sum(len(it.rows) for it in pages.values())
    print(f"{len(pages)} crates: {rows} definitions have a row and are there, among them the {len(cited)} that {len(contracts)} public contracts cite")


main(sys.argv[1:])
