"""Splits one LLVM module into several, which can be compiled in parallel and linked.

The modules are LLVM's text form. Each function goes to one part, except small ones: every part that
calls a small function gets its own copy, so that it can still be inlined. Constants are copied too.
Variables are in the first part only. A symbol that another part needs becomes hidden instead of
internal, so the program still exports only main.
"""

import re

NAME = re.compile(r'@(?:"([^"]+)"|([\w.$-]+))')
STRING = re.compile(r'c"[^"]*"')
# The maximum number of lines of a function that is copied into each part that calls it.
MAX_COPIED_LINES = 20


def names_in(text):
    """Returns the names of the functions and variables in a piece of LLVM text."""
    return {quoted or plain for quoted, plain in NAME.findall(text)}


def name_of(line):
    """Returns the name that a line defines or declares."""
    quoted, plain = NAME.search(line).groups()
    return quoted or plain


class Module:
    """The parts of a module's text that can be reached from main."""

    def __init__(self, lines):
        self.head, self.tail, self.functions, self.variables, self.declared = [], [], {}, {}, {}
        body = None
        for line in lines:
            if body is not None:
                body.append(line)
                if line.startswith("}"):
                    body = None
            elif line.startswith("define "):
                body = self.functions[name_of(line)] = [line]
            elif line.startswith("@"):
                self.variables[name_of(line)] = line
            elif line.startswith("declare "):
                self.declared[name_of(line)] = line
            elif line.startswith(("attributes ", "!")):
                self.tail.append(line)
            elif line.strip() and not line.startswith(";"):
                self.head.append(line)
        self.uses = {it: names_in("".join(text)) for it, text in self.functions.items()}
        self.uses |= {it: names_in(STRING.sub("", text)) for it, text in self.variables.items()}
        self.live = self.reached(["main"], lambda name: True)

    def reached(self, names, goes_on):
        """Returns these names and all names that they use, directly or through other names.

        The uses of a name are followed only if `goes_on` holds for it.
        """
        found, left = set(), [*names]
        while left:
            name = left.pop()
            if name not in found:
                found.add(name)
                left += self.uses.get(name, ()) if goes_on(name) else ()
        return found

    def is_copied(self, name):
        """Returns whether every part that uses the name gets its own copy."""
        if name in self.functions:
            return name != "main" and len(self.functions[name]) <= MAX_COPIED_LINES
        return name in self.variables and " constant " in self.variables[name]

    def shares(self, count):
        """Returns the functions that are not copied, in order, as `count` lists of similar size."""
        names = [it for it in self.functions if it in self.live and not self.is_copied(it)]
        total, done, shares = sum(len(self.functions[it]) for it in names), 0, [[] for _ in range(count)]
        for name in names:
            shares[min(count - 1, done * count // total)].append(name)
            done += len(self.functions[name])
        return shares

    def split(self, count):
        """Returns `count` modules, each as a list of lines."""
        shares = self.shares(count)
        shares[0] = [*(it for it in self.variables if it in self.live and not self.is_copied(it)), *shares[0]]
        reached = [self.reached(it, lambda name, own=frozenset(it): name in own or self.is_copied(name)) for it in shares]
        places = {name: place for place, share in enumerate(shares) for name in share}
        asked = {name for place, names in enumerate(reached) for name in names if places.get(name, place) != place}
        return [self.part({*share}, names, asked) for share, names in zip(shares, reached)]

    def part(self, own, reached, asked):
        """Returns one module: its own functions, its copies, and declarations.

        `own` has the names of its functions and variables, `reached` all names that it uses, and
        `asked` the names that other parts use. A name of `reached` that is in another part is
        declared.
        """
        has = lambda name: name in own or self.is_copied(name)
        variables = [self.variable(it, has(it), it in asked) for it in self.variables if it in reached]
        elsewhere = [self.declaration(it) for it in self.functions if it in reached and not has(it)]
        lines = [*self.head, *variables, *(self.declared[it] for it in self.declared if it in reached), *elsewhere]
        for name in self.functions:
            if name in reached and has(name):
                first, *rest = self.functions[name]
                lines += [first.replace("define internal ", "define hidden ", 1) if name in asked else first, *rest]
        return [*lines, *self.tail]

    def variable(self, name, is_here, is_asked):
        """Returns the line of a variable: its definition if `is_here`, else its declaration."""
        line = self.variables[name]
        if is_here and not is_asked:
            return line
        kind = r"\1hidden global" if is_here else r"\1external hidden global"
        line = re.sub(r"(= )(?:private|internal) (?:unnamed_addr )?global", kind, line, count=1)
        return line if is_here else re.sub(r"(global (?:\[[^\]]*\]|[\w.]+)).*?(, align \d+)?$", r"\1\2", line, count=1)

    def declaration(self, name):
        """Returns the declaration of a function that another part has."""
        first = self.functions[name][0]
        kind, parameters, rest = re.match(r"define (?:internal )?(.*?@(?:\"[^\"]+\"|[\w.$-]+))(\(.*\))(.*)\{$", first).groups()
        number = re.search(r" #\d+", rest)
        return f"declare hidden {kind}{parameters}{number.group(0) if number else ''}\n"
