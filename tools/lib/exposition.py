"""Parses Prometheus' text format 0.0.4, for tools/page.py.

It is strict. Each metric has one group of lines, with its type before its samples, and no sample
occurs twice.
"""
import re

NAME = r"[a-zA-Z_:][a-zA-Z0-9_:]*"
LABEL = re.compile(r'([a-zA-Z_][a-zA-Z0-9_]*)="((?:[^"\\\n]|\\["\\n])*)"(,|$)')
SAMPLE = re.compile(rf"({NAME})(?:\{{(.*)\}})? ([-+]?(?:\d+(?:\.\d*)?(?:e[-+]?\d+)?|Inf|NaN))")
TYPES = ("counter", "gauge", "histogram", "summary", "untyped")
ESCAPES = {"\\\\": "\\", '\\"': '"', "\\n": "\n"}


class Metrics:
    """The types of metrics by name, and the values of samples by name and labels."""

    def __init__(self, text: str):
        self.types: dict[str, str] = {}
        self.values: dict[tuple[str, frozenset[tuple[str, str]]], float] = {}
        self.current, self.finished = "", set()
        if text and not text.endswith("\n"):
            raise ValueError("the last line has no line feed")
        for line in text.split("\n")[:-1]:
            self.take(line)

    def take(self, line: str) -> None:
        if line.startswith("#"):
            return self.take_comment(line)
        found = SAMPLE.fullmatch(line)
        if not found:
            raise ValueError(f"not a sample: {line!r}")
        name, labels, value = found.groups()
        self.begin(name)
        key = (name, frozenset(labels_of(labels or "")))
        if key in self.values:
            raise ValueError(f"twice the same sample: {line!r}")
        self.values[key] = float(value)

    def take_comment(self, line: str) -> None:
        found = re.fullmatch(rf"# (HELP|TYPE) ({NAME}) (.*)", line)
        if not found:
            raise ValueError(f"not a line of help or of a type: {line!r}")
        word, name, rest = found.groups()
        self.begin(name)
        if word == "HELP":
            return
        if rest not in TYPES or name in self.types or any(it == name for it, _ in self.values):
            raise ValueError(f"an unknown type, or one that is not first: {line!r}")
        self.types[name] = rest

    def begin(self, name: str) -> None:
        """Notes the metric of a line. Its lines are one group."""
        if name in self.finished:
            raise ValueError(f"the lines of {name} are no group")
        if name != self.current:
            self.finished.add(self.current)
            self.current = name


def labels_of(text: str) -> list[tuple[str, str]]:
    """Returns the names and values of labels, of which none occurs twice."""
    labels, at = [], 0
    while at < len(text):
        found = LABEL.match(text, at)
        if not found:
            raise ValueError(f"not a label: {text[at:]!r}")
        name, value, _ = found.groups()
        labels.append((name, re.sub(r'\\["\\n]', lambda it: ESCAPES[it[0]], value)))
        at = found.end()
    if len({name for name, _ in labels}) != len(labels):
        raise ValueError(f"twice the same label: {text!r}")
    return labels
