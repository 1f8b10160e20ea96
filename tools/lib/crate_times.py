#!/usr/bin/env python3
"""Measures the processor time that `rt ci` takes for each crate, and writes it as a table.

    crate_times.py PROCESS FILE

Looks at the descendants of PROCESS every two seconds, until it ends or this program gets SIGTERM.
Then writes FILE. A process of the prover names its crate with --crate-name. The mutants in
must-fail/ are checked in temporary folders whose names begin with `rt-edit`. A check that ends
within two seconds is not counted, and up to two seconds at the end of each check are missing.
"""

from __future__ import annotations

import os
import signal
import sys
import threading

INTERVAL = 2.0
TICKS = os.sysconf("SC_CLK_TCK")


def stat_of(number: int) -> tuple[int, float] | None:
    """Returns the parent of a process, and the processor seconds of it and its ended children."""
    try:
        with open(f"/proc/{number}/stat", encoding="ascii", errors="replace") as it:
            text = it.read()
    except OSError:
        return None
    fields = text[text.rindex(")") + 2 :].split()
    return int(fields[1]), sum(map(int, fields[11:15])) / TICKS


def crate_of(number: int) -> tuple[str, str] | None:
    """Returns the crate that a process checks or builds, and what for: `proof` or `must-fail`."""
    try:
        with open(f"/proc/{number}/cmdline", encoding="utf-8", errors="replace") as it:
            words = it.read().split("\0")
        folder = os.readlink(f"/proc/{number}/cwd")
    except OSError:
        return None
    if os.path.basename(words[0]) != "rattle" or "--crate-name" not in words[:-1]:
        return None
    return words[words.index("--crate-name") + 1], "must-fail" if "/rt-edit" in folder else "proof"


def look(top: int, seen: dict[int, tuple[str, str, float]]) -> None:
    """Stores the processor seconds of each process of the prover below a process.

    The copies that a prover forks are counted in it when they end, so only the first process of each
    check is stored.
    """
    found = {int(it): stat_of(int(it)) for it in os.listdir("/proc") if it.isdigit()}
    parents = {number: stat[0] for number, stat in found.items() if stat}
    crates = {number: crate_of(number) for number in parents}
    for number, crate in crates.items():
        line = [number]
        while line[-1] in parents and line[-1] != top:
            line.append(parents[line[-1]])
        if crate and line[-1] == top and not any(crates.get(it) for it in line[1:]):
            seen[number] = (*crate, found[number][1])


def table_of(seen: dict[int, tuple[str, str, float]]) -> str:
    """Returns a table of the crates, with the minutes of their proofs and must-fail mutants."""
    times: dict[str, dict[str, float]] = {}
    for crate, kind, seconds in seen.values():
        row = times.setdefault(crate, {"proof": 0.0, "must-fail": 0.0})
        row[kind] += seconds / 60
    rows = sorted(times.items(), key=lambda it: -sum(it[1].values()))
    lines = [f"{'crate':18}  {'proof':>7}  {'must-fail':>9}"]
    lines += [f"{crate:18}  {row['proof']:7.2f}  {row['must-fail']:9.2f}" for crate, row in rows]
    whole = [sum(row[kind] for row in times.values()) for kind in ("proof", "must-fail")]
    return "\n".join([*lines, f"{'all':18}  {whole[0]:7.2f}  {whole[1]:9.2f}"])


def main(words: list[str]) -> int:
    if len(words) != 2 or not words[0].isdigit():
        print("usage: crate_times.py PROCESS FILE", file=sys.stderr)
        return 2
    top, seen, over = int(words[0]), {}, threading.Event()
    signal.signal(signal.SIGTERM, lambda *_: over.set())
    while os.path.exists(f"/proc/{top}") and not over.is_set():
        look(top, seen)
        over.wait(INTERVAL)
    with open(words[1], "w", encoding="ascii") as it:
        it.write(f"{table_of(seen)}\n")
    return 0


if __name__ == "__main__":
    sys.exit(main(sys.argv[1:]))
