"""Runs commands in parallel for tools/gate.py, each with its own log, and measures their times."""

from __future__ import annotations

import contextlib
import os
import signal
import subprocess
import sys
import time
from dataclasses import dataclass, field

# The interval, in seconds, between two looks at the running commands.
INTERVAL = 0.1


@dataclass
class Run:
    """One run of a part of the gate, or of a build.

    `needs` has the programs that have to be built before it starts. Two runs with a common name in
    `locks` never run at the same time. `processors_needed` is the number of processors that it
    keeps busy. For a build, `makes` is the name of the program and `product` the file.
    """

    name: str
    over: str
    command: str
    needs: tuple[str, ...] = ()
    locks: tuple[str, ...] = ()
    variables: dict[str, str] = field(default_factory=dict)
    minutes: float = 30
    processors_needed: int = 1
    makes: str = ""
    product: str = ""
    # The result: why the run failed or was not started (empty if it passed, None before its end),
    # its processor seconds, and its elapsed seconds.
    why: str | None = None
    processors: float = 0.0
    clock: float = 0.0
    begun: float = 0.0
    log: str = ""
    # The number of bytes of the log that were shown so far.
    shown: int = 0

    @property
    def title(self) -> str:
        return f"{self.name} ({self.over})" if self.over else self.name

    @property
    def result(self) -> str:
        return "passed" if not self.why else self.why

    def lines(self) -> list[str]:
        """Returns the lines that the run wrote to standard output and standard error."""
        if not self.log:
            return []
        with open(self.log, encoding="utf-8", errors="replace") as it:
            return it.read().splitlines()

    def show(self) -> None:
        """Prints what the run wrote since the last call."""
        with open(self.log, "rb") as log:
            log.seek(self.shown)
            sys.stdout.flush()
            self.shown += sys.stdout.buffer.write(log.read())
            sys.stdout.flush()


def say(text: str) -> None:
    """Prints a message of the gate and flushes it."""
    print(f"test.sh: {text}", flush=True)


def minutes(seconds: float) -> str:
    """Formats a duration in minutes."""
    return f"{seconds / 60:.2f}"


def tell(run: Run) -> None:
    """Prints the rest of a run's output, its result and its times."""
    run.show()
    say(f"{run.title}: {run.result}; {minutes(run.processors)} minutes of processors, {minutes(run.clock)} by the clock")


class Running:
    """The runs that are in progress, each in its own process group.

    Together they keep at most `most` processors busy. A run that needs more runs alone.
    """

    def __init__(self, folder: str, most: int):
        self.folder, self.most = folder, most
        self.programs: set[str] = set()
        self.now: dict[int, Run] = {}
        os.makedirs(folder, exist_ok=True)

    def start(self, run: Run) -> None:
        """Starts a run, with its outputs in its log."""
        run.log = f"{self.folder}/{run.name}{'-' if run.over else ''}{run.over}.log"
        run.begun = time.monotonic()
        with open(run.log, "wb") as log:
            it = subprocess.Popen(["bash", "-c", f"exec {run.command}"], stdin=subprocess.DEVNULL, stdout=log, stderr=subprocess.STDOUT, env={**os.environ, **run.variables}, start_new_session=True)
        # os.wait4 in end_one collects the child. A returncode keeps Popen from waiting for it
        # itself.
        self.now[it.pid] = run
        it.returncode = 0

    def end_one(self) -> Run | None:
        """Returns a run that has ended, with its result and times, or None if none has."""
        number, status, usage = os.wait4(-1, os.WNOHANG) if self.now else (0, 0, None)
        run = self.now.pop(number, None)
        if run is None:
            return None
        run.processors, run.clock = usage.ru_utime + usage.ru_stime, time.monotonic() - run.begun
        code = os.waitstatus_to_exitcode(status)
        if run.why is None:
            run.why = f"status {code}" if code else ""
        if run.product and not run.why and not os.access(run.product, os.X_OK):
            run.why = f"there is no {run.product}"
        if run.makes and not run.why:
            self.programs.add(run.makes)
        return run

    def end_late(self) -> None:
        """Kills the runs that have exceeded their time limit."""
        for number, run in self.now.items():
            if run.why is None and time.monotonic() - run.begun > 60 * run.minutes:
                run.why = f"not done after {run.minutes:g} minutes"
                os.killpg(number, signal.SIGKILL)

    def end_all(self) -> None:
        """Ends all runs: by SIGINT, and after ten seconds by SIGKILL."""
        for kind, seconds in ((signal.SIGINT, 10), (signal.SIGKILL, 10)):
            for number in self.now:
                with contextlib.suppress(ProcessLookupError):
                    os.killpg(number, kind)
            ends = time.monotonic() + seconds
            while self.now and time.monotonic() < ends:
                self.end_one()
                time.sleep(INTERVAL)

    def is_ready(self, run: Run) -> bool:
        """Returns whether the programs of a run are built and none of its locks is held."""
        held = {lock for other in self.now.values() for lock in other.locks}
        return self.programs.issuperset(run.needs) and held.isdisjoint(run.locks)

    def has_room(self, run: Run) -> bool:
        """Returns whether enough processors are free for a run."""
        busy = sum(it.processors_needed for it in self.now.values())
        return not self.now or busy + run.processors_needed <= self.most

    def all_of(self, runs: list[Run], alone: bool = False) -> None:
        """Runs all of these to their ends.

        With `alone`, runs one after another and prints the output of each while it runs.
        """
        waiting = list(runs)
        while waiting or self.now:
            self.drop(waiting)
            self.start_some(waiting, alone)
            self.end_late()
            for run in self.now.values() if alone else ():
                run.show()
            ended = self.end_one()
            if ended is None:
                time.sleep(INTERVAL)
            else:
                tell(ended)

    def drop(self, waiting: list[Run]) -> None:
        """Removes, as failed, the runs that need a program that is not built and will not be."""
        to_come = self.programs | {it.makes for it in [*waiting, *self.now.values()]}
        for run in [it for it in waiting if not to_come.issuperset(it.needs)]:
            run.why = f"not run: {' and '.join(it for it in run.needs if it not in to_come)} not built"
            waiting.remove(run)
            say(f"{run.title}: {run.why}")

    def start_some(self, waiting: list[Run], alone: bool) -> None:
        """Starts waiting runs in order while processors are free.

        If a run has to wait for a second processor, no later run overtakes it.
        """
        for run in list(waiting):
            if self.is_ready(run):
                if not self.has_room(run) or (alone and self.now):
                    return
                waiting.remove(run)
                self.start(run)
