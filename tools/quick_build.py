#!/usr/bin/env python3
"""Builds programs without proving them, in minutes, as crates/CRATE/out/quick/CRATE.

    tools/quick_build.py CRATE..    builds these programs, in parallel

A program that is up to date is not built again: a stamp next to it, CRATE.built-from, has a
checksum of its sources. A proved program is in another folder and has another stamp, so neither is
taken for the other. The program has no more run-time checks than a proved one. It is compiled at
-O1, and a proved one at -O3.

The script prints nothing on standard output. On standard error it prints a line when the state of a
build changes, and at least every 25 seconds (the environment variable SAY_EVERY_SECONDS). On a
terminal it rewrites one line. The exit status is 0 if each program is built, and 1 if not.
"""

import contextlib
import fcntl
import hashlib
import multiprocessing
import os
import shutil
import signal
import sys
import tempfile
import time

sys.dont_write_bytecode = True
HERE = os.path.dirname(os.path.realpath(__file__))
TOP = os.path.dirname(HERE)
sys.path.insert(0, f"{HERE}/lib")
import unproved  # noqa: E402

SAY_EVERY_SECONDS = float(os.environ.get("SAY_EVERY_SECONDS") or 25)
FORK = multiprocessing.get_context("fork")
# The states of a build, in order.
STATES = ("waiting for another build of it", "waiting for a processor", "reading the sources", "compiling", "built", "NOT BUILT")
WAITS, QUEUES, READS, COMPILES, BUILT, FAILED = range(len(STATES))
# The number of parts of a program that are compiled in parallel.
PARTS = 4
# The maximum memory of a build, in kB.
MAX_NEED_KB = 2_500_000


def say(text):
    print(f"quick_build: {text}", file=sys.stderr, flush=True)


def sum_of_file(path):
    with open(path, "rb") as it:
        return hashlib.sha256(it.read()).hexdigest()


def sum_of_sources(crate):
    """Returns a checksum of what an unproved program is built from.

    That is the toolchain, crates.txt, src/ of each of its crates, and the scripts that compile it.
    """
    files = [f"{unproved.KIT}/KIT-ID", f"{TOP}/crates.txt", f"{HERE}/lib/unproved.py", f"{HERE}/lib/split_module.py"]
    for it in [crate, *crate.below()]:
        files += [f"{at}/{name}" for at, _, names in os.walk(f"{it.folder}/src") for name in names]
    sums = [(os.path.relpath(it, TOP), sum_of_file(it)) for it in sorted(files)]
    return hashlib.sha256(repr((PARTS, sums)).encode()).hexdigest()


class Program:
    """The unproved program of a crate, with its stamp and the state of its build."""

    def __init__(self, library, crate):
        self.library, self.crate, self.name, self.state = library, crate, crate.name, FORK.Value("i", WAITS)
        self.folder = f"{crate.folder}/out/quick"
        self.path = f"{self.folder}/{crate.name}"

    def stamp(self, sources):
        return f"{sources} {sum_of_file(self.path)}\n"

    def is_current(self):
        """Returns whether the program was built from the present sources."""
        with contextlib.suppress(FileNotFoundError), open(f"{self.path}.built-from", encoding="utf-8") as it:
            return it.read() == self.stamp(sum_of_sources(self.crate))
        return False

    def build(self, room, slots):
        """Builds the program, unless another build has done so meanwhile. Returns whether it is
        built.

        `slots` is a semaphore that limits the number of builds at the same time.
        """
        os.makedirs(self.folder, exist_ok=True)
        with open(f"{self.folder}/lock", "w", encoding="utf-8") as lock:
            fcntl.flock(lock, fcntl.LOCK_EX)
            if self.is_current():
                return True
            self.state.value = QUEUES
            with slots:
                sources = sum_of_sources(self.crate)
                self.compile(room)
            if sum_of_sources(self.crate) != sources:
                say(f"{self.name}: the sources changed during the build: start it again")
                return False
            shutil.copy(f"{room}/program", f"{self.path}.new")
            os.replace(f"{self.path}.new", self.path)
            with open(f"{self.path}.built-from", "w", encoding="utf-8") as it:
                it.write(self.stamp(sources))
            return True

    def compile(self, room):
        """Makes the program in a new folder. Raises unproved.Refused."""
        self.state.value = READS
        os.mkdir(room)
        module = unproved.read_sources(self.library, self.crate, room)
        self.state.value = COMPILES
        unproved.link(unproved.compile_in_parts(module, room, PARTS), f"{room}/program")


def run_build(program, room, slots):
    """Builds a program in a child process, in its own process group, and ends that process."""
    os.setpgrp()
    signal.signal(signal.SIGTERM, signal.SIG_DFL)
    is_built = False
    try:
        is_built = program.build(room, slots)
    except unproved.Refused as refused:
        say(f"{program.name}: the sources do not compile:\n{refused}")
    except Exception as error:  # The other builds continue after any failure.
        say(f"{program.name}: {error}")
    program.state.value = BUILT if is_built else FAILED
    sys.exit(not is_built)


def count_slots():
    """Returns the number of parallel builds: one for each processor, if memory suffices."""
    with open("/proc/meminfo", encoding="ascii") as it:
        free = next((int(line.split()[1]) for line in it if line.startswith("MemAvailable:")), 0)
    return max(1, min(len(os.sched_getaffinity(0)), free // MAX_NEED_KB))


def watch(programs, processes):
    """Prints the states of the builds until all have ended."""
    begun, printed, shown, on_terminal = time.monotonic(), 0, None, sys.stderr.isatty()
    while True:
        is_over = not any(it.is_alive() for it in processes)
        states, now = [it.state.value for it in programs], time.monotonic()
        if states != shown or now - printed >= (1 if on_terminal else SAY_EVERY_SECONDS):
            text = ", ".join(f"{it.name} {STATES[state]}" for it, state in zip(programs, states))
            line, printed, shown = f"quick_build: {text}; {now - begun:.0f} s so far", now, states
            if on_terminal:
                line = f"\r{line[: os.get_terminal_size(2).columns - 1]}\033[K"
            print(line, file=sys.stderr, end="" if on_terminal and not is_over else "\n", flush=True)
        if is_over:
            return
        time.sleep(0.1)


def build_all(programs):
    """Builds the programs in parallel and returns whether all are built.

    However it ends, no build keeps running and no temporary file is left.
    """
    say(f"building {', '.join(it.name for it in programs)} UNPROVED; this takes about two minutes on 4 idle cores")
    slots = FORK.BoundedSemaphore(count_slots())
    with tempfile.TemporaryDirectory(prefix="quick-build-") as room:
        processes = [FORK.Process(target=run_build, args=(it, f"{room}/{it.name}", slots)) for it in programs]
        try:
            for it in processes:
                it.start()
            watch(programs, processes)
        finally:
            for it in processes:
                if it.is_alive():
                    with contextlib.suppress(ProcessLookupError):
                        os.killpg(it.pid, signal.SIGKILL)
                    it.kill()
                it.join()
        return not any(it.exitcode for it in processes)


def main(names):
    if not unproved.KIT:
        sys.exit("quick_build: the toolchain's command rt is not on the PATH")
    library, crates = unproved.crates_by_name(TOP)
    for name in names:
        if name not in crates or not crates[name].is_program:
            sys.exit(f"quick_build: {name} is not a program of crates.txt")
    programs = [it for it in (Program(library, crates[name]) for name in dict.fromkeys(names)) if not it.is_current()]
    return 0 if not programs or build_all(programs) else 1


if __name__ == "__main__":
    if len(sys.argv) < 2 or any(it.startswith("-") for it in sys.argv[1:]):
        sys.exit("usage: tools/quick_build.py CRATE..")
    signal.signal(signal.SIGTERM, lambda *_: sys.exit(143))
    signal.signal(signal.SIGHUP, lambda *_: sys.exit(129))
    try:
        sys.exit(main(sys.argv[1:]))
    except KeyboardInterrupt:
        print(file=sys.stderr)
        # Ends by the signal itself, so that a shell that waits for the script sees it.
        signal.signal(signal.SIGINT, signal.SIG_DFL)
        os.kill(os.getpid(), signal.SIGINT)
