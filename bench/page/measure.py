#!/usr/bin/env python3
"""Measures how long the page takes for the flat form, the picture and the metrics of a large mesh.

    bench/page/measure.py [PROGRAM]

The mesh has 3,900 elements: 1,950 Switches and as many Counters in a grid whose edges meet. The
first GET of each is measured, then four more of it. Prints the seconds of the first one, and the
least and the most of the four; also the processor seconds of the router, for the first and for all
four. At the end it prints the memory of the router before the first GET and after the last one.
PROGRAM is the proved click_prog, unless it is given. This is not a part of the gate.
"""
import os
import socket
import subprocess
import sys
import time
import urllib.request

TOP = os.path.dirname(os.path.dirname(os.path.dirname(os.path.realpath(__file__))))
ROWS, COLUMNS, FURTHER = 50, 39, 4


def mesh():
    """Returns the configuration of the mesh."""
    lines = []
    for row in range(ROWS):
        for column in range(COLUMNS):
            here, right = f"{row}_{column}", f"{row}_{(column + 1) % COLUMNS}"
            lines.append(f"s{here} :: Switch(0); c{here} :: Counter; s{here} -> c{here} -> s{(row + 1) % ROWS}_{column}; s{here} [1] -> c{right};")
    return "\n".join(lines)


def free_port():
    with socket.create_server(("127.0.0.1", 0)) as it:
        return it.getsockname()[1]


def seconds_of(address):
    """Returns the seconds that a GET of this address takes, and the number of bytes of its body."""
    began = time.monotonic()
    with urllib.request.urlopen(address, timeout=60) as answer:
        body = answer.read()
    return time.monotonic() - began, len(body)


def processor_seconds(router):
    """Returns the processor seconds that the router has used."""
    with open(f"/proc/{router.pid}/stat", encoding="ascii") as it:
        words = it.read().rsplit(")", 1)[1].split()
    return sum(map(int, words[11:13])) / os.sysconf("SC_CLK_TCK")


def resident_kb(router):
    with open(f"/proc/{router.pid}/status", encoding="ascii") as it:
        return next(int(line.split()[1]) for line in it if line.startswith("VmRSS"))


def main():
    program = sys.argv[1] if len(sys.argv) > 1 else f"{TOP}/crates/click_prog/out/click_prog"
    port = free_port()
    # The text is longer than an argument may be.
    text = "Idle -> Discard;"
    with subprocess.Popen([program, "-e", text, "--live", "--page", str(port)], stdin=subprocess.PIPE, stdout=subprocess.DEVNULL) as router:
        try:
            measure(router, f"http://127.0.0.1:{port}")
        finally:
            router.kill()


def measure(router, place):
    for _ in range(100):
        try:
            seconds_of(f"{place}/read?handler=version")
            break
        except OSError:
            time.sleep(0.1)
    swap = urllib.request.Request(f"{place}/swap", mesh().encode(), {"x-click-page": "1"}, method="POST")
    with urllib.request.urlopen(swap, timeout=60) as answer:
        if answer.read() != b'{"done":true}':
            sys.exit("the mesh is refused")
    at_first = resident_kb(router)
    for path in ("/flat", "/picture.svg", "/metrics"):
        began = processor_seconds(router)
        first, size = seconds_of(place + path)
        made = processor_seconds(router)
        further = sorted(seconds_of(place + path)[0] for _ in range(FURTHER))
        used = f"processor {made - began:.2f} and {processor_seconds(router) - made:.2f} s"
        print(f"{path}: {size} bytes, first {first:.3f} s, then {further[0]:.4f} to {further[-1]:.4f} s, {used}")
    print(f"memory: {at_first} kB, at the end {resident_kb(router)} kB")


if __name__ == "__main__":
    main()
