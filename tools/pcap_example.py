"""Makes captures, sends them through click_prog --pcap, and checks the output by its own model.

    pcap_example.py PROGRAM GATEWAY THREE [quick]

GATEWAY is the file with the configuration of the gateway, and THREE the capture of the page.
Captures follow pcap-savefile(5). `quick` leaves out the captures of a million packets, and the
check that a packet is written before the next one is sent. The first failure ends the script with
status 1.
"""

import os
import resource
import select
import struct
import subprocess
import sys
import tempfile
import threading
from time import monotonic

MICRO, NANO = 0xA1B2C3D4, 0xA1B23C4D
ETHERNET, RAW, IPV4 = 1, 101, 228
PLAIN = "FromDevice(eth0) -> Queue(64) -> ToDevice(eth1);"
ROUTED = "FromDevice(eth0) -> CheckIPHeader -> DecIPTTL -> Queue(64) -> ToDevice(eth1);"
checked = 0


def fail(what, wanted, came):
    print(f"pcap_example.py: {what}\nwanted: {wanted!r:.600}\ncame:   {came!r:.600}", file=sys.stderr)
    sys.exit(1)


def same(what, wanted, came):
    """Checks that two values are equal."""
    if wanted != came:
        fail(what, wanted, came)


# ---- Captures


def header(order="<", magic=MICRO, major=2, minor=4, zone=0, accuracy=0, snap=65535, link=ETHERNET):
    return struct.pack(order + "IHHIIII", magic, major, minor, zone, accuracy, snap, link)


def record(packet, time=(0, 0), order="<", wire=None):
    return struct.pack(order + "IIII", *time, len(packet), len(packet) if wire is None else wire) + packet


# ---- Packets


def summed(header_bytes):
    """Returns the ones' complement sum of RFC 791."""
    total = 0
    for at in range(0, len(header_bytes), 2):
        total += header_bytes[at] * 256 + header_bytes[at + 1]
        if total > 0xFFFF:
            total -= 0xFFFF
    return total


def ip(destination, ttl, payload, options=b""):
    words = 5 + len(options) // 4
    front = struct.pack(">BBHHHBBH4s4s", 0x40 + words, 0, 4 * words + len(payload), 7, 0, ttl, 17, 0, bytes((10, 9, 8, 7)), bytes(destination)) + options
    checksum = 0xFFFF - summed(front)
    return front[:10] + struct.pack(">H", checksum) + front[12:] + payload


def frame(packet, kind=0x0800):
    return bytes(range(0x10, 0x1C)) + struct.pack(">H", kind) + packet


def counted_down(packet):
    """Returns a packet with a decremented time to live and its checksum, or None if dropped."""
    if packet[8] < 2:
        return None
    words = packet[0] % 16
    front = bytearray(packet[: 4 * words])
    front[8] -= 1
    front[10:12] = b"\0\0"
    front[10:12] = struct.pack(">H", 0xFFFF - summed(front))
    return bytes(front) + packet[4 * words :]


def through_gateway(sent):
    """Returns what examples/pcap/gateway.click makes of a frame, or None if it is dropped."""
    packet = sent[14:]
    if len(packet) < 20 or packet[0] // 16 != 4:
        return None
    if summed(packet[: 4 * (packet[0] % 16)]) != 0xFFFF:
        return None
    to = packet[16:20]
    if to[0] != 10 and to[:3] != bytes((192, 168, 7)):
        return None
    packet = counted_down(packet)
    if packet is None:
        return None
    return bytes((2, 0, 0, 0, 0, 2)) + bytes((2, 0, 0, 0, 0, 1)) + b"\x08\x00" + packet


GOOD = [
    frame(ip((10, 1, 2, 3), 64, b"first")),
    frame(ip((192, 168, 7, 255), 2, b"second" * 40)),
    frame(ip((10, 0, 0, 1), 255, b"third", options=b"\x01" * 8)),
    frame(ip((10, 255, 255, 255), 128, b"") + b"\0" * 26),
]
BAD = [
    frame(ip((10, 1, 2, 3), 1, b"its time is up")),
    frame(ip((10, 1, 2, 3), 0, b"its time was up")),
    frame(ip((192, 168, 8, 1), 64, b"for no network")),
    frame(bytes((0, 1, 8, 0, 6, 4, 0, 1)) + b"\0" * 20, kind=0x0806),
    frame(ip((10, 1, 2, 3), 64, b"wrong")[:11] + b"\x77" + ip((10, 1, 2, 3), 64, b"wrong")[12:]),
    b"short",
    b"",
]
MIXED = [GOOD[0], BAD[0], GOOD[1], BAD[1], BAD[2], GOOD[2], BAD[3], BAD[4], GOOD[3], BAD[5], BAD[6], GOOD[0]]


# ---- Runs


def run(text, given, source="eth0", sink="eth1", **how):
    words = [PROGRAM, "--pcap", "-e", text, "--in", source, "--out", sink]
    if isinstance(given, bytes):
        how["input"] = given
    else:
        how["stdin"] = given
    how.setdefault("stdout", subprocess.PIPE)
    return subprocess.run(words, stderr=subprocess.PIPE, timeout=600, **how)


def counts_line(read=0, left_out=0, entered=0, written=0):
    return f"read {read}, left out {left_out}, entered {entered}, written {written}\n".encode()


def has(what, done, status, out, error):
    """Checks the status, the standard output and the standard error of a run."""
    global checked
    same(f"{what}: standard error", error, done.stderr)
    same(f"{what}: standard output", out, done.stdout)
    same(f"{what}: the status", status, done.returncode)
    checked += 1


def modelled(front, packets, order, model, front_out=None):
    """Returns a capture of these packets, the capture that the model makes of it, and the counts
    line.

    `model` takes a packet and returns the list of packets that leave for it.
    """
    given, wanted, counts = front, front_out or front, [0, 0, 0, 0]
    for at, packet in enumerate(packets):
        moment = (1_700_000_000 + 97 * at, (123_456 * at) % 1_000_000)
        given += record(packet, moment, order)
        counts[0] += 1
        if len(packet) > 1600:
            counts[1] += 1
            continue
        counts[2] += 1
        for made in model(packet):
            counts[3] += 1
            wanted += record(made, moment, order)
    return given, wanted, counts_line(*counts)


def carried(what, text, front, packets, order, model, front_out=None):
    """Checks a run over a capture of these packets against the model."""
    given, wanted, line = modelled(front, packets, order, model, front_out)
    has(what, run(text, given), 0, wanted, line)


def as_list(model):
    """Turns a model that returns a packet or None into one that returns a list."""
    return lambda packet: [made for made in [model(packet)] if made is not None]


def kinds():
    """Checks each magic number in each byte order, each link type, and the fields of a header."""
    for order in "<>":
        for magic in (MICRO, NANO):
            front = header(order, magic, zone=3600, accuracy=9)
            carried(f"the gateway, {order} {magic:x}", GATEWAY, front, MIXED, order, as_list(through_gateway))
            for link in (RAW, IPV4):
                front = header(order, magic, link=link)
                packets = [packet[14:] for packet in GOOD + BAD[:2]]
                carried(f"link type {link}, {order} {magic:x}", ROUTED, front, packets, order, as_list(counted_down))
    for snap, wanted in ((0, 0), (1, 1600), (1599, 1600), (1600, 1600), (1601, 1601), (262144, 262144), (0xFFFFFFFF, 0xFFFFFFFF)):
        for order in "<>":
            packets = [b"\xff"] if snap == 1 else [b"\x01" * 1599]
            carried(f"snap length {snap}", PLAIN, header(order, snap=snap), packets, order, lambda packet: [packet], header(order, snap=wanted))
    carried("a capture without packets", PLAIN, header(), [], "<", lambda packet: [packet])


def sizes():
    """Checks packets of all sizes; those of more than 1,600 bytes are left out."""
    packets = [bytes(length % 251 for _ in range(length)) for length in (0, 1, 60, 1599, 1600, 1601, 1600, 9000, 65535, 2, 262144)]
    carried("sizes", PLAIN, header(snap=0), packets, "<", lambda packet: [packet])
    # Of a truncated packet the captured bytes enter, and it is written as a packet of that length.
    given = header(snap=96) + record(b"\x05" * 96, (5, 6), wire=1514)
    has("a packet that was cut", run(PLAIN, given), 0, header(snap=1600) + record(b"\x05" * 96, (5, 6)), counts_line(1, 0, 1, 1))


def elements():
    """Checks configurations that return several packets for one, none, or packets of a source."""
    packets = [b"one", b"two", b"three"]
    tee = "FromDevice(eth0) -> t :: Tee(3); q :: Queue; t -> q; t [1] -> q; t [2] -> q; q -> ToDevice(eth1);"
    carried("three for one", tee, header(), packets, "<", lambda packet: [packet] * 3)
    moved = "FromDevice(eth0) -> Queue -> Unqueue -> Queue -> ToDevice(eth1);"
    carried("a task between", moved, header(), packets, "<", lambda packet: [packet])
    stays = "FromDevice(eth0) -> Queue -> ToDevice(eth2); Idle -> ToDevice(eth1);"
    carried("packets that stay inside", stays, header(), packets, "<", lambda packet: [])
    source = "FromDevice(eth0) -> q :: Queue -> ToDevice(eth1); InfiniteSource(ab, 2, 1) -> q;"
    made = iter([b"ab", b"ab"])
    carried("packets of a source", source, header(), packets, "<", lambda packet: [packet] + list(filter(None, [next(made, None)])))
    one_device = "FromDevice(eth0) -> Queue -> ToDevice(eth0);"
    done = run(one_device, header() + record(b"x"), sink="eth0")
    has("one device for both", done, 0, header() + record(b"x"), counts_line(1, 0, 1, 1))


# ---- Faults


def broken(what, given, read, out, error):
    """Checks that a faulty capture ends the run with status 1 and this error."""
    has(what, run(PLAIN, given), 1, out, b"error: " + error.encode() + b"\n" + counts_line(read, 0, read, read))


def headers():
    """Checks headers that are truncated, or of unsupported formats."""
    whole = header()
    for length in range(24):
        broken(f"a header of {length} bytes", whole[:length], 0, b"", f"byte {length}: the capture ends inside its header of 24 bytes")
    newer = "byte 0: this is a pcapng capture; `editcap -F pcap` of Wireshark converts it to a pcap capture"
    for order in "<>":
        broken("a section header block of pcapng", header(order, 0x0A0D0D0A), 0, b"", newer)
    for magic in (0, 0x0A0D0D0B, 0x0A0D0A0D, 0xA1B2CD34, 0xA1B2C3D5, 0xC3D4A1B2):
        for order in "<>":
            broken(f"the magic number {magic:x}", header(order, magic), 0, b"", "byte 0: not a magic number of a pcap capture (a1b2c3d4 or a1b23c4d, in either byte order)")
    for major, minor in ((2, 3), (2, 5), (1, 4), (4, 2), (0x0204, 0)):
        for order in "<>":
            wanted = f"byte 4: the format version is {major}.{minor}, not 2.4"
            broken(f"version {major}.{minor}", header(order, major=major, minor=minor), 0, b"", wanted)
    for link in (0, 113, 2, 0x10000001, 0x01000000):
        for order in "<>":
            wanted = f"byte 20: the link type is {link}, not 1 (Ethernet), 101 (raw IP) or 228 (IPv4)"
            broken(f"link type {link}", header(order, link=link), 0, b"", wanted)


def records():
    """Checks records that are truncated or too long; the records before them are written."""
    front = header() + record(b"first", (1, 2))
    second = record(b"the second", (3, 4))
    for length in range(1, len(second)):
        wanted = "packet 2, byte 45: the capture ends inside this record"
        broken(f"a record of {length} bytes", front + second[:length], 1, front, wanted)
    # The position of a record is also right after a record that is left out.
    long = header() + record(b"\x07" * 1601) + record(b"first", (1, 2))
    for length in (1, 16, 25):
        done = run(PLAIN, long + second[:length])
        wanted = b"error: packet 3, byte 1662: the capture ends inside this record\n"
        has(f"a record of {length} bytes behind one that is left out", done, 1, front, wanted + counts_line(2, 1, 1, 1))
    for snap, most in ((65535, 65535), (1600, 1600), (0, 262144), (262145, 262144)):
        for claimed in (most + 1, 0x7FFFFFFF, 0xFFFFFFFF):
            start = header(snap=snap) + record(b"first")
            wanted = f"packet 2, byte 45: the record has {claimed} bytes; the capture allows at most {most}"
            broken(f"{claimed} bytes at snap length {snap}", start + struct.pack("<IIII", 0, 0, claimed, claimed) + b"x" * 99, 1, start, wanted)
    endless()


def endless():
    """Checks that a record that claims 4 GiB is refused at once, while its bytes are still sent."""
    words = [PROGRAM, "--pcap", "-e", PLAIN, "--in", "eth0", "--out", "eth1"]
    start = header() + record(b"first")
    with subprocess.Popen(words, stdin=subprocess.PIPE, stdout=subprocess.PIPE, stderr=subprocess.PIPE) as child:
        def feed():
            try:
                child.stdin.write(start + struct.pack("<IIII", 0, 0, 0xFFFFFFFF, 0xFFFFFFFF))
                for _ in range(1024):
                    child.stdin.write(b"\0" * 65536)
                child.stdin.close()
            except OSError:
                pass

        feeder = threading.Thread(target=feed, daemon=True)
        feeder.start()
        out, error = child.stdout.read(), child.stderr.read()
        child.wait(timeout=60)
        feeder.join(timeout=60)
        try:
            child.stdin.close()
        except OSError:
            pass
    wanted = b"error: packet 2, byte 45: the record has 4294967295 bytes; the capture allows at most 65535\n" + counts_line(1, 0, 1, 1)
    has("an endless record", subprocess.CompletedProcess(words, child.returncode, out, error), 1, start, wanted)


def devices():
    """Checks missing sources and sinks: nothing is read."""
    for what, source, sink, wanted in (
        ("no source", "eth7", "eth1", "error: --in <DEVICE>: the configuration has no FromDevice for this device\n"),
        ("no sink", "eth0", "eth7", "error: --out <DEVICE>: the configuration has no ToDevice for this device\n"),
        ("neither", "", "", "error: --in <DEVICE>: the configuration has no FromDevice for this device\n"),
        ("the wrong way round", "eth1", "eth0", "error: --in <DEVICE>: the configuration has no FromDevice for this device\n"),
    ):
        with tempfile.TemporaryFile() as given:
            given.write(header() + record(b"x"))
            given.seek(0)
            has(what, run(PLAIN, given, source, sink), 1, b"", wanted.encode())
            same(f"{what}: how much was read", 0, os.lseek(given.fileno(), 0, os.SEEK_CUR))
    with tempfile.TemporaryFile() as given:
        given.write(header())
        given.seek(0)
        has("a faulty configuration", run("Counter -> Discard;", given), 1, b"", b"31 Count at Counter@1 inputs 0\n")
        same("a faulty configuration: how much was read", 0, os.lseek(given.fileno(), 0, os.SEEK_CUR))


def arguments():
    """Checks wrong arguments and help: status 2, with a text on standard error."""
    every = ["-e", PLAIN, "--in", "eth0", "--out", "eth1"]
    for words in ([], every[:2], every[:4], every[2:], every + ["more"], every + ["-x"], ["--help"], ["-h"], every[:-1]):
        done = subprocess.run([PROGRAM, "--pcap"] + words, input=b"", stdout=subprocess.PIPE, stderr=subprocess.PIPE, timeout=60)
        same(f"{words}: the status", 2, done.returncode)
        same(f"{words}: standard output", b"", done.stdout)
        if not done.stderr:
            fail(f"{words}: standard error", "some text", done.stderr)
    done = subprocess.run([PROGRAM, "--pcap", b"\xff"], input=b"", stdout=subprocess.PIPE, stderr=subprocess.PIPE, timeout=60)
    has("an argument that is no text", done, 2, b"", b"click_prog: an argument is not UTF-8\n")


def failures():
    """Checks failing reads and writes."""
    given = header() + record(b"first") + record(b"second")
    with open("/dev/full", "wb") as full:
        done = run(PLAIN, given, stdout=full)
    done.stdout = b""
    # Both packets were in the buffer before the first write.
    has("a full device", done, 4, b"", b"error: a write failed\n" + counts_line(2, 0, 2, 2))
    done = run(PLAIN, None, preexec_fn=lambda: os.close(0))
    has("closed standard input", done, 4, b"", b"error: a read failed\n" + counts_line())
    with tempfile.TemporaryDirectory() as folder:
        place = os.open(folder, os.O_RDONLY)
        done = run(PLAIN, place)
        os.close(place)
    has("a folder as standard input", done, 4, b"", b"error: a read failed\n" + counts_line())


# ---- When the output is written


def comes(child, count):
    """Returns `count` bytes of a child's output, or fewer if it ends or a minute is over."""
    came, until = b"", monotonic() + 60
    while len(came) < count and select.select([child.stdout], [], [], max(0, until - monotonic()))[0]:
        piece = os.read(child.stdout.fileno(), count - len(came))
        if not piece:
            break
        came += piece
    return came


def started(text):
    words = [PROGRAM, "--pcap", "-e", text, "--in", "eth0", "--out", "eth1"]
    return subprocess.Popen(words, bufsize=0, stdin=subprocess.PIPE, stdout=subprocess.PIPE, stderr=subprocess.PIPE)


def ended(what, child, out, error):
    """Closes the child's input, and checks that it ends with status 0 and this further output."""
    child.stdin.close()
    rest, told = child.stdout.read(), child.stderr.read()
    has(what, subprocess.CompletedProcess(child.args, child.wait(timeout=60), rest, told), 0, out, error)


def waits():
    """Checks that the output for a packet is written before the program waits for the next one.

    It is also written if a part of the next record is already there.
    """
    first, second, third = (record(packet, (at, 0)) for at, packet in enumerate([b"first", b"\x05" * 1600, b"third"]))
    steps = [(header(), header()), (first, first), (second + third[:7], second), (third[7:18], b""), (third[18:] + first + first[:16], third + first)]
    with started(PLAIN) as child:
        for at, (given, wanted) in enumerate(steps):
            child.stdin.write(given)
            same(f"what has come by step {at}", wanted, comes(child, len(wanted)))
        child.stdin.write(first[16:])
        ended("step by step", child, first, counts_line(5, 0, 5, 5))


def in_pieces():
    """Checks that a capture gives the same output byte by byte, in small pieces, and at once."""
    given, wanted, line = modelled(header(), MIXED, "<", as_list(through_gateway))
    for size in (1, 7, 100, len(given)):
        with started(GATEWAY) as child:
            for at in range(0, len(given), size):
                child.stdin.write(given[at : at + size])
            ended(f"a capture in pieces of {size}", child, wanted, line)
    # More bytes than the buffer holds, in records that do not end where the buffer is full.
    packets = [bytes(length % 251 for _ in range(length)) for length in range(1, 1600, 3)] * 2
    carried("many sizes", PLAIN, header(), packets, "<", lambda packet: [packet])


def told_last():
    """Checks that the buffer is written before an error is printed."""
    given = header() + record(b"first") + record(b"second")[:20]
    words = [PROGRAM, "--pcap", "-e", PLAIN, "--in", "eth0", "--out", "eth1"]
    done = subprocess.run(words, input=given, stdout=subprocess.PIPE, stderr=subprocess.STDOUT, timeout=60)
    done.stderr = b""
    error = b"error: packet 2, byte 45: the capture ends inside this record\n" + counts_line(1, 0, 1, 1)
    has("an error behind what was held", done, 1, header() + record(b"first") + error, b"")


def million():
    """Checks a million packets with an address space of 64 MiB.

    Also checks a packet for which the sink would return packets forever: the run ends after
    1,048,576.
    """
    count = 1_000_000
    given = header() + record(b"x", (7, 8)) * count
    room = 64 << 20
    done = run(PLAIN, given, preexec_fn=lambda: resource.setrlimit(resource.RLIMIT_AS, (room, room)))
    has("a million packets", done, 0, given, counts_line(count, 0, count, count))
    again = "FromDevice(eth0) -> q :: Queue -> t :: PullTee(2) -> ToDevice(eth1); t [1] -> q;"
    given = header() + record(b"\x07" * 1601) + record(b"x", (7, 8)) + record(b"y")
    asked = 1_048_576
    wanted = b"error: packet 2, byte 1641: the sink returned 1048576 packets after this packet; fewer are allowed\n"
    has("a packet that comes again and again", run(again, given), 1, header() + record(b"x", (7, 8)) * asked, wanted + counts_line(2, 1, 1, asked))


def three():
    """Checks the page's capture: of its three packets the gateway drops the second, as expired."""
    with open(THREE, "rb") as file:
        given = file.read()
    times = [(1_700_000_000, 1), (1_700_000_000, 250_000), (1_700_000_001, 0)]
    packets = [GOOD[0], BAD[0], GOOD[1]]
    same("the page's capture", header() + b"".join(record(p, t) for p, t in zip(packets, times)), given)
    wanted = header() + record(through_gateway(GOOD[0]), times[0]) + record(through_gateway(GOOD[1]), times[2])
    has("the page's capture", run(GATEWAY, given), 0, wanted, counts_line(3, 0, 3, 2))


if __name__ == "__main__":
    PROGRAM, GATEWAY_FILE, THREE = sys.argv[1:4]
    with open(GATEWAY_FILE, encoding="ascii") as file:
        GATEWAY = file.read()
    for part in (three, kinds, sizes, elements, headers, records, devices, arguments, failures, in_pieces, told_last):
        part()
    if sys.argv[4:] != ["quick"]:
        waits()
        million()
    print(f"{checked} captures checked")
