"""Writes a capture of packets of 60 bytes for the gateway of examples/pcap to standard output.

    make.py THOUSANDS    writes this many thousand packets
"""

import struct
import sys

HEADER = struct.pack("<IHHIIII", 0xA1B2C3D4, 2, 4, 0, 0, 65535, 1)
# RFC 791: time to live 64, protocol 17, from 10.9.8.7 to 10.1.2.3, with 26 bytes of payload.
WORDS = [0x4500, 46, 7, 0, 0x4011, 0, 0x0A09, 0x0807, 0x0A01, 0x0203]
total = sum(WORDS)
WORDS[5] = 0xFFFF - (total % 0xFFFF)
FRAME = bytes(range(0x10, 0x1C)) + b"\x08\x00" + struct.pack(">10H", *WORDS) + b"x" * 26

out = sys.stdout.buffer
out.write(HEADER)
thousand = b"".join(struct.pack("<IIII", 1, at, len(FRAME), len(FRAME)) + FRAME for at in range(1000))
for _ in range(int(sys.argv[1])):
    out.write(thousand)
