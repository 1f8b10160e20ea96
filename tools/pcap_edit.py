"""Changes a capture, for tools/wrong_programs.sh.

    pcap_edit.py FILE bump AT     adds one to the byte at this offset
    pcap_edit.py FILE drop        removes the first record
    pcap_edit.py FILE double      doubles the first record
    pcap_edit.py FILE exchange    exchanges the first two packets, and leaves the times in place

Records are changed only in a little-endian capture with microseconds; other files stay unchanged.
"""

import struct
import sys

name, what = sys.argv[1:3]
with open(name, "rb") as file:
    data = bytearray(file.read())
if what == "bump" and len(data) > int(sys.argv[3]):
    data[int(sys.argv[3])] = (data[int(sys.argv[3])] + 1) % 256
elif what != "bump" and data[:4] == b"\xd4\xc3\xb2\xa1":
    records, at = [], 24
    while at < len(data):
        kept = struct.unpack_from("<I", data, at + 8)[0]
        records.append((data[at : at + 8], data[at + 8 : at + 16 + kept]))
        at += 16 + kept
    if what == "drop":
        records = records[1:]
    elif what == "double":
        records = records[:1] + records
    elif len(records) > 1:
        records[:2] = [(records[0][0], records[1][1]), (records[1][0], records[0][1])]
    data = data[:24] + b"".join(time + packet for time, packet in records)
with open(name, "wb") as file:
    file.write(data)
