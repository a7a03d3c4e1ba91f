"""Writes lines of hexadecimal digits as packets of a raw capture."""
import re
import struct
import sys

with open(sys.argv[1]) as lines, open(sys.argv[2], "wb") as capture:
    capture.write(struct.pack("<IHHiIII", 0xA1B2C3D4, 2, 4, 0, 0, 262144, 101))
    number = 0
    for line in lines:
        if not re.fullmatch("[0-9a-f]{40,}\n", line):
            continue
        packet = bytes.fromhex(line)
        capture.write(struct.pack("<IIII", 1, number, len(packet), len(packet)) + packet)
        number += 1
