#!/usr/bin/env python3
"""Puts an Ethernet header in front of each packet of a capture of plain IP packets, for tools that send frames.

    interop/frames.py SOURCE DESTINATION < OUT > FRAMES

SOURCE and DESTINATION are Ethernet addresses as 02:00:00:00:00:01; OUT is what lwaftr writes (classic, link type 101). Each frame is written
at once, so that a pipe adds no delay."""
import struct
import sys

HEADER = struct.Struct("<IIII")
ETHERNET, PLAIN_IP = struct.pack("<I", 1), struct.pack("<I", 101)
KINDS = {4: b"\x08\x00", 6: b"\x86\xdd"}


def frames(file, front):
    """The records of frames, each with its header."""
    while len(header := file.read(HEADER.size)) == HEADER.size:
        seconds, fraction, length, _ = HEADER.unpack(header)
        packet = file.read(length)
        if packet:
            frame = front + KINDS[packet[0] >> 4] + packet
            yield HEADER.pack(seconds, fraction, len(frame), len(frame)) + frame


def main():
    if len(sys.argv) != 3:
        sys.exit("usage: frames.py SOURCE DESTINATION < OUT > FRAMES")
    source, destination = (bytes.fromhex(word.replace(":", "")) for word in sys.argv[1:])
    output = open(sys.stdout.fileno(), "wb", buffering=0)
    header = sys.stdin.buffer.read(24)
    if header[20:] != PLAIN_IP:
        sys.exit("frames.py: no classic capture of link type 101 in the byte order of this machine")
    output.write(header[:20] + ETHERNET)
    for frame in frames(sys.stdin.buffer, destination + source):
        output.write(frame)


if __name__ == "__main__":
    main()
