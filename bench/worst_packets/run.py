#!/usr/bin/env python3
"""Instructions a byte that the costly packets take, from file to file, against a bound.

    bench/worst_packets/run.py [PROGRAM]

Three named inputs each for the walk over extension headers, for the choice of a lane and for the cutting of packets; captures of 10 and of
60 such records, by one worker under valgrind: what the 50 more take, a byte of them. Without PROGRAM it is the one that ./lwaftr runs. It
ends with 1 where an input is above its bound."""
import os
import re
import struct
import subprocess
import sys
import tempfile

sys.path.insert(0, os.path.join(os.path.dirname(os.path.realpath(__file__)), "..", "record_costs"))
from run import AFTR, FIRST, OURS, PEER, SHARED, TABLE, TOP, summed, tunnelled, udp

FEW, MANY = 10, 60
SETTINGS = TABLE.replace("[softwire]\n", "[softwire]\nmtu4 = 576\nmtu6 = 1280\n")


def chain(number, count, units):
    """So many headers of 8 * (units + 1) bytes with this number, the last one with no header behind it (59), in a packet to the router."""
    header = lambda behind: struct.pack("!BB", behind, units) + bytes(6 + 8 * units)
    body = header(number) * (count - 1) + header(59)
    return struct.pack("!IHBB", 0x60000000, len(body), number, 64) + FIRST + AFTR + body


def behind_chain(index):
    """A first fragment whose Fragment header stands behind as many headers as there is room for."""
    headers = 8_186
    body = struct.pack("!BB6x", 60, 0) * (headers - 1) + struct.pack("!BB6x", 44, 0) + struct.pack("!BBHI", 4, 0, 1, index) + bytes(8)
    return struct.pack("!IHBB", 0x60000000, len(body), 60, 64) + FIRST + AFTR + body


def small_fragment(index):
    head = struct.pack("!BBHHHBBH", 0x45, 0, 28, index, 0x2000, 64, 17, 0) + PEER + SHARED
    return summed(head, 10) + bytes(8)


def small_tunnel_fragment(index):
    body = struct.pack("!BBHI", 4, 0, 1, index) + bytes(8)
    return struct.pack("!IHBB", 0x60000000, len(body), 44, 64) + FIRST + AFTR + body


def long_packet(src, dst, options, size):
    """A UDP packet with these options, of this size in all."""
    words = (20 + len(options)) // 4
    head = struct.pack("!BBHHHBBH", 0x40 | words, 0, size, 1, 0, 64, 17, 0) + src + dst + options
    ports = (OURS, 53) if src == SHARED else (53, OURS)
    return summed(head, 10) + udp(*ports, size - len(head) - 8)


COPIED = b"\x88\x04\0\0" * 10  # an option that each fragment has
LONGEST = 65_535

# What is worst, how many instructions a byte it may take, and its inputs by the index of the record.
INPUTS = [
    (
        "the walk over extension headers",
        12,
        [
            ("8,191 Destination Options of 8 bytes", lambda index: chain(60, 8_191, 0)),
            ("8,191 Routing headers of 8 bytes", lambda index: chain(43, 8_191, 0)),
            ("31 Destination Options of 2,048 bytes", lambda index: chain(60, 31, 255)),
        ],
    ),
    (
        "the choice of a lane",
        320,
        [
            ("a first fragment behind 8,186 headers", behind_chain),
            ("first fragments of 28 bytes", small_fragment),
            ("first fragments of 8 bytes in the tunnel", small_tunnel_fragment),
        ],
    ),
    (
        "the cutting of packets",
        1,
        [
            ("65,535 bytes from a subscriber, in pieces of 576", lambda index: tunnelled(long_packet(SHARED, PEER, b"", LONGEST))),
            ("the same with 40 bytes of options that each piece has", lambda index: tunnelled(long_packet(SHARED, PEER, COPIED, LONGEST))),
            ("65,535 bytes to a subscriber, in fragments of 1,280", lambda index: long_packet(PEER, SHARED, b"", LONGEST)),
        ],
    ),
]


def capture(packets):
    head = struct.pack("<IHHiIII", 0xA1B2C3D4, 2, 4, 0, 0, 262_144, 101)
    return head + b"".join(struct.pack("<IIII", 1, 0, len(it), len(it)) + it for it in packets)


def instructions(program, packets):
    with open("in.pcap", "wb") as file:
        file.write(capture(packets))
    words = ["valgrind", "--tool=callgrind", "--callgrind-out-file=/dev/null", program, "run", "in.pcap", "out.pcap", "verdicts", "versions", "t.toml"]
    it = subprocess.run(words, capture_output=True, text=True, check=True)
    with open("verdicts", encoding="utf-8") as file:
        line = file.readline().split(" ", 2)[2].strip()
    return int(re.search(r"Collected : (\d+)", it.stderr).group(1)), line


def main():
    program = os.path.abspath(sys.argv[1]) if sys.argv[1:] else subprocess.run([f"{TOP}/build", "--program"], capture_output=True, text=True, check=True).stdout.strip()
    above = False
    print("| input | first verdict | instructions a byte | bound |")
    print("|---|---|---|---|")
    with tempfile.TemporaryDirectory() as folder:
        os.chdir(folder)
        with open("t.toml", "w", encoding="utf-8") as file:
            file.write(SETTINGS)
        for what, bound, inputs in INPUTS:
            for name, packet in inputs:
                packets = [packet(index) for index in range(MANY)]
                few, line = instructions(program, packets[:FEW])
                many, _ = instructions(program, packets)
                cost = (many - few) / sum(map(len, packets[FEW:]))
                above = above or cost > bound
                print(f"| {what}: {name} | {line} | {cost:.2f} | {bound}{' ABOVE' if cost > bound else ''} |", flush=True)
    sys.exit(1 if above else 0)


if __name__ == "__main__":
    main()
