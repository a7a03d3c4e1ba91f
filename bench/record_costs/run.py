#!/usr/bin/env python3
"""Instructions a record of each kind takes, from file to file.

    bench/record_costs/run.py [PROGRAM..]

Captures of one packet over and over, 2,000 and 6,000 records, by one worker under valgrind: what the 4,000 more take, a column a program.
Without PROGRAM it is the one that ./lwaftr runs."""
import os
import re
import struct
import subprocess
import sys
import tempfile

TOP = os.path.dirname(os.path.dirname(os.path.dirname(os.path.realpath(__file__))))
FEW, MANY = 2_000, 6_000
AFTR = bytes.fromhex("20010db8000000000000000000000001")
OTHER = bytes.fromhex("20010db8000000000000000000000002")
FIRST = bytes.fromhex("20010db8000100000000000000000001")
SECOND = bytes.fromhex("20010db8000100000000000000000002")
SHARED = bytes([203, 0, 113, 1])
PEER = bytes([198, 51, 100, 7])
TABLE = """version = 1
[softwire]
aftr = "2001:db8::1"
own = "192.0.2.1"
hairpin = true
errors_down = true
[[binding]]
b4 = "2001:db8:1::1"
ipv4 = "203.0.113.1"
offset = 6
length = 8
psid = 52
[[binding]]
b4 = "2001:db8:1::2"
ipv4 = "203.0.113.1"
offset = 6
length = 8
psid = 53
"""
OURS, THEIRS, NOBODYS = 1232, 1236, 1240  # a port of the first subscriber, of the second, and of none


def summed(data, at, pseudo=b""):
    """The bytes with their Internet checksum at a place (RFC 1071)."""
    total = sum(struct.unpack(f"!{len(pseudo + data) // 2}H", pseudo + data))
    while total >> 16:
        total = (total & 0xFFFF) + (total >> 16)
    return data[:at] + struct.pack("!H", 0xFFFF - total) + data[at + 2 :]


def ipv4(protocol, src, dst, body, ttl=64):
    head = struct.pack("!BBHHHBBH", 0x45, 0, 20 + len(body), 1, 0, ttl, protocol, 0) + src + dst
    return summed(head, 10) + body


def udp(port, to, size):
    return struct.pack("!4H", port, to, 8 + size, 0) + bytes(size)


def echo(identifier, kind):
    return summed(struct.pack("!BBHHH", kind, 0, 0, identifier, 1) + bytes(32), 2)


def unreachable(packet):
    return summed(struct.pack("!BBHI", 3, 3, 0, 0) + packet, 2)


def tunnelled(packet, src=FIRST, dst=AFTR):
    return struct.pack("!IHBB", 0x60000000, len(packet), 4, 64) + src + dst + packet


def too_big(quoted):
    message = struct.pack("!BBHI", 2, 0, 0, 1400) + quoted
    pseudo = OTHER + AFTR + struct.pack("!II", len(message), 58)
    return struct.pack("!IHBB", 0x60000000, len(message), 58, 64) + OTHER + AFTR + summed(message, 2, pseudo)


UP = ipv4(17, SHARED, PEER, udp(OURS, 53, 32))
DOWN = ipv4(17, PEER, SHARED, udp(53, OURS, 32))
KINDS = [
    ("UDP of 60 bytes from a subscriber", tunnelled(UP)),
    ("UDP of 60 bytes to a subscriber", DOWN),
    ("UDP of 60 bytes between subscribers", tunnelled(ipv4(17, SHARED, SHARED, udp(OURS, THEIRS, 32)))),
    ("echo from a subscriber", tunnelled(ipv4(1, SHARED, PEER, echo(OURS, 8)))),
    ("echo reply to a subscriber", ipv4(1, PEER, SHARED, echo(OURS, 0))),
    ("ICMP error from a subscriber", tunnelled(ipv4(1, SHARED, PEER, unreachable(DOWN)))),
    ("ICMP error to a subscriber", ipv4(1, PEER, SHARED, unreachable(UP))),
    ("ICMP error of 1,400 bytes to another router", tunnelled(ipv4(1, SHARED, PEER, unreachable(ipv4(17, PEER, SHARED, udp(53, OURS, 1344)))), dst=OTHER)),
    ("packet too big about the tunnel, relayed", too_big(tunnelled(DOWN, AFTR, FIRST))),
    ("UDP with a time to live of 1, answered", tunnelled(ipv4(17, SHARED, PEER, udp(OURS, 53, 32), ttl=1))),
    ("UDP to a port of nobody, answered", ipv4(17, PEER, SHARED, udp(53, NOBODYS, 32))),
]


def capture(packet, count):
    head = struct.pack("<IHHiIII", 0xA1B2C3D4, 2, 4, 0, 0, 262_144, 101)
    return head + (struct.pack("<IIII", 1, 0, len(packet), len(packet)) + packet) * count


def instructions(program, packet, count):
    with open("in.pcap", "wb") as file:
        file.write(capture(packet, count))
    words = ["valgrind", "--tool=callgrind", "--callgrind-out-file=/dev/null", program, "run", "in.pcap", "out.pcap", "verdicts", "versions", "t.toml"]
    it = subprocess.run(words, capture_output=True, text=True, check=True)
    with open("verdicts", encoding="utf-8") as file:
        line = file.readline().split(" ", 2)[2].strip()
    return int(re.search(r"Collected : (\d+)", it.stderr).group(1)), line


def main():
    programs = [os.path.abspath(it) for it in sys.argv[1:]]
    programs = programs or [subprocess.run([f"{TOP}/build", "--program"], capture_output=True, text=True, check=True).stdout.strip()]
    print("| record | verdict | instructions |")
    print("|---|---|---|")
    with tempfile.TemporaryDirectory() as folder:
        os.chdir(folder)
        with open("t.toml", "w", encoding="utf-8") as file:
            file.write(TABLE)
        for name, packet in KINDS:
            costs = []
            for program in programs:
                few, line = instructions(program, packet, FEW)
                many, _ = instructions(program, packet, MANY)
                costs.append(f"{(many - few) / (MANY - FEW):.0f}")
            print(f"| {name} | {line} | {', '.join(costs)} |", flush=True)


if __name__ == "__main__":
    main()
