#!/usr/bin/env python3
"""Makes a capture of many kinds of packets, and tables for it that differ.

    make.py COUNT SEED FOLDER

FOLDER gets in.pcap, t0.toml to t3.toml and bad.toml. Packets: UDP of subscribers in their tunnels (RFC 2473), of the IPv4
network to them, between two of them, with a time to live of 1, from ports that nobody owns, and tunnel packets in two IPv6
fragments that come apart (RFC 8200, section 4.5)."""
import random
import struct
import sys

AFTR = bytes.fromhex("20010db8000000000000000000000001")
SERVER = bytes([198, 51, 100, 7])
SUBSCRIBERS = 64


def b4(subscriber):
    return bytes.fromhex("20010db8000100000000000000000000")[:-2] + struct.pack(">H", 0x100 + subscriber)


def port(subscriber, low):
    # Offset 6, an identifier of 6 bits (RFC 7597, section 5.1): 16 ports in each of 63 ranges.
    return (1 << 10) | (subscriber << 4) | low


def folded(words):
    while words >> 16:
        words = (words & 0xFFFF) + (words >> 16)
    return words


def udp4(src, dst, source, target, identification, hops, payload):
    datagram = struct.pack(">HHHH", source, target, 8 + len(payload), 0) + payload
    head = struct.pack(">BBHHHBBH", 0x45, 0, 20 + len(datagram), identification, 0, hops, 17, 0) + src + dst
    total = 0xFFFF - folded(sum(struct.unpack(">10H", head)))
    return head[:10] + struct.pack(">H", total) + head[12:] + datagram


def ipv6(src, dst, following, body):
    return struct.pack(">IHBB", 0x60000000, len(body), following, 64) + src + dst + body


SHARED = bytes([203, 0, 113, 1])


def packets(count, seed):
    """So many packets, each a list of the records that it comes in."""
    turn = random.Random(seed)
    for number in range(count):
        subscriber = turn.randrange(SUBSCRIBERS + 2) % 64
        own = port(subscriber, turn.randrange(16))
        payload = bytes(turn.randrange(256) for _ in range(turn.randrange(2, 40)))
        kind = turn.randrange(8)
        hops = 1 if turn.randrange(20) == 0 else 64
        if kind in (0, 1):
            yield [ipv6(b4(subscriber), AFTR, 4, udp4(SHARED, SERVER, own, 53, number % 65536, hops, payload))]
        elif kind in (2, 3):
            yield [udp4(SERVER, SHARED, 53, own, number % 65536, hops, payload)]
        elif kind == 4:
            other = port(turn.randrange(SUBSCRIBERS), turn.randrange(16))
            yield [ipv6(b4(subscriber), AFTR, 4, udp4(SHARED, SHARED, own, other, number % 65536, hops, payload))]
        elif kind == 5:
            nobodys = turn.randrange(1024)
            yield [ipv6(b4(subscriber), AFTR, 4, udp4(SHARED, SERVER, nobodys, 53, number % 65536, hops, payload))]
        else:
            inner = udp4(SHARED, SERVER, own, 53, number % 65536, hops, payload)
            first = struct.pack(">BBHI", 4, 0, 1, number) + inner[:16]
            rest = struct.pack(">BBHI", 4, 0, 16, number) + inner[16:]
            yield [ipv6(b4(subscriber), AFTR, 44, first), ipv6(b4(subscriber), AFTR, 44, rest)]


def records(count, seed):
    """The records: later pieces come a few records behind the first ones, some never."""
    turn = random.Random(seed + 1)
    waiting = []
    made = 0
    for pieces in packets(count, seed):
        if made < count:
            yield pieces[0]
            made += 1
        if len(pieces) > 1 and turn.randrange(10):
            waiting.append(pieces[1])
        while waiting and made < count and turn.randrange(3) == 0:
            yield waiting.pop(0)
            made += 1


def capture(count, seed):
    out = [struct.pack("<IHHIIII", 0xA1B2C3D4, 2, 4, 0, 0, 262144, 101)]
    for number, packet in enumerate(records(count, seed)):
        out.append(struct.pack("<IIII", number // 50, number % 50 * 20000, len(packet), len(packet)) + packet)
    return b"".join(out)


def table(subscribers, settings=""):
    text = 'version = 1\n[softwire]\naftr = "2001:db8::1"\nown = "192.0.2.1"\n' + settings
    for subscriber in subscribers:
        text += f'[[binding]]\nb4 = "2001:db8:1::{0x100 + subscriber:x}"\nipv4 = "203.0.113.1"\n'
        text += f"offset = 6\nlength = 6\npsid = {subscriber}\n"
    return text


def main():
    count, seed, folder = int(sys.argv[1]), int(sys.argv[2]), sys.argv[3]
    with open(f"{folder}/in.pcap", "wb") as file:
        file.write(capture(count, seed))
    tables = {
        "t0": table(range(64)),
        "t1": table([s for s in range(64) if s % 2]),
        "t2": table(range(64), "hairpin = false\nerrors_up = true\n"),
        "t3": table([]),
        "bad": "=",
    }
    for name, text in tables.items():
        with open(f"{folder}/{name}.toml", "w") as file:
            file.write(text)


if __name__ == "__main__":
    main()
