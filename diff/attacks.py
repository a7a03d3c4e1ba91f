#!/usr/bin/env python3
"""Captures that cost as much as they can, beside an ordinary one.

    diff/attacks.sh [--program FILE] [--megabytes N] [--workers N] [--turns N] [--instructions] [KIND..]

Makes a capture of N megabytes (100) of each kind, runs the program over it, and prints processor time and memory; then the time a byte
and a record beside those of ordinary packets, which are UDP of 32 bytes from subscribers under a table of 4,096 bindings. Marks each kind
of which both are more than ten times the ordinary ones. Exit code 1 where there is one. What reading the table takes is no cost of the
records. With --turns each kind is run N times and the least counts, of ordinary packets in front of all others and behind them. With
--instructions the processor's instructions outside of the system are counted by callgrind, which no other work on the machine changes."""
import argparse
import multiprocessing
import os
import random
import re
import struct
import subprocess
import sys
import tempfile

HERE = os.path.dirname(os.path.abspath(__file__))
sys.path.insert(0, HERE)
import jobs  # noqa: E402
import router  # noqa: E402
import run as beside  # noqa: E402

AFTR, OWN, FAR = jobs.AFTR, jobs.OWN, bytes([198, 51, 100, 7])
R = random.Random("attacks")
COUNT = 4096
FRONT = struct.pack("<IHHIIII", 0xA1B2C3D4, 2, 4, 0, 0, 262144, 101)


def city():
    """4,096 bindings: 16 addresses, each with 256 subscribers of four ports in each of 63 pieces."""
    rows = "".join(f'{{b4="2001:db8:1::{at:x}",ipv4="203.0.{at >> 8}.7",offset=6,length=8,psid={at & 255}}},' for at in range(COUNT))
    settings = 'aftr = "2001:db8::1", own = "192.0.2.1", errors_up = true, errors_down = true, mtu4 = 576, mtu6 = 1280'
    return f"version = 1\nsoftwire = {{ {settings} }}\nbinding = [{rows}]\n".encode()


def subscriber(at):
    """Tunnel's end, address and a port of a subscriber."""
    return (0x20010DB80001 << 80 | at).to_bytes(16, "big"), bytes([203, 0, at >> 8, 7]), 1024 | (at & 255) << 2


def ip4(src, dst, protocol, payload, ttl=64, word=0, number=1, options=b""):
    size = 20 + len(options)
    head = struct.pack("!BBHHHBBH", 0x40 | size // 4, 0, size + len(payload), number, word, ttl, protocol, 0) + src + dst + options
    return router.with_checksum(head, 10) + payload


def ip6(src, dst, kind, payload):
    return struct.pack("!IHBB", 6 << 28, len(payload), kind, 64) + src + dst + payload


def udp(src, dst, size):
    return struct.pack("!HHHH", src, dst, 8 + size, 0) + bytes(size)


def up(at, ttl=64, size=32, src=None):
    b4, address, port = subscriber(at)
    return ip6(b4, AFTR, 4, ip4(src or address, FAR, 17, udp(port, 53, size), ttl))


def down(at, size=32, **more):
    _, address, port = subscriber(at)
    return ip4(FAR, address, 17, udp(53, port, size), **more)


def icmp(kind, code, rest):
    return router.with_checksum(bytes([kind, code, 0, 0]) + rest, 2)


def relayed(at, size):
    """An ICMPv6 error about a tunnel packet of the router's."""
    b4, *_ = subscriber(at)
    data = bytes([2, 0, 0, 0]) + struct.pack("!I", 1280) + ip6(AFTR, b4, 4, down(at, size))
    pseudo = b4 + AFTR + struct.pack("!IxxxB", len(data), 58)
    return ip6(b4, AFTR, 58, data[:2] + struct.pack("!H", router.checksum(pseudo + data)) + data[4:])


def some(make, count=2048):
    """Packets of many subscribers."""
    return [make(R.randrange(COUNT)) for _ in range(count)]


def piece(number, at, body=bytes(8), more=True, dst=b"\xcb\0\0\7"):
    return ip4(FAR, dst, 17, body, word=(0x2000 if more else 0) | at, number=number)


def datagram(number):
    """256 pieces of a datagram to a subscriber."""
    body = udp(53, 1024, 8184)
    return [piece(number, 4 * at, body[32 * at :][:32], at < 255) for at in range(256)]


def full_lanes():
    """All sixteen lanes full: 256 datagrams of three pieces each."""
    return [piece(number, at) for number in range(4096) for at in (0, 2, 4)]


def chain(count):
    """A packet in a tunnel behind so many empty destination options."""
    b4, address, port = subscriber(77)
    return ip6(b4, AFTR, 60, (b"\x3c\0\1\4\0\0\0\0" * (count - 1) + b"\4\0\1\4\0\0\0\0") + ip4(address, FAR, 17, udp(port, 53, 8)))


def quote(size):
    """An ICMP error to a subscriber that quotes so many bytes."""
    _, address, port = subscriber(99)
    return ip4(FAR, address, 1, icmp(3, 3, bytes(4) + ip4(address, FAR, 17, udp(port, 53, size))))


# Records that come once, and those that are repeated behind them; all of one time, or each a minute later.
ORDINARY = "ordinary"
KINDS = {
    ORDINARY: lambda: ([], some(up)),
    "ordinary, 1,400 bytes": lambda: ([], some(lambda at: up(at, size=1372 - 40), 256)),
    "down": lambda: ([], some(down)),
    "lanes: a repeat of the last of 256 pieces": lambda: ([piece(5, 2 * at) for at in range(256)], [piece(5, 510)] * 64),
    "lanes: the 257th piece and those behind it": lambda: ([piece(5, 2 * at) for at in range(256)], [piece(5, 1000 + 2 * at) for at in range(64)]),
    "lanes: pieces in falling order, 256 of each datagram": lambda: ([], [piece(number, 2 * at) for number in range(64) for at in range(255, -1, -1)]),
    "lanes: datagrams of 8,192 bytes in 256 pieces": lambda: ([], [it for number in range(32) for it in datagram(number)]),
    "lanes: one datagram more than a full lane takes": lambda: (full_lanes(), [piece(at, 0, dst=b"\xcb\0\1\7") for at in range(64)]),
    "lanes: repeats among 4,096 datagrams": lambda: (full_lanes(), [piece(R.randrange(4096), 4) for _ in range(2048)]),
    "lanes: overlaps": lambda: ([], [it for number in range(4096) for it in (piece(number, 0, bytes(16)), piece(number, 1, bytes(16)))]),
    "lanes: pieces of 1 byte": lambda: ([], [piece(number, 1, b"x", False) for number in range(4096)]),
    "lanes: tunnel packets in two pieces": lambda: ([], [it for at in range(1024) for it in tunnel_pieces(at)]),
    "walks: 8,000 extension headers": lambda: ([], [chain(8000)] * 4),
    "walks: 100 extension headers": lambda: ([], [chain(100)] * 64),
    "walks: 8 extension headers": lambda: ([], [chain(8)] * 512),
    "ICMP: errors that quote 65,000 bytes": lambda: ([], [quote(65000)] * 4),
    "ICMP: errors that quote 8 bytes": lambda: ([], [quote(0)] * 1024),
    "errors: time exceeded in the tunnel": lambda: ([], some(lambda at: up(at, ttl=1))),
    "errors: time exceeded, packets of 600 bytes": lambda: ([], some(lambda at: up(at, ttl=1, size=540), 512)),
    "errors: source address failed policy": lambda: ([], some(lambda at: up(at, src=FAR))),
    "errors: passed on": lambda: ([], some(lambda at: relayed(at, 8))),
    "errors: too big, down": lambda: ([], some(lambda at: down(at, size=1300, word=0x4000), 256)),
    "cut: 65,000 bytes out to 576": lambda: ([], [up(at, size=65000) for at in range(8)]),
    "cut: 65,000 bytes into tunnels of 1,280": lambda: ([], [down(at, size=65000) for at in range(8)]),
    "cut: 580 bytes out to 576": lambda: ([], some(lambda at: up(at, size=552), 512)),
    "turned back": lambda: ([], some(hairpin)),
    "empty records": lambda: ([], [b""] * 4096),
}


def tunnel_pieces(at):
    data = up(at)
    for start, more in ((0, 1), (32, 0)):
        body = data[40:][start : start + 32] if more else data[40:][start:]
        yield data[:4] + struct.pack("!HB", 8 + len(body), 44) + data[7:40] + struct.pack("!BBHI", 4, 0, start | more, at) + body


def hairpin(at):
    b4, address, port = subscriber(at)
    _, other, theirs = subscriber(at ^ 1)
    return ip6(b4, AFTR, 4, ip4(address, other, 17, udp(port, theirs, 32)))


def classic(kind, size):
    """The bytes of a classic capture, and how many records it has."""
    once, again = KINDS[kind]()

    def record(it):
        return struct.pack("<IIII", 1, 0, len(it), len(it)) + it

    front, body = b"".join(map(record, once)), b"".join(map(record, again))
    times = max(1, (size - len(front)) // len(body))
    return FRONT + front + body * times, len(once) + times * len(again)


def blocks(front, body, records, size):
    times = max(1, (size - len(front)) // len(body))
    return front + body * times, times * records


def packet_block(data, options=b""):
    return jobs.block("<", 6, struct.pack("<IIIII", 0, 0, 1, len(data), len(data)) + data + bytes(-len(data) % 4) + options)


PLAIN = jobs.section("<") + jobs.block("<", 1, struct.pack("<HHI", 101, 0, 0))
def late(size):
    """Datagrams of one lane, a quarter of a second apart: 240 are open, and each piece ends one that waited too long."""
    made = [piece(16 * at & 0xFFFF, 0, dst=struct.pack("!I", 0xCB000000 + (at >> 12))) for at in range(size // 44)]
    records = (struct.pack("<IIII", at >> 2, (at & 3) * 250000, len(it), len(it)) + it for at, it in enumerate(made))
    return FRONT + b"".join(records), len(made)


def waiting(size, pieces):
    """4,096 datagrams, as many as the lanes take, that all wait with so many pieces, which have as many bytes as the capture may have."""
    units = max(1, min(size // (4096 * pieces) - 36, 65000 // pieces) // 8)
    made = [piece(number, units * at, bytes(8 * units)) for at in range(pieces) for number in range(4096)]
    return FRONT + b"".join(struct.pack("<IIII", 1, 0, len(it), len(it)) + it for it in made), len(made)


OTHERS = {
    "lanes: each piece ends a datagram that waited": late,
    "lanes: 4,096 datagrams wait with all their bytes": lambda size: waiting(size, 1),
    "lanes: 4,096 datagrams wait with 255 pieces each": lambda size: waiting(size, 255),
    "pcapng: ordinary": lambda size: blocks(PLAIN, b"".join(map(packet_block, some(up))), 2048, size),
    "pcapng: blocks of 12 bytes": lambda size: blocks(PLAIN, jobs.block("<", 5, b"") * 4096, 4096, size),
    "pcapng: sections": lambda size: blocks(PLAIN, jobs.section("<") * 4096, 4096, size),
    "pcapng: interfaces": lambda size: blocks(b"", jobs.section("<") + PLAIN[28:] * 65536, 65537, size),
    "pcapng: options of an interface": lambda size: (jobs.section("<") + jobs.block("<", 1, struct.pack("<HHI", 101, 0, 0) + b"\1\0\0\0" * (size // 4)), 1),
    "pcapng: options of packets": lambda size: blocks(PLAIN, packet_block(up(5), b"\2\0\4\0abcd" * 1000) * 8, 8, size),
    "pcapng: empty simple packets": lambda size: blocks(PLAIN, jobs.block("<", 3, bytes(4)) * 4096, 4096, size),
    "pcapng: one long block": lambda size: (PLAIN + jobs.block("<", 5, bytes(size)), 1),
}


COUNTER = ["valgrind", "--tool=callgrind", "--callgrind-out-file=/dev/null"]


def taken(counts, program, folder, workers):
    """Seconds of processor, or where they are counted thousands of millions of instructions; megabytes and what was said; in a process of
    its own, since a child counts its parent's memory as its own."""
    words = [*(COUNTER if counts else []), program, "run", "in", "out", "verdicts", "versions", "t.toml", "--workers", str(workers)]
    process = subprocess.Popen(words, cwd=folder, stdin=subprocess.DEVNULL, stdout=subprocess.PIPE, stderr=subprocess.STDOUT)
    said = process.stdout.read().decode().strip()
    _, _, used = os.wait4(process.pid, 0)
    process.returncode = 0
    if counts:
        found = re.search(r"Collected : (\d+)", said)
        return int(found[1]) / 1e9, 0, re.sub(r"(?m)^==.*\n?", "", said).strip()
    return used.ru_utime + used.ru_stime, used.ru_maxrss / 1024, said


def measured(pool, data, table, words, turns=None):
    """The least that `taken` gives of some runs over these bytes, and the bytes of OUT."""
    with tempfile.TemporaryDirectory(dir=beside.MEMORY) as folder:
        for name, it in (("in", data), ("t.toml", table)):
            with open(os.path.join(folder, name), "wb") as file:
                file.write(it)
        how = (words.instructions, beside.PROGRAM, folder, words.workers)
        least = min((pool.apply(taken, how) for _ in range(turns or words.turns)), key=lambda it: it[0])
        return *least, os.path.getsize(os.path.join(folder, "out"))


def made(kind, size):
    """A capture of a kind, and how many records it has."""
    return classic(kind, size) if kind in KINDS else OTHERS[kind](size)


def main():
    it = argparse.ArgumentParser(description=__doc__, formatter_class=argparse.RawDescriptionHelpFormatter)
    it.add_argument("--program")
    it.add_argument("--megabytes", type=int, default=100)
    it.add_argument("--workers", type=int, default=1)
    it.add_argument("--turns", type=int, default=1)
    it.add_argument("--instructions", action="store_true")
    it.add_argument("kinds", nargs="*")
    words = it.parse_args()
    beside.PROGRAM = os.path.abspath(words.program) if words.program else beside.program_here()
    pool, table, size, marked = multiprocessing.Pool(1), city(), words.megabytes * 10**6, 0
    kinds = [it for it in [*KINDS, *OTHERS] if it != ORDINARY and (not words.kinds or any(word in it for word in words.kinds))]
    alone, memory, *_ = measured(pool, classic("empty records", 24)[0], table, words, 3 * words.turns)
    found = []
    for kind in [ORDINARY, *kinds, ORDINARY]:
        data, records = made(kind, size)
        spent, *rest = measured(pool, data, table, words)
        found.append((kind, len(data), records, max(spent - alone, 0.001), *rest))
    ordinary = min(found[0], found.pop(), key=lambda it: it[3])
    unit, part = ("G instructions", "instructions") if words.instructions else ("s", "ns")
    print(f"the table alone: {alone:.2f} {unit}, {memory:.0f} MB")
    print(f"| capture | MB in | records | MB out | {unit} | MB of memory | {part} a byte | {part} a record | times the ordinary, the less |")
    print("|---|---|---|---|---|---|---|---|---|")
    for kind, length, records, spent, memory, said, out in [ordinary, *found[1:]]:
        times = min(spent / length / (ordinary[3] / ordinary[1]), spent / records / (ordinary[3] / ordinary[2]))
        marked += times > 10
        row = f"| {kind} | {length / 1e6:.0f} | {records} | {out / 1e6:.0f} | {spent:.2f} | {memory:.0f} |"
        row += f" {spent / length * 1e9:.1f} | {spent / records * 1e9:.0f} | {times:.1f} |"
        print(row + (" OVER TEN" if times > 10 else "") + ("" if said.startswith("records") else f" {said}"))
    sys.exit(1 if marked else 0)


if __name__ == "__main__":
    main()
