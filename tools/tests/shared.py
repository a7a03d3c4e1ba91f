"""What the tests of the tools share: packets, a table, runs of the program and of the tools."""
import ipaddress
import os
import struct
import subprocess
import sys
import tempfile
import unittest

HERE = os.path.dirname(os.path.dirname(os.path.abspath(__file__)))
sys.path.insert(0, HERE)
from lwaftr_tools import captures, command, packets, tables  # noqa: E402, F401

TOP = os.path.dirname(HERE)
PROGRAM = os.environ.get("LWAFTR", os.path.join(TOP, "lwaftr"))
os.environ["LWAFTR"] = PROGRAM


def ran(tool, *words):
    it = subprocess.run([sys.executable, os.path.join(HERE, tool), *map(str, words)], capture_output=True, text=True)
    return it.returncode, it.stdout, it.stderr


def total(data):
    if len(data) % 2:
        data += b"\0"
    count = sum(struct.unpack(f"!{len(data) // 2}H", data))
    while count >> 16:
        count = (count & 0xFFFF) + (count >> 16)
    return ~count & 0xFFFF


def ip4(source, destination, protocol, payload, ttl=64, number=1, word=0):
    head = struct.pack("!BBHHHBBH4s4s", 69, 0, 20 + len(payload), number, word, ttl, protocol, 0, ipaddress.IPv4Address(source).packed, ipaddress.IPv4Address(destination).packed)
    return head[:10] + struct.pack("!H", total(head)) + head[12:] + payload


def pieces4(source, destination, protocol, payload, size, ttl=64, number=1):
    """The fragments of an IPv4 datagram."""
    made = []
    for at in range(0, len(payload), size):
        word = at // 8 | (0x2000 if at + size < len(payload) else 0)
        made.append(ip4(source, destination, protocol, payload[at : at + size], ttl=ttl, number=number, word=word))
    return made


def ip6(source, destination, kind, payload, hops=64):
    return struct.pack("!IHBB16s16s", 6 << 28, len(payload), kind, hops, ipaddress.IPv6Address(source).packed, ipaddress.IPv6Address(destination).packed) + payload


def pieces6(source, destination, kind, payload, size, number=1):
    """The fragments of an IPv6 packet."""
    made = []
    for at in range(0, len(payload), size):
        head = struct.pack("!BBHI", kind, 0, at | (at + size < len(payload)), number)
        made.append(ip6(source, destination, 44, head + payload[at : at + size]))
    return made


def udp(source, destination, payload=b"test"):
    return struct.pack("!HHHH", source, destination, 8 + len(payload), 0) + payload


def icmp(kind, code, rest):
    data = struct.pack("!BBH", kind, code, 0) + rest
    return data[:2] + struct.pack("!H", total(data)) + data[4:]


def icmp6(source, destination, kind, code, rest):
    data = struct.pack("!BBH", kind, code, 0) + rest
    pseudo = ipaddress.IPv6Address(source).packed + ipaddress.IPv6Address(destination).packed + struct.pack("!IxxxB", len(data), 58)
    return ip6(source, destination, 58, data[:2] + struct.pack("!H", total(pseudo + data)) + data[4:])


AFTR, OWN, SHARED, WHOLE, FAR = "2001:db8::1", "192.0.2.1", "203.0.113.1", "203.0.113.2", "198.51.100.7"
B4, OTHER, ALONE = "2001:db8:1::1", "2001:db8:1::2", "2001:db8:1::3"


def a_table(**keys):
    softwire = tables.Softwire(ipaddress.IPv6Address(AFTR), ipaddress.IPv4Address(OWN), **keys)
    rows = [(B4, SHARED, 6, 8, 52), (OTHER, SHARED, 6, 8, 53), (ALONE, WHOLE, 0, 0, 0)]
    return tables.Table(softwire, [tables.Binding(ipaddress.IPv6Address(b4), ipaddress.IPv4Address(v4), *shape) for b4, v4, *shape in rows])


class Folder(unittest.TestCase):
    def setUp(self):
        self.folder = tempfile.TemporaryDirectory()
        self.addCleanup(self.folder.cleanup)

    def file(self, name, text=None):
        path = os.path.join(self.folder.name, name)
        if text is not None:
            with open(path, "w", encoding="utf-8") as file:
                file.write(text)
        return path

    def run_program(self, records, table, *words):
        """The files of a run over these packets."""
        names = [self.file(it) for it in ("in.pcap", "out.pcap", "verdicts", "versions", "table.toml")]
        captures.write(names[0], [(1_000_000_000 + at * 1_000_000, data) for at, data in enumerate(records)])
        self.file("table.toml", tables.text(table))
        it = subprocess.run([PROGRAM, "run", *names, *words], capture_output=True, text=True)
        self.assertEqual(it.returncode, 0, it.stderr)
        return names


def same(one, other):
    return sorted(one.bindings, key=str) == sorted(other.bindings, key=str)


def one_of_each_rule():
    """A packet of each rule that one record can meet, with its rule and a part of what is said of it."""
    inner = ip4(SHARED, FAR, 17, udp(1232, 53))
    bad_sum = inner[:10] + b"\0\0" + inner[12:]
    tunnel = ip6(AFTR, B4, 4, ip4(FAR, SHARED, 17, udp(53, 1232)))

    def message(kind, code, quote, source=B4):
        return icmp6(source, AFTR, kind, code, b"\0" * 4 + quote)

    def up(data, source=B4):
        return ip6(source, AFTR, 4, data)

    return [
        (up(inner), "up", "sent out"),
        (ip4(FAR, SHARED, 17, udp(53, 1232)), "down", "sent into the tunnel"),
        (up(ip4(SHARED, SHARED, 17, udp(1232, 1236))), "hairpin", "another"),
        (up(ip4(SHARED, FAR, 17, udp(1232, 53, b"testtest"), word=0x2000)), "held", "waits"),
        (b"", "frame-short", "too few bytes"),
        (b"\x50" * 30, "frame-type", "neither IPv4 nor IPv6"),
        (ip4(FAR, SHARED, 17, udp(53, 1232))[:24], "ip4-malformed", "fewer bytes"),
        (bad_sum, "ip4-checksum", "checksum"),
        (up(inner)[:50], "ip6-malformed", "fewer bytes"),
        (ip6(B4, AFTR, 0, b"\4"), "ip6-chain", "extension headers"),
        (ip4(FAR, SHARED, 17, b"12345", word=0x2000), "frag-odd", "multiple of 8"),
        (ip4(FAR, SHARED, 17, b"x" * 1400, word=0x1FFF), "frag-long", "65,535"),
        (ip6(B4, "2001:db8::9", 4, inner), "not-ours", "the tunnel address is 2001:db8::1"),
        (ip6(B4, AFTR, 17, udp(1, 2)), "not-softwire", "it carries UDP"),
        (up(inner[:25]), "inner-malformed", "fewer bytes"),
        (up(bad_sum), "inner-checksum", "checksum"),
        (ip4(FAR, OWN, 17, udp(53, 1232)), "to-self", "router's own"),
        (ip4(FAR, SHARED, 1, b"\3\0\0\0"), "icmp-bad", "cut off"),
        (ip4(FAR, WHOLE, 17, b"ab"), "no-port", "too short to name a port"),
        (ip4(FAR, SHARED, 17, udp(53, 1240)), "no-binding", "port 1240 of 203.0.113.1 is nobody's"),
        (up(inner, OTHER), "no-binding", "its owner's tunnel ends at 2001:db8:1::1, it came from 2001:db8:1::2"),
        (ip4(FAR, SHARED, 47, b"\0" * 8), "no-binding", "GRE has no ports"),
        (up(ip4(SHARED, FAR, 17, udp(1232, 53), ttl=1)), "ttl", "its time to live is 1"),
        (ip4(FAR, SHARED, 17, udp(53, 1232, b"x" * 1440), word=0x4000), "too-big", "takes 1460"),
        (up(ip4(SHARED, SHARED, 17, udp(1232, 1240))), "hairpin-no-binding", "port 1240 of 203.0.113.1 is nobody's"),
        (message(1, 0, tunnel), "relayed", "passed on"),
        (message(1, 0, b"nothing"), "relay-bad", "quotes no tunnel packet"),
        (message(1, 0, ip6(AFTR, OTHER, 4, ip4(FAR, SHARED, 17, udp(53, 1232)))), "relay-no-binding", "no binding fits"),
        (message(1, 0, ip6(AFTR, B4, 4, ip4("224.0.0.1", SHARED, 17, udp(53, 1232)))), "relay-mute", "no ICMP error"),
    ]
