#!/usr/bin/env python3
"""Prints the single packets of the crate lwaftr_cases with what has to become of each, as its table has them.

    make.py

A line has a title, the table, the lines of VERDICTS behind their `0 0 `, the record's bytes, and the packets that leave. The
bytes are those of packets.py; what has to become of a packet is said here by hand."""
import struct

from packets import *

UP = ip4(SHARED, SERVER, 17, udp(1232, 53))
DOWN = ip4(SERVER, SHARED, 17, udp(53, 1232), identification=2)
LAST = ip4(SHARED, SERVER, 17, udp(1232, 53), ttl=1)
GONE = ip4(SHARED, SERVER, 17, udp(1232, 53), ttl=0)


def long_down(size, **more):
    return ip4(SERVER, SHARED, 17, udp(53, 1232, b"a" * (size - 28)), identification=2, **more)


def flipped(data, place):
    return data[:place] + bytes([data[place] ^ 1]) + data[place + 1:]


PLAIN = [
    # Up, and what keeps a packet from it.
    ("version 2", "whole/2", "up 1", up(UP), [passed(UP)]),
    ("foreign tunnel source, told", "whole+errors_up=true", "drop no-binding 1", up(UP, SECOND), [policy6(up(UP, SECOND), SECOND)]),
    ("owned, errors to subscribers", "whole+errors_up=true", "up 1", up(UP), [passed(UP)]),
    ("owned, errors to the IPv4 network", "whole+errors_down=true", "up 1", up(UP), [passed(UP)]),
    ("a port of nobody, told", "shared+errors_up=true", "drop no-binding 1", up(ip4(SHARED, SERVER, 17, udp(208, 53))),
     [policy6(up(ip4(SHARED, SERVER, 17, udp(208, 53))), FIRST)]),
    ("time to live 1", "whole", "drop ttl 1", up(LAST), [down(error4(11, 0, 0, LAST, SHARED))]),
    ("time to live 0", "whole", "drop ttl 1", up(GONE), [down(error4(11, 0, 0, GONE, SHARED))]),
    ("time to live 1 of a port unreachable", "whole", "drop ttl 0",
     up(ip4(SHARED, SERVER, 1, icmp4(3, 3, 0, DOWN), ttl=1)), []),
    ("ICMP that quotes nothing", "whole", "drop icmp-bad 0", up(ip4(SHARED, SERVER, 1, UP[20:])), []),
    ("first fragment alone", "whole", "held 0, unfinished 0", up(ip4(SHARED, SERVER, 17, UP[20:28], flags=1)), []),
    ("last fragment alone", "whole", "held 0, unfinished 0", up(ip4(SHARED, SERVER, 17, UP[20:], offset=8)), []),
    ("echo request", "shared", "up 1", up(ip4(SHARED, SERVER, 1, icmp4(8, 0, 1232 << 16 | 1))),
     [passed(ip4(SHARED, SERVER, 1, icmp4(8, 0, 1232 << 16 | 1)))]),
    # Down.
    ("downstream", "whole", "down 1", DOWN, [down(passed(DOWN))]),
    ("downstream to a port set", "shared", "down 1", DOWN, [down(passed(DOWN))]),
    ("downstream from another port", "whole", "down 1", ip4(SERVER, SHARED, 17, UP[20:]), [down(passed(ip4(SERVER, SHARED, 17, UP[20:])))]),
    ("downstream with a type of service", "whole+hop_limit=9", "down 1", ip4(SERVER, SHARED, 17, UP[20:], tos=0xB8),
     [down(passed(ip4(SERVER, SHARED, 17, UP[20:], tos=0xB8)), tos=0xB8, hop=9)]),
    ("downstream to a port of nobody", "shared", "drop no-binding 0", ip4(SERVER, SHARED, 17, udp(53, 208)), []),
    ("the same, told", "shared+errors_down=true", "drop no-binding 1", ip4(SERVER, SHARED, 17, udp(53, 208)),
     [error4(3, 1, 0, ip4(SERVER, SHARED, 17, udp(53, 208)), SERVER)]),
    ("downstream to the router itself", "whole", "drop to-self 0", ip4(SERVER, OWN, 17, udp(53, 1232)), []),
    ("downstream, time to live 1", "whole", "drop ttl 1", ip4(SERVER, SHARED, 17, udp(53, 1232), ttl=1),
     [error4(11, 0, 0, ip4(SERVER, SHARED, 17, udp(53, 1232), ttl=1), SERVER)]),
    ("downstream checksum", "whole", "drop ip4-checksum 0", flipped(DOWN, 11), []),
    ("downstream cut off", "whole", "drop ip4-malformed 0", DOWN[:31], []),
    ("1,460 bytes", "whole", "down 1", long_down(1460), [down(passed(long_down(1460)))]),
    ("1,461 bytes, not to be cut", "whole", "drop too-big 1", long_down(1461, flags=2), [error4(3, 4, 1460, long_down(1461, flags=2), SERVER)]),
    ("echo reply of the identifier", "shared", "down 1", ip4(SERVER, SHARED, 1, icmp4(0, 0, 1232 << 16 | 1)),
     [down(passed(ip4(SERVER, SHARED, 1, icmp4(0, 0, 1232 << 16 | 1))))]),
    ("echo reply of another identifier", "shared", "drop no-binding 0", ip4(SERVER, SHARED, 1, icmp4(0, 0, 208 << 16 | 1)), []),
]

# A port unreachable that quotes a packet of the subscriber with four bytes of options.
QUOTED = ip4(SHARED, SERVER, 17, udp(1232, 53), options=b"\x94\x04\0\0")
UNREACHABLE = ip4(SERVER, SHARED, 1, icmp4(3, 3, 0, QUOTED))
BAD_SUM = ip4(SERVER, SHARED, 1, flipped(icmp4(3, 3, 0, QUOTED), 3))
BAD_QUOTE = ip4(SERVER, SHARED, 1, icmp4(3, 3, 0, flipped(QUOTED, 11)))

# From a subscriber to the ports of the other one, and to one of nobody.
NEIGHBOUR = ip4(SHARED, SHARED, 17, udp(1232, 1236))
NOBODY = ip4(SHARED, SHARED, 17, udp(1232, 1240))
ITSELF = ip4(SHARED, SHARED, 17, udp(1232, 53))

# An ICMPv6 error about the tunnel packet of DOWN, from a router on the way.
ROUTER = "20010db8000900000000000000000001"
GROUP = "224.0.0.9"
TUNNELLED = down(passed(DOWN))


def about(kind, word, packet=TUNNELLED):
    return ip6(ROUTER, AFTR, 58, icmp6(ROUTER, AFTR, kind, 0, word, packet))


RELAYED = [
    ("port unreachable", "shared", "down 1", UNREACHABLE, [down(passed(UNREACHABLE))]),
    ("port unreachable, wrong checksum", "shared", "drop icmp-bad 0", BAD_SUM, []),
    ("port unreachable, wrong checksum in the quote", "shared", "drop icmp-bad 0", BAD_QUOTE, []),
    ("port unreachable, no ICMP", "shared+icmp_in=false", "drop icmp-off 0", UNREACHABLE, []),
    ("to a neighbour", "pair", "hairpin 1", up(NEIGHBOUR), [down(passed(NEIGHBOUR), SECOND)]),
    ("to a neighbour, not built in", "pair+hairpin=false", "drop hairpin-off 0", up(NEIGHBOUR), []),
    ("to a neighbour that is not", "pair", "drop hairpin-no-binding 0", up(NOBODY), []),
    ("the same, told to the subscriber", "pair+errors_down=true", "drop hairpin-no-binding 1", up(NOBODY),
     [down(error4(3, 1, 0, NOBODY, SHARED))]),
    ("to the subscriber itself", "whole", "hairpin 1", up(ITSELF), [down(passed(ITSELF))]),
    ("to a subscriber, another tunnel destination", "whole", "drop not-ours 0", up(ITSELF, FIRST, SECOND), []),
    ("behind destination options", "whole", "up 1", ip6(FIRST, AFTR, 60, bytes.fromhex("0400010400000000") + UP), [passed(UP)]),
    ("no next header", "whole", "drop not-softwire 0", ip6(FIRST, AFTR, 59, UP), []),
    ("UDP in the tunnel", "whole", "drop not-softwire 0", ip6(FIRST, AFTR, 17, UP), []),
    ("source routing", "whole", "drop ip6-chain 0", ip6(FIRST, AFTR, 43, bytes.fromhex("0402000100000000") + UP), []),
    ("packet too big on the way", "whole", "drop relayed 1", about(2, 1400), [error4(3, 4, 1360, passed(DOWN), SERVER)]),
    ("no route on the way", "whole", "drop relayed 1", about(1, 0), [error4(3, 1, 0, passed(DOWN), SERVER)]),
    ("packet too big, port of another", "next", "drop relay-no-binding 0", about(2, 1400), []),
    ("packet too big, wrong checksum", "whole", "drop relay-bad 0", flipped(about(2, 1400), 43), []),
    ("about a packet of another router", "whole", "drop relay-bad 0", about(1, 0, ip6(SECOND, FIRST, 4, passed(DOWN))), []),
    # A quoted ICMP error names no port, so nobody is its receiver; nothing is told to a group of hosts.
    ("about an ICMP error", "whole", "drop relay-no-binding 0", about(1, 0, down(passed(UNREACHABLE))), []),
    ("about a packet from a group", "whole", "drop relay-mute 0", about(1, 0, down(passed(ip4(GROUP, SHARED, 17, udp(53, 1232))))), []),
    ("echo request to the router", "whole", "drop not-softwire 0", ip6(ROUTER, AFTR, 58, icmp6(ROUTER, AFTR, 128, 0, 1, b"")), []),
]


def main():
    for title, table, outcome, record, sent in PLAIN + RELAYED:
        packets = ",".join(map(spelled, sent)) or "-"
        print(f"{title}|{table}|{outcome}|{spelled(record)}|{packets}")


if __name__ == "__main__":
    main()
