#!/usr/bin/env python3
"""Prints the captures of several records of the crate lwaftr_cases, as its two tables have them: packets by name, and runs.

    make_runs.py packets|runs

A run has a title, the table, the words behind it (a load's file is the table of that name), the records, the lines of VERDICTS,
the lines of VERSIONS behind the first, the summary, the packets that leave, and the status. A record is
NAME@SECONDS or NAME@SECONDS.MICROSECONDS. What a run has to give is said here by hand."""
import sys

from packets import *

UP = ip4(SHARED, SERVER, 17, udp(1232, 53))
LAST = ip4(SHARED, SERVER, 17, udp(1232, 53), ttl=1)
LONG = ip4(SERVER, SHARED, 17, udp(53, 1232, b"a" * 1433), identification=2)


def outer(first, end):
    """A piece of the inner packet in an IPv6 fragment."""
    return ip6(FIRST, AFTR, 44, fragment6(4, first, end < len(UP), 7) + UP[first:end])


def inner(first, end, **more):
    """A piece of the inner packet's payload as an IPv4 fragment, in its tunnel."""
    body = UP[20:]
    return ip4(SHARED, SERVER, 17, body[first:end], offset=first, flags=1 if end < len(body) else 0, **more)


# The tunnel packet that is cut for 1,461 bytes: its body in pieces of 1,448 bytes (RFC 2473, section 7.1).
BODY = passed(LONG)
CUT = [
    ip6(AFTR, FIRST, 44, fragment6(4, 0, True, 9) + BODY[:1448]),
    ip6(AFTR, FIRST, 44, fragment6(4, 1448, False, 9) + BODY[1448:]),
]

# Frames: two addresses, one tag or none, a type.
LINK = bytes.fromhex("020000000002" "020000000001")
PLAIN4, PLAIN6, TAG, ARP = (bytes.fromhex(text) for text in ("0800", "86dd", "81000064", "0806"))
CITY = "20010db80001000000000000000001"


def subscriber(number):
    """The end of the tunnel of one of 64 subscribers of the address."""
    return CITY + f"{number:02x}"


def of(number, packet):
    return ip6(subscriber(number), AFTR, 4, packet)


# Offset 6 and identifiers of 6 bits: 16 ports in each of 63 ranges. 1104 is of 5, 1120 of 6, 80 of nobody.
TAGGED = ip4(SHARED, SERVER, 17, udp(1104, 53))
TCP_DOWN = ip4(SERVER, SHARED, 6, tcp(80, 1104))
ECHO_REPLY = ip4(SERVER, SHARED, 1, icmp4(0, 0, 1105 << 16 | 1))
TCP_UP = ip4(SHARED, SERVER, 6, tcp(1106, 80))
UDP_SIX = ip4(SHARED, SERVER, 17, udp(1120, 53))
LOW = ip4(SERVER, SHARED, 17, udp(53, 80))
ECHO_SIX = ip4(SHARED, SERVER, 1, icmp4(8, 0, 1121 << 16 | 1))

PACKETS = {
    "P": up(UP),
    "p": passed(UP),
    "ttl": up(LAST),
    "exceeded": down(error4(11, 0, 0, LAST, SHARED)),
    "bare": UP,
    "empty": b"",
    "long": LONG,
    "long-1": CUT[0],
    "long-2": CUT[1],
    "outer-1": outer(0, 8),
    "outer-2": outer(8, 16),
    "outer-3": outer(16, 32),
    "outer-2+3": outer(8, 24),
    "inner-1": up(inner(0, 8)),
    "inner-2": up(inner(8, 12)),
    "down-1": ip4(SERVER, SHARED, 17, udp(53, 1232, b"a" * 8)[:8], identification=5, flags=1),
    "down-2": ip4(SERVER, SHARED, 17, b"a" * 8, identification=5, offset=8),
    "down": down(passed(ip4(SERVER, SHARED, 17, udp(53, 1232, b"a" * 8), identification=5))),
    "arp": LINK + ARP + bytes(28),
    "tagged": LINK + TAG + PLAIN6 + of(5, TAGGED) + bytes(6),
    "tagged-sent": passed(TAGGED),
    "tcp-down": LINK + PLAIN4 + TCP_DOWN + bytes(6),
    "tcp-down-sent": down(passed(TCP_DOWN), subscriber(5)),
    "reply": LINK + PLAIN4 + ECHO_REPLY + bytes(18),
    "reply-sent": down(passed(ECHO_REPLY), subscriber(5)),
    "tcp-up": LINK + PLAIN6 + of(5, TCP_UP),
    "udp-6": LINK + PLAIN6 + of(6, UDP_SIX),
    "udp-6-sent": passed(UDP_SIX),
    "low": LINK + PLAIN4 + LOW + bytes(14),
    "echo-6": LINK + PLAIN6 + of(6, ECHO_SIX),
    "echo-6-sent": passed(ECHO_SIX),
}

SIX = "P@1 P@2 P@3 P@4 P@5 P@6"
UPS = ", ".join(f"{number} 0 up 1" for number in range(6))

RUNS = [
    ("one datagram", "whole", "", "P@1", "0 0 up 1", "", "1 0 1 0 1 0", "p@1", "done"),
    ("no records", "whole", "", "", "", "", "0 0 0 0 0 0", "", "done"),
    ("a load before no record", "whole", "0-0:none", "", "", "1 none at 0", "0 0 0 0 0 1", "", "done"),
    ("a load that is not reached", "whole", "1-5:none", "", "", "- none not-reached", "0 0 0 0 0 0", "", "done"),
    ("a cut tunnel packet", "whole", "", " ".join(["empty@1"] * 9 + ["long@2.5"]),
     ", ".join([f"{n} 0 drop frame-short 0" for n in range(9)] + ["9 0 down 2"]), "", "10 0 1 9 2 0", "long-1@2.5 long-2@2.5", "done"),
    ("pieces of a tunnel packet in any order", "whole", "", "outer-3@1 outer-3@1 outer-1@2 outer-2@3",
     "0 0 held 0, 1 0 held 0, 2 0 held 0, 3 0 up 1", "", "4 3 1 0 1 0", "p@3", "done"),
    ("pieces that overlap", "whole", "", "outer-3@1 outer-1@1 outer-2+3@1 outer-2@1",
     "0 0 held 0, 1 0 held 0, 2 0 drop frag-overlap 0, 3 0 drop frag-overlap 0, unfinished 0", "", "4 2 0 2 0 0", "", "done"),
    ("pieces 60 seconds apart", "whole", "", "inner-1@5 inner-2@65", "0 0 held 0, 1 0 up 1", "", "2 1 1 0 1 0", "p@65", "done"),
    ("pieces a microsecond further apart", "whole", "", "inner-1@5 inner-2@65.1",
     "0 0 held 0, expired 0, 1 0 held 0, unfinished 1", "", "2 2 0 0 0 0", "", "done"),
    ("pieces from the IPv4 network", "whole", "", "down-2@1 down-1@1.7", "0 0 held 0, 1 0 down 1", "", "2 1 1 0 1 0", "down@1.7", "done"),
    ("whole at the next table", "whole", "1-1:none", "inner-1@5 inner-2@6", "0 0 held 0, 1 1 drop no-binding 0", "1 none at 1",
     "2 1 0 1 0 1", "", "done"),
    ("loads, refused ones and one that is not reached", "whole", "1-1:whole 2-2:bad 2-2:shared 9-9:bad 9-9:none --workers 4", SIX,
     "0 0 up 1, 1 1 up 1, 2 2 up 1, 3 2 up 1, 4 2 up 1, 5 2 up 1",
     "1 whole at 1, - bad refused not-toml, 2 shared at 2, - bad refused not-toml, - none not-reached",
     "6 0 6 0 6 2", "p@1 p@2 p@3 p@4 p@5 p@6", "done, a load was refused"),
    ("a load behind the last record", "whole", "6-9:none --workers=2", SIX, UPS, "1 none at 6", "6 0 6 0 6 1", "p@1 p@2 p@3 p@4 p@5 p@6", "done"),
    ("a load that has come too late", "whole", "7-9:none", SIX, UPS, "- none not-reached", "6 0 6 0 6 0", "p@1 p@2 p@3 p@4 p@5 p@6", "done"),
    ("a city on Ethernet", "city", "3-3:crowd 4-4:thin", "=ethernet arp@1 tagged@1.1 tcp-down@1.2 reply@1.3 tcp-up@2 udp-6@2.1 low@2.2 echo-6@2.3",
     "0 0 drop frame-type 0, 1 0 up 1, 2 0 down 1, 3 0 down 1, 4 1 drop no-binding 0, 5 1 up 1, 6 1 drop no-binding 0, 7 1 up 1",
     "- crowd refused twice 0 64, 1 thin at 4", "8 0 5 3 5 1",
     "tagged-sent@1.1 tcp-down-sent@1.2 reply-sent@1.3 udp-6-sent@2.1 echo-6-sent@2.3", "done, a load was refused"),
    ("one error a second", "whole", "--errors 1", "ttl@1 ttl@1 ttl@2", "0 0 drop ttl 1, 1 0 drop ttl limited 0, 2 0 drop ttl 1", "",
     "3 0 0 3 2 0", "exceeded@1 exceeded@2", "done"),
    ("two errors a second, five at once", "whole", "--errors=2 --workers 4", "ttl@1 ttl@1 ttl@1 ttl@1 ttl@1",
     "0 0 drop ttl 1, 1 0 drop ttl 1, 2 0 drop ttl limited 0, 3 0 drop ttl limited 0, 4 0 drop ttl limited 0", "",
     "5 0 0 5 2 0", "exceeded@1 exceeded@1", "done"),
    ("a time that goes back", "whole", "--errors 1", "ttl@5 ttl@1 ttl@6", "0 0 drop ttl 1, 1 0 drop ttl limited 0, 2 0 drop ttl 1", "",
     "3 0 0 3 2 0", "exceeded@5 exceeded@6", "done"),
    ("a limit takes no forwarding", "whole", "--errors 1", "ttl@1 P@1 ttl@1 P@1 bare@1", "0 0 drop ttl 1, 1 0 up 1, 2 0 drop ttl limited 0, 3 0 up 1, 4 0 drop no-binding 0",
     "", "5 0 2 3 3 0", "exceeded@1 p@1 p@1", "done"),
    ("no limit", "whole", "", "ttl@1 ttl@1 ttl@1", "0 0 drop ttl 1, 1 0 drop ttl 1, 2 0 drop ttl 1", "", "3 0 0 3 3 0",
     "exceeded@1 exceeded@1 exceeded@1", "done"),
]


SUMMARY = ["records", "held", "forwarded", "dropped", "packets", "version"]


def summary(numbers):
    """The line that standard output gets, without its end."""
    return " ".join(f"{word} {number}" for word, number in zip(SUMMARY, numbers.split()))


def main():
    if sys.argv[1:] == ["packets"]:
        for name, packet in PACKETS.items():
            print(f"{name} {spelled(packet)}")
    else:
        for title, table, words, records, verdicts, versions, numbers, sent, status in RUNS:
            print("|".join([title, table, words, records, verdicts, versions, summary(numbers), sent, status]))


if __name__ == "__main__":
    main()
