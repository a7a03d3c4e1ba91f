"""Datagrams put together of the records of a capture. The lines of the run's VERDICTS tell which fragments wait, and which datagrams were
given up or refused."""
from __future__ import annotations

import dataclasses
import struct

from . import captures, packets, verdicts

# rules of records that are no fragment of anything, and by which a datagram is refused
FAULTY = ("frame-short", "frame-type", "ip4-malformed", "ip4-checksum", "ip6-malformed")
REFUSED = ("frag-overlap", "frag-many")
MOST_BYTES = 65535


@dataclasses.dataclass
class Piece:
    """A fragment: the records that it came in, its place, whether more follow, its bytes, and what the first one tells of the whole: of an
    IPv4 datagram the header, of a tunnel packet the number of what it carries."""

    records: list
    place: int
    more: bool
    data: bytes
    head: bytes | int


@dataclasses.dataclass
class Whole:
    """A whole packet, the records that it came in, and the last one of those that its first fragment came in."""

    packet: packets.Ip4 | packets.Ip6
    records: list
    first: int


def may_be_fragment(data):
    """Whether a packet may be a fragment or carry one, by a look at its first bytes."""
    if data[0] >> 4 == 4:
        return len(data) >= 20 and (data[6] & 0x3F | data[7]) != 0
    if len(data) >= 40 and data[6] in (packets.FRAGMENT, *packets.EXTENSIONS):
        return True
    return len(data) >= 60 and data[6] == packets.IPV4 and (data[46] & 0x3F | data[47]) != 0


def in_order(pieces):
    """The pieces of a datagram from its first to its last, or None where one is missing."""
    found, place = [], 0
    for piece in sorted(pieces, key=lambda it: it.place):
        if piece.place != place:
            return None
        place += len(piece.data)
        found.append(piece)
    return None if found[-1].more else found


class Datagrams:
    """The fragments that wait, by the datagram that they are of, and by their place in it."""

    def __init__(self):
        self.waiting = {}

    def forget(self, number):
        """Leaves out the datagram that began with a record."""
        for key, pieces in self.waiting.items():
            first = next(iter(pieces.values()))
            if first.records[-1] == number:
                del self.waiting[key]
                return

    def put(self, key, piece, outcome):
        """All pieces of a datagram, where this is the last one that was missing."""
        pieces = self.waiting.get(key, {})
        found = in_order({**pieces, piece.place: piece}.values())
        if found or outcome in REFUSED:
            self.waiting.pop(key, None)
        elif outcome == "held":
            self.waiting.setdefault(key, {}).setdefault(piece.place, piece)
        return found

    def take(self, record, outcome):
        """The packet that a record makes whole, from the IPv4 network or of a tunnel; None where it makes none whole."""
        packet = packets.of_record(record)
        if not packet or outcome in FAULTY:
            return None
        if isinstance(packet, packets.Ip4):
            return self.whole4(packet, [record.number], (), outcome)
        outer = self.whole6(packet, [record.number], outcome)
        inner = packets.sound_ip4(outer.packet.payload) if outer and outer.packet.next == packets.IPV4 else None
        if not inner or not inner.is_fragment():
            return outer
        found = self.whole4(inner, outer.records, (packet.source, packet.destination), outcome)
        if found:
            found.packet = dataclasses.replace(outer.packet, payload=found.packet.header + found.packet.payload)
        return found

    def whole4(self, packet, records, tunnel, outcome):
        """The IPv4 packet that came in some records, through a tunnel or none, or the datagram that it makes whole."""
        if not packet.is_fragment():
            return Whole(packet, records, records[-1])
        key = ("IPv4", *tunnel, packet.source, packet.destination, packet.protocol, packet.id)
        pieces = self.put(key, Piece(records, packet.offset, packet.more, packet.payload, packet.header), outcome)
        return joined(pieces, together4) if pieces else None

    def whole6(self, packet, records, outcome):
        """The same of an IPv6 packet."""
        if not packet.is_fragment():
            return Whole(packet, records, records[-1])
        it = packet.fragment
        key = ("IPv6", packet.source, packet.destination, it.id)
        pieces = self.put(key, Piece(records, it.offset, it.more, it.payload, it.next), outcome)
        return joined(pieces, lambda head, data: together6(packet, head, data)) if pieces else None


def joined(pieces, together):
    packet = together(pieces[0].head, b"".join(it.data for it in pieces))
    records = sorted({number for it in pieces for number in it.records})
    return Whole(packet, records, pieces[0].records[-1]) if packet else None


def together4(head, data):
    """The datagram of the first fragment's header and all bytes (RFC 791, section 3.2), or None where it is too long."""
    total = len(head) + len(data)
    if total > MOST_BYTES:
        return None
    head = head[:2] + struct.pack("!H", total) + head[4:6] + bytes([head[6] & 0xC0, 0]) + head[8:10] + b"\0\0" + head[12:]
    return packets.ip4(head[:10] + struct.pack("!H", packets.checksum(head)) + head[12:] + data)


def together6(packet, kind, data):
    """The packet without its Fragment header (RFC 8200, section 4.5), or None where what it carries is cut off."""
    found = packets.behind_extensions(kind, data)
    if not found:
        return None
    return dataclasses.replace(packet, next=found[0], payload=found[1], fragment=None)


def whole_of(capture, path, number):
    """The packet that the verdict of a record is of: its own, or the datagram that it makes whole; None where fragments are not found."""
    datagrams, records = Datagrams(), captures.records(capture)
    for words in verdicts.lines(path):
        if words[0] == "expired":
            datagrams.forget(int(words[1]))
        elif words[0] != "unfinished":
            record = next(records)
            if record.number == number:
                return datagrams.take(record, verdicts.outcome(words))
            data = packets.strip(record.link, record.bytes)
            if data and may_be_fragment(data):
                datagrams.take(record, verdicts.outcome(words))
    return None
