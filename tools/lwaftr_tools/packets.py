"""What a record carries: the frame, the tunnel packet, the packet inside, its ports. Nothing is checked but lengths."""
from __future__ import annotations

import dataclasses
import ipaddress
import struct

NAMES = {1: "ICMP", 4: "IPv4", 6: "TCP", 17: "UDP", 47: "GRE", 50: "ESP", 58: "ICMPv6"}
ICMP, IPV4, FRAGMENT, ICMP6 = 1, 4, 44, 58
EXTENSIONS = (0, 43, 60)
WITH_PORTS = (6, 17, 33, 132, 136)
# the ICMP messages that quote no packet: every other one is taken for an error (RFC 792)
ECHOES = (0, 8)
# the ICMPv6 errors: destination unreachable, packet too big, time exceeded, parameter problem (RFC 4443, section 2.1)
ERRORS6 = (1, 2, 3, 4)
BROADCAST = ipaddress.IPv4Address("255.255.255.255")
# the link types that `strip` reads
LINKS = (0, 1, 12, 14, 101, 108, 113, 228, 229, 276)


def strip(link, data):
    """The IP packet of a record's bytes, or None where its frame holds none."""
    if link in (101, 12, 14):
        return data
    if link == 228 or link == 229:
        return data
    if link == 1:
        kind, at = data[12:14], 14
        while kind in (b"\x81\x00", b"\x88\xa8"):
            kind, at = data[at + 2 : at + 4], at + 4
        return data[at:] if kind in (b"\x08\x00", b"\x86\xdd") else None
    if link == 113:
        return data[16:] if data[14:16] in (b"\x08\x00", b"\x86\xdd") else None
    if link == 276:
        return data[20:] if data[0:2] in (b"\x08\x00", b"\x86\xdd") else None
    if link in (0, 108):
        return data[4:]
    return None


def unpadded(data):
    """An IP packet without what stands behind its end, as the bytes that fill up a short frame; all of it where it says less than 20 bytes."""
    if len(data) >= 40 and data[0] >> 4 == 6:
        return data[: 40 + (data[4] << 8 | data[5])]
    said = data[2] << 8 | data[3] if len(data) >= 20 and data[0] >> 4 == 4 else 0
    return data[:said] if said >= 20 else data


@dataclasses.dataclass
class Ip4:
    """An IPv4 packet by its header (RFC 791, section 3.1); `total` is the length that the header says."""

    source: ipaddress.IPv4Address
    destination: ipaddress.IPv4Address
    protocol: int
    ttl: int
    id: int
    df: bool
    more: bool
    offset: int
    total: int
    header: bytes
    payload: bytes

    def is_fragment(self):
        return self.more or self.offset != 0


@dataclasses.dataclass
class Fragment:
    """A Fragment header, and what stands behind it (RFC 8200, section 4.5)."""

    id: int
    offset: int
    more: bool
    next: int
    payload: bytes


@dataclasses.dataclass
class Ip6:
    """An IPv6 packet by its header and extension headers (RFC 8200)."""

    source: ipaddress.IPv6Address
    destination: ipaddress.IPv6Address
    next: int
    hop_limit: int
    label: int
    fragment: Fragment | None
    payload: bytes

    def is_fragment(self):
        return self.fragment is not None and (self.fragment.more or self.fragment.offset != 0)

    def is_later_fragment(self):
        return self.fragment is not None and self.fragment.offset != 0


def ip4_front(data):
    """An IPv4 packet of which only the first bytes may be there."""
    if len(data) < 20 or data[0] >> 4 != 4:
        return None
    size = (data[0] & 15) * 4
    if size < 20 or len(data) < size:
        return None
    total, number, word = struct.unpack_from("!HHH", data, 2)
    return Ip4(
        ipaddress.IPv4Address(data[12:16]), ipaddress.IPv4Address(data[16:20]), data[9], data[8], number,
        bool(word & 0x4000), bool(word & 0x2000), (word & 0x1FFF) * 8, total, data[:size], data[size:],
    )


def ip4(data):
    found = ip4_front(data)
    if not found or found.total < len(found.header):
        return None
    found.payload = data[len(found.header) : found.total]
    return found


def sound_ip4(data):
    """An IPv4 packet all of which is there, and whose header sums up."""
    found = ip4(data)
    return found if found and len(data) >= found.total and checksum(found.header) == 0 else None


def behind_extensions(kind, data):
    """What stands behind extension headers: its number, its bytes, and the first Fragment header on the way; None where they are cut off in
    front of that. What a later fragment carries is not looked at."""
    fragment = None
    while kind in EXTENSIONS or kind == FRAGMENT:
        if len(data) < 8:
            return (kind, data, fragment) if fragment else None
        if kind == FRAGMENT:
            found = fragment_header(data)
            fragment = fragment or found
            kind, data = found.next, found.payload
            if found.offset:
                break
        else:
            kind, data = data[0], data[8 * (data[1] + 1) :]
    return kind, data, fragment


def fragment_header(data):
    place, number = struct.unpack_from("!HI", data, 2)
    return Fragment(number, place & ~7, bool(place & 1), data[0], data[8:])


def ip6_front(data):
    """An IPv6 packet of which only the first bytes may be there."""
    if len(data) < 40 or data[0] >> 4 != 6:
        return None
    found = behind_extensions(data[6], data[40:])
    if not found:
        return None
    kind, rest, fragment = found
    label = struct.unpack_from("!I", data)[0] & 0xFFFFF
    return Ip6(ipaddress.IPv6Address(data[8:24]), ipaddress.IPv6Address(data[24:40]), kind, data[7], label, fragment, rest)


def ip6(data):
    return ip6_front(data[: 40 + struct.unpack_from("!H", data, 4)[0]]) if len(data) >= 40 else None


def of_record(record):
    """The packet of a record, or None where it has none that can be read."""
    data = strip(record.link, record.bytes)
    if not data:
        return None
    return ip6(data) if data[0] >> 4 == 6 else ip4(data)


def inside(outer):
    """The IPv4 packet in a tunnel packet, of which only the first bytes may be there; None where none begins in it."""
    if outer.next != IPV4 or outer.is_later_fragment():
        return None
    return ip4(outer.payload) or ip4_front(outer.payload)


def checksum(data):
    """The Internet checksum (RFC 1071): 0 of bytes that hold their right one."""
    if len(data) % 2:
        data += b"\0"
    total = sum(struct.unpack(f"!{len(data) // 2}H", data))
    while total >> 16:
        total = (total & 0xFFFF) + (total >> 16)
    return total ^ 0xFFFF


def checksum6(packet):
    """The checksum of an ICMPv6 message with its pseudo-header (RFC 8200, section 8.1)."""
    pseudo = packet.source.packed + packet.destination.packed + struct.pack("!IxxxB", len(packet.payload), ICMP6)
    return checksum(pseudo + packet.payload)


def ports(packet):
    """Source and destination port of an IPv4 packet: of TCP, UDP and their like both; of an ICMP echo the identifier at each
    end; None where it has none."""
    if packet.offset or len(packet.payload) < 4:
        return None
    if packet.protocol in WITH_PORTS:
        return struct.unpack_from("!HH", packet.payload)
    if is_echo(packet) and len(packet.payload) >= 8:
        number = struct.unpack_from("!H", packet.payload, 4)[0]
        return number, number
    return None


def is_echo(packet):
    """Whether a packet that is no later fragment is an ICMP echo or its reply."""
    return packet.protocol == ICMP and len(packet.payload) > 0 and packet.payload[0] in ECHOES


def quoted(packet):
    """The IPv4 packet that an ICMP error quotes (RFC 792), if it is one."""
    if packet.protocol == ICMP and packet.offset == 0 and len(packet.payload) >= 28 and not is_echo(packet):
        return ip4_front(packet.payload[8:])
    return None


def quoted6(packet):
    """The IPv6 packet that an ICMPv6 error quotes (RFC 4443, section 3), if it is one."""
    if packet.next == ICMP6 and not packet.is_later_fragment() and len(packet.payload) >= 48 and packet.payload[0] in ERRORS6:
        return ip6_front(packet.payload[8:])
    return None


def key(packet, at):
    """The port by which the owner of an end of an IPv4 packet is told, of its source (0) or destination (1): its own port, or of an ICMP
    error that of the packet it quotes, which went the other way (RFC 7596, section 8.1); None where it has none."""
    found = ports(packet)
    if found:
        return found[at]
    quote = quoted(packet)
    inner = ports(quote) if quote else None
    return inner[1 - at] if inner else None


def nameless(packet):
    """Why a packet names no port although its protocol has ports; None where it names one, or where its protocol has none."""
    if packet.offset:
        return "this fragment names no port"
    if packet.protocol in WITH_PORTS:
        return None if ports(packet) else "it is too short to name a port"
    if packet.protocol != ICMP or ports(packet):
        return None
    if is_echo(packet):
        return "it is too short to name a port"
    quote = quoted(packet)
    return nameless_quote(quote) if quote else "its ICMP message quotes no packet"


def nameless_quote(quote):
    """The same of the packet that an error quotes."""
    if quote.offset:
        return "the packet that it quotes is a later fragment, which names no port"
    if quote.protocol == ICMP and quote.payload and not is_echo(quote):
        return "the packet that it quotes is an ICMP error, which names no port"
    if quote.protocol in (ICMP, *WITH_PORTS) and not ports(quote):
        return "the packet that it quotes is too short to name a port"
    return None


def name(protocol):
    return NAMES.get(protocol, f"protocol {protocol}")
