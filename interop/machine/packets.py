"""Captures, and the packets of IPv4 and IPv6 in them: headers, checksums, fragments put together. No code of the router is in it."""
import ipaddress
import struct

ETHERNET, PLAIN_IP = 1, 101
ICMP, IN_IPV4, TCP, UDP, GRE, FRAGMENT, ESP, ICMPV6 = 1, 4, 6, 17, 47, 44, 50, 58
DESTINATION_OPTIONS = 60
EXTENSIONS = (0, 43, FRAGMENT, DESTINATION_OPTIONS)
NAMES = {ICMP: "ICMP", TCP: "TCP", UDP: "UDP", GRE: "GRE", ESP: "ESP"}
# what stands in front of the packet, by link type
FRONT = {ETHERNET: 14, PLAIN_IP: 0, 113: 16, 276: 20}
NANOSECONDS = (b"\x4d\x3c\xb2\xa1", b"\xa1\xb2\x3c\x4d")
LITTLE_ENDIAN = (b"\xd4\xc3\xb2\xa1", b"\x4d\x3c\xb2\xa1")


def read_capture(path):
    """The link type of a classic capture and its records, each a time in seconds and bytes; a record cut by the end of the file is left out."""
    with open(path, "rb") as file:
        data = file.read()
    if len(data) < 24:
        return 0, []
    order = "<" if data[:4] in LITTLE_ENDIAN else ">"
    unit = 1e-9 if data[:4] in NANOSECONDS else 1e-6
    link = struct.unpack(order + "I", data[20:24])[0]
    at, records = 24, []
    while at + 16 <= len(data):
        seconds, fraction, length, _ = struct.unpack(order + "IIII", data[at:at + 16])
        if at + 16 + length > len(data):
            break
        records.append((seconds + fraction * unit, data[at + 16:at + 16 + length]))
        at += 16 + length
    return link, records


def write_capture(path, link, records):
    with open(path, "wb") as file:
        file.write(struct.pack("<IHHiIII", 0xa1b2c3d4, 2, 4, 0, 0, 262144, link))
        for at, data in records:
            file.write(struct.pack("<IIII", int(at), int((at - int(at)) * 1e6), len(data), len(data)) + data)


def ip_packet(link, frame):
    """The IP packet of a frame, without padding; None if there is none."""
    if link == ETHERNET and frame[12:14] not in (b"\x08\x00", b"\x86\xdd"):
        return None
    data = frame[FRONT[link]:]
    if not data:
        return None
    if data[0] >> 4 == 4:
        return data[:struct.unpack("!H", data[2:4])[0]]
    if data[0] >> 4 == 6:
        return data[:40 + struct.unpack("!H", data[4:6])[0]]
    return None


def ip_packets(path):
    """The IP packets of a capture, each with its time."""
    link, records = read_capture(path)
    found = ((at, ip_packet(link, data)) for at, data in records)
    return [(at, data) for at, data in found if data]


def is_ipv4(data):
    return data[0] >> 4 == 4


def is_ipv6(data):
    return data[0] >> 4 == 6


def sum16(data, start=0):
    """The ones' complement sum of 16-bit words (RFC 1071)."""
    if len(data) % 2:
        data += b"\0"
    total = start + sum(struct.unpack(f"!{len(data) // 2}H", data))
    while total >> 16:
        total = (total & 0xffff) + (total >> 16)
    return total


def checksum(data, start=0):
    return 0xffff ^ sum16(data, start)


def header_with_checksum(header):
    """An IPv4 header whose checksum is right."""
    header = header[:10] + b"\0\0" + header[12:]
    return header[:10] + struct.pack("!H", checksum(header)) + header[12:]


class IPv4:
    def __init__(self, data):
        self.data = data
        self.header_length = (data[0] & 15) * 4
        self.tos, self.length, self.id, flags, self.ttl, self.protocol, self.checksum = struct.unpack("!BHHHBBH", data[1:12])
        self.df, self.more, self.offset = bool(flags & 0x4000), bool(flags & 0x2000), (flags & 0x1fff) * 8
        self.source, self.destination = (str(ipaddress.ip_address(data[at:at + 4])) for at in (12, 16))
        self.options = data[20:self.header_length]
        self.body = data[self.header_length:self.length]
        self.is_fragment = self.more or self.offset > 0

    def whole(self):
        """The bytes of the packet, without what follows them."""
        return bytes(self.data[:self.length])

    def ports(self):
        """Source and destination port."""
        return struct.unpack("!HH", self.body[:4])

    def faults(self):
        """The checksums that are wrong."""
        wrong = []
        if sum16(self.data[:self.header_length]) != 0xffff:
            wrong.append("IPv4 header checksum")
        if self.is_fragment:
            return wrong
        pseudo = sum16(self.data[12:20] + struct.pack("!BBH", 0, self.protocol, len(self.body)))
        if self.protocol == ICMP and sum16(self.body) != 0xffff:
            wrong.append("ICMP checksum")
        if self.protocol == TCP and sum16(self.body, pseudo) != 0xffff:
            wrong.append("TCP checksum")
        if self.protocol == UDP and self.body[6:8] != b"\0\0" and sum16(self.body, pseudo) != 0xffff:
            wrong.append("UDP checksum")
        return wrong

    def __str__(self):
        words = [f"{self.source}>{self.destination}", NAMES.get(self.protocol, str(self.protocol))]
        if self.protocol in (TCP, UDP) and not self.offset and len(self.body) >= 4:
            words.append("%d>%d" % self.ports())
        if self.protocol == ICMP and not self.offset:
            words.append(f"type {self.body[0]} code {self.body[1]}")
        words.append(f"{self.length} bytes ttl {self.ttl} tos {self.tos:#04x}")
        if self.df:
            words.append("DF")
        if self.is_fragment:
            words.append(f"fragment at {self.offset}" + (" more" if self.more else ""))
        return " ".join(words)


class IPv6:
    def __init__(self, data):
        self.data = data
        first, self.payload_length, self.next, self.hop_limit = struct.unpack("!IHBB", data[:8])
        self.traffic_class, self.flow_label = first >> 20 & 255, first & 0xfffff
        self.source, self.destination = (str(ipaddress.ip_address(data[at:at + 16])) for at in (8, 24))
        self.is_fragment, self.offset, self.more, self.id = False, 0, False, None
        self.extensions = []
        self._read_extensions()

    def _read_extensions(self):
        at, kind = 40, self.next
        while kind in EXTENSIONS and not (self.is_fragment and self.offset):
            length = 8
            if kind == FRAGMENT:
                _, _, place, self.id = struct.unpack("!BBHI", self.data[at:at + 8])
                self.is_fragment, self.offset, self.more = True, place & 0xfff8, bool(place & 1)
            else:
                length = (self.data[at + 1] + 1) * 8
            self.extensions.append((kind, self.data[at:at + length]))
            kind = self.data[at]
            at += length
        self.protocol, self.body = kind, self.data[at:40 + self.payload_length]

    @property
    def length(self):
        return 40 + self.payload_length

    def faults(self):
        """The checksums that are wrong, also those of the IPv4 packet inside."""
        if self.is_fragment:
            return []
        if self.protocol == IN_IPV4:
            return self.inner().faults()
        pseudo = sum16(self.data[8:40] + struct.pack("!II", len(self.body), ICMPV6))
        return ["ICMPv6 checksum"] if self.protocol == ICMPV6 and sum16(self.body, pseudo) != 0xffff else []

    def inner(self):
        """The IPv4 packet in a tunnel packet; None if there is none, or if it comes in fragments."""
        return IPv4(self.body) if self.protocol == IN_IPV4 and not self.is_fragment else None

    def __str__(self):
        words = [f"{self.source}>{self.destination} next {self.protocol}"]
        if self.protocol == ICMPV6 and not self.offset:
            words.append(f"ICMPv6 type {self.body[0]} code {self.body[1]}")
        words.append(f"{self.length} bytes hop limit {self.hop_limit} traffic class {self.traffic_class:#04x} flow label {self.flow_label:#x}")
        if self.is_fragment:
            words.append(f"fragment at {self.offset}" + (" more" if self.more else "") + f" id {self.id:#x}")
        return " ".join(words)


def parse(data):
    return IPv4(data) if is_ipv4(data) else IPv6(data)


def inner_of(packet):
    """The IPv4 packet inside a parsed packet; None if it has none."""
    return packet.inner() if isinstance(packet, IPv6) else None


def describe(data):
    """A packet in a line, with what is inside."""
    try:
        packet = parse(data)
        inner = inner_of(packet)
        return f"{packet}, in it {inner}" if inner else str(packet)
    except (struct.error, IndexError, ValueError):
        return in_hex(data, 60)


def in_hex(data, most=96):
    return data[:most].hex(" ") + (f" .. ({len(data)} bytes)" if len(data) > most else "")


def _rebuild(first, body):
    """The packet of the first fragment's header and all bytes."""
    if isinstance(first, IPv4):
        flags = 0x4000 if first.df else 0
        header = first.data[:2] + struct.pack("!HHH", first.header_length + len(body), first.id, flags) + first.data[8:first.header_length]
        return header_with_checksum(header) + body
    following = first.extensions[-1][1][0] if len(first.extensions) == 1 else first.next
    return first.data[:4] + struct.pack("!HB", len(body) & 0xffff, following) + first.data[7:40] + body


class Reassembler:
    """Puts fragments together, those of IPv4 and of IPv6."""

    def __init__(self):
        self.waiting = {}

    def take(self, data, tunnel=()):
        """A packet that is no fragment, or the datagram that a fragment makes whole; None while others are missing."""
        packet = parse(data)
        if not packet.is_fragment:
            return data
        key = tunnel, packet.source, packet.destination, packet.id, packet.protocol if isinstance(packet, IPv4) else None
        fragments = self.waiting.setdefault(key, {})
        fragments[packet.offset] = packet
        datagram = self._datagram_of(fragments)
        if datagram:
            del self.waiting[key]
        return datagram

    @staticmethod
    def _datagram_of(fragments):
        body, at = b"", 0
        while at in fragments:
            part = fragments[at]
            body += part.body
            if not part.more:
                return _rebuild(fragments[0], body)
            if not part.body:
                return None
            at += len(part.body)
        return None

    def rest(self):
        """The fragments that make no whole."""
        return [packet for fragments in self.waiting.values() for packet in fragments.values()]


def reassemble(items):
    """Packets with fragments put together, the others as they are; and the fragments that make no whole."""
    reassembler = Reassembler()
    whole = [data for data in map(reassembler.take, items) if data]
    return whole, reassembler.rest()


def ipv4(source, destination, protocol, body, ttl=64, ident=1, flags=0):
    """An IPv4 packet."""
    addresses = ipaddress.IPv4Address(source).packed + ipaddress.IPv4Address(destination).packed
    header = struct.pack("!BBHHHBBH", 0x45, 0, 20 + len(body), ident, flags, ttl, protocol, 0) + addresses
    return header_with_checksum(header) + body


def udp(source, destination, source_port, destination_port, body, ident=1):
    """An IPv4 packet with a UDP datagram."""
    addresses = ipaddress.IPv4Address(source).packed + ipaddress.IPv4Address(destination).packed
    length = 8 + len(body)
    datagram = struct.pack("!HHHH", source_port, destination_port, length, 0) + body
    pseudo = sum16(addresses + struct.pack("!BBH", 0, UDP, length))
    datagram = datagram[:6] + struct.pack("!H", checksum(datagram, pseudo) or 0xffff) + datagram[8:]
    return ipv4(source, destination, UDP, datagram, ident=ident)


def echo_request(ident, number, size):
    """An ICMP echo request."""
    message = struct.pack("!BBHHH", 8, 0, 0, ident, number) + bytes(at & 255 for at in range(size))
    return message[:2] + struct.pack("!H", checksum(message)) + message[4:]
