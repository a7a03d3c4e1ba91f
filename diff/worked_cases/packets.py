"""Packets by their RFCs: IPv4 (791), IPv6 and its fragments (8200), UDP (768), ICMP (792, 4443), tunnels (2473)."""
import struct

AFTR = "20010db8000000000000000000000001"
FIRST = "20010db8000100000000000000000001"
SECOND = "20010db8000100000000000000000002"
OWN, SHARED, SERVER = "192.0.2.1", "203.0.113.1", "198.51.100.7"


def v4(text):
    return bytes(map(int, text.split(".")))


def checksum(data):
    data += b"\0" * (len(data) % 2)
    total = sum(struct.unpack(f">{len(data) // 2}H", data))
    while total >> 16:
        total = (total & 0xFFFF) + (total >> 16)
    return 0xFFFF - total


def ip4(src, dst, protocol, payload, ttl=64, identification=1, flags=0, offset=0, options=b"", tos=0, total=None):
    """A packet; flags has 4 reserved, 2 DF, 1 MF; the offset counts bytes."""
    size = 20 + len(options)
    total = size + len(payload) if total is None else total
    word = flags << 13 | offset // 8
    head = struct.pack(">BBHHHBBH", 0x40 | size // 4, tos, total, identification, word, ttl, protocol, 0)
    head += v4(src) + v4(dst) + options
    return head[:10] + struct.pack(">H", checksum(head)) + head[12:] + payload


def udp(source, target, data=b"test"):
    return struct.pack(">HHHH", source, target, 8 + len(data), 0) + data


def tcp(source, target, data=b""):
    return struct.pack(">HHIIBBHHH", source, target, 1, 0, 0x50, 2, 512, 0, 0) + data


def icmp4(kind, code, word, data=b""):
    message = struct.pack(">BBHI", kind, code, 0, word) + data
    return message[:2] + struct.pack(">H", checksum(message)) + message[4:]


def icmp6(src, dst, kind, code, word, data):
    message = struct.pack(">BBHI", kind, code, 0, word) + data
    pseudo = bytes.fromhex(src + dst) + struct.pack(">II", len(message), 58)
    return message[:2] + struct.pack(">H", checksum(pseudo + message)) + message[4:]


def ip6(src, dst, following, body, hop=64, word=0x60000000, length=None):
    length = len(body) if length is None else length
    return struct.pack(">IHBB", word, length, following, hop) + bytes.fromhex(src + dst) + body


def fragment6(following, offset, more, identification):
    """A Fragment header; the offset counts bytes."""
    return struct.pack(">BBHI", following, 0, offset | more, identification)


def up(inner, src=FIRST, dst=AFTR):
    """A packet in its tunnel, from a subscriber."""
    return ip6(src, dst, 4, inner)


def down(inner, dst=FIRST, tos=0, hop=64):
    """A packet in its tunnel, to a subscriber."""
    return ip6(AFTR, dst, 4, inner, hop, word=0x60000000 | tos << 20)


def passed(packet):
    """The packet as it leaves: its time to live lowered."""
    size = packet[0] % 16 * 4
    head = packet[:8] + bytes([packet[8] - 1]) + packet[9:10] + b"\0\0" + packet[12:size]
    return head[:10] + struct.pack(">H", checksum(head)) + head[12:] + packet[size:]


def error4(kind, code, word, packet, dst):
    """An ICMP error of the router's (RFC 1812, section 4.3.2.3: at most 576 bytes)."""
    return ip4(OWN, dst, 1, icmp4(kind, code, word, packet[:548]), identification=0, flags=2)


def policy6(packet, dst):
    """Source address failed ingress policy (RFC 4443, section 3.1), of at most 1,280 bytes."""
    return ip6(AFTR, dst, 58, icmp6(AFTR, dst, 1, 5, 0, packet[:1232]))


def spelled(data):
    """Hexadecimal digits, in words apart by blanks; a byte that comes more than 15 times in a row is BYTE*COUNT."""
    words, at, plain = [], 0, ""
    while at < len(data):
        end = at
        while end < len(data) and data[end] == data[at]:
            end += 1
        if end - at > 15:
            words += [plain] if plain else []
            words.append(f"{data[at]:02x}*{end - at}")
            plain = ""
        else:
            plain += data[at:end].hex()
        at = end
    return " ".join(words + ([plain] if plain else [])) or "-"
