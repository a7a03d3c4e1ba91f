"""Jobs from seeds: words and files, of every rule, refusal and shape that docs/FORMATS.md names."""
import random
import struct

import router
import tables
from tables import AFTR, OWN

FAR = [bytes([198, 51, 100, 7]), bytes([198, 51, 100, 8]), bytes([8, 8, 8, 8])]
GROUPS = [bytes([224, 0, 0, 1]), b"\xff" * 4, bytes([0, 1, 2, 3]), bytes([127, 0, 0, 1]), bytes([240, 0, 0, 1])]


# Fields by which fragments belong together: a byte, the bits of it that are turned, and where the IPv4 header begins.
IP4_KEY = [(4, 1, 0), (9, 23, 0), (15, 1, 0), (19, 1, 0)]
IP6_ENDS = [(23, 1, None), (39, 1, None)]


def some_port(r, binding):
    """A port that a binding owns."""
    _, _, offset, length, psid = binding
    low = 16 - offset - length
    high = r.randrange(1, 1 << offset) if offset else 0
    return high << (16 - offset) | psid << low | r.randrange(1 << low)


class Packets:
    """Packets that suit a table, and some that do not."""

    def __init__(self, chosen, table):
        self.r, self.table, self.large = chosen, table, False

    def pick(self, *them):
        return self.r.choice(them)

    def binding(self):
        return self.r.choice(self.table.bindings)

    def bytes(self, most):
        return self.r.randbytes(self.r.randrange(most + 1))

    def transport(self, protocol, src, dst, size=40):
        return struct.pack("!HH", src, dst) + self.bytes(size)

    def ip4(self, src, dst, protocol, payload, ttl=None, df=None, word=None, options=None, number=None):
        ttl = self.r.choice([64] * 12 + [255, 2, 1, 0]) if ttl is None else ttl
        if word is None:
            word = (0x4000 if (self.r.random() < 0.3 if df is None else df) else 0) | (0x8000 if self.r.random() < 0.05 else 0)
        if options is None:
            options = self.options() if self.r.random() < (0.1 if len(payload) < 500 else 0.3) else b""
        number = self.r.randrange(65536) if number is None else number
        size = 20 + len(options)
        head = struct.pack("!BBHHHBBH", 0x40 | size // 4, self.r.choice([0, 0, 184, 3]), size + len(payload), number, word, ttl, protocol, 0) + src + dst + options
        return router.with_checksum(head, 10) + payload

    def options(self):
        made = b""
        while len(made) < 36 and self.r.random() < 0.7:
            kind = self.r.choice([1, 0x88, 0x07, 0x44, 0x83, 0x94])
            made += b"\1" if kind == 1 else bytes([kind, 4]) + self.r.randbytes(2)
        if self.r.random() < 0.1:
            made += bytes([self.r.randrange(256)])
        made = made[:40]
        return made + bytes(-len(made) % 4)

    def ip6(self, src, dst, kind, payload, chain=None):
        if chain if chain is not None else self.r.random() < 0.05:
            kind, payload = self.chain(kind, payload)
        return struct.pack("!IHBB", 6 << 28 | self.r.choice([0, 0, 0x0B812345]), len(payload), kind, self.r.choice([64, 1, 255])) + src + dst + payload

    def chain(self, kind, payload):
        """Extension headers in front, sound ones or not."""
        for _ in range(self.r.randint(1, 3)):
            of = self.r.choice([0, 43, 60, 60, 44])
            if of == 44:
                payload = bytes([kind, 0]) + struct.pack("!HI", self.r.choice([0, 0, 2, 6]), self.r.randrange(2**32)) + payload
            else:
                size = self.r.choice([0, 0, 1])
                payload = bytes([kind, self.r.choice([size, size, size, 9]), 4, self.r.choice([0, 0, 0, 1])]) + bytes(4 + 8 * size) + payload
            kind = of
        return kind, payload

    def icmp(self, kind, code, rest):
        return router.with_checksum(bytes([kind, code, 0, 0]) + rest, 2)

    def size(self):
        """Bytes of a payload: mostly few, sometimes about what a link takes."""
        if self.large:
            return self.r.randrange(1100, 1400)
        if self.r.random() < 0.85:
            return self.r.randrange(60)
        edge = self.r.choice([self.table.mtu6 - 40, self.table.mtu4, self.table.mtu6 - 48, 3000])
        if edge > 10000 and self.r.random() < 0.9:
            edge = 3000
        return min(max(0, edge - 20 - 8 + self.r.randrange(-10, 11)), 65300)

    def inner(self, src, dst, sport, dport):
        """A packet between two ends, of some protocol."""
        kind = self.r.random()
        if kind < 0.55:
            data = struct.pack("!HH", sport, dport) + self.r.randbytes(self.size())
            return self.ip4(src, dst, self.r.choice([6, 17, 17, 33, 132, 136]), data)
        if kind < 0.7:
            return self.ip4(src, dst, 1, self.icmp(self.pick(0, 8), 0, struct.pack("!HH", self.pick(sport, dport), 1) + self.bytes(30)))
        if kind < 0.85:
            back = self.ip4(dst, src, self.pick(6, 17), struct.pack("!HH", dport, sport) + self.bytes(30), number=7)
            if self.r.random() < 0.2:
                back = self.ip4(dst, src, 1, self.icmp(self.pick(8, 3), 0, struct.pack("!HH", self.pick(sport, dport), 1) + self.bytes(30)))
            if self.r.random() < 0.1:
                back = self.ip4(dst, src, self.pick(47, 17), self.bytes(10), word=self.pick(0, 0, 5))
            message = self.icmp(self.pick(3, 11, 4, 5, 12, 13), self.pick(0, 1, 4), bytes(4) + back[: self.r.choice([28, 48, 1000, 1000, 19])])
            if self.r.random() < 0.15:
                message = self.damaged(message)
            return self.ip4(src, dst, 1, message)
        if kind < 0.95:
            return self.ip4(src, dst, self.r.choice([47, 50, 41, 4, 89]), self.bytes(40))
        return self.ip4(src, dst, self.r.choice([6, 17, 1]), self.bytes(5))

    def damaged(self, data):
        if not data:
            return data
        kind, at = self.r.random(), self.r.randrange(min(len(data), 80))
        if kind < 0.6:
            return data[:at] + bytes([data[at] ^ 1 << self.r.randrange(8)]) + data[at + 1 :]
        return data[:at] if kind < 0.9 else data + self.r.randbytes(4)

    def ends(self):
        """A subscriber's address and port, mostly owned; and its tunnel's end."""
        it = self.binding()
        b4, address, port = it[0], it[1], some_port(self.r, it)
        if self.r.random() < 0.15:
            port = self.r.randrange(65536)
        if self.r.random() < 0.03:
            address = self.r.choice([OWN, self.r.choice(FAR), self.r.choice(GROUPS)])
        return b4, address, port

    def far(self):
        return self.r.choice(FAR if self.r.random() < 0.9 else [*GROUPS, self.table.own])

    def up(self):
        b4, address, port = self.ends()
        if self.r.random() < 0.08:
            b4 = self.r.choice([self.binding()[0], bytes(16), b"\xff" + bytes(15), AFTR])
        if self.r.random() < 0.3:
            _, other, theirs = self.ends()
            inner = self.inner(address, other, port, theirs)
        else:
            inner = self.inner(address, self.far(), port, self.r.randrange(65536))
        aftr = self.table.aftr if self.r.random() < 0.97 else self.binding()[0]
        if self.r.random() < 0.08:
            inner = self.damaged(inner)
        return self.ip6(b4, aftr, 4 if self.r.random() < 0.96 else self.r.choice([17, 6, 59, 58, 50]), inner)

    def down(self):
        _, address, port = self.ends()
        dst = address if self.r.random() < 0.95 else self.far()
        return self.inner(self.far(), dst, self.r.randrange(65536), port)

    def message(self):
        """An ICMPv6 message, mostly an error about a tunnel packet."""
        b4, address, port = self.ends()
        src = self.far() if self.r.random() < 0.8 else self.r.choice(GROUPS)
        sport = self.r.randrange(65536)
        if self.r.random() < 0.3:
            _, src, sport = self.ends()
        inner = self.inner(src, address, sport, port)
        quote = self.ip6(self.table.aftr if self.r.random() < 0.95 else b4, b4 if self.r.random() < 0.95 else AFTR, 4, inner, chain=self.r.random() < 0.1)
        if self.r.random() < 0.1:
            quote = quote[:6] + b"\x2c" + quote[7:40] + bytes([4, 0]) + struct.pack("!HI", self.pick(0, 1, 8), 9) + inner
        if self.r.random() < 0.1:
            quote = self.damaged(quote)
        kind = self.r.choice([1, 2, 3, 4, 1, 2, 3, 4, 128, 129, 100, 0])
        data = bytes([kind, self.r.choice([0, 5]), 0, 0]) + struct.pack("!I", self.r.choice([0, 1280, 1400, 1500, 70000, 9])) + quote[: self.r.choice([1232, 100, 70, 48])]
        src6, dst = self.r.choice([b4, bytes(15) + b"\9"]), self.table.aftr if self.r.random() < 0.95 else b4
        pseudo = src6 + dst + struct.pack("!IxxxB", len(data), 58)
        data = data[:2] + struct.pack("!H", router.checksum(pseudo + data)) + data[4:]
        if self.r.random() < 0.08:
            data = self.damaged(data)
        return self.ip6(src6, dst, 58, data, chain=False)

    def pieces(self, data, size, make):
        """A body in pieces, in some order, with repeats, overlaps and gaps at times."""
        made = []
        for at in range(0, len(data), size):
            made.append((at, at + size < len(data), data[at : at + size]))
        if self.r.random() < 0.3:
            self.r.shuffle(made)
        for chance, change in ((0.1, self.twice), (0.1, self.overlapping), (0.05, self.other), (0.1, self.lost), (0.05, self.odd)):
            if made and self.r.random() < chance:
                change(made)
        return [make(*it) for it in made]

    def put(self, made, piece):
        made.insert(self.r.randrange(len(made) + 1), piece)

    def twice(self, made):
        self.put(made, self.r.choice(made))

    def overlapping(self, made):
        at, more, body = self.r.choice(made)
        self.put(made, (max(0, at - 8), True, self.r.randbytes(24)))

    def other(self, made):
        at, more, body = self.r.choice(made)
        self.put(made, (at, not more, body if self.r.random() < 0.5 else self.r.randbytes(8)))

    def lost(self, made):
        made.remove(self.r.choice(made))

    def odd(self, made):
        self.put(made, (self.pick(0, 65528, 65504), True, self.r.randbytes(self.pick(0, 7, 64, 9))))

    def cut_packet(self, data, number):
        """The fragments of an IPv4 packet."""
        size = 4 * (data[0] & 15)
        head, body = data[:size], data[size:]

        def make(at, more, piece):
            place = (head[6] & 0xC0) << 8 | (0x2000 if more else 0) | at // 8
            made = head[:2] + struct.pack("!HHH", size + len(piece), number, place) + head[8:10] + b"\0\0" + head[12:]
            return router.with_checksum(made, 10) + piece

        return self.pieces(body, self.piece_size(body), make)

    def piece_size(self, body):
        """A multiple of 8 that makes a few pieces."""
        return max(8 * self.r.randint(1, 40), len(body) // self.r.choice([1, 2, 3, 6]) & ~7, 8)

    def cut_tunnel(self, data, number):
        """The fragments of a tunnel packet."""
        head, kind, body = data[:40], data[6], data[40:]

        def make(at, more, piece):
            fragment = struct.pack("!BBHI", kind, 0, at & ~7 | more, number)
            return head[:4] + struct.pack("!HB", len(piece) + 8, 44) + head[7:] + fragment + piece

        return self.pieces(body, self.piece_size(body), make)

    def crossed(self, pieces, fields):
        """The pieces of a datagram and of another one whose key differs in one field: a piece of the one, of the other, or of both. A field
        is where a byte of it stands, which bits differ, and where its IPv4 header begins, if it stands in one."""
        at, bits, header = self.r.choice(fields)

        def other(piece):
            piece = piece[:at] + bytes([piece[at] ^ bits]) + piece[at + 1 :]
            if header is None:
                return piece
            end = header + 4 * (piece[header] & 15)
            head = piece[header : header + 10] + b"\0\0" + piece[header + 12 : end]
            return piece[:header] + router.with_checksum(head, 10) + piece[end:]

        return [it for piece in pieces for it in self.r.choice([[piece], [other(piece)], [piece, other(piece)]])]

    def flood(self):
        """More datagrams than a lane takes, or more pieces than a datagram may have."""
        src, dst = self.far(), self.binding()[1]
        if self.r.random() < 0.5:
            return [self.ip4(src, dst, 17, self.r.randbytes(8), word=0x2000, number=16 * at + 5, options=b"") for at in range(300)]
        return [self.ip4(src, dst, 17, self.r.randbytes(8), word=0x2000 | 2 * at, number=9, options=b"") for at in range(300)]

    def some(self):
        """Records: mostly one packet, sometimes the pieces of one."""
        kind = self.r.random()
        if kind < 0.38:
            return [self.up()]
        if kind < 0.6:
            return [self.down()]
        if kind < 0.7:
            return [self.message()]
        if kind < 0.95:
            number = self.r.randrange(65536) if self.r.random() < 0.7 else self.r.choice([16, 32, 48])
            made, fields = self.fragments(number)
            return self.crossed(made, fields) if self.r.random() < 0.15 else made
        return [self.bytes(60)]

    def fragments(self, number):
        """The pieces of a packet from outside, of a tunnel packet or of a packet in the tunnel, and the fields of their key."""
        if self.r.random() < 0.35:
            return self.cut_packet(self.down(), number), IP4_KEY
        data = self.up()
        if data[6] != 4 or self.r.random() < 0.5:
            return self.cut_tunnel(data, number), IP6_ENDS + [(44, 1, None), (47, 16, None), (40, 62, None)]
        if len(data) < 60 or data[40] >> 4 != 4 or not 20 <= 4 * (data[40] & 15) <= len(data) - 40:
            return [data], IP6_ENDS
        inside = self.cut_packet(data[40:], number)
        made = [data[:4] + struct.pack("!H", len(it)) + data[6:40] + it for it in inside]
        return made, IP6_ENDS + [(40 + at, bits, 40) for at, bits, _ in IP4_KEY]

    def records(self, count):
        made, waiting = [], []
        while len(made) < count:
            found = self.some()
            if len(found) > 1 and self.r.random() < 0.3:
                waiting += found
                found = [waiting.pop(self.r.randrange(len(waiting))) for _ in range(min(len(waiting), 2))]
            made += [self.damaged(it) if self.r.random() < 0.03 else it for it in found]
        return made[:count]


# What lies between two records at times: just as long as a fragment waits, and longer by the least of a resolution; a second, also back.
STEPS = [60 * 10**9, 60 * 10**9 + 1, 60 * 10**9 + 1000, 10**9, -(10**9)]


class Times:
    """Times of records: mostly a little later, sometimes a minute, sometimes back; calm ones always a little later, so that what waits
    goes on waiting."""

    def __init__(self, r, calm):
        self.r, self.calm, self.now = r, calm, r.choice([0, 10**9, 1_700_000_000 * 10**9])

    def next(self):
        step = self.r.random()
        self.now += self.r.randrange(10**7) if self.calm or step < 0.95 else 61 * 10**9 if step < 0.97 else self.r.choice(STEPS if self.now >= 10**9 else STEPS[:-1])
        return self.now


def classic(r, records, link, calm=False):
    order, scale = r.choice("<>"), r.choice([1, 1000])
    times = Times(r, calm)
    head = struct.pack(order + "IHHIIII", 0xA1B23C4D if scale == 1 else 0xA1B2C3D4, 2, 4, r.choice([0, 5]), 0, r.choice([0, 65535, 262144]), link)
    parts = [head]
    for it in records:
        now = times.next()
        fraction = now % 10**9 // scale
        if r.random() < 0.005:
            fraction = 2**32 - 1
        parts.append(struct.pack(order + "IIII", now // 10**9 % 2**32, fraction, len(it), r.choice([len(it), 70000])) + it)
    return parts


def block(order, kind, body):
    size = 12 + len(body) + -len(body) % 4
    return struct.pack(order + "II", kind, size) + body + bytes(-len(body) % 4) + struct.pack(order + "I", size)


def section(order):
    return block(order, 0x0A0D0D0A, struct.pack(order + "IHHq", 0x1A2B3C4D, 1, 0, -1))


def interface(r, order, link):
    resolution = r.choice([None, None, 6, 9, 3, 0, 0x8A, 19, 0x80])
    options = b""
    if r.random() < 0.3:
        options += struct.pack(order + "HH", 2, 5) + b"eth0!\0\0\0"
    if resolution is not None:
        options += struct.pack(order + "HHBxxx", 9, 1, resolution)
        if r.random() < 0.1:
            options += struct.pack(order + "HHBxxx", 9, 1, 3)
    if options and r.random() < 0.7:
        options += bytes(4)
    limit = r.choice([0, 0, 262144, 100])
    ticks = 10**6 if resolution is None else 2 ** (resolution & 127) if resolution & 128 else 10**resolution
    return block(order, 1, struct.pack(order + "HHI", link, 0, limit) + options), ticks, limit


def blocks(r, records, link, calm=False):
    order, times = r.choice("<>"), Times(r, calm)
    made, ticks, limit = interface(r, order, link)
    parts, known = [section(order), made], [ticks]
    for it in records:
        kind = r.random()
        if kind < 0.03:
            parts.append(block(order, r.choice([5, 4, 10, 0xBAD, 0x80000001]), r.randbytes(4 * r.randrange(6))))
        elif kind < 0.05 and len(known) < 4:
            made, ticks, _ = interface(r, order, link)
            parts.append(made)
            known.append(ticks)
        elif kind < 0.06:
            order = r.choice("<>")
            made, ticks, limit = interface(r, order, link)
            parts += [section(order), made]
            known = [ticks]
        if r.random() < 0.1:
            parts.append(block(order, 3, struct.pack(order + "I", len(it)) + (it[:limit] if limit else it)))
            continue
        at, now = r.randrange(len(known)), times.next()
        count = min(now * known[at] // 10**9, 2**64 - 1)
        if count // known[at] >= 2**32:
            count = 0
        options = struct.pack(order + "HHI", 2, 4, 1) + bytes(4) if r.random() < 0.05 else b""
        parts.append(block(order, 6, struct.pack(order + "IIIII", at, count >> 32, count & 0xFFFFFFFF, len(it), len(it)) + it + bytes(-len(it) % 4) + options))
    return parts


def classic_fault(r, parts, link):
    """One of the faults that 'Captures' of docs/FORMATS.md names, of classic captures."""
    order = "<" if parts[0][0] in (0x4D, 0xD4) else ">"
    kind, at = r.randrange(4), r.randrange(1, len(parts)) if len(parts) > 1 else 0
    if kind == 0:
        parts[0] = r.randbytes(4) + parts[0][4:]
    elif kind == 1:
        parts[0] = parts[0][:4] + struct.pack(order + "HH", *r.choice([(2, 3), (4, 2), (1, 4), (3, 4), (2, 5)])) + parts[0][8:]
    elif kind == 2:
        parts[0] = parts[0][:20] + struct.pack(order + "I", r.choice([0, 12, 113, 228, 229, 276, 0x10001, 2**32 - 1]))
    elif at:
        parts[at] = parts[at][:8] + struct.pack(order + "I", r.choice([262145, 2**20, 2**32 - 1])) + parts[at][12:]


def block_fault(r, parts, link):
    """One of the faults of pcapng captures: some blocks more behind a part."""
    at = r.randrange(1, len(parts) + 1)
    order = "<" if [it for it in parts[:at] if it[:4] == b"\x0a\x0d\x0d\x0a"][-1][8:12] == b"\x4d\x3c\x2b\x1a" else ">"
    plain = block(order, 1, struct.pack(order + "HHI", link, 0, 0))

    def interface_with(options):
        return [block(order, 1, struct.pack(order + "HHI", link, 0, 0) + options)]

    def packet(number, high, captured, size):
        return block(order, 6, struct.pack(order + "IIIII", number, high, 5, captured, captured) + bytes(size))

    def many():
        return [section(order), plain * r.choice([65536, 65537, 65537, 65537])]

    made = r.choice([
        lambda: [section(order)[:8] + r.randbytes(4) + section(order)[12:]],
        lambda: [block(order, 0x0A0D0D0A, struct.pack(order + "IHHq", 0x1A2B3C4D, r.choice([0, 2, 256]), r.choice([0, 2]), -1))],
        lambda: [block(order, 2, bytes(20))],
        lambda: [block(order, 1, struct.pack(order + "HHI", r.choice([0, 12, 113, 228, 229, 276, 147]), 0, 0))],
        lambda: [block(order, 1, struct.pack(order + "HHI", 102 - link, 0, 0))],
        lambda: interface_with(r.choice([struct.pack(order + "HH", 2, 9) + bytes(8), struct.pack(order + "HHHxx", 9, 2, 6), struct.pack(order + "HH", 9, 0)])),
        lambda: interface_with(struct.pack(order + "HHBxxx", 9, 1, r.choice([20, 127, 0x80 | 64, 255, 63, 19]))),
        lambda: [packet(r.choice([65536, 9, 2**32 - 1]), 0, 8, 8)],
        lambda: [section(order), block(order, 3, struct.pack(order + "I", 4) + bytes(4))],
        lambda: [packet(0, 0, r.choice([262145, 2**32 - 1]), 40)],
        lambda: [packet(0, 0, r.choice([41, 44, 262144]), 40)],
        lambda: [section(order), plain, packet(0, r.choice([0xF423F, 0xF4240, 2**32 - 1]), 40, 40)],
        lambda: [struct.pack(order + "II", 5, r.choice([0, 8, 13, 14, 2**32 - 1, 11])) + bytes(8)],
        lambda: [block(order, 5, bytes(8))[:-4] + struct.pack(order + "I", r.choice([16, 24, 0]))],
        lambda: [struct.pack(order + "III", r.choice([1, 6, 3, 0x0A0D0D0A]), 12, 12)],
        lambda: [struct.pack(order + "II", 5, 400) + bytes(r.choice([0, 3, 8]))],
        lambda: many() if r.random() < 0.7 else [section(order)],
    ])
    parts[at:at] = made()


def framed(r, records, link):
    if link == 101:
        return records
    made = []
    for it in records:
        kind = b"\x86\xdd" if it[:1] and it[0] >> 4 == 6 else b"\x08\0"
        if r.random() < 0.03:
            kind = r.choice([b"\x08\x06", b"\x81\0\0\1\x81\0\0\1\x08\0", b"\x81\0\0", b"\x88\xa8\0\1\x08\0"])
        tag = b"\x81\0\0\x05" if r.random() < 0.2 else b""
        made.append(r.randbytes(12) + tag + kind + it)
        if r.random() < 0.02:
            made[-1] = made[-1][: r.randrange(20)]
    return made


def padded(r, records):
    """Bytes behind some packets, so many that a run takes several rounds."""
    for _ in range(r.randrange(1, 12)):
        at = r.randrange(len(records))
        records[at] = records[at].ljust(r.choice([262126, 262126, 200000, 70000]), b"\0")


def capture(r, table, count):
    """A capture of packets that suit a table, sound or cut or damaged; one of several hundred records has large ones."""
    maker = Packets(r, table)
    maker.large = count > 200
    records = maker.records(count)
    floods = r.random() < 0.04
    if floods:
        at = r.randrange(len(records) + 1)
        records[at:at] = maker.flood()
    if r.random() < 0.1:
        padded(r, records)
    link = r.choice([101, 101, 1])
    write, fault = r.choice([(blocks, block_fault), (blocks, block_fault), (classic, classic_fault), (classic, classic_fault), (classic, classic_fault)])
    parts = write(r, framed(r, records, link), link, floods)
    if r.random() < 0.1:
        fault(r, parts, link)
    kind = r.random()
    if kind < 0.85:
        return b"".join(parts)
    data = b"".join(parts)
    if kind < 0.9:
        return data[: r.randrange(len(data) + 1)]
    if kind < 0.92:
        return data[: r.randrange(min(len(data), 120) + 1)]
    # damage where the capture's own numbers stand: in the first bytes of a part
    at = r.randrange(len(parts))
    if parts[at]:
        place = r.randrange(min(len(parts[at]), 40))
        parts[at] = parts[at][:place] + bytes([r.choice([0, 255, parts[at][place] ^ 1 << r.randrange(8)])]) + parts[at][place + 1 :]
    return b"".join(parts)


class Job:
    def __init__(self, words, files):
        self.words, self.files = words, files


def windows(r, count, most):
    """Windows that never fall, of every kind."""
    made, low, high = [], 0, 0
    for _ in range(most):
        low = min(low + r.choice([0, 0, 1, r.randrange(count + 2)]), 2**31)
        high = max(high, low) + r.choice([0, 0, 1, r.randrange(count + 2), 2**20])
        made.append((low, min(high, 2**31)))
        high = made[-1][1]
    return made


def run_job(r):
    files = {"t.toml": tables.good_table(r).encode()}
    table = router.table_of(files["t.toml"])
    count = r.choice([0, 1, 2, 5, 20, 60, 60, 150]) if r.random() < 0.99 else r.choice([500, 700, 1800])
    files["in"] = capture(r, table, max(count, 1)) if count else b"".join(classic(r, [], 101))
    words, fault = ["run", "in", "out", "verdicts", "versions", "t.toml"], r.random()
    if r.random() < 0.4:
        for at, (low, high) in enumerate(windows(r, count, r.choice([1, 1, 2, 3, 6]))):
            kind = r.random()
            files[f"l{at}"] = tables.good_table(r).encode() if kind < 0.75 else tables.wrong_table(r) if kind < 0.96 else files["in"]
            words.append(f"{low}-{high}:l{at}")
    if r.random() < 0.5:
        words += ["--workers", str(r.choice([1, 2, 3, 4, 8, 16]))] if r.random() < 0.7 else [f"--workers={r.randrange(1, 17)}"]
    if r.random() < 0.4:
        words += ["--errors", str(r.choice([1, 1, 2, 2, 5, 100, 1000000]))]
    if fault < 0.04:
        files["t.toml"] = tables.wrong_table(r)
    elif fault < 0.05:
        files["t.toml"] = files["in"]
    elif fault < 0.06:
        del files[r.choice(sorted(files))]
    elif fault < 0.08:
        files["in"] = r.choice([b"", r.randbytes(r.randrange(60)), files["t.toml"], b"\x1f\x8b" + r.randbytes(40), b"\x0a\x0d\x0d\x0a" + r.randbytes(40)])
    return Job(words, files)


def nearly(r, words):
    """The words of a run with one that is just not allowed, or just allowed."""
    loads = [at for at, it in enumerate(words) if at > 5 and ":" in it]
    kind, most = r.randrange(6), 2**31
    if kind == 0 and len(loads) > 1:
        one, other = r.sample(loads, 2)
        words[one], words[other] = words[other], words[one]
    elif kind == 1:
        words += r.choice([["--workers=1"], ["--workers", "2"], ["--errors=3"], ["--errors", "4"]]) * r.choice([1, 2])
    elif kind == 2:
        words[6:] = [f"--workers={r.choice(['0', '16', '17', '01', '+1', '1 ', '4294967297', ''])}"]
    elif kind == 3:
        words[6:] = [f"--errors={r.choice(['0', '1000000', '1000001', '01', '1e3', '-1', '4294967297', ''])}"]
    elif kind == 4:
        low, high = r.choice([(0, most), (most, most), (0, most + 1), (most + 1, most + 1), (5, 4), ("00", 1), (1, "01"), (2**64, 2**64), ("", 1), (0, "")])
        words[6:] = [f"{low}-{high}:{r.choice(['t.toml', 'in', 'out', ''])}"]
    else:
        words[r.randrange(1, 6)] = r.choice([*words[1:6], ""])
    return words


def words_job(r):
    """Words that mostly ask for nothing."""
    job = run_job(r)
    words, kind = job.words, r.randrange(13)
    if kind == 0:
        del words[r.randrange(len(words))]
    elif kind == 1:
        words.insert(r.randrange(len(words) + 1), r.choice(["-x", "--", "", "--workers", "--errors=0", "--workers=17", "-", "5-4:t.toml", "1-2", "x", "--workers=1", "-h", "1-2:"]))
    elif kind == 2:
        words[r.randrange(1, len(words))] = r.choice(words[1:])
    elif kind == 3:
        r.shuffle(words)
    elif kind == 4:
        words = [r.choice(["", "help", "--help", "-h", "--version", "Run", "check", "who", "demo", "migrate"]), *words[1 : r.randrange(1, 4)]]
    elif kind == 5:
        words = ["who", "t.toml", r.choice(["203.0.113.1", "203.0.113.01", "1.2.3", "::1", "203.0.113.1 "]), r.choice(["0", "65535", "65536", "01", "+1", "80", ""])]
    elif kind == 6:
        words = ["demo", r.choice(["7", "-7", "18446744073709551615", "18446744073709551616"]), r.choice(["0", "1", "30", "1000001"]), r.choice(["0", "1", "16", "17"])]
    elif kind == 7:
        words = ["migrate", "t.toml", r.choice(["t.toml", "new", ""])]
    elif kind == 8:
        words = []
    else:
        words = nearly(r, words)
    return Job(words, job.files)


def table_job(r):
    """A question about a table, good or bad."""
    kind, command = r.random(), r.random()
    if kind < 0.008:
        return Job(["check", "t.toml"], {"t.toml": tables.large_table(r)})
    is_good = kind < (0.75 if 0.5 <= command < 0.8 else 0.3)
    data = tables.good_table(r).encode() if is_good else tables.wrong_table(r)
    if command < 0.5:
        return Job(["check", "t.toml"], {"t.toml": data})
    if command < 0.8:
        v4, port = f"203.0.113.{r.randrange(7)}", r.randrange(65536)
        if is_good and r.random() < 0.7:
            it = r.choice(router.table_of(data).bindings)
            v4, port = ".".join(map(str, it[1])), some_port(r, it)
        return Job(["who", "t.toml", v4, str(port)], {"t.toml": data})
    return Job(["migrate", "t.toml", "new.toml"], {"t.toml": data})


# What a job is about, and with what chance it is that or one in front of it.
KINDS = {"run": 0.70, "words": 0.76, "table": 0.995, "demo": 1}


def job(seed, only=None):
    """The job of a seed; with `only` none where it is about something else."""
    r = random.Random(f"lwaftr {seed}")
    drawn = r.random()
    kind = next(it for it, most in KINDS.items() if drawn < most)
    if only not in (None, kind):
        return None
    if kind == "demo":
        return Job(["demo", str(r.randrange(2**64)), str(r.randrange(1, 400)), str(r.randrange(1, 17))], {})
    return {"run": run_job, "words": words_job, "table": table_job}[kind](r)
