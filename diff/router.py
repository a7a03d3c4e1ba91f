"""A second router for the same job, in plain Python: written from docs/FORMATS.md and the RFCs, by lists and in the plainest way, to be
held beside the program. It has nothing of the program's code and none of its speed."""
import functools
import ipaddress
import re
import struct
import tomllib

# ------------------------------------------------------------------------------------------------------------------ bytes


def checksum(data):
    """The Internet checksum (RFC 1071)."""
    total = int.from_bytes(data, "big") << 8 * (len(data) % 2)
    return 0xFFFF - (total % 0xFFFF or (0xFFFF if total else 0))


def with_checksum(data, at):
    """The bytes with their checksum in the two zero bytes at a place."""
    return data[:at] + struct.pack("!H", checksum(data)) + data[at + 2 :]


def word(data, at):
    return int.from_bytes(data[at : at + 2], "big")


class Refused(Exception):
    """What the program refuses, by the text that it prints."""


# ------------------------------------------------------------------------------------------------------------------ tables

SETTINGS = ("aftr", "own", "mtu6", "mtu4", "hop_limit", "hairpin", "icmp_in", "errors_up", "errors_down")
DEFAULTS = {"mtu6": 1500, "mtu4": 1500, "hop_limit": 64, "hairpin": True, "icmp_in": True, "errors_up": False, "errors_down": False}
LIMITS = {"mtu6": 65535, "mtu4": 65535, "hop_limit": 255, "offset": 255, "length": 255, "psid": 65535}
ADDRESSES = {"aftr": ipaddress.IPv6Address, "b4": ipaddress.IPv6Address, "own": ipaddress.IPv4Address, "ipv4": ipaddress.IPv4Address}


def value(tree, place, name, default):
    """The value of a key, or the refusal of it."""
    where = f"{place} {name}".strip()
    if name not in tree:
        if default is None:
            raise Refused(f"missing {where}")
        return default
    found = tree[name]
    kind = str if name in ADDRESSES else bool if isinstance(default, bool) else int
    if type(found) is not kind:
        raise Refused(f"kind {where}")
    if kind is str:
        try:
            if "%" in found or "/" in found:
                raise ValueError
            return ADDRESSES[name](found).packed
        except ValueError:
            raise Refused(f"address {where}") from None
    if kind is int and not 0 <= found <= LIMITS[name]:
        raise Refused(f"range {where}")
    return found


class Table:
    """A valid table; reading one is refused by the first true line of 'Refusals' in docs/FORMATS.md."""

    def __init__(self, data):
        if len(data) > 16_777_216:
            raise Refused("too-big")
        try:
            text = data.decode("utf-8")
            tree = tomllib.loads(on_one_line(text.removeprefix("\ufeff")))
            if any(not -(2**63) <= it < 2**63 for it in numbers(tree)):
                raise ValueError
        except (UnicodeDecodeError, tomllib.TOMLDecodeError, ValueError, RecursionError):
            raise Refused("not-toml") from None
        if "version" not in tree:
            raise Refused("missing version")
        if type(tree["version"]) is not int:
            raise Refused("kind version")
        if tree["version"] not in (1, 2):
            raise Refused("version")
        self.edition = tree["version"]
        if not set(tree) <= {"version", "softwire", "binding"}:
            raise Refused("unknown-key")
        if "softwire" not in tree:
            raise Refused("missing softwire")
        if not isinstance(tree["softwire"], dict):
            raise Refused("kind softwire")
        for name in SETTINGS:
            setattr(self, name, value(tree["softwire"], "softwire", name, DEFAULTS.get(name)))
        if not set(tree["softwire"]) <= set(SETTINGS):
            raise Refused("unknown-key")
        rows = tree.get("binding", [])
        if not isinstance(rows, list) or not all(isinstance(it, dict) for it in rows):
            raise Refused("kind binding")
        self.bindings = []
        for at, row in enumerate(rows):
            names = ("b4", "ipv4", "offset", "length", "psid")
            self.bindings.append(tuple(value(row, f"binding {at}", name, 0 if name not in ADDRESSES else None) for name in names))
            if not set(row) <= set(names):
                raise Refused("unknown-key")
        self.rules()
        self.by_address = {}
        for it in self.bindings:
            self.by_address.setdefault(it[1], []).append(it)

    def rules(self):
        if self.mtu6 < 1280 or self.mtu4 < 576:
            raise Refused("rules mtu")
        if self.hop_limit == 0:
            raise Refused("rules hop")
        if len(self.bindings) > 65536:
            raise Refused(f"rules too-many {len(self.bindings)}")
        for at, (_, ipv4, offset, length, psid) in enumerate(self.bindings):
            if offset > 15 or length > 16 or offset + length > 16:
                raise Refused(f"rules shape {at}")
            if psid >= 1 << length:
                raise Refused(f"rules psid {at}")
            if ipv4 == self.own:
                raise Refused(f"rules own-address {at}")
        before = {}
        for second, it in enumerate(self.bindings):
            mine = ports_of(*it[2:])
            for first, other, theirs in before.setdefault(it[1], []):
                unlike = self.edition == 1 and other[2:4] != it[2:4]
                if unlike or mine & theirs:
                    raise Refused(f"rules {'mixed-shape' if unlike else 'twice'} {first} {second}")
            before[it[1]].append((second, it, mine))

    def owner(self, address, want):
        """The end of the tunnel of the one that owns a port of an address, or with WHOLE all of it."""
        for b4, _, offset, length, psid in self.by_address.get(address, []):
            if (offset == 0 and length == 0) if want is WHOLE else owns(offset, length, psid, want):
                return b4
        return None


TOKEN = re.compile(
    r'"""(?:\\.|[^\\])*?"{3,5}|\'\'\'.*?\'{3,5}|"(?:\\.|[^"\\\n])*"|\'[^\'\n]*\'|["\'{}]|[ \t]*(?:(?:#[^\n]*)?\r?\n[ \t]*)+|#[^\n]*', re.S
)
CONTROL = re.compile(r"[\x00-\x08\x0b\x0c\x0e-\x1f\x7f]|\r(?!\n)")


def on_one_line(text):
    """The same with each inline table on one line: TOML 1.1 lets a line end in one, but not inside a key or around its equals sign;
    tomllib (1.0) lets none."""
    depth = 0

    def other(found):
        nonlocal depth
        it = found.group()
        depth += (it == "{") - (it == "}")
        if it in ("'", '"'):
            # (a text that does not end on its line, nor does anything behind it count)
            depth = float("-inf")
        if depth <= 0 or "\n" not in it or it[0] in "'\"" or CONTROL.search(it):
            return it
        beside = text[found.start() - 1 : found.start()] + text[found.end() : found.end() + 1]
        return it if set(beside) & set("=.") else " "

    return TOKEN.sub(other, text) if "{" in text else text


def table_of(data):
    """The table of a file, or its refusal."""
    return (large_table if len(data) > 2**20 else small_table)(data)


def read_table(data):
    try:
        return Table(data)
    except Refused as why:
        return why


# What was read lately: a large table takes seconds.
small_table, large_table = functools.lru_cache(8)(read_table), functools.lru_cache(8)(read_table)


def numbers(tree):
    """All integers of a tree."""
    if isinstance(tree, dict):
        tree = list(tree.values())
    if isinstance(tree, list):
        for it in tree:
            yield from numbers(it)
    elif type(tree) is int:
        yield tree


def owns(offset, length, psid, port):
    """RFC 7597, section 5.1."""
    low = 16 - offset - length
    return (port >> low) % (1 << length) == psid and (offset == 0 or port >> (16 - offset) > 0)


@functools.lru_cache(4096)
def ports_of(offset, length, psid):
    """The ports of an identifier, as the bits of one number: a run in each piece of 2^(16-offset) ports, but not in the first piece."""
    low = 16 - offset - length
    found = ((1 << (1 << low)) - 1) << (psid << low)
    for step in range(offset):
        found |= found << (1 << 16 - offset + step)
    return found >> (1 << 16 - offset) << (1 << 16 - offset) if offset else found


# ------------------------------------------------------------------------------------------------------------------ captures

MAGICS = {b"\xd4\xc3\xb2\xa1": ("<", 1000), b"\xa1\xb2\xc3\xd4": (">", 1000), b"\x4d\x3c\xb2\xa1": ("<", 1), b"\xa1\xb2\x3c\x4d": (">", 1)}
MOST_BYTES = 262_144


class Capture:
    """What a capture holds: its link type, how it is written, its records (seconds, fraction, nanoseconds, bytes), and what is
    refused behind them, if anything is. A refused header raises."""

    def __init__(self, data):
        self.records, self.ending = [], None
        self.blocks = data[:4] == b"\x0a\x0d\x0d\x0a"
        (self.read_blocks if self.blocks else self.read_classic)(data)

    def read_classic(self, data):
        if len(data) < 24:
            raise Refused("cut header at 0")
        if data[:4] not in MAGICS:
            raise Refused("magic")
        order, self.scale = MAGICS[data[:4]]
        if struct.unpack_from(order + "HH", data, 4) != (2, 4):
            raise Refused("version")
        self.link = struct.unpack_from(order + "I", data, 20)[0]
        if self.link not in (1, 101):
            raise Refused(f"link {self.link}")
        at = 24
        while at < len(data):
            if len(data) - at < 16:
                self.ending = f"cut header at {at}"
                return
            seconds, fraction, size, _ = struct.unpack_from(order + "IIII", data, at)
            if size > MOST_BYTES:
                self.ending = f"too long at {at}"
                return
            if len(data) - at - 16 < size:
                self.ending = f"cut record at {at}"
                return
            self.records.append((seconds, fraction, seconds * 10**9 + fraction * self.scale, data[at + 16 : at + 16 + size]))
            at += 16 + size

    def read_blocks(self, data):
        self.link, self.scale = 101, 1
        order, interfaces, first, at, last, opened = None, [], None, 0, (0, 0), False
        while at < len(data):
            try:
                size, order, interfaces, first, last = self.block(data, at, order, interfaces, first, last)
            except Refused as why:
                if not opened:
                    raise
                self.ending = str(why)
                return
            if first is not None and not opened:
                self.link, opened = first, True
            at += size

    def block(self, data, at, order, interfaces, first, last):
        left = len(data) - at
        if left < 12:
            raise Refused(f"ng cut {at}")
        if data[at : at + 4] == b"\x0a\x0d\x0d\x0a":
            kind = 0x0A0D0D0A
            order = {b"\x4d\x3c\x2b\x1a": "<", b"\x1a\x2b\x3c\x4d": ">"}.get(data[at + 8 : at + 12])
            if order is None:
                raise Refused(f"ng order {at}")
        else:
            kind = struct.unpack_from(order + "I", data, at)[0]
        size = struct.unpack_from(order + "I", data, at + 4)[0]
        if size % 4 or size < {0x0A0D0D0A: 28, 1: 20, 6: 32, 3: 16}.get(kind, 12):
            raise Refused(f"ng length {at}")
        if left < size:
            raise Refused(f"ng cut {at}")
        if struct.unpack_from(order + "I", data, at + size - 4)[0] != size:
            raise Refused(f"ng length {at}")
        body = data[at + 8 : at + size - 4]
        if kind == 0x0A0D0D0A:
            if struct.unpack_from(order + "H", body, 4)[0] != 1:
                raise Refused(f"ng version {at}")
            return size, order, [], first, last
        if kind == 2:
            raise Refused(f"ng old {at}")
        if kind == 1:
            interfaces.append(self.interface(body, at, order, interfaces, first))
            return size, order, interfaces, first if first is not None else interfaces[-1][0], last
        if kind == 6:
            number, high, low, captured = struct.unpack_from(order + "IIII", body)
            if number >= len(interfaces):
                raise Refused(f"ng interface {at}")
            if captured > MOST_BYTES:
                raise Refused(f"ng too-long {at}")
            if captured > size - 32:
                raise Refused(f"ng captured {at}")
            ticks = interfaces[number][2]
            seconds, rest = divmod(high << 32 | low, ticks)
            if seconds >= 2**32:
                raise Refused(f"ng time {at}")
            last = seconds, rest * 10**9 // ticks
            self.add(last, body[20 : 20 + captured])
        elif kind == 3:
            original = struct.unpack_from(order + "I", body)[0]
            if not interfaces:
                raise Refused(f"ng interface {at}")
            captured = min(original, interfaces[0][1]) if interfaces[0][1] else original
            if captured > MOST_BYTES:
                raise Refused(f"ng too-long {at}")
            if captured > size - 16:
                raise Refused(f"ng captured {at}")
            self.add(last, body[4 : 4 + captured])
        return size, order, interfaces, first, last

    def interface(self, body, at, order, interfaces, first):
        """Link type, snapshot length and ticks of a second."""
        if len(interfaces) >= 65536:
            raise Refused(f"ng interfaces {at}")
        link, _, limit = struct.unpack_from(order + "HHI", body)
        if link not in (1, 101):
            raise Refused(f"ng link {at} {link}")
        if first is not None and link != first:
            raise Refused(f"ng mixed-links {at}")
        options, place, resolution = body[8:], 0, None
        while place < len(options):
            if len(options) - place < 4:
                raise Refused(f"ng options {at}")
            code, size = struct.unpack_from(order + "HH", options, place)
            if code == 0:
                break
            if place + 4 + size + (-size % 4) > len(options) or (code == 9 and size != 1):
                raise Refused(f"ng options {at}")
            if code == 9 and resolution is None:
                resolution = options[place + 4]
            place += 4 + size + (-size % 4)
        resolution = 6 if resolution is None else resolution
        if resolution & 127 > (63 if resolution & 128 else 19):
            raise Refused(f"ng resolution {at}")
        return link, limit, 2 ** (resolution & 127) if resolution & 128 else 10**resolution

    def add(self, time, data):
        self.records.append((*time, time[0] * 10**9 + time[1], data))

    def written(self, packets):
        """OUT, of packets with the seconds and fraction of their records."""
        if self.blocks:
            out = bytes.fromhex("0a0d0d0a1c0000004d3c2b1a01000000ffffffffffffffff1c000000")
            out += bytes.fromhex("0100000020000000650000000000040009000100090000000000000020000000")
            for seconds, fraction, data in packets:
                size, ticks = 32 + len(data) + -len(data) % 4, seconds * 10**9 + fraction
                head = struct.pack("<IIIIIII", 6, size, 0, ticks >> 32, ticks & 0xFFFFFFFF, len(data), len(data))
                out += head + data + bytes(-len(data) % 4) + struct.pack("<I", size)
            return out
        out = [struct.pack("<IHHIIII", 0xA1B23C4D if self.scale == 1 else 0xA1B2C3D4, 2, 4, 0, 0, MOST_BYTES, 101)]
        for seconds, fraction, data in packets:
            out.append(struct.pack("<IIII", seconds, fraction, len(data), len(data)) + data)
        return b"".join(out)


# ------------------------------------------------------------------------------------------------------------------ packets

WHOLE, NO_PORT, BAD_ICMP = "whole", "no port", "icmp bad"
WITH_PORTS = (6, 17, 33, 132, 136)


class Ip4:
    """An IPv4 packet (RFC 791, section 3.1); faulty ones raise the rule that is true."""

    def __init__(self, data, where):
        malformed = Refused("ip4-malformed" if where == "outside" else "inner-malformed")
        if len(data) < 20 or data[0] >> 4 != 4:
            raise malformed
        size, total = 4 * (data[0] & 15), word(data, 2)
        if size < 20 or size > len(data) or total < size or total > len(data):
            raise malformed
        if checksum(data[:size]):
            raise Refused("ip4-checksum" if where == "outside" else "inner-checksum")
        self.header, self.payload, self.total = data[:size], data[size:total], total
        self.id, self.ttl, self.protocol, self.src, self.dst = word(data, 4), data[8], data[9], data[12:16], data[16:20]
        self.df, self.more, self.offset = bool(data[6] & 0x40), bool(data[6] & 0x20), (word(data, 6) & 0x1FFF) * 8

    def is_fragment(self):
        return self.more or self.offset > 0

    def all(self):
        return self.header + self.payload

    def key(self, end):
        """By what the owner of an end is told, 0 the source and 1 the destination (RFC 7596, section 8.1)."""
        if self.is_fragment():
            return NO_PORT
        if self.protocol != 1:
            return port_at(self.protocol, self.payload, end)
        data = self.payload
        if len(data) < 8:
            return BAD_ICMP
        if data[0] in (0, 8):
            return word(data, 4)
        quote = quoted(data[8:])
        if checksum(data) or quote is None:
            return BAD_ICMP
        return quoted_key(*quote, 1 - end)

    def may_be_told(self):
        """Whether its sender may get an ICMP error (RFC 1122, section 3.2.2)."""
        if self.offset or (self.protocol == 1 and (not self.payload or self.payload[0] not in (0, 8))):
            return False
        return told_ends(self.src, self.dst)

    def lowered(self):
        head = self.header[:8] + bytes([self.ttl - 1]) + self.header[9:10] + b"\0\0" + self.header[12:]
        return with_checksum(head, 10) + self.payload


def told_ends(src, dst):
    if dst[0] >> 4 == 14 or dst == b"\xff\xff\xff\xff":
        return False
    return src[0] not in (0, 127) and src[0] < 224


def port_at(protocol, payload, end):
    if protocol not in WITH_PORTS:
        return WHOLE
    return word(payload, 2 * end) if len(payload) >= 4 else NO_PORT


def quoted(data):
    """Header and payload of an IPv4 packet that is quoted: its first bytes, the total length is not looked at (RFC 792)."""
    if len(data) < 20 or data[0] >> 4 != 4:
        return None
    size = 4 * (data[0] & 15)
    if size < 20 or size > len(data) or checksum(data[:size]):
        return None
    return data[:size], data[size:]


def quoted_key(header, payload, end):
    if word(header, 6) & 0x1FFF:
        return NO_PORT
    if header[9] == 1:
        return word(payload, 4) if len(payload) >= 8 and payload[0] in (0, 8) else NO_PORT
    return port_at(header[9], payload, end)


class Ip6:
    """An IPv6 packet (RFC 8200, section 3)."""

    def __init__(self, data):
        if len(data) < 40 or data[0] >> 4 != 6 or word(data, 4) > len(data) - 40:
            raise Refused("ip6-malformed")
        self.word, self.next, self.hop, self.src, self.dst = data[:4], data[6], data[7], data[8:24], data[24:40]
        self.body = data[40 : 40 + word(data, 4)]


def walk(kind, data, behind_fragment):
    """The extension headers (RFC 8200, section 4): the number that ends them, what follows, and the Fragment header, if one ended them."""
    at = 0
    while True:
        if kind == 0 and (at or behind_fragment):
            raise Refused("ip6-chain")
        if kind == 44 and behind_fragment:
            raise Refused("ip6-chain")
        if kind not in (0, 43, 44, 60):
            return kind, data[at:], None
        if len(data) - at < 8:
            raise Refused("ip6-chain")
        if kind == 44:
            place = word(data, at + 2)
            return data[at], data[at + 8 :], (place >> 3, place & 1, data[at + 4 : at + 8])
        size = 8 * (1 + data[at + 1])
        if len(data) - at < size or (kind == 43 and data[at + 3]):
            raise Refused("ip6-chain")
        kind, at = data[at], at + size


# ------------------------------------------------------------------------------------------------------------------ fragments


class Lane:
    """Datagrams that wait, by their keys: first time, first number, pieces, and the rule by which they are refused."""

    def __init__(self):
        self.open = {}

    def late(self, time):
        ended = [key for key, it in self.open.items() if time > it["time"] + 60 * 10**9]
        return sorted(self.open.pop(key)["number"] for key in ended)

    def feed(self, key, time, number, offset, more, body, extra, head):
        """The answer: held (None), a datagram (its head and body), or the rule that raises."""
        at = 8 * offset
        if not body or (more and len(body) % 8):
            raise Refused("frag-odd")
        if extra + at + len(body) > 65535:
            raise Refused("frag-long")
        if key not in self.open:
            if len(self.open) == 256:
                raise Refused("frag-full")
            self.open[key] = {"time": time, "number": number, "pieces": [], "rule": None, "first": (0, b"")}
        it = self.open[key]
        if it["rule"]:
            raise Refused(it["rule"])
        if (at, more, body) in it["pieces"]:
            return None
        if any(clash((at, more, body), other) for other in it["pieces"]):
            it["rule"] = "frag-overlap"
        elif len(it["pieces"]) == 256:
            it["rule"] = "frag-many"
        if it["rule"]:
            raise Refused(it["rule"])
        it["pieces"].append((at, more, body))
        if at == 0:
            it["first"] = (extra, head)
        end = next((start + len(data) for start, goes_on, data in it["pieces"] if not goes_on), None)
        if end is None or sum(len(data) for _, _, data in it["pieces"]) != end:
            return None
        del self.open[key]
        extra, head = it["first"]
        if extra + end > 65535:
            raise Refused("frag-long")
        return head, b"".join(data for _, _, data in sorted(it["pieces"], key=lambda piece: piece[0]))


def clash(one, other):
    """Two pieces that are not the same: they share a byte, both are last, or one goes on behind the end of the other."""
    if one[0] < other[0] + len(other[2]) and other[0] < one[0] + len(one[2]):
        return True
    for last, it in ((one, other), (other, one)):
        if not last[1] and (not it[1] or it[0] + len(it[2]) > last[0] + len(last[2])):
            return True
    return False


class Stage:
    """From records to items, in order: ('bad', rule), ('held',), ('down', packet), ('up', Ip6, bytes), ('six', dst), ('message', Ip6, bytes)."""

    def __init__(self, link):
        self.link = link
        self.rows = {name: [Lane() for _ in range(16)] for name in ("outer", "inner", "down")}

    def unfinished(self):
        return sorted(it["number"] for row in self.rows.values() for lane in row for it in lane.open.values())

    def item(self, number, time, data):
        self.ended, self.number, self.time = [], number, time
        try:
            return self.of_frame(data), sorted(self.ended)
        except Refused as rule:
            return ("bad", str(rule)), sorted(self.ended)

    def of_frame(self, data):
        if self.link == 101:
            if not data:
                raise Refused("frame-short")
            kind = {4: 0x0800, 6: 0x86DD}.get(data[0] >> 4)
        else:
            if len(data) < 14:
                raise Refused("frame-short")
            kind, at = word(data, 12), 14
            if kind == 0x8100:
                if len(data) < 18:
                    raise Refused("frame-short")
                kind, at = word(data, 16), 18
            data = data[at:]
        if kind == 0x0800:
            return self.of_ip4(data)
        if kind == 0x86DD:
            return self.of_ip6(data)
        raise Refused("frame-type")

    def fed(self, row, identification, key, offset, more, body, extra, head):
        lane = self.rows[row][identification % 16]
        self.ended += lane.late(self.time)
        return lane.feed(key, self.time, self.number, offset, more, body, extra, head)

    def whole4(self, row, packet, front):
        """The datagram of a fragment of IPv4, or None while it waits."""
        key = (*front, packet.src, packet.dst, packet.protocol, packet.id)
        found = self.fed(row, packet.id, key, packet.offset // 8, packet.more, packet.payload, len(packet.header), packet.header)
        if found is None:
            return None
        head, body = found
        place = head[6] & 0xC0
        head = head[:2] + struct.pack("!H", len(head) + len(body)) + head[4:6] + bytes([place, 0]) + head[8:10] + b"\0\0" + head[12:]
        return with_checksum(head, 10) + body

    def of_ip4(self, data):
        packet = Ip4(data, "outside")
        if not packet.is_fragment():
            return "down", packet
        data = self.whole4("down", packet, ())
        return ("held",) if data is None else ("down", Ip4(data, "outside"))

    def of_ip6(self, data):
        outer = Ip6(data)
        kind, rest, fragment = walk(outer.next, outer.body, False)
        if fragment:
            offset, more, identification = fragment
            if offset or more:
                key = outer.src, outer.dst, identification
                found = self.fed("outer", int.from_bytes(identification, "big"), key, offset, bool(more), rest, 0, bytes([kind]))
                if found is None:
                    return ("held",)
                kind, rest = found[0][0], found[1]
            kind, rest, _ = walk(kind, rest, True)
        if kind == 58:
            return "message", outer, rest
        if kind != 4:
            return "six", outer.dst
        try:
            inner = Ip4(rest, "inside")
        except Refused:
            return "up", outer, rest
        if inner.is_fragment():
            rest = self.whole4("inner", inner, (outer.src, outer.dst))
            return ("held",) if rest is None else ("up", outer, rest)
        return "up", outer, inner.all()


# ------------------------------------------------------------------------------------------------------------------ verdicts


class Verdict:
    """Held; a drop by a rule with what its sender is told; or a packet sent on."""

    def __init__(self, outcome, rule=None, packets=(), answers=False):
        self.outcome, self.rule, self.packets, self.answers = outcome, rule, list(packets), answers


def drop(rule, error=None):
    return Verdict("drop", rule, [error] if error is not None else [], error is not None)


def error4(own, dst, kind, code, rest, quote):
    message = with_checksum(bytes([kind, code, 0, 0]) + struct.pack("!I", rest) + quote[:548], 2)
    head = struct.pack("!BBHHHBBH", 0x45, 0, 20 + len(message), 0, 0x4000, 64, 1, 0) + own + dst
    return with_checksum(head, 10) + message


def tunnel(src, dst, hop, inner):
    return struct.pack("!IHBB", 6 << 28 | inner[1] << 20, len(inner), 4, hop) + src + dst + inner


def cut6(data, mtu, number):
    """RFC 2473, section 7.2; RFC 8200, section 4.5."""
    if len(data) <= mtu:
        return [data]
    size, body, pieces = (mtu - 48) // 8 * 8, data[40:], []
    for at in range(0, len(body), size):
        piece = body[at : at + size]
        more = at + size < len(body)
        pieces.append(data[:4] + struct.pack("!HB", 8 + len(piece), 44) + data[7:40] + struct.pack("!BBHI", 4, 0, at | more, number) + piece)
    return pieces


def kept_options(options):
    """The options that each fragment has (RFC 791, section 3.1: the copied flag)."""
    kept, at = b"", 0
    while at < len(options) and options[at]:
        if options[at] == 1:
            at += 1
            continue
        size = options[at + 1] if at + 1 < len(options) else 0
        if size < 2 or at + size > len(options):
            break
        if options[at] & 0x80:
            kept += options[at : at + size]
        at += size
    return kept + bytes(-len(kept) % 4)


def cut4(data, mtu):
    """RFC 791, section 3.2."""
    if len(data) <= mtu:
        return [data]
    size = 4 * (data[0] & 15)
    head, rest, pieces, at = data[:size], data[size:], [], 0
    while True:
        if at:
            options = kept_options(data[20:size])
            head = bytes([0x45 + len(options) // 4]) + data[1:20] + options
        is_last = len(head) + len(rest) - at <= mtu
        piece = rest[at:] if is_last else rest[at : at + (mtu - len(head)) // 8 * 8]
        place = (head[6] & 0x80) << 8 | (0 if is_last else 0x2000) | at // 8
        made = head[:2] + struct.pack("!H", len(head) + len(piece)) + head[4:6] + struct.pack("!H", place) + head[8:10] + b"\0\0" + head[12:]
        pieces.append(with_checksum(made, 10) + piece)
        if is_last:
            return pieces
        at += len(piece)


def inward(table, packet, b4, number, outcome):
    return Verdict(outcome, packets=cut6(tunnel(table.aftr, b4, table.hop_limit, packet.lowered()), table.mtu6, number))


def judge_down(table, packet, number):
    def told(kind, code, rest=0):
        return error4(table.own, packet.src, kind, code, rest, packet.all()) if packet.may_be_told() else None

    if packet.dst == table.own:
        return drop("to-self")
    if packet.protocol == 1 and not table.icmp_in:
        return drop("icmp-off")
    key = packet.key(1)
    if key in (BAD_ICMP, NO_PORT):
        return drop("icmp-bad" if key == BAD_ICMP else "no-port")
    b4 = table.owner(packet.dst, key)
    if b4 is None:
        return drop("no-binding", told(3, 1) if table.errors_down else None)
    if packet.ttl < 2:
        return drop("ttl", told(11, 0))
    if packet.df and packet.total + 40 > table.mtu6:
        return drop("too-big", told(3, 4, table.mtu6 - 40))
    return inward(table, packet, b4, number, "down")


def policy(table, outer, inner):
    """ICMPv6, source address failed ingress/egress policy (RFC 4443, section 3.1; RFC 7596, section 6.2)."""
    if outer.src == bytes(16) or outer.src[0] == 255:
        return None
    quote = outer.word + struct.pack("!HBB", len(inner), 4, outer.hop) + outer.src + outer.dst + inner
    message = bytes([1, 5, 0, 0, 0, 0, 0, 0]) + quote[:1232]
    pseudo = table.aftr + outer.src + struct.pack("!IxxxB", len(message), 58)
    message = message[:2] + struct.pack("!H", checksum(pseudo + message)) + message[4:]
    return struct.pack("!IHBB", 6 << 28, len(message), 58, table.hop_limit) + table.aftr + outer.src + message


def judge_up(table, outer, data, number):
    if outer.dst != table.aftr:
        return drop("not-ours")
    try:
        packet = Ip4(data, "inside")
    except Refused as rule:
        return drop(str(rule))

    def told(kind, code, rest=0):
        if not packet.may_be_told():
            return None
        return tunnel(table.aftr, outer.src, table.hop_limit, error4(table.own, packet.src, kind, code, rest, packet.all()))

    key = packet.key(0)
    if key in (BAD_ICMP, NO_PORT):
        return drop("icmp-bad" if key == BAD_ICMP else "no-port")
    if table.owner(packet.src, key) != outer.src:
        return drop("no-binding", policy(table, outer, packet.all()) if table.errors_up else None)
    if packet.ttl < 2:
        return drop("ttl", told(11, 0))
    if packet.dst in table.by_address:
        if not table.hairpin:
            return drop("hairpin-off")
        b4 = table.owner(packet.dst, packet.key(1))
        if b4 is None:
            return drop("hairpin-no-binding", told(3, 1) if table.errors_down else None)
        if packet.df and packet.total + 40 > table.mtu6:
            return drop("too-big", told(3, 4, table.mtu6 - 40))
        return inward(table, packet, b4, number, "hairpin")
    if packet.dst == table.own:
        return drop("to-self")
    if packet.df and packet.total > table.mtu4:
        return drop("too-big", told(3, 4, table.mtu4))
    return Verdict("up", packets=cut4(packet.lowered(), table.mtu4))


def read_quote(data):
    """The tunnel packet that an ICMPv6 error quotes: its ends, and the IPv4 packet inside (RFC 2473, section 8)."""
    if len(data) < 40 or data[0] >> 4 != 6:
        return None
    inner = data[40:]
    if data[6] == 44:
        if len(inner) < 8 or inner[0] != 4 or word(inner, 2) >> 3:
            return None
        inner = inner[8:]
    elif data[6] != 4:
        return None
    found = quoted(inner)
    return None if found is None else (data[8:24], data[24:40], inner, *found)


def judge_message(table, outer, data):
    if outer.dst != table.aftr:
        return drop("not-ours")
    if len(data) < 8 or not 1 <= data[0] <= 4:
        return drop("not-softwire")
    pseudo = outer.src + outer.dst + struct.pack("!IxxxB", len(data), 58)
    quote = read_quote(data[8:])
    if checksum(pseudo + data) or quote is None or quote[0] != table.aftr:
        return drop("relay-bad")
    _, to, packet, header, payload = quote
    src, dst = header[12:16], header[16:20]
    key = quoted_key(header, payload, 1)
    if key == NO_PORT or table.owner(dst, key) != to:
        return drop("relay-no-binding")
    back = None
    if src in table.by_address:
        key = quoted_key(header, payload, 0)
        back = table.owner(src, key) if key != NO_PORT else None
        if back is None:
            return drop("relay-no-binding")
    is_later = bool(word(header, 6) & 0x1FFF)
    is_icmp = header[9] == 1 and (not payload or payload[0] not in (0, 8))
    if is_later or is_icmp or not told_ends(src, dst):
        return drop("relay-mute")
    code, size = 1, 0
    if data[0] == 2:
        code, size = 4, min(max(int.from_bytes(data[4:8], "big"), 1280), 65575) - 40
    made = error4(table.own, src, 3, code, size, packet)
    return drop("relayed", made if back is None else tunnel(table.aftr, back, table.hop_limit, made))


def judge(table, item, number):
    kind, *rest = item
    if kind == "held":
        return Verdict("held")
    if kind == "bad":
        return drop(rest[0])
    if kind == "down":
        return judge_down(table, rest[0], number)
    if kind == "up":
        return judge_up(table, *rest, number)
    if kind == "six":
        return drop("not-ours" if rest[0] != table.aftr else "not-softwire")
    return judge_message(table, *rest)


# ------------------------------------------------------------------------------------------------------------------ a run


class Bucket:
    """Which errors are sent (RFC 4443, section 2.4 (f)): over no span of sent ones more than the bucket's depth and what it gains."""

    def __init__(self, rate):
        self.rate, self.sent, self.greatest = rate, [], 0

    def passes(self, time):
        self.greatest = max(self.greatest, time)
        spans = [(len(self.sent) - at + 1, self.greatest - begun) for at, begun in enumerate(self.sent)] + [(1, 0)]
        if any(count * 10**9 > self.rate * 10**9 + self.rate * span for count, span in spans):
            return False
        self.sent.append(self.greatest)
        return True


def in_force(points, number):
    return sum(it <= number for it in points)


def run(capture, tables, points, errors=None):
    """OUT, the lines of VERDICTS and the summary, of tables that came before the records that the points name."""
    stage, bucket = Stage(capture.link), Bucket(errors) if errors else None
    packets, lines, counts = [], [], {"held": 0, "forwarded": 0, "dropped": 0}
    for number, (seconds, fraction, time, data) in enumerate(capture.records):
        item, ended = stage.item(number, time, data)
        lines += [f"expired {it}" for it in ended]
        version = in_force(points, number)
        verdict = judge(tables[version], item, number)
        said = verdict.outcome if verdict.outcome != "drop" else f"drop {verdict.rule}"
        if bucket and verdict.answers and not bucket.passes(time):
            verdict.packets, said = [], f"{said} limited"
        packets += [(seconds, fraction, it) for it in verdict.packets]
        lines.append(f"{number} {version} {said} {len(verdict.packets)}")
        counts["held" if verdict.outcome == "held" else "dropped" if verdict.outcome == "drop" else "forwarded"] += 1
    lines += [f"unfinished {it}" for it in stage.unfinished()]
    summary = f"records {len(capture.records)} held {counts['held']} forwarded {counts['forwarded']} dropped {counts['dropped']}"
    return capture.written(packets), lines, f"{summary} packets {len(packets)} version {len(points)}"
