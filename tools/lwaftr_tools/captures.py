"""Captures of the classic form and of pcapng, record by record, in memory that does not grow."""
import struct

from . import command


class CaptureError(command.Unusable):
    """A file that is no capture, or breaks off, and where."""


class Record:
    """One record: its number from 0, its time in nanoseconds, its link type and its captured bytes."""

    __slots__ = ("number", "time", "link", "bytes")

    def __init__(self, number, time, link, data):
        self.number, self.time, self.link, self.bytes = number, time, link, data


# the most captured bytes of a record, as the program takes them
MOST_BYTES = 262_144
# how much of an interface block is looked at for its options
MOST_OPTIONS = 65_536
MAGICS = {0xA1B2C3D4: 1000, 0xA1B23C4D: 1}


def records(path):
    """The records of a capture, in order."""
    try:
        with open(path, "rb", buffering=1 << 20) as file:
            head = file.read(4)
            if head == b"\x0a\x0d\x0d\x0a":
                yield from _blocks(file, head)
            else:
                yield from _classic(file, head)
    except CaptureError as error:
        raise CaptureError(f"{path}: {error}") from None
    except (IndexError, struct.error):
        raise CaptureError(f"{path}: a block has fewer bytes than its kind, or names an interface that is not there") from None


def _exactly(file, count, place):
    data = file.read(count)
    if len(data) != count:
        raise CaptureError(f"cut at byte {place}")
    return data


def _pass_over(file, count, place):
    """Reads bytes that nobody wants, a piece at a time."""
    while count > 0:
        count -= len(_exactly(file, min(count, MOST_BYTES), place))


def _within_limit(size, place):
    if size > MOST_BYTES:
        raise CaptureError(f"the record at byte {place} says that it has {size} bytes, and {MOST_BYTES} are the most")
    return size


def _classic(file, head):
    for order in "<>":
        scale = MAGICS.get(struct.unpack(order + "I", head)[0]) if len(head) == 4 else None
        if scale:
            break
    if not scale:
        raise CaptureError("no capture of the classic form or pcapng")
    link = struct.unpack(order + "I", _exactly(file, 20, 4)[16:])[0]
    header, place, number = struct.Struct(order + "IIII"), 24, 0
    while True:
        data = file.read(16)
        if not data:
            return
        if len(data) < 16:
            raise CaptureError(f"cut header at byte {place}")
        seconds, fraction, size, _ = header.unpack(data)
        yield Record(number, seconds * 1_000_000_000 + fraction * scale, link, _exactly(file, _within_limit(size, place), place))
        number, place = number + 1, place + 16 + size


def _resolution(options, order):
    at = 0
    while at + 4 <= len(options):
        code, size = struct.unpack_from(order + "HH", options, at)
        if code == 0:
            break
        if code == 9 and size == 1:
            value = options[at + 4]
            return 2 ** (value & 127) if value & 128 else 10**value
        at += 4 + (size + 3 & ~3)
    return 1_000_000


def _size(data, order, place):
    """The length of a block, which is that of its kind and of both lengths at least."""
    size = struct.unpack(order + "I", data)[0]
    if size < 12:
        raise CaptureError(f"the block at byte {place} says that it has {size} bytes")
    return size


class _Section:
    """A section of a pcapng file: its byte order, its interfaces, and the time of the last packet in front of it."""

    def __init__(self, order, last):
        self.order, self.last, self.interfaces = order, last, []

    def add_interface(self, body):
        link, _, limit = struct.unpack_from(self.order + "HHI", body)
        self.interfaces.append((link, _resolution(body[8:], self.order), limit))

    def packet(self, kind, head, room, place):
        """Link type, time and captured length of a packet block; `room` is how many bytes stand behind its head."""
        if kind == SIMPLE:
            link, _, limit = self.interfaces[0]
            whole = struct.unpack(self.order + "I", head)[0]
            return link, self.last, _within_limit(min(whole, limit or whole, room), place)
        at, high, low, captured, _ = struct.unpack(self.order + "IIIII", head)
        link, ticks, _ = self.interfaces[at]
        self.last = (high << 32 | low) * 1_000_000_000 // ticks
        return link, self.last, min(_within_limit(captured, place), room)


INTERFACE, SIMPLE, ENHANCED = 1, 3, 6
HEADS = {SIMPLE: 4, ENHANCED: 20}


def _blocks(file, head):
    section, number, place = _Section("<", 0), 0, 0
    while head:
        if len(head) < 4:
            raise CaptureError(f"cut block at byte {place}")
        if head == b"\x0a\x0d\x0d\x0a":
            rest = _exactly(file, 8, place)
            section = _Section("<" if rest[4:] == b"\x4d\x3c\x2b\x1a" else ">", section.last)
            size = _size(rest[:4], section.order, place)
            _pass_over(file, size - 12, place)
        else:
            kind = struct.unpack(section.order + "I", head)[0]
            size = _size(_exactly(file, 4, place), section.order, place)
            left = size - 12
            if kind in HEADS:
                front = _exactly(file, min(HEADS[kind], left), place)
                left -= len(front)
                link, time, count = section.packet(kind, front, left, place)
                yield Record(number, time, link, _exactly(file, count, place))
                number, left = number + 1, left - count
            elif kind == INTERFACE:
                body = _exactly(file, min(left, MOST_OPTIONS), place)
                left -= len(body)
                section.add_interface(body)
            _pass_over(file, left + 4, place)
        place += size
        head = file.read(4)


def write(path, packets):
    """A classic capture of plain IP packets, each with its time in nanoseconds."""
    with open(path, "wb") as file:
        file.write(struct.pack("<IHHiIII", 0xA1B23C4D, 2, 4, 0, 0, 262144, 101))
        for time, data in packets:
            file.write(struct.pack("<IIII", time // 1_000_000_000, time % 1_000_000_000, len(data), len(data)) + data)
