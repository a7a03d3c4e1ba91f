#!/usr/bin/env python3
"""Compares the packets of this router's OUT with those that another router sent for the same input.

The two captures may have unlike link types, of these: 1 (Ethernet), 12, 14, 101, 228, 229 (plain IP), 0, 108 (loopback), 113 and 276 (Linux
cooked). What stands in a frame behind the end of its packet is not compared, and the packets may stand in another order within a window. It
names the packets of OURS that are missing in THEIRS, those of THEIRS that are not in OURS, and those that differ, with the fields that do;
with `--verdicts` each with its record's number and line: OURS is then read twice, so it is no pipe. VERDICTS that tells of another number of
packets than OURS has is rejected.

Fields: version, length, tos, id, flags, offset, ttl, checksum, source, destination, options, protocol, label, fragment (the place of an IPv6
fragment), fragment-id (its identification), and port-source, port-destination, payload; those of the header inside a tunnel begin with
`in-`. `--ignore` takes these, and `ip-id` (id and in-id), `flow-label` (label), `ttl-outer` (the hop limit of a tunnel packet), `ttl` (ttl
and in-ttl); with an identification or a time to live it leaves out the checksum of its header too."""
import argparse
import collections
import functools
import ipaddress
import struct

from lwaftr_tools import captures, command, packets, verdicts

FIELDS = (
    "version", "length", "tos", "id", "flags", "offset", "ttl", "checksum", "source", "destination", "options", "protocol", "label",
    "fragment", "fragment-id", "port-source", "port-destination", "payload",
)
# what some words of --ignore stand for
ALSO = {
    "id": ("id", "checksum"),
    "in-id": ("in-id", "in-checksum"),
    "ip-id": ("id", "in-id", "checksum", "in-checksum"),
    "flow-label": ("label",),
    "in-ttl": ("in-ttl", "in-checksum"),
    "ttl": ("ttl", "in-ttl", "checksum", "in-checksum"),
    "ttl-outer": ("ttl-outer",),
}


def fields(data):
    """The fields of a packet, in the order of its bytes, those of a packet inside a tunnel too."""
    found = {}
    _fields(data, "", found)
    return found


def _fields(data, front, found):
    version = data[0] >> 4 if data else 0
    found[front + "version"] = version
    if version == 4 and len(data) >= 20:
        size = (data[0] & 15) * 4
        word = struct.unpack_from("!H", data, 6)[0]
        found[front + "tos"], found[front + "length"] = data[1], struct.unpack_from("!H", data, 2)[0]
        found[front + "id"], found[front + "flags"], found[front + "offset"] = struct.unpack_from("!H", data, 4)[0], word >> 13, word & 0x1FFF
        found[front + "ttl"], found[front + "protocol"] = data[8], data[9]
        found[front + "checksum"] = struct.unpack_from("!H", data, 10)[0]
        found[front + "source"], found[front + "destination"] = data[12:16], data[16:20]
        if size > 20:
            found[front + "options"] = data[20:size]
        rest, protocol, is_first = data[size : max(size, found[front + "length"])], data[9], word & 0x1FFF == 0
    elif version == 6 and len(data) >= 40:
        word = struct.unpack_from("!I", data)[0]
        found[front + "tos"], found[front + "label"] = word >> 20 & 255, word & 0xFFFFF
        found[front + "length"], found[front + "ttl"] = struct.unpack_from("!H", data, 4)[0], data[7]
        found[front + "source"], found[front + "destination"] = data[8:24], data[24:40]
        rest, protocol, is_first = data[40 : 40 + found[front + "length"]], data[6], True
        if protocol == 44 and len(rest) >= 8:
            place, number = struct.unpack_from("!HI", rest, 2)
            found[front + "fragment"], found[front + "fragment-id"] = place, number
            protocol, rest, is_first = rest[0], rest[8:], place >> 3 == 0
        found[front + "protocol"] = protocol
        # a packet in the one in a tunnel is what that one carries
        if protocol == 4 and is_first and not front:
            _fields(rest, "in-", found)
            return
    else:
        found[front + "payload"] = data
        return
    if protocol in (6, 17, 33, 132, 136) and is_first and len(rest) >= 4:
        found[front + "port-source"], found[front + "port-destination"] = struct.unpack_from("!HH", rest)
        rest = rest[4:]
    found[front + "payload"] = rest


def ignored(text):
    """The names of the fields that are not compared, of the words of --ignore."""
    known = {*FIELDS, *(f"in-{it}" for it in FIELDS), *ALSO}
    names = set()
    for word in text.split(","):
        if word not in known:
            raise argparse.ArgumentTypeError(f"{word!r} is no field; the fields are told by --help")
        names.update(ALSO.get(word, (word,)))
    return names


def is_ignored(name, names, found):
    """Whether a field of a packet is not compared."""
    return name in names or (name == "ttl" and "ttl-outer" in names and "in-ttl" in found)


class Side:
    """The packets of one capture that are not found in the other one yet: by all compared bytes, and by what most routers keep."""

    def __init__(self):
        self.waiting = collections.OrderedDict()
        self.same = collections.defaultdict(collections.deque)

    def put(self, packet):
        self.waiting[packet.number] = packet
        self.same[packet.key].append(packet.number)

    def take(self, key):
        """The first packet that waits with these bytes."""
        numbers = self.same.get(key)
        if not numbers:
            return None
        number = numbers.popleft()
        if not numbers:
            del self.same[key]
        return self.waiting.pop(number)

    def late(self, most):
        """The packets that have waited through a whole window."""
        while self.waiting and next(iter(self.waiting)) < most:
            number, packet = self.waiting.popitem(last=False)
            numbers = self.same[packet.key]
            numbers.remove(number)
            if not numbers:
                del self.same[packet.key]
            yield packet


# By what two packets that differ are taken for one, one after the other: what is behind the ports with one port, and then the ends.
ALIKE = (
    ("protocol", "port-destination", "payload"),
    ("protocol", "port-source", "payload"),
    ("source", "destination", "protocol", "port-source", "port-destination", "id"),
)


class Packet:
    """A packet of one of the captures; where no field is left out it is told by its bytes alone."""

    def __init__(self, number, data, names, line):
        self.number, self.line, self.bytes = number, line, data
        self.key = data
        if names:
            self.key = tuple((name, value) for name, value in self.found.items() if not is_ignored(name, names, self.found))

    @functools.cached_property
    def found(self):
        return fields(self.bytes)

    def some(self, names):
        """Some fields of the packet inside, or of one that has none inside."""
        front = "in-" if "in-version" in self.found else ""
        return tuple(self.found.get(front + it) for it in names)


def shown(name, value):
    if isinstance(value, bytes):
        if name.endswith(("source", "destination")) and len(value) in (4, 16):
            return str(ipaddress.ip_address(value))
        return f"{len(value)} bytes {value[:8].hex()}{'..' if len(value) > 8 else ''}"
    return str(value)


def lines(path):
    """For each packet of OUT its record's line in VERDICTS."""
    for words in verdicts.of_records(path):
        for _ in range(int(words[-1])):
            yield " ".join(words)


def check(ours, path):
    """Refuses VERDICTS that can't be of the run that wrote a capture."""
    told = sum(int(words[-1]) for words in verdicts.of_records(path))
    there = sum(1 for _ in captures.records(ours))
    if told != there:
        raise verdicts.VerdictsError(f"{path} tells of {told} packets, and {ours} has {there}: give the VERDICTS of the run that wrote {ours}")


class Report:
    def __init__(self, most):
        self.counts, self.most = collections.Counter(), most

    def say(self, kind, text):
        self.counts[kind] += 1
        if sum(self.counts.values()) <= self.most:
            command.say(f"{kind}: {text}\n")


def told(packet):
    names = [front + it for front in ("", "in-") for it in ("source", "destination", "port-source", "port-destination")]
    return " ".join(f"{it} {shown(it, packet.found[it])}" for it in names if it in packet.found)


def place(packet):
    return f"packet {packet.number}" + (f" (record {packet.line.split()[0]}: {packet.line})" if packet.line else "")


def settle(ours, theirs, names, report):
    """Of packets whose window is over: pairs that differ in few fields, and then what is left alone."""
    theirs = {it.number: it for it in theirs}
    for alike in ALIKE:
        found = collections.defaultdict(collections.deque)
        for it in theirs.values():
            found[it.some(alike)].append(it)
        left = []
        for mine in ours:
            others = found.get(mine.some(alike))
            if not others:
                left.append(mine)
                continue
            other = others.popleft()
            del theirs[other.number]
            every = list(dict.fromkeys([*mine.found, *other.found]))
            apart = [it for it in every if mine.found.get(it) != other.found.get(it) and not is_ignored(it, names, mine.found)]
            said = ", ".join(f"{it} {shown(it, mine.found.get(it))} here, {shown(it, other.found.get(it))} there" for it in apart)
            report.say("differs", f"{place(mine)} and their packet {other.number}: {said or 'bytes that no field names'}")
        ours = left
    for mine in ours:
        report.say("missing there", f"{place(mine)}: {told(mine)}")
    for other in theirs.values():
        report.say("not ours", f"their packet {other.number}: {told(other)}")


def packet_of(record, path):
    """The bytes of a record's packet, or None where its frame holds none."""
    if record.link not in packets.LINKS:
        raise captures.CaptureError(f"{path}: link type {record.link} is not read")
    data = packets.strip(record.link, record.bytes)
    return None if data is None else packets.unpadded(data)


def compare(words):
    names, report = words.ignore, Report(words.most)
    mine, other = Side(), Side()
    late_mine, late_other = [], []
    told_lines = lines(words.verdicts) if words.verdicts else None
    streams = [captures.records(words.ours), captures.records(words.theirs)]
    counts = [0, 0]
    matched = 0
    while streams[0] or streams[1]:
        for at, (side, against) in enumerate(((mine, other), (other, mine))):
            record = next(streams[at], None) if streams[at] else None
            if record is None:
                streams[at] = None
                continue
            data = packet_of(record, (words.ours, words.theirs)[at])
            if data is None:
                continue
            line = next(told_lines, "") if told_lines and at == 0 else ""
            packet = Packet(record.number, data, names, line)
            counts[at] += 1
            if against.take(packet.key) is None:
                side.put(packet)
            else:
                matched += 1
        if max(counts) % 1024 == 0 or not (streams[0] or streams[1]):
            late_mine += mine.late(max(counts) - words.window)
            late_other += other.late(max(counts) - words.window)
            if len(late_mine) + len(late_other) > words.window:
                settle(late_mine, late_other, names, report)
                late_mine, late_other = [], []
    settle(late_mine + list(mine.waiting.values()), late_other + list(other.waiting.values()), names, report)
    totals = ", ".join(f"{report.counts[it]} {it}" for it in ("differs", "missing there", "not ours"))
    command.say(f"{counts[0]} packets of ours, {counts[1]} of theirs: {matched} the same, {totals}\n")
    return command.REFUSED if report.counts else command.DONE


def main():
    it = command.Parser(__doc__)
    it.add_argument("ours", metavar="OURS", type=command.source, help="OUT of a run of this router")
    it.add_argument("theirs", metavar="THEIRS", type=command.source, help="what another router sent for the same input")
    it.add_argument("--verdicts", metavar="VERDICTS", type=command.source, help="VERDICTS of the run that wrote OURS")
    it.add_argument("--ignore", type=ignored, default=set(), metavar="FIELDS", help="fields that are not compared, with commas between")
    it.add_argument("--window", type=command.from_one, default=20000, metavar="N", help="how many packets a packet may be late (20000)")
    it.add_argument("--most", type=command.from_zero, default=100, metavar="N", help="how many differences are printed (100); all are counted")
    words = it.parse_args()
    if words.verdicts:
        check(words.ours, words.verdicts)
    return compare(words)


if __name__ == "__main__":
    command.run(main)
