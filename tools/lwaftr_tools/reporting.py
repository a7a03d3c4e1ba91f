"""What a report counts: a run's records by outcome, rule, table and subscriber, over its course."""
from __future__ import annotations

import collections
import re

from . import captures, command, counters, packets, tables, verdicts

PARTS = 240
MOST_NAMES = 65536
# a line of VERSIONS
VERSION = re.compile(r"(\d+|-) .+ (initial|at \d+|refused .+|not-reached)")


class Course:
    """Counts by kind over a growing stretch, in at most PARTS parts: where it is full, two parts become one."""

    def __init__(self):
        self.width, self.parts = 1, []

    def add(self, place, kind):
        at = place // self.width
        while at >= PARTS:
            pairs = [self.parts[i : i + 2] for i in range(0, len(self.parts), 2)]
            self.parts = [sum(pair, collections.Counter()) for pair in pairs]
            self.width *= 2
            at = place // self.width
        while len(self.parts) <= at:
            self.parts.append(collections.Counter())
        self.parts[at][kind] += 1


class Names:
    """The names that come most often, and how often each kind came with them: of more names than are kept the rarest go."""

    def __init__(self):
        self.found, self.lost = {}, 0

    def add(self, name, kind, count=1):
        if name not in self.found and len(self.found) >= 2 * MOST_NAMES:
            kept = sorted(self.found.items(), key=lambda it: -sum(it[1].values()))
            self.lost += len(kept) - MOST_NAMES
            self.found = dict(kept[:MOST_NAMES])
        self.found.setdefault(name, collections.Counter())[kind] += count

    def most(self, count):
        return sorted(self.found.items(), key=lambda it: (-sum(it[1].values()), it[0]))[:count]


class Report:
    def __init__(self):
        self.records = self.sent = self.answered = self.limited = self.expired = self.unfinished = 0
        self.outcomes, self.rules, self.tables = collections.Counter(), collections.Counter(), collections.Counter()
        self.by_record, self.by_time = Course(), Course()
        self.first_time = self.last_time = None
        self.names = Names()
        # for each later table the first record that it judged, and its time from the first record on, in milliseconds
        self.came, self.version = {}, 0
        # the first record of each rule, and the table in force
        self.first_of = {}
        self.rule_bytes, self.traffic = collections.Counter(), collections.Counter()

    def line(self, words):
        """A line of VERDICTS; the kind of its record, if it is one's."""
        if words[0] in verdicts.DATAGRAMS:
            setattr(self, words[0], getattr(self, words[0]) + 1)
            return None
        self.records += 1
        self.outcomes[words[2]] += 1
        version = int(words[1])
        if version and version not in self.tables:
            self.came[version] = (self.records - 1, None)
        self.tables[version] += 1
        self.version = version
        self.sent += int(words[-1])
        kind = words[2]
        if kind == "drop":
            kind = words[3]
            self.rules[kind] += 1
            self.first_of.setdefault(kind, (self.records - 1, version))
            self.answered += words[-1] != "0"
            self.limited += words[-2] == "limited"
        self.by_record.add(self.records - 1, kind)
        return kind

    def time(self, time, kind):
        """The time of the record of the last line."""
        if self.first_time is None:
            self.first_time = time
        self.last_time = time
        place = max(0, time - self.first_time) // 1_000_000
        self.by_time.add(place, kind)
        if self.came.get(self.version) == (self.records - 1, None):
            self.came[self.version] = (self.records - 1, place)


def subscriber(data, table):
    """Who a packet is about, as text."""
    if not data:
        return "no packet"
    if data[0] >> 4 == 6:
        found = packets.ip6(data)
        return f"tunnel from {found.source}" if found else "no packet"
    found = packets.ip4(data)
    if not found:
        return "no packet"
    if table:
        owner = table.owner(found.destination, packets.key(found, 1))
        if owner:
            return f"tunnel to {owner.b4}"
    return f"address {found.destination}"


def read(words):
    """The report of a run, by the files that the words name."""
    report, table = Report(), tables.read(words.table) if words.table else None
    records = captures.records(words.input) if words.input else None
    sent = captures.records(words.out) if words.out else None
    for line in verdicts.lines(words.verdicts):
        kind = report.line(line)
        if kind is None or records is None:
            continue
        record = next(records, None)
        if record is None:
            raise verdicts.VerdictsError(f"{words.verdicts} has more lines of records than {words.input} has records ({report.records - 1})")
        data = packets.strip(record.link, record.bytes)
        report.time(record.time, kind)
        size = counters.received(report.traffic, data, line)
        if kind not in verdicts.OUTCOMES:
            report.rule_bytes[kind] += size
            report.names.add(subscriber(data, table), kind)
        if sent:
            for _ in range(int(line[-1])):
                counters.sent(report.traffic, _next(sent, words), kind)
    for stream, path in ((records, words.input), (sent, words.out)):
        if stream is not None and next(stream, None) is not None:
            raise verdicts.VerdictsError(f"{words.verdicts} has lines of {report.records} records, and {path} has more records")
    return report


def _next(sent, words):
    record = next(sent, None)
    if record is None:
        raise verdicts.VerdictsError(f"{words.verdicts} tells of more packets than {words.out} has")
    return record.bytes


def versions(path):
    """The lines of VERSIONS."""
    with open(path, encoding="utf-8", errors="replace", newline="\n") as file:
        lines = [command.readable(line.rstrip("\n")) for line in file]
    for number, line in enumerate(lines, 1):
        if not VERSION.fullmatch(line):
            raise verdicts.VerdictsError(f"{path}:{number}: this is no line of VERSIONS; a capture is given by --in")
    return lines
