#!/usr/bin/env python3
"""Why a record of a capture was forwarded or dropped: its headers, its verdict, who owns its source and destination, and which of the
causes of its rule it is. N counts from 0, as VERDICTS does; tcpdump and Wireshark call the record packet N + 1.

    tools/why.py IN TABLE N [--verdicts VERDICTS]

With VERDICTS of a run the line is taken from there; without it the program is run over the capture under TABLE alone, into a folder
that goes again. What is said of owners and causes is by TABLE: with several tables in a run, give the one that the line's second number
names. Of a fragment that makes a datagram whole the verdict is the datagram's, which is put together of the records before it. IN and
VERDICTS are read more than once, so they are no pipes; nor is TABLE without VERDICTS."""
import contextlib
import os
import tempfile

from lwaftr_tools import captures, clock, command, fragments, packets, rules, tables, verdicts


@contextlib.contextmanager
def verdicts_of(capture, table):
    """The path of VERDICTS of a run of the program."""
    with tempfile.TemporaryDirectory() as folder:
        files = [f"{folder}/{it}" for it in ("out", "verdicts", "versions")]
        code, said = tables.ran("run", os.path.abspath(capture), *files, os.path.abspath(table))
        if code:
            command.warn(f"{command.tool_name()}: {said or f'the program ended with {code}'}")
        if not os.path.exists(files[1]):
            raise command.Unusable(f"the program made no VERDICTS of {capture}")
        yield files[1]


def line_of(path, number, name):
    """The words of a record's line in VERDICTS, which are called by their name where it is not there."""
    for words in verdicts.of_records(path):
        if words[0] == str(number):
            return words
    raise command.Unusable(f"{name} has no line of record {number}")


def record_of(capture, number):
    for it in captures.records(capture):
        if it.number == number:
            return it
    raise command.Unusable(f"{capture} has no record {number}")


def head4(packet):
    found = packets.ports(packet)
    ends = f"{packet.source}{f' port {found[0]}' if found else ''} to {packet.destination}{f' port {found[1]}' if found else ''}"
    marks = (", DF" if packet.df else "") + (f", a fragment at byte {packet.offset}{more(packet)}" if packet.is_fragment() else "")
    kind = message_kind(packet) if packet.protocol == packets.ICMP and packet.offset == 0 else ""
    return f"IPv4 {ends}, {packets.name(packet.protocol)}{kind}, time to live {packet.ttl}, {packet.total} bytes{marks}"


def head6(packet):
    piece = f", a fragment at byte {packet.fragment.offset}{more(packet.fragment)}" if packet.fragment else ""
    kind = message_kind(packet) if packet.next == packets.ICMP6 and not packet.is_later_fragment() else ""
    return f"IPv6 {packet.source} to {packet.destination}, {packets.name(packet.next)}{kind}, hop limit {packet.hop_limit}{piece}"


def more(fragment):
    return ", more follow" if fragment.more else ""


def message_kind(packet):
    """Type and code of an ICMP message."""
    return f" type {packet.payload[0]} code {packet.payload[1]}" if len(packet.payload) > 1 else ""


# how many headers are shown, each inside the one before it
MOST_HEADERS = 6


def headers(packet, most=MOST_HEADERS):
    """The headers of a packet, of what it carries and of what it quotes, each a line that stands further in than the one before it."""
    if most == 0:
        return ["and more"]
    if isinstance(packet, packets.Ip4):
        quote = packets.quoted(packet)
        return [head4(packet), *(further(headers(quote, most - 1), "quotes ") if quote else [])]
    inner, quote = packets.inside(packet), packets.quoted6(packet)
    if inner:
        return [head6(packet), *further(headers(inner, most - 1))]
    return [head6(packet), *(further(headers(quote, most - 1), "quotes ") if quote else [])]


def further(lines, front=""):
    return [f"  {front if at == 0 else ''}{line}" for at, line in enumerate(lines)]


def ip4_of(packet):
    """The IPv4 packet whose ends have owners: that in a tunnel, or the packet itself."""
    return packets.inside(packet) if isinstance(packet, packets.Ip6) else packet


def of_records(whole):
    """What a datagram is put together of, in words."""
    count = len(whole.records)
    listed = ", ".join(map(str, whole.records)) if count <= 8 else f"{whole.records[0]} to {whole.records[-1]} ({count} records)"
    return f"the verdict is that of the datagram of records {listed}; its first fragment (record {whole.first}) tells ports and time to live:"


# The rules that are told by a record and the fragments before it, whatever the table.
ALONE = {
    "frame-short": "the record has too few bytes for the frame header of its link type",
    "frame-type": "the frame holds neither IPv4 nor IPv6, or has more than one VLAN tag",
    "ip4-malformed": "its IPv4 header is faulty, or fewer bytes are there than it claims",
    "ip4-checksum": "the checksum of its IPv4 header is wrong",
    "ip6-malformed": "its IPv6 header is faulty, or fewer bytes are there than it claims",
    "ip6-chain": "its extension headers are cut off, out of order, or ask for source routing",
    "frag-odd": "the fragment is empty, or its length is no multiple of 8 although more follow",
    "frag-long": "the fragment, or the datagram that it completes, reaches past 65,535 bytes",
    "frag-overlap": "fragments of its datagram overlap or contradict one another",
    "frag-many": "its datagram comes in more than 256 fragments",
    "frag-full": "256 datagrams wait for the rest of their fragments in its lane",
    "held": "a fragment that waits for the rest of its datagram",
}


def held_until_when(words, path):
    """What became of the datagram that begins with a held record, by the lines `expired` and `unfinished`."""
    for line in verdicts.lines(path):
        if line[0] in verdicts.DATAGRAMS and line[1] == words[0]:
            when = "it was given up after 60 seconds" if line[0] == "expired" else "it was not whole at the end of the capture"
            return f"a fragment that waits for the rest of its datagram, which never came: {when}"
    return ALONE["held"]


def whole_of(capture, path, record):
    """The packet that the verdict of a record is of."""
    data = packets.strip(record.link, record.bytes)
    if data and fragments.may_be_fragment(data):
        return fragments.whole_of(capture, path, record.number)
    packet = packets.of_record(record)
    return fragments.Whole(packet, [record.number], record.number) if packet else None


def cause_of(words, table, whole, path):
    """The cause of a verdict, where the table gives this verdict; else what the table gives."""
    told = verdicts.outcome(words)
    if told == "held":
        return held_until_when(words, path)
    if told in ALONE:
        return ALONE[told]
    if not whole:
        return f"this record can't be {told} by itself, and no fragments of its datagram are found before it: are these the verdicts of this capture?"
    found, cause = rules.judge(table, whole.packet)
    if found == told:
        return cause
    return f"under this table record {words[0]} would be {found}: is it the table of the line's second number ({words[1]})?"


def time_of(record):
    """The time of a record as a date and as seconds."""
    return f"{clock.shown(record.time)} ({record.time // 1_000_000_000}.{record.time % 1_000_000_000:09})"


def explain(table, record, words, path):
    """Prints what is said of a record: the table, the record, the words of the command, the path of VERDICTS."""
    line, packet = line_of(path, record.number, words.verdicts or "the run"), packets.of_record(record)
    said = [f"record {record.number} (packet {record.number + 1} of tcpdump): {len(record.bytes)} bytes, {time_of(record)}"]
    said += further(headers(packet)) if packet else []
    whole = None if verdicts.outcome(line) in ALONE else whole_of(words.input, path, record)
    if whole and len(whole.records) > 1:
        packet = whole.packet
        said += [of_records(whole), *further(headers(packet))]
    said.append(f"verdict: {' '.join(line)}")
    ends = ip4_of(packet) if packet else None
    if ends:
        said += [f"  source: {rules.owner(table, ends.source, ends, 0)}", f"  destination: {rules.owner(table, ends.destination, ends, 1)}"]
    said.append(f"why: {cause_of(line, table, whole, path)}")
    command.say("\n".join(said) + "\n")


def main():
    it = command.Parser(__doc__)
    it.add_argument("input", metavar="IN", help="the capture")
    it.add_argument("table", metavar="TABLE", help="the table that was in force")
    it.add_argument("number", metavar="N", type=command.from_zero, help="the record, counted from 0")
    it.add_argument("--verdicts", metavar="VERDICTS", help="VERDICTS of a run over IN")
    words = it.parse_args()
    for path in (words.input, words.verdicts or words.table):
        if os.path.exists(path) and not os.path.isfile(path):
            raise command.Unusable(f"{path} is no plain file: it is to be read more than once")
    table, record = tables.read(words.table), record_of(words.input, words.number)
    with contextlib.nullcontext(words.verdicts) if words.verdicts else verdicts_of(words.input, words.table) as path:
        explain(table, record, words, path)


if __name__ == "__main__":
    command.run(main)
