"""What the converters share: their options, what they say of what is left out, and how a table is judged and written."""
from __future__ import annotations

import argparse
import dataclasses
import functools
import os
import re
import tempfile

from . import addresses, command, tables

SETTINGS = ("mtu6", "mtu4", "hop_limit")
SWITCHES = ("hairpin", "icmp_in", "errors_up", "errors_down")
HELP = {
    "mtu6": "the largest IPv6 packet towards a subscriber, in bytes",
    "mtu4": "the largest IPv4 packet towards the IPv4 network, in bytes",
    "hop_limit": "the hop limit of the packets that the router makes",
    "hairpin": "whether subscribers reach one another through the router",
    "icmp_in": "whether ICMP passes towards subscribers",
    "errors_up": "whether a subscriber's packet without a binding is answered by an error",
    "errors_down": "whether an IPv4 packet without a binding is answered by an error",
}
NUMBER = re.compile(r"0|[1-9][0-9]{0,17}|0[xX][0-9a-fA-F]{1,15}")


def parser(what, reads):
    it = command.Parser(what)
    it.add_argument("file", metavar=reads, type=command.source, help="the file that is read; - is standard input")
    it.add_argument("-o", "--output", default="-", help="the file that is written; without it standard output")
    return it


def parsed(it):
    """The words of a converter, whose output is no input of it."""
    words = it.parse_args()
    command.keep_apart([words.file], [words.output])
    return words


def address_word(read):
    """The reader of an option that is an address."""
    def of_word(word):
        try:
            return read(word)
        except ValueError as error:
            raise argparse.ArgumentTypeError(str(error)) from None

    return of_word


def settings(it):
    """The options for settings that the other format lacks, or that are to be others."""
    it.add_argument("--aftr", metavar="IPV6", type=address_word(addresses.ipv6), help="the router's end of the tunnels; only its subscribers are carried")
    it.add_argument("--own", metavar="IPV4", type=address_word(addresses.ipv4), help="the source of the router's own ICMP errors")
    for name in SETTINGS:
        it.add_argument(f"--{name.replace('_', '-')}", metavar="N", type=command.from_zero, help=HELP[name])
    for name in SWITCHES:
        it.add_argument(f"--{name.replace('_', '-')}", choices=("true", "false"), help=HELP[name])
    return it


class SourceError(command.Refused):
    """A line of the source that is not understood."""

    def __init__(self, file, line, text):
        super().__init__(f"{file}:{line}: {text}")


@dataclasses.dataclass
class Notes:
    """What is left out of a file, each with its line, on standard error."""

    file: str

    def left_out(self, line, what, why=""):
        command.warn(f"{self.file}:{line}: left out: {what}{': ' + why if why else ''}")

    def not_said(self, words, found, usual, whose=""):
        """Names each setting that neither the file nor the words give, with the default that is taken."""
        for name in (*SETTINGS, *SWITCHES):
            if name not in found and getattr(words, name) is None:
                value = str(usual.get(name, getattr(tables.Softwire, name))).lower()
                command.warn(f"{self.file}: not said: {name}: {whose}{value} is taken (--{name.replace('_', '-')})")


@functools.lru_cache(maxsize=1 << 12)
def number(name, word):
    """A number as it is written: 52 or 0x34, without leading zeros."""
    if not NUMBER.fullmatch(word):
        raise ValueError(f"{name} {word!r} is no number (written as 52 or 0x34, without leading zeros)")
    return int(word, 0)


def softwire(words, found):
    """The settings: those of the words, else those that were found, else the defaults."""
    given = dict(found)
    for name in ("aftr", "own", *SETTINGS):
        if getattr(words, name) is not None:
            given[name] = getattr(words, name)
    for name in SWITCHES:
        if getattr(words, name) is not None:
            given[name] = getattr(words, name) == "true"
    for name in ("aftr", "own"):
        if name not in given:
            raise command.Refused(f"the file does not say `{name}`: give --{name} ADDRESS")
    return tables.Softwire(**given)


def one_tunnel(words, counts):
    """The router's tunnel address: that of the words, or the only one that the file names; `counts` has the bindings of each."""
    if words.aftr or not counts:
        return words.aftr
    if len(counts) > 1:
        said = ", ".join(f"{it} with {count}" for it, count in counts.most_common())
        raise command.Refused(f"several tunnel addresses ({said}): say by --aftr which one's subscribers are carried")
    return next(iter(counts))


def put_table(words, keys, rows):
    """Has the program judge a table, and writes it if it is valid. `rows` has each binding with the line of the source that it came of."""
    text = tables.text(tables.Table(keys, [binding for _, binding in rows]))
    if refusal := judged(text):
        raise command.Refused(refused(words.file, rows, refusal))
    if not rows:
        command.warn(f"{words.file}: no subscriber is in it, so the table has no binding")
    command.put(words.output, text)


def judged(text):
    """What the program says against a table; nothing if it is valid."""
    with tempfile.TemporaryDirectory() as folder:
        path = os.path.join(folder, "table.toml")
        command.put(path, text)
        code, said = tables.ran("check", path)
    return (said or f"{tables.PROGRAM} check ended with {code}").splitlines() if code else []


def refused(file, rows, refusal):
    """The refusal of a table in terms of the source: `rows` has the lines."""
    said = refusal[0][len("table refused: "):] if refusal[0].startswith("table refused: ") else refusal[0]
    help_line = f" ({refusal[2].strip()})" if len(refusal) > 2 else ""
    words = said.split()
    if words[:2] == ["rules", "too-many"]:
        return f"{file}:{rows[tables.MOST][0]}: here the table would have more than {tables.MOST:,} bindings: it has {len(rows):,} in all"
    at = [int(it) for it in words if it.isdigit()]
    if not at or at[-1] >= len(rows) or words[1:2] in (["mtu"], ["hop"]):
        return f"{file}: the table is refused: {said}{help_line}"
    line, binding = rows[at[-1]]
    shown = f"{binding.ipv4}, offset {binding.offset}, length {binding.length}, psid {binding.psid}, {binding.b4}"
    if words[1] == "twice":
        return f"{file}:{line}: refused: it shares a port with line {rows[at[0]][0]}: {shown}"
    return f"{file}:{line}: refused: {said}{help_line}: {shown}"
