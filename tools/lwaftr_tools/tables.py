"""Binding tables: read as the program reads them, asked who owns a port, and written as TOML."""
from __future__ import annotations

import dataclasses
import functools
import ipaddress
import os
import re
import subprocess
import tempfile
import typing

from . import addresses, command

TOP = os.path.dirname(os.path.dirname(os.path.dirname(os.path.abspath(__file__))))
INSTALLED = "/usr/bin/lwaftr"
# of an installed tool the command, of one in a repository the script at its top
PLACES = (INSTALLED,) if TOP == "/usr/lib/lwaftr" else (f"{TOP}/lwaftr", INSTALLED)
PROGRAM = os.environ.get("LWAFTR") or next((it for it in PLACES if os.path.exists(it)), "lwaftr")
# the most bindings of a table
MOST = 65536


class TableError(command.Refused):
    """A file that is no table, and why."""


class Binding(typing.NamedTuple):
    """One subscriber's share of an IPv4 address (RFC 7597, section 5.1)."""

    b4: ipaddress.IPv6Address
    ipv4: ipaddress.IPv4Address
    offset: int = 0
    length: int = 0
    psid: int = 0

    def is_whole(self):
        """The address is the subscriber's alone."""
        return self.offset == 0 and self.length == 0

    def owns(self, port):
        return psid_of(port, self.offset, self.length) == self.psid

    def low_bits(self):
        """How many bits of a port come behind the identifier."""
        return 16 - self.offset - self.length

    def port_count(self):
        return (max(1, (1 << self.offset) - 1)) << self.low_bits()

    def ranges(self):
        """The ports as pairs of a first and a last one, in order; ranges that touch are one."""
        first = self.psid << self.low_bits()
        return [(first + start, first + last) for start, last in _ranges_of_zero(self.offset, self.length)]

    def spans(self):
        """The ports as slices of a list that has an entry for each port: as few as there are ranges, or ports of a range."""
        ranges, step = self.ranges(), 1 << (16 - self.offset)
        if len(ranges) <= 1 << self.low_bits():
            return [slice(first, last + 1) for first, last in ranges]
        return [slice(port, 65536, step) for port in range(ranges[0][0], ranges[0][1] + 1)]

    def mask(self):
        """The ports as the bits of a number: bit P is set if port P is of the set."""
        return _mask_of_zero(self.offset, self.length) << (self.psid << self.low_bits())


@functools.lru_cache(maxsize=None)
def _ranges_of_zero(offset, length):
    """The ranges of the set with identifier 0 of a shape (RFC 7597, section 5.1)."""
    size, step = 1 << (16 - offset - length), 1 << (16 - offset)
    if not offset:
        return [(0, size - 1)]
    # without bits for an identifier one range ends where the next begins
    return [(at, at + size - 1) for at in range(step, 1 << 16, step)] if length else [(step, 65535)]


@functools.lru_cache(maxsize=None)
def _mask_of_zero(offset, length):
    return sum((2 << last) - (1 << first) for first, last in _ranges_of_zero(offset, length))


def psid_of(port, offset, length):
    """The identifier of the set that a port is in; None if it is in none (RFC 7597, section 5.1)."""
    if offset and port >> (16 - offset) == 0:
        return None
    return (port >> (16 - offset - length)) & ((1 << length) - 1)


@dataclasses.dataclass
class Softwire:
    """The router's own addresses and settings."""

    aftr: ipaddress.IPv6Address
    own: ipaddress.IPv4Address
    mtu6: int = 1500
    mtu4: int = 1500
    hop_limit: int = 64
    hairpin: bool = True
    icmp_in: bool = True
    errors_up: bool = False
    errors_down: bool = False


class Table:
    def __init__(self, softwire, bindings, edition=2):
        self.softwire, self.bindings, self.edition = softwire, bindings, edition
        # for each address that was asked for, and each shape of its sets, the bindings by their identifiers
        self.sets = {}

    @functools.cached_property
    def of(self):
        """For each IPv4 address its bindings."""
        found = {}
        for it in self.bindings:
            found.setdefault(it.ipv4, []).append(it)
        return found

    def shapes_of(self, address):
        """For each shape of an address's sets the bindings by their identifiers; of two with one identifier the first."""
        if address not in self.sets:
            found = self.sets[address] = {}
            for it in reversed(self.of.get(address, ())):
                found.setdefault((it.offset, it.length), {})[it.psid] = it
        return self.sets[address]

    def owner(self, address, port):
        """The binding that owns a port of an address; of a protocol without ports, where `port` is None, that has all of it."""
        if address not in self.of:
            return None
        shapes = self.shapes_of(address)
        if port is None:
            return shapes[0, 0].get(0) if (0, 0) in shapes else None
        for (offset, length), by_psid in shapes.items():
            found = by_psid.get(psid_of(port, offset, length))
            if found:
                return found
        return None


class Document:
    """A table as the program writes it. Its bindings are texts, in which two bindings are equal if the texts are."""

    def __init__(self, softwire, bindings, edition):
        self.softwire, self.bindings, self.edition = softwire, bindings, edition

    @functools.cached_property
    def blocks(self):
        """The text of each binding, without its head."""
        front, *blocks = self.bindings.split(HEAD)
        if front:
            raise unknown_form()
        return blocks

    @functools.cached_property
    def rows(self):
        return rows_of(self.blocks)


class Row(typing.NamedTuple):
    """A binding as texts."""

    b4: str
    ipv4: str
    length: str
    offset: str
    psid: str

    def binding(self):
        return Binding(addresses.ipv6(self.b4), addresses.ipv4(self.ipv4), int(self.offset), int(self.length), int(self.psid))


def read(path):
    """The table of a file; the program judges it, and of one that it refuses the error has what it says."""
    it, ipv6, ipv4 = document(path), addresses.ipv6, addresses.ipv4
    bindings = [Binding(ipv6(b4), ipv4(address), int(offset), int(length), int(psid)) for b4, address, length, offset, psid in it.rows]
    return Table(it.softwire, bindings, it.edition)


def document(path):
    """The table of a file, as `read`, with its bindings as texts."""
    with tempfile.TemporaryDirectory() as folder:
        return parsed(migrated(path, f"{folder}/table.toml"))


def migrated(path, made):
    """The document that `lwaftr migrate` makes of a table, with every key of each binding and of the settings."""
    code, said = ran("migrate", "--", os.path.abspath(path), made)
    if code == 5:
        raise TableError(said)
    if code:
        raise command.Unusable(said or f"{path}: the program ended with {code}")
    with open(made, encoding="ascii") as file:
        return file.read()


def ran(*words):
    """The exit code of the program, and what it said on standard error."""
    # a table may come by a pipe that the shell has opened
    it = subprocess.run([PROGRAM, *words], capture_output=True, encoding="utf-8", errors="replace", close_fds=False, check=False)
    return it.returncode, it.stderr.strip()


# a binding as `lwaftr migrate` writes it: its head, and what is below it
HEAD = "[[binding]]\n"
BINDING = re.compile(r'b4 = "([^"\n]+)"\nipv4 = "([^"\n]+)"\nlength = (\d+)\noffset = (\d+)\npsid = (\d+)\n\n')
SETTING = re.compile(r'(\w+) = (?:"([^"\n]+)"|(\w+))\n')


def unknown_form():
    return TableError(f"{PROGRAM} migrate wrote a form that this tool does not know: are both of one release?")


def parsed(text):
    """What a document says that `lwaftr migrate` wrote."""
    if text.startswith("binding = []\n"):
        text = text.partition("\n")[2]
    front, mark, tail = text.rpartition("[softwire]\n")
    version = SETTING.match(front)
    if not mark or not version:
        raise unknown_form()
    keys = {it[1]: it[2] or it[3] for it in SETTING.finditer(tail)}
    settings = {it.name: _setting(keys[it.name]) for it in dataclasses.fields(Softwire)[2:]}
    return Document(Softwire(addresses.ipv6(keys["aftr"]), addresses.ipv4(keys["own"]), **settings), front[version.end() + 1 :], int(version[3]))


def rows_of(blocks):
    """The bindings of some blocks."""
    text, at, rows, row = "".join(blocks), 0, [], Row._make
    for found in BINDING.finditer(text):
        if found.start() != at:
            break
        at = found.end()
        rows.append(row(found.groups()))
    if at != len(text):
        raise unknown_form()
    return rows


def _setting(word):
    return word == "true" if word in ("true", "false") else int(word)


def text(table):
    """The table as a file."""
    keys = table.softwire
    lines = [f"version = {table.edition}", "[softwire]", f'aftr = "{keys.aftr}"', f'own = "{keys.own}"']
    lines += [f"{it} = {getattr(keys, it)}" for it in ("mtu6", "mtu4", "hop_limit")]
    lines += [f"{it} = {str(getattr(keys, it)).lower()}" for it in ("hairpin", "icmp_in", "errors_up", "errors_down")]
    last, dotted = None, ""
    for b4, ipv4, offset, length, psid in table.bindings:
        if ipv4 is not last:
            last, dotted = ipv4, str(ipv4)
        lines.append(f'[[binding]]\nb4 = "{addresses.shown(b4)}"\nipv4 = "{dotted}"\noffset = {offset}\nlength = {length}\npsid = {psid}')
    return "\n".join(lines) + "\n"
