#!/usr/bin/env python3
"""A table from a configuration of Snabb's lwaftr.

Read are `softwire-config` (the module's statements, also of an instance's queues): of the external interface `ip`, `mtu`,
`allow-incoming-icmp`, `generate-icmp-errors`; of the internal one `ip`, `mtu`, `hop-limit`, `hairpinning`, `generate-icmp-errors`;
and the binding table: `softwire` with `ipv4`, `psid`, `b4-ipv6` (or `b4`), `br-address` (or `br`, a place in the list of
`br-address`), `port-set` with `psid-length` and `reserved-ports-bit-count` or `shift`, and `psid-map` with `addr`, `end-addr`,
`psid-length`, `reserved-ports-bit-count` or `shift`. All else is named on standard error as left out, with its line; so is what says
something else than a statement before it.

A router of this kind has one tunnel address: with several, `--aftr` says which one's subscribers are carried. A setting that the file does
not give has Snabb's default, not that of a table: each is named on standard error with the option that gives another value. The program judges
the table: if it is refused, the line of the configuration is named and nothing is written."""
import bisect
import collections
import functools

from lwaftr_tools import addresses, command, converting, tables, yang

ROOT = ("softwire-config", "lwaftr", "configuration")
EXTERNAL = {"ip": "own", "mtu": "mtu4", "allow-incoming-icmp": "icmp_in", "generate-icmp-errors": "errors_down"}
INTERNAL = {"ip": "aftr", "mtu": "mtu6", "hop-limit": "hop_limit", "hairpinning": "hairpin", "generate-icmp-errors": "errors_up"}
# the defaults of Snabb's model of configurations (snabb-softwire-v2.yang)
DEFAULTS = {
    "mtu6": 1500, "mtu4": 1460, "hop_limit": 255, "hairpin": True, "icmp_in": True, "errors_up": True, "errors_down": True,
}
WHY = {
    "error-rate-limiting": "say it by `lwaftr run --errors N`",
    "reassembly": "this router's limits are fixed: 256 datagrams of 256 fragments a lane, 60 seconds",
    "next-hop": "this router reads and writes captures: it has no neighbours",
    "mac": "this router reads and writes captures: it has no neighbours",
    "vlan-tag": "one VLAN tag is read with or without, and none is written",
    "ingress-filter": "no filters",
    "egress-filter": "no filters",
    "flow-label": "the flow label is 0",
    "device": "this router reads and writes captures",
}


def flag(node):
    if node.value not in ("true", "false"):
        raise yang.YangError(node.line, f"{node.name} {node.value!r} is neither true nor false")
    return node.value == "true"


def number(node):
    try:
        return converting.number(node.name, node.value)
    except ValueError as error:
        raise yang.YangError(node.line, str(error)) from None


def address(read, node, word=None):
    """The address of a statement, or of a word of it."""
    try:
        return read(node.value if word is None else word)
    except ValueError as error:
        raise yang.YangError(node.line, f"{node.name}: {error}") from None


def wanted(node, name):
    """A statement that has to be in another one."""
    found = node.one(name)
    if not found:
        raise yang.YangError(node.line, f"{node.name} has no {name}")
    return found


def unread(node, known, notes):
    """Names the statements of a node that are not read."""
    for it in node.inside:
        if it.name not in known:
            notes.left_out(it.line, f"{node.name} {it.name}", WHY.get(it.name, ""))


def either(node, names, notes):
    """The statement of the first of these names that is there."""
    there = [node.one(name) for name in names if node.one(name)]
    for it in there[1:]:
        notes.left_out(it.line, f"{node.name} {it.name} {it.value}", f"{there[0].name} is taken")
    return there[0] if there else None


def interface(node, names, found, notes):
    """What an interface says of the settings."""
    unread(node, names, notes)
    for it in node.inside:
        name = names.get(it.name)
        if not name:
            continue
        if name in ("aftr", "own"):
            value = address(addresses.ipv6 if name == "aftr" else addresses.ipv4, it, it.value.split("/")[0])
        else:
            value = number(it) if name in converting.SETTINGS else flag(it)
        if found.setdefault(name, value) != value:
            notes.left_out(it.line, f"{node.name} {it.name} {it.value}", f"{str(found[name]).lower()} is taken")


def interfaces(node, table, found, notes):
    """The interfaces of a configuration, and of the queues of its instances."""
    for it in node.inside:
        if it.name == "external-interface":
            interface(it, EXTERNAL, found, notes)
        elif it.name == "internal-interface":
            interface(it, INTERNAL, found, notes)
        elif it.name in ("instance", "queue"):
            interfaces(it, table, found, notes)
        elif it is not table and it.name != "id":
            notes.left_out(it.line, it.name, WHY.get(it.name, ""))


SHAPE = ("psid-length", "reserved-ports-bit-count", "shift")


def shape(node, notes):
    """Offset and length of a port set; where a shift stands in place of the reserved bits, the offset is what is left."""
    length = number(node.one("psid-length")) if node.one("psid-length") else 0
    said = either(node, ("reserved-ports-bit-count", "shift"), notes)
    bits = number(said) if said else 0
    return (16 - length - bits if said and said.name == "shift" else bits), length


class Maps:
    """The shapes that the older form gives to ranges of addresses."""

    def __init__(self, table, notes):
        found = []
        for node in table.all("psid-map"):
            unread(node, ("addr", "end-addr", *SHAPE), notes)
            first = int(address(addresses.ipv4, wanted(node, "addr")))
            last = int(address(addresses.ipv4, node.one("end-addr"))) if node.one("end-addr") else first
            if last < first:
                raise yang.YangError(node.line, f"psid-map: end-addr {node.one('end-addr').value} is below addr {node.one('addr').value}")
            found.append((first, last, shape(node, notes), node))
        self.ranges = []
        for first, last, its, node in sorted(found, key=lambda it: it[0]):
            if self.ranges and first <= self.ranges[-1][1]:
                self._join(first, last, its, node)
            else:
                self.ranges.append((first, last, its, node))
        self.firsts = [it[0] for it in self.ranges]

    def _join(self, first, last, its, node):
        """Adds a range that overlaps the one before it, which has to give the same shape."""
        before = self.ranges[-1]
        if before[2] != its:
            late = max(node, before[3], key=lambda it: it.line)
            raise yang.YangError(late.line, f"psid-map: another one gives {addresses.ipv4_of(first)} another shape")
        self.ranges[-1] = before[0], max(before[1], last), its, before[3]

    def shape_of(self, ipv4):
        """The shape of an address; that of a whole one if no range has it."""
        at = bisect.bisect(self.firsts, int(ipv4)) - 1
        return self.ranges[at][2] if at >= 0 and int(ipv4) <= self.ranges[at][1] else (0, 0)


def tunnel(node, listed, notes):
    """The tunnel address of a softwire, if it says one."""
    said = either(node, ("br-address", "br"), notes)
    if not said:
        return listed[0] if listed else None
    if said.name == "br-address":
        return address(addresses.ipv6, said)
    place = number(said)
    if not 0 <= place < len(listed):
        raise yang.YangError(said.line, f"br {place}: the list of br-address has {len(listed)}, counted from 0")
    return listed[place]


KNOWN = ("ipv4", "psid", "b4-ipv6", "b4", "br-address", "br", "port-set", "padding")
# the usual leaves of a softwire, in the order of a binding behind the tunnel address
PLAIN = ("br-address", "b4-ipv6", "ipv4", "port-set reserved-ports-bit-count", "port-set psid-length", "psid")


@functools.lru_cache(maxsize=yang.MOST_FORMS)
def plain_groups(form):
    return form.groups(PLAIN)


def plain_softwire(node):
    """The tunnel address and the binding of a softwire that has the usual leaves, each once and well written; None of any other one."""
    groups = plain_groups(node.form)
    if not groups:
        return None
    aftr, b4, ipv4, offset, length, psid = node.found.group(*groups)
    number = converting.number
    try:
        binding = tables.Binding(addresses.ipv6(b4), addresses.ipv4(ipv4), number("", offset), number("", length), number("", psid))
        return addresses.tunnel(aftr), binding
    except ValueError:
        return None


def softwires(table, notes):
    """Each softwire with its line, its tunnel address and its binding."""
    listed = [address(addresses.ipv6, it) for it in table.all("br-address")]
    of_map = Maps(table, notes)
    for node in table.all("softwire"):
        if isinstance(node, yang.Flat) and (plain := plain_softwire(node)):
            yield node.line, *plain
            continue
        unread(node, KNOWN, notes)
        b4 = either(node, ("b4-ipv6", "b4"), notes)
        if not b4 or not node.one("ipv4"):
            notes.left_out(node.line, "softwire", "it has no b4-ipv6 or no ipv4")
            continue
        ipv4 = address(addresses.ipv4, node.one("ipv4"))
        ports = node.one("port-set")
        if ports:
            unread(ports, SHAPE, notes)
        offset, length = shape(ports, notes) if ports else of_map.shape_of(ipv4)
        psid = number(node.one("psid")) if node.one("psid") else 0
        yield node.line, tunnel(node, listed, notes), tables.Binding(address(addresses.ipv6, b4), ipv4, offset, length, psid)
    unread(table, ("softwire", "psid-map", "br-address"), notes)


def read(text, notes, found):
    """The softwires of a configuration; its settings go into `found`."""
    top = yang.read(text)
    root = next((it for name in ROOT for it in top.all(name)), top)
    for it in top.inside if root is not top else []:
        if it is not root:
            notes.left_out(it.line, it.name, f"the statement that is read is {root.name} of line {root.line}")
    table = next(iter(root.all("binding-table")), None)
    interfaces(root, table, found, notes)
    if not table:
        raise command.Refused(f"{notes.file}: there is no binding-table")
    return list(softwires(table, notes))


def main():
    words = converting.parsed(converting.settings(converting.parser(__doc__, "CONFIG")))
    notes, found = converting.Notes(words.file), {}
    try:
        wires = read(command.text_of(words.file), notes, found)
    except yang.YangError as error:
        raise converting.SourceError(words.file, error.line, error) from None
    aftr = converting.one_tunnel(words, collections.Counter(it for _, it, _ in wires if it))
    if aftr:
        found["aftr"] = aftr
    notes.not_said(words, found, DEFAULTS, "Snabb's default ")
    kept = []
    for line, its, binding in wires:
        if its and its is not aftr and its != aftr:
            notes.left_out(line, f"softwire of {binding.b4}", f"its tunnel address is {its}")
        else:
            kept.append((line, binding))
    converting.put_table(words, converting.softwire(words, {**DEFAULTS, **found}), kept)


if __name__ == "__main__":
    command.run(main)
