#!/usr/bin/env python3
"""A table from instance data of the YANG module ietf-softwire-br (RFC 8676), as JSON (RFC 7951) or XML: the binding table of one instance.

Read are of `br-instances/binding/bind-instance`: `name`, `softwire-payload-mtu` (`mtu6` is 40 more; without it `mtu6` is
`softwire-path-mru`), `enable-hairpinning`, `icmp-policy` (`allow-incoming-icmpv4`, `generate-icmpv4-errors`, `generate-icmpv6-errors`) and
`binding-table/binding-entry` (`binding-ipv6info`, `binding-ipv4-addr`, `port-set`, `br-ipv6-addr`). With several instances `--instance` names
one. All else is named on standard error as left out, with its place. What the module has no leaf for (`own`, `mtu4`, `hop_limit`) is given by
options. A setting that the data does not give has the module's default. The program judges the table: if it is refused, the entry is named by
its number in the list, counted from 0, and nothing is written."""
from __future__ import annotations

import collections

from lwaftr_tools import addresses, command, converting, softwire_br, tables

# the defaults of the module
DEFAULTS = {"hairpin": True, "icmp_in": True, "errors_up": True, "errors_down": True}
INSTANCE = ("name", "softwire-payload-mtu", "softwire-path-mru", "enable-hairpinning", "binding-table", "icmp-policy", "softwire-num-max")
POLICY = {
    ("icmpv4-errors", "allow-incoming-icmpv4"): "icmp_in",
    ("icmpv4-errors", "generate-icmpv4-errors"): "errors_down",
    ("icmpv6-errors", "generate-icmpv6-errors"): "errors_up",
}
ENTRY = ("binding-ipv6info", "binding-ipv4-addr", "port-set", "br-ipv6-addr")
PORT_SET = ("psid-offset", "psid-len", "psid")


def plain_entry(it):
    """The tunnel address and the binding of a plain entry that is well written; None of any other one."""
    if not it.b4.endswith("/128"):
        return None
    number = converting.number
    try:
        binding = tables.Binding(addresses.ipv6(it.b4[:-4]), addresses.ipv4(it.ipv4), number("", it.offset), number("", it.length), number("", it.psid))
        return addresses.tunnel(it.aftr), binding
    except ValueError:
        return None


def all_of(entries):
    """The entries of a list in which runs of plain ones stand."""
    for it in entries:
        if isinstance(it, softwire_br.Run):
            yield from it
        else:
            yield it


class Reader:
    """What is read of a document, and where: places are paths."""

    def __init__(self, file, notes):
        self.file, self.notes = file, notes

    def fail(self, place, text):
        raise converting.SourceError(self.file, place, text)

    def part(self, tree, name, place, kind=dict):
        """A node that holds others, empty if it is not there."""
        found = tree.get(name, kind())
        if not isinstance(found, kind):
            self.fail(f"{place}/{name}", f"{'a list' if kind is list else 'a container'} belongs here")
        return found

    def unread(self, tree, known, place):
        for name in tree:
            if name not in known:
                self.notes.left_out(f"{place}/{name}", f"{name} {tree[name] if not isinstance(tree[name], (dict, list)) else ''}".strip())

    def number(self, tree, name, place, usual=None):
        value = tree.get(name, usual)
        try:
            return value if type(value) is int and value >= 0 else converting.number(name, str(value))
        except ValueError as error:
            self.fail(f"{place}/{name}", str(error))

    def flag(self, value, place):
        if value in (True, False):
            return value
        if value not in ("true", "false"):
            self.fail(place, f"{value!r} is neither true nor false")
        return value == "true"

    def address(self, read, tree, name, place):
        try:
            return read(str(tree.get(name, "")))
        except ValueError as error:
            self.fail(f"{place}/{name}", str(error))

    def instance(self, tree, wanted):
        """The instance that is wanted, and its place."""
        place = "/br-instances/binding/bind-instance"
        top = self.part(tree, "br-instances", "")
        self.unread(top, ("binding",), "/br-instances")
        found = self.part(self.part(top, "binding", "/br-instances"), "bind-instance", "/br-instances/binding", list)
        names = [str(it.get("name", "")) for it in found if isinstance(it, dict)]
        if not names or len(names) != len(found):
            self.fail(place, "there is no instance with a binding table")
        if wanted is None and len(names) > 1:
            raise command.Refused(f"{self.file}: several instances ({', '.join(names)}): name one by --instance")
        if wanted is not None and wanted not in names:
            raise command.Refused(f"{self.file}: there is no instance {wanted!r}; there are {', '.join(names)}")
        at = names.index(wanted) if wanted is not None else 0
        for other, name in enumerate(names):
            if other != at:
                self.notes.left_out(f"{place}[{other}]", f"the instance {name!r}")
        return found[at], f"{place}[{at}]"

    def settings(self, tree, place):
        self.unread(tree, INSTANCE, place)
        found = {}
        if "softwire-payload-mtu" in tree:
            found["mtu6"] = self.number(tree, "softwire-payload-mtu", place) + 40
        if "softwire-path-mru" in tree:
            mru = self.number(tree, "softwire-path-mru", place)
            if found.setdefault("mtu6", mru) != mru:
                self.notes.left_out(f"{place}/softwire-path-mru", f"softwire-path-mru {mru}", "softwire-payload-mtu and 40 are taken")
        if "softwire-num-max" in tree:
            self.notes.left_out(f"{place}/softwire-num-max", f"softwire-num-max {tree['softwire-num-max']}", f"a table has at most {tables.MOST:,} bindings")
        if "enable-hairpinning" in tree:
            found["hairpin"] = self.flag(tree["enable-hairpinning"], f"{place}/enable-hairpinning")
        policy = self.part(tree, "icmp-policy", place)
        for name in policy:
            inside = self.part(policy, name, f"{place}/icmp-policy")
            for leaf in inside:
                where = f"{place}/icmp-policy/{name}/{leaf}"
                if (name, leaf) in POLICY:
                    found[POLICY[name, leaf]] = self.flag(inside[leaf], where)
                else:
                    self.notes.left_out(where, f"{leaf} {inside[leaf]}", "say it by `lwaftr run --errors N`" if leaf.endswith("-rate") else "")
        return found

    def entry(self, tree, place):
        """The tunnel address of an entry, and its binding."""
        if isinstance(tree, softwire_br.Plain):
            if plain := plain_entry(tree):
                return plain
            tree = tree.tree()
        if not isinstance(tree, dict):
            self.fail(place, "an entry of a binding table belongs here")
        self.unread(tree, ENTRY, place)
        ports = self.part(tree, "port-set", place)
        self.unread(ports, PORT_SET, f"{place}/port-set")
        prefix = str(tree.get("binding-ipv6info", ""))
        if prefix.endswith("/128"):
            prefix = prefix[:-4]
        elif "/" in prefix:
            self.fail(f"{place}/binding-ipv6info", f"{prefix} is a prefix: the end of a tunnel is one address")
        b4 = self.address(addresses.ipv6, {"binding-ipv6info": prefix}, "binding-ipv6info", place)
        shape = (self.number(ports, name, f"{place}/port-set", 0) for name in PORT_SET)
        aftr = self.address(addresses.ipv6, tree, "br-ipv6-addr", place) if "br-ipv6-addr" in tree else None
        return aftr, tables.Binding(b4, self.address(addresses.ipv4, tree, "binding-ipv4-addr", place), *shape)


def main():
    it = converting.settings(converting.parser(__doc__, "DATA"))
    it.add_argument("--instance", metavar="NAME", help="the name of the instance that is read, if there are several")
    words = converting.parsed(it)
    notes = converting.Notes(words.file)
    reader = Reader(words.file, notes)
    tree, place = reader.instance(softwire_br.read(command.text_of(words.file), words.file), words.instance)
    found = reader.settings(tree, place)
    entries = reader.part(reader.part(tree, "binding-table", place), "binding-entry", f"{place}/binding-table", list)
    front = f"{place}/binding-table/binding-entry"
    read = [(f"{front}[{at}]", *reader.entry(it, f"{front}[{at}]")) for at, it in enumerate(all_of(entries))]
    aftr = converting.one_tunnel(words, collections.Counter(it for _, it, _ in read if it))
    if aftr:
        found["aftr"] = aftr
    notes.not_said(words, found, DEFAULTS)
    kept = []
    for where, its, binding in read:
        if its and its is not aftr and its != aftr:
            notes.left_out(where, f"the entry of {addresses.shown(binding.b4)}", f"its tunnel address is {its}")
        else:
            kept.append((where, binding))
    converting.put_table(words, converting.softwire(words, {**DEFAULTS, **found}), kept)


if __name__ == "__main__":
    command.run(main)
