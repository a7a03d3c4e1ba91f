#!/usr/bin/env python3
"""A table from the commands of VPP's map plugin.

Read are `map add domain ip4-pfx A/32 ip6-pfx P ip6-src T [ea-bits-len 0] [psid-offset O] [psid-len L] [mtu M] [tag ..]`, `map add
rule index D psid S ip6-dst B` (domains are counted from 0, in the order of their lines), and `map params icmp source-address A`.
A domain with a whole address (psid-len 0) and an `ip6-pfx` of 128 bits is one binding by itself. What VPP has no words for
(`own` where no source address is given, the errors, the hairpin) is said by options. All else is named on standard error as left
out, with its line: domains of MAP-E (ea-bits-len above 0, an IPv4 prefix) among it. A command that deletes (`map del ..`, `map add rule ..
del`) is rejected, since VPP gives the numbers of deleted domains away again: write the commands of what stays. The program judges the
table: if it is refused, the line of the commands is named and nothing is written."""
import collections
import ipaddress

from lwaftr_tools import addresses, command, converting, tables


def pairs(words):
    """The words behind a command, as names and values."""
    found = {}
    for at in range(0, len(words), 2):
        if words[at] in found:
            raise ValueError(f"{words[at]} stands twice")
        found[words[at]] = words[at + 1] if at + 1 < len(words) else ""
    return found


def wanted(keys, name):
    """The value of a name that has to be there."""
    if not keys.get(name):
        raise ValueError(f"{name} is wanted, with a value")
    return keys[name]


def number(keys, name):
    """The number of a name, 0 where it is not said."""
    return converting.number(name, keys[name]) if name in keys else 0


class Domain:
    """A domain that this router can hold: one IPv4 address, its port sets' shape, and its tunnel address."""

    def __init__(self, line, keys):
        self.line, self.rules = line, 0
        self.ipv4 = ipaddress.IPv4Network(keys["ip4-pfx"]).network_address
        self.ip6 = ipaddress.IPv6Network(wanted(keys, "ip6-pfx"))
        self.aftr = addresses.tunnel(wanted(keys, "ip6-src").split("/")[0])
        self.offset, self.length = number(keys, "psid-offset"), number(keys, "psid-len")
        self.mtu = number(keys, "mtu") or None
        if self.length == 0:
            self.offset = 0


def unknown(line, keys, known, notes):
    """Names the words of a command that are not read."""
    for name in keys:
        if name not in known:
            notes.left_out(line, f"{name} {keys[name]}".strip())


def domain(line, keys, notes):
    """The domain of a line, or None with what is said of it."""
    unknown(line, keys, ("ip4-pfx", "ip6-pfx", "ip6-src", "ea-bits-len", "psid-offset", "psid-len", "mtu", "tag"), notes)
    if number(keys, "ea-bits-len"):
        notes.left_out(line, "domain", "ea-bits-len above 0 is MAP-E (RFC 7597), which binds no single subscriber")
    elif not wanted(keys, "ip4-pfx").endswith("/32"):
        notes.left_out(line, "domain", "its IPv4 prefix is no single address")
    else:
        if "tag" in keys:
            notes.left_out(line, f"tag {keys['tag']}")
        return Domain(line, keys)
    return None


RULE = ["map", "add", "rule", "index"]


class Commands:
    """What the commands say: the domains by their numbers, the bindings with their lines and domains, and the source address of errors."""

    def __init__(self, notes):
        self.domains, self.bindings, self.own, self.notes = [], [], None, notes

    def take(self, line, words):
        if len(words) == 9 and self.plain_rule(line, words):
            return
        if words[:2] == ["map", "del"] or (words[:1] == ["map"] and "del" in words[3:]):
            raise ValueError("a command that deletes is not read: write the commands of what stays")
        if words[:3] == ["map", "add", "domain"]:
            self.domains.append(domain(line, pairs(words[3:]), self.notes))
        elif words[:3] == ["map", "add", "rule"]:
            self.rule(line, pairs(words[3:]))
        elif words[:4] == ["map", "params", "icmp", "source-address"]:
            keys = pairs(words[3:])
            unknown(line, keys, ("source-address",), self.notes)
            self.own = addresses.ipv4(wanted(keys, "source-address"))
        else:
            self.notes.left_out(line, " ".join(words))

    def plain_rule(self, line, words):
        """Whether the words are a rule as VPP prints it, well written and of a domain that this router can hold; if they are, it is taken."""
        if words[:4] != RULE or words[5] != "psid" or words[7] != "ip6-dst":
            return False
        try:
            of = self.domains[converting.number("index", words[4])]
            binding = tables.Binding(addresses.ipv6(words[8]), of.ipv4, of.offset, of.length, converting.number("psid", words[6]))
        except (AttributeError, IndexError, ValueError):
            return False
        of.rules += 1
        self.bindings.append((line, of, binding))
        return True

    def rule(self, line, keys):
        unknown(line, keys, ("index", "psid", "ip6-dst"), self.notes)
        index = converting.number("index", wanted(keys, "index"))
        if not 0 <= index < len(self.domains):
            raise ValueError(f"there is no domain {index}: {len(self.domains)} stand in front of this rule")
        of = self.domains[index]
        if of is None:
            self.notes.left_out(line, "rule", f"its domain {index} is")
            return
        of.rules += 1
        b4 = addresses.ipv6(wanted(keys, "ip6-dst").split("/")[0])
        psid = converting.number("psid", wanted(keys, "psid"))
        self.bindings.append((line, of, tables.Binding(b4, of.ipv4, of.offset, of.length, psid)))

    def domains_without_rules(self):
        """Adds the domains that are a binding by themselves."""
        for of in self.domains:
            if of is None or of.rules:
                continue
            if of.length == 0 and of.ip6.prefixlen == 128:
                self.bindings.append((of.line, of, tables.Binding(of.ip6.network_address, of.ipv4)))
            else:
                self.notes.left_out(of.line, "domain", "it has no rule, so no subscriber")


def read(text, notes):
    """The bindings with their lines and domains, and the source address of errors."""
    commands = Commands(notes)
    for line, command in enumerate(text.split("\n"), 1):
        words = (command.partition("#")[0] if "#" in command else command).split()
        if words[:1] == ["vppctl"]:
            words = words[1:]
        try:
            if words:
                commands.take(line, words)
        except ValueError as error:
            raise converting.SourceError(notes.file, line, error) from None
    commands.domains_without_rules()
    commands.bindings.sort(key=lambda it: it[0])
    return commands.bindings, commands.own


def main():
    words = converting.parsed(converting.settings(converting.parser(__doc__, "COMMANDS")))
    notes = converting.Notes(words.file)
    found, own = read(command.text_of(words.file), notes)
    aftr = converting.one_tunnel(words, collections.Counter(of.aftr for _, of, _ in found))
    said = {name: it for name, it in (("aftr", aftr), ("own", own)) if it}
    kept, mtus = [], {}
    for line, of, binding in found:
        if of.aftr is not aftr and of.aftr != aftr:
            notes.left_out(line, f"binding of {binding.b4}", f"its tunnel address is {of.aftr}")
        else:
            kept.append((line, binding))
            mtus.setdefault(of.mtu, of.line)
    if len(mtus) == 1 and None not in mtus:
        said["mtu6"] = next(iter(mtus))
    elif len(mtus) > 1:
        notes.left_out(max(mtus.values()), "mtu", f"domains say several ({', '.join(map(str, mtus))}): give --mtu6")
    notes.not_said(words, said, {})
    converting.put_table(words, converting.softwire(words, said), kept)


if __name__ == "__main__":
    command.run(main)
