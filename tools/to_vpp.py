#!/usr/bin/env python3
"""A table as commands of VPP's map plugin: a domain for each address and shape of port sets, a rule for each binding, and the source
address of errors. VPP has no words for the hop limit, `mtu4`, the hairpin, `icmp_in` and which errors are sent: where these are not
the defaults, they are named on standard error as left out. So is an address with sets of several shapes: VPP finds a domain by its
prefix, and holds one for each."""
from lwaftr_tools import command, converting, tables

NO_WORDS = (("mtu4", 1500), ("hop_limit", 64), ("hairpin", True), ("icmp_in", True), ("errors_up", False), ("errors_down", False))
# offset and length of a binding that has an address alone
WHOLE = ("0", "0")


def text(table):
    keys, shapes = table.softwire, {}
    lines = [f"map params icmp source-address {keys.own}"]
    for b4, ipv4, length, offset, psid in table.rows:
        shape = ipv4, offset, length
        if shape not in shapes:
            shapes[shape] = len(shapes)
            sizes = f"psid-offset {offset} psid-len {length} " if (offset, length) != WHOLE else ""
            lines.append(f"map add domain ip4-pfx {ipv4}/32 ip6-pfx ::/0 ip6-src {keys.aftr} ea-bits-len 0 {sizes}mtu {keys.mtu6}")
        lines.append(f"map add rule index {shapes[shape]} psid {psid} ip6-dst {b4}")
    return "\n".join(lines) + "\n"


def not_carried(table):
    """What VPP has no words for, in words."""
    for name, usual in NO_WORDS:
        if getattr(table.softwire, name) != usual:
            yield f"left out: {name} = {str(getattr(table.softwire, name)).lower()}"
    shapes_of = {}
    for b4, ipv4, length, offset, _ in table.rows:
        shapes_of.setdefault(ipv4, set()).add((offset, length))
        if length == "0" and offset != "0":
            yield f"left out: offset {offset} of {b4}: VPP reads an offset with a psid-len above 0 alone"
    for ipv4, shapes in shapes_of.items():
        if len(shapes) > 1:
            yield f"{ipv4} has sets of {len(shapes)} shapes, so {len(shapes)} domains: VPP finds a domain by its prefix, and holds one for each"


def main():
    words = converting.parsed(converting.parser(__doc__, "TABLE"))
    table = tables.document(words.file)
    for what in not_carried(table):
        command.warn(f"{words.file}: {what}")
    command.put(words.output, text(table))


if __name__ == "__main__":
    command.run(main)
