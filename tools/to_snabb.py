#!/usr/bin/env python3
"""A table as a configuration of Snabb's lwaftr: the binding table and the settings of both interfaces. Devices, neighbours and
queues are not in a table: they are to be added."""
from lwaftr_tools import command, converting, tables


def flag(value):
    return "true" if value else "false"


def text(table):
    keys = table.softwire
    lines = ["softwire-config {", "  external-interface {", f"    ip {keys.own};", f"    mtu {keys.mtu4};"]
    lines += [f"    allow-incoming-icmp {flag(keys.icmp_in)};", f"    generate-icmp-errors {flag(keys.errors_down)};", "  }"]
    lines += ["  internal-interface {", f"    ip {keys.aftr};", f"    mtu {keys.mtu6};", f"    hop-limit {keys.hop_limit};"]
    lines += [f"    hairpinning {flag(keys.hairpin)};", f"    generate-icmp-errors {flag(keys.errors_up)};", "  }", "  binding-table {"]
    aftr = str(keys.aftr)
    for b4, ipv4, length, offset, psid in table.rows:
        lines.append(
            f"    softwire {{ ipv4 {ipv4}; psid {psid}; b4-ipv6 {b4}; br-address {aftr}; "
            f"port-set {{ psid-length {length}; reserved-ports-bit-count {offset}; }} }}"
        )
    return "\n".join([*lines, "  }", "}", ""])


def main():
    words = converting.parsed(converting.parser(__doc__, "TABLE"))
    command.put(words.output, text(tables.document(words.file)))


if __name__ == "__main__":
    command.run(main)
