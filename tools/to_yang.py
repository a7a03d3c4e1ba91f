#!/usr/bin/env python3
"""A table as instance data of the YANG module ietf-softwire-br (RFC 8676): JSON (RFC 7951), or XML with --xml.

The module's list of entries has the subscriber's end of the tunnel as its key, so of a subscriber with several bindings only the first is
written. Its `psid-len` is at most 15, so a set of one port is not. Both are named on standard error, and so is what the module has no leaf for:
`own`, `mtu4` and `hop_limit`. A table whose bindings are not all written makes exit code 1, after all else is written."""
from lwaftr_tools import addresses, command, converting, softwire_br, tables

MOST_LENGTH = 15


def kept(table, file):
    """The rows that the module can express."""
    seen = {}
    for at, it in enumerate(table.rows):
        if it.b4 in seen:
            why = f"the module has one entry for each b4, and binding {seen[it.b4]} is it"
        elif int(it.length) > MOST_LENGTH:
            why = f"its length is {it.length}, and the module's psid-len is at most {MOST_LENGTH}"
        else:
            seen[it.b4] = at
            yield it
            continue
        command.warn(f"{file}: left out: binding {at} ({it.b4}, {it.ipv4}): {why}")


def instance(table, count, name):
    """An instance without its entries."""
    keys = table.softwire
    return {
        "name": name,
        "softwire-num-max": max(1, count),
        "softwire-payload-mtu": keys.mtu6 - 40,
        "softwire-path-mru": keys.mtu6,
        "enable-hairpinning": keys.hairpin,
        "binding-table": {"binding-entry": []},
        "icmp-policy": {
            "icmpv4-errors": {"allow-incoming-icmpv4": keys.icmp_in, "generate-icmpv4-errors": keys.errors_down},
            "icmpv6-errors": {"generate-icmpv6-errors": keys.errors_up},
        },
    }


def main():
    it = converting.parser(__doc__, "TABLE")
    it.add_argument("--xml", action="store_true", help="write XML in place of JSON")
    it.add_argument("--name", default="lwaftr", help="the name of the instance (lwaftr)")
    words = converting.parsed(it)
    table = tables.document(words.file)
    for name in ("own", "mtu4", "hop_limit"):
        command.warn(f"{words.file}: left out: {name} = {getattr(table.softwire, name)}: the module has no leaf for it")
    rows = list(kept(table, words.file))
    tree = {"br-instances": {"binding": {"bind-instance": [instance(table, len(rows), words.name)]}}}
    aftr = addresses.shown(table.softwire.aftr)
    command.put(words.output, softwire_br.as_xml(tree, rows, aftr) if words.xml else softwire_br.as_json(tree, rows, aftr))
    return command.REFUSED if len(rows) < len(table.rows) else command.DONE


if __name__ == "__main__":
    command.run(main)
