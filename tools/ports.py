#!/usr/bin/env python3
"""Who has which ports of a table: the capacity of all, the sets of one subscriber (--b4), or all sets of one address with their owners and the
free ones (--ipv4). A table with bindings in conflict is refused by the program at the first one; here each conflict is named, and the exit
code is 1."""
from __future__ import annotations

import collections
import json
import re

from lwaftr_tools import addresses, command, converting, tables


def shown(ranges):
    return ", ".join(f"{first}" if first == last else f"{first}-{last}" for first, last in ranges)


def shape(offset, length):
    return "the whole address" if (offset, length) == (0, 0) else f"offset {offset}, length {length}"


def in_words(count):
    return f"{count:,} set{'' if count == 1 else 's'}"


def one(it):
    """A binding as keys and values."""
    return {
        "b4": addresses.shown(it.b4), "ipv4": str(it.ipv4), "offset": it.offset, "length": it.length, "psid": it.psid,
        "ports": it.port_count(), "ranges": it.ranges(),
    }


def of_subscriber(rows, b4):
    subscriber = addresses.shown(b4)
    found = [one(it.binding()) for it in rows if it.b4 == subscriber]
    lines = [f"{subscriber}: {in_words(len(found))}, {sum(it['ports'] for it in found):,} ports"]
    for it in found:
        lines.append(f"  {it['ipv4']}, {shape(it['offset'], it['length'])}, psid {it['psid']}: {it['ports']:,} ports: {shown(it['ranges'])}")
    return found, lines


def free_of(bindings):
    """The free identifiers of an address by shape: those whose sets share no port with a binding."""
    taken = bytearray(65536)
    for it in bindings:
        for first, last in it.ranges():
            taken[first : last + 1] = b"\1" * (last + 1 - first)
    free = {}
    for offset, length in sorted({(it.offset, it.length) for it in bindings}):
        sets = (tables.Binding(None, None, offset, length, psid) for psid in range(1 << length))
        free[offset, length] = [it.psid for it in sets if not any(1 in taken[first : last + 1] for first, last in it.ranges())]
    return free


def of_address(rows, ipv4):
    bindings = sorted((it.binding() for it in rows if it.ipv4 == str(ipv4)), key=lambda it: (it.offset, it.length, it.psid))
    found = {"ipv4": str(ipv4), "sets": [one(it) for it in bindings], "free": []}
    lines = [f"{ipv4}: {in_words(len(bindings))}, {sum(it.port_count() for it in bindings):,} ports in use"]
    for it in bindings:
        lines.append(f"  {shape(it.offset, it.length)}, psid {it.psid}: {addresses.shown(it.b4)}: {shown(it.ranges())}")
    for (offset, length), psids in free_of(bindings).items():
        found["free"].append({"offset": offset, "length": length, "psids": psids})
        spans = shown(spans_of(psids))
        lines.append(f"  free with {shape(offset, length)}: {len(psids):,} of {1 << length:,} sets{': psid ' + spans if psids else ''}")
    return found, lines


def spans_of(numbers):
    found = []
    for it in numbers:
        if found and found[-1][1] == it - 1:
            found[-1] = found[-1][0], it
        else:
            found.append((it, it))
    return found


def of_all(rows):
    by_address = shapes_by_address(rows)
    sizes = collections.Counter()
    for shapes in by_address.values():
        for (length, offset), count in shapes.items():
            sizes[tables.Binding(None, None, int(offset), int(length)).port_count()] += count
    used = sum(count * size for size, count in sizes.items())
    free = free_in_all(by_address)
    subscribers = len({it.b4 for it in rows})
    found = {
        "addresses": len(by_address), "bindings": len(rows), "subscribers": subscribers, "ports": used,
        "free-sets": free, "ports-of-a-set": {str(size): count for size, count in sizes.items()},
    }
    lines = [
        f"{len(by_address):,} addresses, {len(rows):,} bindings of {subscribers:,} subscribers, {used:,} ports in use",
        f"{free:,} sets are free on these addresses, counted where all sets of an address have one shape",
    ]
    lines += [f"  {count:,} sets of {size:,} ports" for size, count in sizes.most_common()]
    return found, lines


def shapes_by_address(rows):
    """For each address how many sets it has of each shape, which is a length and an offset."""
    found = {}
    for _, ipv4, length, offset, _ in rows:
        shapes = found.setdefault(ipv4, {})
        shapes[length, offset] = shapes.get((length, offset), 0) + 1
    return found


def free_in_all(by_address):
    """How many sets are free on the addresses whose sets have one shape."""
    free = 0
    for shapes in by_address.values():
        if len(shapes) == 1:
            (length, _), count = next(iter(shapes.items()))
            free += (1 << int(length)) - count
    return free


def conflicts(bindings):
    """Each pair of bindings that share a port: their places, and the first port that they share. Of a port that many share the first one of
    them is paired with each other one."""
    by_address = {}
    for at, it in enumerate(bindings):
        by_address.setdefault(it.ipv4, []).append((at, it))
    for its in by_address.values():
        is_one_shape = len({it[2:4] for _, it in its}) == 1
        yield from conflicts_of_one_shape(its) if is_one_shape else conflicts_of_shapes(its)


def conflicts_of_one_shape(its):
    """Two sets of one shape share all ports or none."""
    first_of = {}
    for late, it in its:
        first = first_of.setdefault(it.psid, late)
        if first != late:
            yield first, late, it.ranges()[0][0]


def conflicts_of_shapes(its):
    """Conflicts on an address whose sets have several shapes: each port is given to the first binding that has it."""
    owners = [None] * 65536
    for late, it in its:
        spans = it.spans()
        if any(owners[span].count(None) < len(owners[span]) for span in spans):
            first_port = {}
            for first, last in it.ranges():
                for port in range(first, last + 1):
                    if owners[port] is None:
                        owners[port] = late
                    else:
                        first_port.setdefault(owners[port], port)
            yield from ((first, late, port) for first, port in first_port.items())
        else:
            for span in spans:
                owners[span] = [late] * len(owners[span])


# a binding each of whose keys stands on a line of its own
PLAIN = re.compile(r'(?:(?:(?:b4|ipv4) = "[^"\\\n]*"|(?:offset|length|psid) = \d+)?\n)*')
VALUE = re.compile(r'(\w+) = "?([^"\n]+)')


def plain_bindings(text):
    """The bindings of a table in which each key stands on a line of its own; None of any other table."""
    front, *blocks = f"{text}\n".split("\n[[binding]]\n")
    if not blocks or '"""' in text or "'''" in text:
        return None
    blocks[-1] = blocks[-1].partition("\n[softwire]\n")[0] + "\n"
    blocks = [f"{it}\n" for it in blocks]
    return [binding(dict(VALUE.findall(it))) for it in blocks] if all(map(PLAIN.fullmatch, blocks)) else None


def binding(keys):
    shape_and_psid = (int(keys.get(name, 0)) for name in ("offset", "length", "psid"))
    return tables.Binding(addresses.ipv6(keys["b4"]), addresses.ipv4(keys["ipv4"]), *shape_and_psid)


def without_the_judge(path):
    """The bindings of a table that the program refuses for a conflict alone: all else of it is judged before."""
    text = command.text_of(path)
    found = plain_bindings(text)
    if found is not None:
        return found
    try:
        import tomllib
    except ImportError:
        raise command.Unusable("the table is refused, and to name each conflict of one in this form this tool needs Python 3.11 or later") from None
    return [binding(it) for it in tomllib.loads(text)["binding"]]


def main():
    it = command.Parser(__doc__)
    it.add_argument("table", metavar="TABLE", help="the table")
    which = it.add_mutually_exclusive_group()
    which.add_argument("--b4", metavar="IPV6", type=converting.address_word(addresses.ipv6), help="the sets of this subscriber")
    which.add_argument("--ipv4", metavar="IPV4", type=converting.address_word(addresses.ipv4), help="the sets of this address")
    it.add_argument("--json", action="store_true", help="print JSON")
    words = it.parse_args()
    try:
        rows = tables.document(words.table).rows
    except tables.TableError as error:
        if " twice " not in str(error).splitlines()[0]:
            raise
        return tell_conflicts(words)
    if words.b4:
        found, lines = of_subscriber(rows, words.b4)
    elif words.ipv4:
        found, lines = of_address(rows, words.ipv4)
    else:
        found, lines = of_all(rows)
    command.say(json.dumps(found) + "\n" if words.json else "\n".join(lines) + "\n")
    return command.DONE


def tell_conflicts(words):
    bindings = without_the_judge(words.table)
    found = list(conflicts(bindings))
    if words.json:
        command.say(json.dumps({"conflicts": [{"bindings": [a, b], "ipv4": str(bindings[a].ipv4), "port": port} for a, b, port in found]}) + "\n")
        return command.REFUSED
    lines = []
    for a, b, port in found:
        first, late = bindings[a], bindings[b]
        lines.append(
            f"port {port} of {first.ipv4} is in binding {a} (psid {first.psid}, {addresses.shown(first.b4)}) "
            f"and in binding {b} (psid {late.psid}, {addresses.shown(late.b4)})\n"
        )
    command.say("".join(lines) + f"{len(found):,} conflicts; the program refuses the table\n")
    return command.REFUSED


if __name__ == "__main__":
    command.run(main)
