#!/usr/bin/env python3
"""What changes for subscribers from one table to another.

First come the subscribers that lose something: those that are gone, those whose ports go to another subscriber or to nobody, and those whose
addresses are others; then those that are new or gain ports; then the settings. A subscriber is told by its end of the tunnel. Ports are
compared one by one, so two spellings of one set are equal, and a set of another shape is named with the ports that are lost and gained.
`--most` limits how many subscribers are printed of each kind; all are counted."""
from __future__ import annotations

import dataclasses
import functools
import heapq
import json

from lwaftr_tools import addresses, command, tables

GONE, LOSES, MOVED, GAINS, NEW = "gone", "loses ports", "moved", "gains ports", "new"
KINDS = (GONE, LOSES, MOVED, GAINS, NEW)
MEANING = {
    GONE: "the subscriber is in the new table no more",
    LOSES: "the subscriber keeps an address, and loses ports of it",
    MOVED: "the subscriber has another IPv4 address",
    GAINS: "the subscriber gains ports and loses none",
    NEW: "the subscriber was not in the old table",
}


B4, IPV4, SHAPE, SET = 0, 1, slice(2, 4), slice(2, 5)


@functools.lru_cache(maxsize=None)
def set_of(length, offset, psid):
    """A set of ports, of the texts of a row."""
    return tables.Binding(None, None, int(offset), int(length), int(psid))


@functools.lru_cache(maxsize=None)
def size_of(shape):
    return set_of(*shape, "0").port_count()


@functools.lru_cache(maxsize=None)
def ranges_of_set(row_set):
    return set_of(*row_set).ranges()


# Python 3.10 has a method for it
ones_of = getattr(int, "bit_count", lambda mask: bin(mask).count("1"))


class Ports:
    """Ports of one address: those of some rows that other rows do not have. Neither the rows nor the others overlap one another."""

    __slots__ = ("rows", "others", "is_apart", "count")

    def __init__(self, rows, others):
        self.rows, self.others = rows, others
        # two sets of one shape share all ports or none
        self.is_apart = not others or len({it[SHAPE] for it in (*rows, *others)}) == 1
        self.count = sum([size_of(it[SHAPE]) for it in rows]) if self.is_apart else ones_of(self.mask())

    def mask(self):
        kept = 0
        for it in self.rows:
            kept |= set_of(*it[SET]).mask()
        for it in self.others:
            kept &= ~set_of(*it[SET]).mask()
        return kept

    def ranges(self):
        """The ports as pairs of a first and a last one."""
        return ranges_of_set(self.rows[0][SET]) if self.is_apart and len(self.rows) == 1 else ranges_of(self.mask())

    def ranges_as_json(self):
        return json_of_set(self.rows[0][SET]) if self.is_apart and len(self.rows) == 1 else json.dumps(self.ranges())


@functools.lru_cache(maxsize=None)
def json_of_set(row_set):
    return json.dumps(ranges_of_set(row_set))


def ranges_of(mask):
    """The runs of ones in a number, as pairs of the first and the last place."""
    found, at = [], 0
    while mask:
        zeros = (mask & -mask).bit_length() - 1
        mask >>= zeros
        ones = (~mask & mask + 1).bit_length() - 1
        mask >>= ones
        found.append((at + zeros, at + zeros + ones - 1))
        at += zeros + ones
    return found


def grouped(rows, place):
    """Rows by one of their texts."""
    found = {}
    for it in rows:
        found.setdefault(it[place], []).append(it)
    return found


def without(rows, others):
    """For each address the ports of some rows that others lack; no row is among both."""
    found, of_others = {}, grouped(others, IPV4)
    for ipv4, its in grouped(rows, IPV4).items():
        ports = Ports(its, of_others.get(ipv4, ()))
        if ports.count:
            found[ipv4] = ports
    return found


def count_without(rows, others):
    """How many ports of some rows others lack."""
    if rows and others:
        return sum([it.count for it in without(rows, others).values()])
    return size_of(rows[0][SHAPE]) if len(rows) == 1 else sum([size_of(it[SHAPE]) for it in rows])


class Change:
    """What changes for one subscriber: its rows that are gone, those that come, and how many ports it loses and gains by them."""

    __slots__ = ("b4", "gone", "come", "ports_lost", "ports_gained")

    def __init__(self, b4, gone, come):
        self.b4, self.gone, self.come = b4, gone, come
        self.ports_lost, self.ports_gained = count_without(gone, come), count_without(come, gone)

    def lost(self):
        """For each address the ports that are lost."""
        return without(self.gone, self.come)

    def gained(self):
        return without(self.come, self.gone)

    def order(self):
        """Where it stands among the changes of its kind."""
        return -self.ports_lost, addresses.packed6(self.b4)


def b4_of(block):
    """The subscriber of a binding, which stands first."""
    return block.split('"', 2)[1]


def changes(old, new):
    """The changes of all subscribers, by kind. What both tables have is passed over as text."""
    kept = set(old.blocks).intersection(new.blocks)
    gone, come = (grouped(tables.rows_of([it for it in its.blocks if it not in kept]), B4) for its in (old, new))
    touched = gone.keys() | come.keys()
    # where a subscriber has an address in a binding that stays
    stays = grouped(tables.rows_of([it for it in kept if b4_of(it) in touched]), B4)
    found = {kind: [] for kind in KINDS}
    for b4 in touched:
        it = Change(b4, gone.get(b4, ()), come.get(b4, ()))
        if it.ports_lost or it.ports_gained:
            found[kind_of(it, stays.get(b4, ()))].append(it)
    return found


def kind_of(change, stays):
    """What happens to a subscriber, some of whose rows stay."""
    if not stays and not change.gone:
        return NEW
    if not stays and not change.come:
        return GONE
    if not change.ports_lost:
        return GAINS
    before, after = ({it[IPV4] for it in (*its, *stays)} for its in (change.gone, change.come))
    return MOVED if before.isdisjoint(after) else LOSES


def settings(old, new):
    """Each setting that differs, with both values."""
    for it in dataclasses.fields(tables.Softwire):
        values = getattr(old.softwire, it.name), getattr(new.softwire, it.name)
        if values[0] != values[1]:
            yield it.name, *(value if isinstance(value, (bool, int)) else str(value) for value in values)


def owner(new_rows, lost):
    """One of those who have lost ports now, with such a port; None if nobody has. The new rows are given by their addresses."""
    for ipv4, ports in lost.items():
        its = [(it[B4], set_of(*it[SET])) for it in new_rows.get(ipv4, ())]
        for port in (port for ends in ports.ranges() for port in ends):
            for b4, of in its:
                if of.owns(port):
                    return b4, f"port {port} of {ipv4}"
    return None


def shown(ports_of):
    """Ranges in words; of many only the first."""
    said = []
    for ipv4, ports in ports_of.items():
        its = ports.ranges()
        texts = [f"{first}" if first == last else f"{first}-{last}" for first, last in its[:4]]
        more = f" and {len(its) - 4} more ranges" if len(its) > 4 else ""
        said.append(f"{ipv4} {', '.join(texts)}{more}")
    return "; ".join(said)


def line(it, new_rows):
    parts, lost, gained = [f"  {it.b4}:"], it.lost(), it.gained()
    if lost:
        parts.append(f"loses {it.ports_lost:,} ports ({shown(lost)})")
        if now := owner(new_rows, lost):
            parts.append(f"which {now[0]} has now ({now[1]})")
    if gained:
        parts.append(f"{'and ' if lost else ''}gains {it.ports_gained:,} ports ({shown(gained)})")
    return " ".join(parts)


def totals(old, new, found):
    kinds = ", ".join(f"{len(found[it]):,} {it}" for it in KINDS)
    lost, gained = (sum(getattr(it, name) for its in found.values() for it in its) for name in ("ports_lost", "ports_gained"))
    return f"{len(old.blocks):,} bindings before, {len(new.blocks):,} now. Subscribers: {kinds}. Ports: {lost:,} lost, {gained:,} gained.\n"


def as_text(old, new, found, keys, most):
    """The lines of the text."""
    yield totals(old, new, found)
    first = {kind: heapq.nsmallest(most, its, key=Change.order) for kind, its in found.items()}
    lost = {it[IPV4] for its in first.values() for change in its for it in change.gone}
    new_rows = grouped(tables.rows_of([it for it in new.blocks if ipv4_of(it) in lost]), IPV4)
    for kind, its in first.items():
        if found[kind]:
            yield f"\n{kind}: {MEANING[kind]}\n"
            yield from (f"{line(it, new_rows)}\n" for it in its)
        if len(found[kind]) > len(its):
            yield f"  and {len(found[kind]) - len(its):,} more\n"
    if keys:
        yield "\nsettings\n"
        yield from (f"  {name}: {str(before).lower()} before, {str(now).lower()} now\n" for name, before, now in keys)


def ipv4_of(block):
    """The address of a binding, which stands behind the subscriber."""
    return block.split('"', 4)[3]


def as_json(old, new, found, keys):
    """The lines of the JSON; a subscriber's is put together of texts, since most sets of ports come often."""
    head = {
        "bindings": {"old": len(old.blocks), "new": len(new.blocks)},
        "settings": [{"name": name, "old": before, "new": now} for name, before, now in keys],
    }
    yield f'{json.dumps(head)[:-1]}, "subscribers": ['
    mark = "\n"
    for kind, its in found.items():
        for it in sorted(its, key=Change.order):
            yield f'{mark}{{"b4": "{it.b4}", "change": "{kind}", "lost": {ports_as_json(it.lost())}, "gained": {ports_as_json(it.gained())}}}'
            mark = ",\n"
    yield "\n]}\n"


def ports_as_json(ports_of):
    inside = ", ".join([f'"{ipv4}": {ports.ranges_as_json()}' for ipv4, ports in ports_of.items()])
    return f"{{{inside}}}"


def main():
    it = command.Parser(__doc__)
    it.add_argument("old", metavar="OLD", type=command.source, help="the table before")
    it.add_argument("new", metavar="NEW", type=command.source, help="the table after")
    it.add_argument("--json", action="store_true", help="print all changes as JSON")
    it.add_argument("--most", type=command.from_zero, default=20, metavar="N", help="how many subscribers of a kind are printed (20)")
    words = it.parse_args()
    old, new = tables.document(words.old), tables.document(words.new)
    found, keys = changes(old, new), list(settings(old, new))
    for text in as_json(old, new, found, keys) if words.json else as_text(old, new, found, keys, words.most):
        command.say(text)
    return command.REFUSED if any(found.values()) or keys else command.DONE


if __name__ == "__main__":
    command.run(main)
