"""Counters of a run with the names of RFC 8676's traffic statistics, as JSON and in Prometheus' text form, and sums of them."""
from __future__ import annotations

import collections
import json

from . import command, packets

# what a report in JSON is, so that another file is not taken for one
KIND = "lwaftr-report"
TUNNEL_HEADER = 40


def size_of(data):
    """The bytes of an IP packet by its header, or those that are there if it says none."""
    return len(packets.unpadded(data)) if data else 0


def received(traffic, data, words):
    """Counts a record with its line of VERDICTS; answers the bytes of its packet."""
    size = size_of(data)
    family = {4: "ipv4", 6: "ipv6"}.get(data[0] >> 4) if data else None
    if family is None:
        return size
    _add(traffic, f"rcvd-{family}", size)
    if words[2] == "drop":
        _add(traffic, f"dropped-{family}", size)
        if family == "ipv4" and len(data) >= 20 and (data[6] & 0x3F | data[7]):
            traffic["dropped-ipv4-fragments"] += 1
            traffic["dropped-ipv4-fragment-bytes"] += size
    elif words[2] == "hairpin":
        _add(traffic, "hairpin-ipv4", max(0, size - TUNNEL_HEADER))
    return size


def sent(traffic, data, kind):
    """Counts a packet of OUT, which was written for a record of this kind."""
    size = size_of(data)
    if kind == "up":
        _add(traffic, "sent-ipv4", size)
    elif kind in ("down", "hairpin"):
        _add(traffic, "sent-ipv6", size)
    else:
        is_icmpv6 = len(data) > 6 and data[0] >> 4 == 6 and data[6] == packets.ICMP6
        _add(traffic, "out-icmpv6-error" if is_icmpv6 else "out-icmpv4-error", size)


def _add(traffic, name, size):
    traffic[f"{name}-packets"] += 1
    traffic[f"{name}-bytes"] += size


def tree(report, has_bytes):
    """A report as a tree of plain values."""
    return {
        "kind": KIND,
        "records": report.records, "packets-sent": report.sent, "errors-sent": report.answered, "errors-limited": report.limited,
        "datagrams-expired": report.expired, "datagrams-unfinished": report.unfinished,
        "outcomes": dict(report.outcomes),
        "rules": {name: {"packets": count, **({"bytes": report.rule_bytes[name]} if has_bytes else {})} for name, count in report.rules.most_common()},
        "traffic-stat": dict(sorted(report.traffic.items())),
        "subscribers": {name: dict(kinds) for name, kinds in report.names.most(len(report.names.found))},
        "subscribers-are-all": not report.names.lost,
    }


def load(path):
    """A report that was written as JSON."""
    try:
        found = json.loads(command.text_of(path))
    except (json.JSONDecodeError, RecursionError):
        found = None
    if not isinstance(found, dict) or found.get("kind") != KIND:
        raise command.Unusable(f"{path}: it is no report that report.py --json wrote")
    return found


def added(reports):
    """The sum of reports: numbers are added, at whatever depth; a yes stays if all have it."""
    total = reports[0]
    for it in reports[1:]:
        total = _sum(total, it)
    return total


def _sum(one, other):
    if isinstance(one, dict) and isinstance(other, dict):
        return {name: _sum(one[name], other[name]) if name in one and name in other else one.get(name, other.get(name)) for name in {**one, **other}}
    if isinstance(one, bool) and isinstance(other, bool):
        return one and other
    if isinstance(one, int) and isinstance(other, int):
        return one + other
    if one == other:
        return one
    raise command.Unusable(f"reports that cannot be added: {one!r} and {other!r}")


def as_json(found):
    return json.dumps(found, indent=1) + "\n"


def as_prometheus(found):
    """Prometheus' text form (version 0.0.4). Rules and outcomes are labels; subscribers are left out, since each would be a series."""
    lines = []

    def family(name, text, samples):
        lines.extend([f"# HELP lwaftr_{name} {text}", f"# TYPE lwaftr_{name} counter"])
        lines.extend(f"lwaftr_{name}{labels} {value}" for labels, value in samples)

    family("records_total", "Records judged, by outcome.", [(f'{{outcome="{it}"}}', count) for it, count in found["outcomes"].items()])
    family("dropped_packets_total", "Records dropped, by rule.", [(f'{{rule="{it}"}}', its["packets"]) for it, its in found["rules"].items()])
    with_bytes = [(f'{{rule="{it}"}}', its["bytes"]) for it, its in found["rules"].items() if "bytes" in its]
    if with_bytes:
        family("dropped_bytes_total", "Bytes of the packets dropped, by rule.", with_bytes)
    for name, text in (
        ("packets-sent", "Packets written."), ("errors-sent", "Drops that an error answered."), ("errors-limited", "Errors that the limit kept back."),
        ("datagrams-expired", "Datagrams given up after 60 s."), ("datagrams-unfinished", "Datagrams that wait at the end."),
    ):
        family(f"{name.replace('-', '_')}_total", text, [("", found[name])])
    for name, value in found["traffic-stat"].items():
        family(f"{name.replace('-', '_')}_total", f"The counter {name} of RFC 8676.", [("", value)])
    return "\n".join(lines) + "\n"


def as_text(found):
    """A sum of reports in words."""
    of = found["records"]
    lines = [f"{of:,} records, {found['packets-sent']:,} packets sent", "", "By outcome"]
    lines += [f"  {name:<10}{share(count, of)}" for name, count in _by_count(found["outcomes"])]
    lines += ["", "Drops by rule"] + [f"  {name:<20}{share(its, of)}" for name, its in _by_count({it: its["packets"] for it, its in found["rules"].items()})]
    return "\n".join(lines) + "\n"


def _by_count(counts):
    return collections.Counter(counts).most_common()


def share(count, of):
    return f"{count:>12,} {100 * count / of if of else 0:6.2f} %"
