"""Eight subscribers on four addresses, with port sets of all shapes, by the text of RFC 7597, section 5.1."""
import collections
import re
import struct
import time

import network
import packets
from boxes import Capture, ip, load_rules, must, shell
from network import AFTR, QUIET, SERVER
from probes import connections_at_once, download, send_raw, udp_echo
from results import check, info
from router import ALL, Live, compare_with_file, write_table

HOST = "192.168.1.1"
Shape = collections.namedtuple("Shape", "name address offset length psid")
SHAPES = (Shape("s1", "203.0.113.4", 0, 4, 1), Shape("s2", "203.0.113.4", 0, 4, 2), Shape("s3", "203.0.113.4", 0, 8, 255),
          Shape("s4", "203.0.113.5", 6, 4, 3), Shape("s5", "203.0.113.5", 6, 8, 100), Shape("s6", "203.0.113.5", 6, 8, 101),
          Shape("s7", "203.0.113.6", 0, 0, 0), Shape("s8", "203.0.113.7", 6, 0, 0))
NAMES = [shape.name for shape in SHAPES]
# three ways to write a set of several ranges for nftables
PAIRS, CHAINS, BARE = "a map of addresses and ranges", "a chain for each range", "a map of bare ranges"
WAYS = {"s4": PAIRS, "s5": CHAINS, "s6": BARE}
PROTOCOLS = "meta l4proto { tcp, udp, icmp }"
INSIDE = 'oifname "t0" ip saddr 192.168.0.0/16'


def shapes():
    for shape in SHAPES:
        add_subscriber(shape)
    time.sleep(3)
    report_forms()
    table = write_table("/tmp/shapes.toml", ALL + tuple((end_of(shape), *shape[1:]) for shape in SHAPES))
    with Live("shapes", table, "--workers=2") as run:
        with Capture("inet", "out", "shapes/net.pcap", "out", "src net 203.0.113.0/24") as to_server:
            for shape in SHAPES:
                traffic_of(shape)
            for name in ("s3", "s4", "s5", "s6"):
                report_connections(name)
        check_ports(to_server)
        edges_from_server()
        edges_from_subscribers()
    compare_with_file(run)
    shell("net", "ss -K dst 203.0.113.0/24")
    for name in NAMES:
        must(None, f"ip netns del {name}")


# ---- port sets

def ranges_of(shape):
    """The first and last port of each range; ranges that touch are one, as an operator would write them."""
    bits = 16 - shape.offset - shape.length
    joined = []
    for at in range(1, 1 << shape.offset) if shape.offset else (0,):
        low = at << (16 - shape.offset) | shape.psid << bits
        if joined and joined[-1][1] + 1 == low:
            low = joined.pop()[0]
        joined.append((low, (at << (16 - shape.offset) | shape.psid << bits) + (1 << bits) - 1))
    return joined


def owner_of(address, port):
    """The name of the subscriber, or None."""
    return next((shape.name for shape in SHAPES if shape.address == address and any(low <= port <= high for low, high in ranges_of(shape))), None)


def first_port(shape):
    return ranges_of(shape)[0][0] or 80


def edges_of(shape):
    """The first and the last port of each range, and the ports beside them."""
    return [port for low, high in ranges_of(shape) for port in (low - 1, low, high, high + 1) if 0 < port < 65536]


# ---- the subscribers

def end_of(shape):
    return f"2001:db8:10{shape.name[1:]}::1"


def add_subscriber(shape):
    name, network_of = shape.name, f"2001:db8:10{shape.name[1:]}"
    must(None, f"ip netns add {name}")
    must(name, f"sysctl -q -w {QUIET} net.ipv4.ping_group_range='0 2147483647'; ip link set lo up")
    network.make_links([(name, "wan", "isp", f"c{name}")])
    ip("isp", f"addr add {network_of}::ff/64 dev c{name} nodad")
    ip(name, f"addr add {end_of(shape)}/64 dev wan nodad", f"-6 route add default via {network_of}::ff",
       f"-6 tunnel add t0 mode ipip6 local {end_of(shape)} remote {AFTR} dev wan encaplimit none", "link set t0 up", f"addr add {shape.address}/32 dev t0",
       f"addr add {HOST}/32 dev lo", f"route add default dev t0 src {HOST}")
    load_rules(name, rules_of(shape))
    network.start_hosts_services(name)
    shell(name, f"ping -c1 -W2 {network_of}::ff")


def rules_of(shape):
    """NAT to the port set, and its first port for the host's services."""
    chains, rule = source_rules(shape)
    inward = '  iifname "t0"'
    port = first_port(shape)
    return ["table ip nat {", *chains, " chain post { type nat hook postrouting priority 100;", rule, " }",
            " chain pre { type nat hook prerouting priority -100;", f"{inward} tcp dport {port} dnat to {HOST}:80", f"{inward} udp dport {port} dnat to {HOST}:7", " }", "}"]


def source_rules(shape):
    """Chains, and the rule of the chain behind routing."""
    ranges = ranges_of(shape)
    if ranges == [(0, 65535)]:
        return [], f"  {INSIDE} masquerade"
    if len(ranges) == 1:
        return [], f"  {INSIDE} {PROTOCOLS} masquerade to :{ranges[0][0]}-{ranges[0][1]}"
    turns = f"numgen inc mod {len(ranges)}"
    if WAYS[shape.name] == PAIRS:
        pairs = ", ".join(f"{at} : {shape.address} . {low}-{high}" for at, (low, high) in enumerate(ranges))
        return [], f"  {INSIDE} {PROTOCOLS} snat ip to {turns} map {{ {pairs} }}"
    if WAYS[shape.name] == BARE:
        bare = ", ".join(f"{at} : {low}-{high}" for at, (low, high) in enumerate(ranges))
        return [], f"  {INSIDE} {PROTOCOLS} snat to {shape.address} : {turns} map {{ {bare} }}"
    chains = [f" chain range{at} {{ {PROTOCOLS} masquerade to :{low}-{high}; }}" for at, (low, high) in enumerate(ranges)]
    jumps = ", ".join(f"{at} : goto range{at}" for at in range(len(ranges)))
    return chains, f"  {INSIDE} {PROTOCOLS} {turns} vmap {{ {jumps} }}"


FORMS = {
    "several ranges in one rule": "meta l4proto { tcp, udp } masquerade to :1424-1427,2448-2451",
    PAIRS: "meta l4proto { tcp, udp } snat ip to numgen inc mod 2 map { 0 : 203.0.113.5 . 1424-1427, 1 : 203.0.113.5 . 2448-2451 }",
    BARE: "meta l4proto { tcp, udp } snat to 203.0.113.5 : numgen inc mod 2 map { 0 : 1424-1427, 1 : 2448-2451 }",
    CHAINS: "meta l4proto { tcp, udp } numgen inc mod 2 vmap { 0 : goto range0, 1 : goto range1 }"}


def report_forms():
    """Which ways to write several ranges nftables accepts."""
    seen = {}
    for form, rule in FORMS.items():
        with open("/tmp/form.nft", "w") as file:
            file.write("table ip x {\n chain range0 { meta l4proto { tcp, udp } masquerade to :1424-1427; }\n chain range1 { meta l4proto { tcp, udp } masquerade to :2448-2451; }\n"
                       f" chain post {{\n  type nat hook postrouting priority 100;\n  oifname \"t0\" {rule}\n }}\n}}\n")
        code, output = shell(NAMES[0], "nft -c -f /tmp/form.nft")
        seen[form] = "rejected: " + output.splitlines()[0].split("Error: ")[-1][:80] if code else "accepted"
    info(f"{shell(None, 'nft --version')[1].split(' (')[0]}: ways to write a port set of several ranges", seen)


# ---- traffic

def traffic_of(shape):
    name, port = shape.name, first_port(shape)
    ranges = ranges_of(shape)
    bind = (HOST, 0)
    seen = {"ping": pings_from(name), "download": download(name, f"http://{SERVER}", 200_000, options=f"--interface {HOST}")[0],
            "UDP": [udp_echo(name, SERVER, 7, size, count=3, bind=bind)[0] for size in (100, 4000)],
            "download by the server": download("net", f"http://{shape.address}:{port}", 100_000)[0],
            "UDP of the server": [udp_echo("net", shape.address, port, size, count=3)[0] for size in (100, 4000)]}
    due = {"ping": 5, "download": True, "UDP": [3, 3], "download by the server": True, "UDP of the server": [3, 3]}
    check(f"{name}: {shape.address}, offset {shape.offset}, length {shape.length}, psid {shape.psid}: {sum(high - low + 1 for low, high in ranges)} ports, "
          f"in ranges: {len(ranges)}, the first {ranges[0][0]} to {ranges[0][1]}: 5 pings, curl 200 kB, 3 datagrams of 100 and of 4,000 bytes to the server; "
          "curl 100 kB, 3 datagrams of 100 and of 4,000 bytes from the server", "all come back", "all come back" if seen == due else seen, seen == due)


def pings_from(name):
    found = re.search(r"(\d+) received", shell(name, f"ping -n -q -c 5 -i 0.1 -W 6 -I {HOST} {SERVER}", 40)[1])
    return int(found[1]) if found else 0


def report_connections(name):
    shape = next(shape for shape in SHAPES if shape.name == name)
    count = sum(high - low + 1 for low, high in ranges_of(shape)) if len(ranges_of(shape)) == 1 else 252
    shell(name, "conntrack -F")
    info(f"{name}: {count} connections at the same time to one server and port ({WAYS.get(name, 'one range')})", f"{connections_at_once(name, SERVER, 80, count)} are made in 4 s")


def check_ports(to_server):
    used, foreign = collections.defaultdict(set), set()
    for packet in to_server.of_version(4):
        if packet.offset or packet.protocol not in (packets.ICMP, packets.TCP, packets.UDP) or (packet.protocol == packets.ICMP and packet.body[0] not in (0, 8)):
            continue
        port = struct.unpack("!H", packet.body[4:6] if packet.protocol == packets.ICMP else packet.body[:2])[0]
        name = owner_of(packet.source, port)
        if name:
            used[name].add(port)
        elif packet.source in {shape.address for shape in SHAPES}:
            foreign.add((packet.source, port))
    check("source ports and identifiers that the server saw", "all of a set, 3 or more of each subscriber",
          f"{ {name: len(used[name]) for name in NAMES} }, of no set {sorted(foreign)[:3]}", not foreign and all(len(used[name]) > 2 for name in NAMES))
    firsts = {low for low, _ in ranges_of(SHAPES[5])}
    check(f"s6, by {BARE}: ports that nftables uses", "the first of each range alone", f"{len(used['s6'])} ports, {len(used['s6'] - firsts)} others", used["s6"] <= firsts)


def edges_from_server():
    """A datagram to each edge of each range: into which tunnel does it come?"""
    owners = {(shape.address, port): owner_of(shape.address, port) for shape in SHAPES for port in edges_of(shape)}
    captures = {name: Capture("isp", f"c{name}", f"shapes/down-{name}.pcap", "out", "ip6 proto 4") for name in NAMES}
    for address, port in sorted(owners):
        send_raw("net", "e0", packets.udp(SERVER, address, 4444, port, b"edge"), address)
        time.sleep(0.001)
    time.sleep(1)
    came = collections.defaultdict(list)
    for name, capture in captures.items():
        capture.stop()
        for inner in (packet.inner() for packet in capture.of_version(6)):
            if inner and inner.protocol == packets.UDP and inner.body[8:] == b"edge":
                came[inner.destination, inner.ports()[1]].append(name)
    wrong = [(edge, owner, came[edge]) for edge, owner in sorted(owners.items()) if came[edge] != ([owner] if owner else [])]
    owned = sum(map(bool, owners.values()))
    check(f"a datagram of the server to each edge of each range ({len(owners)} ports, {owned} of a set): the tunnel that it comes into", "that of the owner, none for the rest",
          wrong[:3] or "that of the owner, none for the rest", not wrong and owned > 0)


def edges_from_subscribers():
    """A datagram of each subscriber from each edge of its ranges: which leave?"""
    sent = collections.Counter()
    with Capture("inet", "out", "shapes/up.pcap", "out", "udp dst port 4445") as to_server:
        for shape in SHAPES:
            for port in edges_of(shape):
                send_raw(shape.name, "t0", packets.udp(shape.address, SERVER, port, 4445, shape.name.encode()), SERVER)
                sent[shape.name, shape.address, port] += 1
                time.sleep(0.001)
        time.sleep(1)
    left = collections.Counter((packet.body[8:].decode(), packet.source, packet.ports()[0]) for packet in to_server.of_version(4))
    due = collections.Counter({edge: count for edge, count in sent.items() if owner_of(edge[1], edge[2]) == edge[0]})
    check(f"a datagram of each subscriber from each edge of its ranges ({sent.total()}): what leaves", f"the {due.total()} from a port of its own",
          f"{(left & due).total()}, {(left - due).total()} others", left == due and bool(due))
