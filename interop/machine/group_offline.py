"""lwaftr over what Linux's own router received: each packet beside Linux's, tshark over it, its tunnel packets before the subscribers' kernels."""
import collections
import fcntl
import json
import os
import struct
import time

import network
import packets
from boxes import BASE, RESULTS, Capture, Inside, ip, must, shell
from network import AFTR, ALONE, B4, OWN, SERVER, SHARED
from probes import connect, udp_echo
from results import check, info
from router import LWAFTR, name_of, write_table

FOLDER = f"{RESULTS}/offline"
SIDES = {"in6": ("six", "in"), "out6": ("six", "out"), "in4": ("four", "in"), "out4": ("four", "out")}
# what packets of subscribers may come to here; no others are sent
USUAL = ("up", "down", "held", "drop ttl", "drop too-big", "drop relayed", "drop frame-type", "drop not-ours", "drop not-softwire")
# Linux's tunnel to b4b has room for the encapsulation limit: it takes 1452 bytes, where lwaftr takes 1460
SIZE_OF_B = 1452
IFF_TUN_NO_PI, TUNSETIFF = 0x1001, 0x400454ca


def offline():
    os.makedirs(FOLDER, exist_ok=True)
    network.use_linux_router()
    record_traffic()
    frames = merge_input()
    verdicts = run_over_input()
    sent = [data for _, data in packets.ip_packets(f"{FOLDER}/out.pcap")]
    check_verdicts(verdicts)
    check_upstream(frames, verdicts, sent)
    compare_with_linux(sent)
    check_by_tshark(frames, verdicts, sent)
    put_before_subscribers([data for data in sent if packets.is_ipv6(data)])


# ---- the traffic

def record_traffic():
    captures = [Capture("aftr", device, f"offline/{name}.pcap", side) for name, (device, side) in SIDES.items()]
    time.sleep(0.5)
    traffic_of_subscribers()
    traffic_of_server()
    traffic_with_congestion_marks()
    errors_about_tunnels()
    lost = sum(capture.stop() for capture in captures)
    check("capture of the traffic", "nothing dropped by tcpdump", f"{lost} dropped", lost == 0)


def traffic_of_subscribers():
    for box in ("h1", "h2", "b4c"):
        shell(box, f"ping -n -q -c 3 -i 0.1 {SERVER}; ping -n -q -c 2 -i 0.1 -s 3000 {SERVER}; curl -sS -o /dev/null --max-time 20 http://{SERVER}/200000")
        shell(box, f"curl -sS -o /dev/null --max-time 20 -T {BASE}/machine/network.py http://{SERVER}/; traceroute -n -q 1 -w 1 -N 1 {SERVER}")
        for size in (10, 1400, 1472, 4000, 20000):
            udp_echo(box, SERVER, 7, size)
    shell("h1", f"dig +time=2 +tries=1 @{SERVER} server.example; dig +time=2 +tries=1 +tcp @{SERVER} server.example; "
          f"dig +time=2 +tries=1 +bufsize=4096 txt big.example @{SERVER}")
    shell("h1", f"ping -n -q -c 2 -i 0.1 -M do -s 1432 {SERVER}; traceroute -n -I -q 1 -w 1 -N 1 {SERVER}; traceroute -n -T -q 1 -w 1 -N 1 {SERVER}")
    shell("b4c", f"ping -n -q -c 2 -i 0.1 -Q 0xb8 {SERVER}; ping -n -c 2 -i 0.1 -R {SERVER}; ping -n -c 1 -T tsonly {SERVER}")
    shell("b4c", f"ping -n -q -c 2 -i 0.1 -Q 0xb9 {SERVER}; ping -n -q -c 2 -i 0.1 -Q 0xbb {SERVER}")
    for box in ("h1", "b4c"):
        udp_echo(box, SERVER, 9999, 100, wait=1)
    connect("h1", SERVER, 9998)


def traffic_of_server():
    for where, port in ((SHARED, 1232), (SHARED, 3072), (ALONE, 80)):
        shell("net", f"curl -sS -o /dev/null --max-time 20 http://{where}:{port}/100000")
    udp_echo("net", ALONE, 9999, 100, wait=1)
    udp_echo("net", SHARED, 1235, 100, wait=1)
    for size in (10, 1432, 1460, 1472, 4000):
        udp_echo("net", ALONE, 7, size)
    udp_echo("net", SHARED, 1234, 1000)
    udp_echo("net", SHARED, 3073, 1000)
    shell("net", f"traceroute -n -q 1 -w 1 -N 1 {ALONE}; ping -n -q -c 2 -i 0.1 -Q 0x28 {ALONE}")


def traffic_with_congestion_marks():
    must("h1", "sysctl -q -w net.ipv4.tcp_ecn=1")
    shell("h1", f"curl -sS -o /dev/null --max-time 20 http://{SERVER}/100000")
    must("h1", "sysctl -q -w net.ipv4.tcp_ecn=2")


def errors_about_tunnels():
    """Too big, hop limit used up, no such tunnel, no such neighbour."""
    network.forget()
    must("isp", "ip link set cc mtu 1400")
    shell("net", f"ping -n -q -c 3 -i 0.2 -W 1 -M do -s 1400 {ALONE}")
    must("isp", "ip link set cc mtu 1500")
    network.forget()
    tunnel = f"-6 tunnel change kc mode ipip6 local {AFTR} remote {B4['c']} encaplimit none tclass inherit hoplimit"
    ip("aftr", f"{tunnel} 1")
    shell("net", f"ping -n -q -c 2 -i 0.2 -W 1 {ALONE}")
    ip("aftr", f"{tunnel} 64")
    network.remove_tunnel_of_b4c()
    shell("net", f"ping -n -q -c 2 -i 0.2 -W 1 {ALONE}")
    must("b4c", "ip link set wan down")
    must("isp", "ip -6 neigh flush dev cc")
    shell("net", f"ping -n -q -c 2 -i 0.2 -W 4 {ALONE}")
    must("b4c", f"ip link set wan up; ip -6 addr replace {B4['c']}/64 dev wan nodad")
    network.restore_tunnel_of_b4c()
    must("b4c", "ip -6 route replace default via 2001:db8:3::ff")


# ---- the run

def merge_input():
    """The frames of both sides in the order of their times, as one capture."""
    frames = sorted(record for name in ("in6", "in4") for record in packets.read_capture(f"{FOLDER}/{name}.pcap")[1])
    packets.write_capture(f"{FOLDER}/in.pcap", packets.ETHERNET, frames)
    return frames


def run_over_input():
    table = write_table(f"{FOLDER}/table.toml")
    code, output = shell(None, f"{LWAFTR} run {FOLDER}/in.pcap {FOLDER}/out.pcap {FOLDER}/verdicts {FOLDER}/versions {table} --workers 2")
    check("lwaftr over what Linux's router received", "code 0", f"code {code}, {output.strip()}", code == 0)
    with open(f"{FOLDER}/verdicts") as file:
        return [line.split() for line in file if line[0].isdigit()]


def check_verdicts(verdicts):
    names = collections.Counter(map(name_of, verdicts))
    info("verdicts", json.dumps(names).replace('"', ""))
    others = {name: count for name, count in names.items() if name not in USUAL}
    check("records dropped by another rule than ttl, too-big, relayed, and what is no traffic of subscribers", "none", others or "none", not others)


def one_hop_later(packet):
    """The bytes of an IPv4 packet with a time to live of one less."""
    data = packet.whole()
    header = data[:8] + bytes([packet.ttl - 1]) + data[9:packet.header_length]
    return packets.header_with_checksum(header) + data[packet.header_length:]


def packets_by_record(verdicts, sent):
    """Each verdict with the packets that were sent for its record."""
    at = 0
    for verdict in verdicts:
        count = int(verdict[-1])
        yield verdict, sent[at:at + count]
        at += count


def check_upstream(frames, verdicts, sent):
    """Record by record: what left is what was inside, with one less to live."""
    right, wrong, limited = 0, [], 0
    for (_, frame), (verdict, leaving) in zip(frames, packets_by_record(verdicts, sent)):
        data = packets.ip_packet(packets.ETHERNET, frame)
        if verdict[2] != "up" or not data:
            continue
        outer = packets.parse(data)
        inner = packets.inner_of(outer)
        if inner is None or inner.is_fragment:
            continue
        limited += any(kind == packets.DESTINATION_OPTIONS for kind, _ in outer.extensions)
        if leaving == [one_hop_later(inner)]:
            right += 1
        else:
            wrong.append(str(inner))
    check("upstream packets that are no fragments: what left is what was inside but for time to live and header checksum", "all",
          f"{right} right, {len(wrong)} wrong {wrong[:2]}", right > 300 and not wrong)
    check("of these, with Linux's default destination option 'tunnel encapsulation limit' (b4b)", "more than 50", limited, limited > 50)


# ---- beside Linux's router

def is_own_error(packet):
    return isinstance(packet, packets.IPv4) and packet.source == OWN and packet.protocol == packets.ICMP


def without_own_errors(items):
    return [data for data in items if not is_own_error(packets.parse(data))]


def whole_packets(items):
    """Packets with fragments put together."""
    return packets.reassemble(items)[0]


def tunnel_contents(items):
    """What tunnel packets carry, each with its outer header; and the fragments that make no whole."""
    whole, rest = packets.reassemble(items)
    outers = [packets.IPv6(data) for data in whole]
    return [(outer.inner().whole(), outer) for outer in outers if outer.inner() is not None], rest


def fits_linux_tunnel(data):
    """Not so for TCP to b4b that is larger than Linux's tunnel takes."""
    packet = packets.parse(data)
    return not (packet.df and len(data) > SIZE_OF_B and packet.protocol == packets.TCP and packet.ports()[1] in network.B_PORTS)


def compare_with_linux(sent):
    linux_out = [data for _, data in packets.ip_packets(f"{FOLDER}/out4.pcap") if packets.is_ipv4(data)]
    linux_in = [data for _, data in packets.ip_packets(f"{FOLDER}/out6.pcap") if packets.is_ipv6(data) and packets.IPv6(data).source == AFTR]
    ours_out = [data for data in sent if packets.is_ipv4(data)]
    ours_in = [data for data in sent if packets.is_ipv6(data)]
    compare_packets("packets out to the IPv4 network, fragments put together, beside Linux's",
                    whole_packets(without_own_errors(linux_out)), whole_packets(without_own_errors(ours_out)))
    linux_contents, _ = tunnel_contents(linux_in)
    our_contents, rest = tunnel_contents(ours_in)
    check("fragments of tunnel packets that make no whole", "0", len(rest), not rest)
    linux_inside, our_inside = ([data for data, _ in contents] for contents in (linux_contents, our_contents))
    compare_packets("packets into the tunnels, what is inside, fragments put together, beside Linux's",
                    whole_packets(without_own_errors(linux_inside)), list(filter(fits_linux_tunnel, whole_packets(without_own_errors(our_inside)))))
    compare_outer_headers(linux_contents, our_contents)
    compare_errors("to the IPv4 network", linux_out, ours_out)
    compare_errors("to subscribers", linux_inside, our_inside)


def compare_packets(title, linux, ours):
    linux_only, ours_only = rest_of(linux, ours), rest_of(ours, linux)
    write_differences(title, linux_only, ours_only)
    with_options = [[packets.parse(data) for data in rest if packets.parse(data).options] for rest in (linux_only, ours_only)]
    plain = [[packets.parse(data) for data in rest if not packets.parse(data).options] for rest in (linux_only, ours_only)]
    equal = sum((collections.Counter(linux) & collections.Counter(ours)).values())
    first = "".join(f"; {name}: {rest[0]}" for name, rest in zip(("Linux", "lwaftr"), plain) if rest)
    check(title, "the same packets", f"{equal} equal, {len(plain[0])} only Linux's, {len(plain[1])} only lwaftr's{first}", not any(plain) and equal > 300)
    compare_options(title, *with_options)


def rest_of(these, those):
    return list((collections.Counter(these) - collections.Counter(those)).elements())


def write_differences(title, linux_only, ours_only):
    with open(f"{FOLDER}/differences", "a") as file:
        for name, rest in (("Linux", linux_only), ("lwaftr", ours_only)):
            for data in rest:
                file.write(f"{title}: only {name}: {packets.parse(data)}\n  {packets.in_hex(data, 120)}\n")


def without_options(packet):
    return packet.source, packet.destination, packet.protocol, packet.id, packet.ttl, bytes(packet.body)


def compare_options(title, linux, ours):
    """Packets whose IPv4 options alone differ: Linux adds its address or a time, lwaftr passes options on as they came."""
    equal = collections.Counter(map(without_options, linux)) == collections.Counter(map(without_options, ours))
    lengths = sorted(len(packet.options) for packet in linux) == sorted(len(packet.options) for packet in ours)
    seen = f"{len(linux)} and {len(ours)}, {'equal' if equal and lengths else 'not equal'} but for what a router writes into the options"
    check(f"{title}: those with record route or timestamps", "as many, equal but for what a router writes into the options", seen, bool(linux) and equal and lengths)


# field of the outer header, value of Linux, value of lwaftr, where it differs: README says why
EXPECTED_HEADERS = {
    ("a", "flow label", "not 0", "0"), ("b", "flow label", "not 0", "0"), ("c", "flow label", "not 0", "0"),
    ("b", "extension headers", "0400040104010100", "none"),
    ("a", "DSCP", "0x0", "0x30"), ("b", "DSCP", "0x0", "0x30"),
    ("c", "ECN", "0x2", "0x3"),
    ("c", "hop limit", "0x1", "0x40")}


def compare_outer_headers(linux_contents, our_contents):
    """The outer headers of packets with equal contents."""
    by_content = collections.defaultdict(list)
    for data, outer in linux_contents:
        by_content[outer.destination, data].append(outer)
    fields, pairs = collections.Counter(), 0
    for data, outer in our_contents:
        if by_content[outer.destination, data]:
            theirs = by_content[outer.destination, data].pop()
            pairs += 1
            tunnel = next(name for name, end in B4.items() if end == outer.destination)
            fields.update((tunnel, name, linux, ours) for name, linux, ours in header_fields(theirs, outer))
    lines = [f"b4{tunnel} {name}: Linux {linux}, lwaftr {ours}, in {count} packets" for (tunnel, name, linux, ours), count in sorted(fields.items())]
    with open(f"{FOLDER}/outer-headers", "w") as file:
        file.write("\n".join(lines) + "\n")
    different = {field: count for field, count in fields.items() if field[2] != field[3]}
    unexpected = set(different) - EXPECTED_HEADERS
    check("outer headers beside Linux's, but for the differences that README explains", "equal", f"{unexpected or 'equal'} in {pairs} pairs",
          not unexpected and pairs > 300)
    seen = [f"b4{tunnel} {name}: Linux {linux}, lwaftr {ours} ({count})" for (tunnel, name, linux, ours), count in sorted(different.items())]
    check("outer headers: these differences", f"{len(EXPECTED_HEADERS)}", f"{len(different)}: {'; '.join(seen)}", set(different) == EXPECTED_HEADERS)


def header_fields(theirs, ours):
    values = ((packet.hop_limit, packet.source, " ".join(data.hex() for _, data in packet.extensions) or "none", packet.flow_label,
               packet.traffic_class >> 2, packet.traffic_class & 3) for packet in (theirs, ours))
    for name, linux, own in zip(("hop limit", "source", "extension headers", "flow label", "DSCP", "ECN"), *values):
        if name == "flow label":
            linux, own = ("not 0" if value else "0" for value in (linux, own))
        yield name, *(hex(value) if isinstance(value, int) else value for value in (linux, own))


class Errors:
    """The errors that a router makes or passes on: how many of each kind, what they quote, and the header of one."""

    def __init__(self, items):
        self.kinds, self.quotes, self.headers = collections.Counter(), {}, {}
        for packet in map(packets.parse, items):
            if is_own_error(packet) and packet.body[0] in (3, 11):
                self._add(packet)

    def _add(self, packet):
        size = struct.unpack("!H", packet.body[6:8])[0] if packet.body[:2] == b"\3\4" else 0
        if size == SIZE_OF_B:
            return
        kind = f"type {packet.body[0]} code {packet.body[1]}" + (f" size {size}" if size else "")
        self.kinds[kind] += 1
        self.quotes.setdefault(kind, collections.Counter())[packet.destination, bytes(packet.body[8:])] += 1
        self.headers.setdefault(kind, packet)


def compare_errors(title, linux_items, our_items):
    linux, ours = Errors(linux_items), Errors(our_items)
    same = linux.kinds == ours.kinds and linux.quotes == ours.quotes
    seen = f"{dict(ours.kinds)}, quotes {'equal' if linux.quotes == ours.quotes else 'not equal'}"
    check(f"errors that the router makes or passes on {title}: type, code, size, number and quotes beside Linux's", "equal",
          seen if linux.kinds == ours.kinds else f"Linux {dict(linux.kinds)}, lwaftr {dict(ours.kinds)}", same and bool(ours.kinds))
    headers = [(packet, ours.headers[kind]) for kind, packet in linux.headers.items() if kind in ours.headers]
    for name, linux_value, our_value in (("tos", 0xc0, 0), ("df", False, True)):
        seen = {(getattr(first, name), getattr(second, name)) for first, second in headers}
        check(f"errors {title}: {name} of their headers, Linux and lwaftr", f"{linux_value:#x}, {our_value:#x}",
              "; ".join(f"{first:#x}, {second:#x}" for first, second in seen), seen == {(linux_value, our_value)})
    rest = sorted({name for first, second in headers for name in ("ttl", "length", "source") if getattr(first, name) != getattr(second, name)})
    check(f"errors {title}: length, time to live and source of their headers", "equal", rest or "equal", not rest and bool(headers))
    zero = {second.id for _, second in headers}
    check(f"errors {title}: identification of lwaftr's", "0", zero, zero == {0})


# ---- tshark

CHECKSUMS = {"ip": "IPv4 header", "tcp": "TCP", "udp": "UDP", "icmp": "ICMP", "icmpv6": "ICMPv6"}
# segments of a stream are not joined: a segment that is sent again would be flagged
TSHARK = ("tshark -r {} -o ip.check_checksum:TRUE -o tcp.check_checksum:TRUE -o udp.check_checksum:TRUE -o tcp.desegment_tcp_streams:FALSE "
          "-o tcp.analyze_sequence_numbers:FALSE ")
FLAGGED = ("-T fields -e frame.number -e frame.protocols " + " ".join(f"-e {name}.checksum.status" for name in CHECKSUMS) + " -e _ws.malformed "
           "-Y 'ip.checksum.status==0 || (!icmp && (tcp.checksum.status==0 || udp.checksum.status==0)) || icmp.checksum.status==0 "
           "|| icmpv6.checksum.status==0 || _ws.malformed' 2> /dev/null")
# a port may be that of a protocol that tshark tries in vain: only what is flagged at one of these layers counts
LAYERS = ("raw", "eth", "ethertype", "ip", "ipv6", "udp", "tcp", "icmp", "icmpv6", "data")


def tshark_flags(path):
    """tshark's exit code, and what it says of each packet (by its frame number) that it flags."""
    code, output = shell(None, TSHARK.format(path) + FLAGGED, 300)
    flags = {}
    for words in (line.split("\t") for line in output.splitlines()):
        if words[1].split(":")[-1] in LAYERS:
            wrong = [f"{name} checksum" for name, status in zip(CHECKSUMS.values(), words[2:7]) if "0" in status.split(",")]
            flags[int(words[0])] = ", ".join(wrong + ["malformed"] * any(words[7:]))
    return code, flags


def check_by_tshark(frames, verdicts, sent):
    """What tshark flags in OUT has to be flagged in its record too."""
    out_code, out_flags = tshark_flags(f"{FOLDER}/out.pcap")
    in_code, in_flags = tshark_flags(f"{FOLDER}/in.pcap")
    records = [int(verdict[0]) for verdict in verdicts for _ in range(int(verdict[-1]))]
    new, reports = [], []
    for number, words in sorted(out_flags.items()):
        record = records[number - 1]
        leaving, came = sent[number - 1], packets.ip_packet(packets.ETHERNET, frames[record][1])
        faults, faults_before = packets.parse(leaving).faults(), packets.parse(came).faults()
        if record + 1 not in in_flags or (faults and not faults_before):
            new.append((number, words))
        reports.append(f"OUT {number}: {words}; own reading: {faults or 'no fault'}\n  {packets.describe(leaving)}\n  {packets.in_hex(leaving, 120)}\n"
                       f"of record {record}: {in_flags.get(record + 1, 'not flagged')}; own reading: {faults_before or 'no fault'}\n"
                       f"  {packets.describe(came)}\n  {packets.in_hex(came, 120)}\n")
    if reports:
        with open(f"{FOLDER}/flagged", "w") as file:
            file.write("\n".join(reports))
    check("tshark over OUT: packets that it flags though it does not flag their records", "0", f"{len(new)} {new[:3]}; it flags {len(out_flags)} of {len(sent)} in OUT, "
          f"{len(in_flags)} of {len(frames)} in IN", not new and not out_code and not in_code)
    faults = [packets.describe(data) for data in sent if packets.parse(data).faults()]
    check("wrong checksums in OUT, by the laboratory's own reading", "0", f"{len(faults)} {faults[:2]}", not faults)


# ---- before the subscribers' kernels

class Tun:
    """A TUN device in a box."""

    def __init__(self, box, device):
        with Inside(box):
            self.file = os.open("/dev/net/tun", os.O_RDWR | os.O_NONBLOCK)
            fcntl.ioctl(self.file, TUNSETIFF, struct.pack("16sH22x", device.encode(), IFF_TUN_NO_PI))
        must(box, f"ip link set {device} up")

    def write(self, data):
        os.write(self.file, data)

    def close(self):
        os.close(self.file)


def put_before_subscribers(tunnel_packets):
    """What lwaftr sent into the tunnels goes to the subscribers' kernels: what do their tunnels hand out?"""
    device = Tun("isp", "tunr")
    captures = {name: Capture(f"b4{name}", "t0", f"offline/t0-{name}.pcap", "in") for name in "abc"}
    for name in "ab":
        must(f"b4{name}", "ip route add blackhole 203.0.113.0/24")  # no connection waits for these packets: they end here
    for data in tunnel_packets:
        device.write(data)
        time.sleep(0.0005)
    time.sleep(0.5)
    lost = {name: capture.stop() for name, capture in captures.items()}
    device.close()
    contents, _ = tunnel_contents(tunnel_packets)
    for name, capture in captures.items():
        due = collections.Counter(data for data, outer in contents if outer.destination == B4[name])
        seen = collections.Counter(capture.packets())
        missing = [packets.describe(data) for data in due - seen]
        check(f"tunnel packets of lwaftr, before the kernel of b4{name}: come out of its ip6tnl as they were inside", due.total(),
              f"{(due & seen).total()}" + (f"; missing {missing[:2]}, {lost[name]} dropped by tcpdump" if missing else ""), not missing and bool(due))
        os.unlink(capture.path)
    for name in "ab":
        must(f"b4{name}", "ip route del blackhole 203.0.113.0/24")
