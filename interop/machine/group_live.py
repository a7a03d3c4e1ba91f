"""What hosts do through lwaftr between two TUN devices."""
import collections
import hashlib
import json
import re
import socket
import struct
import time

import network
import packets
from boxes import Capture, load_rules, must, open_socket, shell
from network import AFTR, ALONE, B4, OWN, SERVER, SHARED
from probes import (DF, Ping, check_connect, check_echo, check_ping, check_refused, check_speeds, check_traceroute, check_transfer, connect,
                    counter, download, send_in_tunnel, send_raw, traceroute, udp_echo, upload)
from results import check, info
from router import Live, compare_with_file, write_table

WEB = f"http://{SERVER}"
WAY = ["192.168.1.1", OWN, "198.51.100.1", SERVER]
SIZES = (1432, 1433, 1472, 1473, 4000, 20000, 60000)
ECHOES = (("h1", SERVER, 7, "h1 (b4a) to the server and back"), ("h2", SERVER, 7, "h2 (b4b) to the server and back"),
          ("b4c", SERVER, 7, "b4c to the server and back"), ("net", ALONE, 7, "the server to b4c and back"),
          ("net", SHARED, 1234, "the server to h1 and back"), ("net", SHARED, 3073, "the server to h2 and back"))


def live():
    with Live("live", write_table("/tmp/base.toml")) as run:
        with Capture("inet", "out", "live/net.pcap", "out") as to_server, Capture("isp", "cb", "live/cb.pcap") as link_of_b:
            pings()
            names()
            transfers()
        check_ports(to_server)
        check_limits(link_of_b)
        check_speeds("lwaftr")
        udp_rate()
        ways()
        closed_ports()
        large_datagrams()
        fragments_of_tunnel_packets()
        links_that_reorder()
        hairpins()
        protocols_without_ports()
        marks()
        odd_headers()
        congestion()
        foreign_ports()
        foreign_sources()
    compare_with_file(run)


def pings():
    check_ping("ping of h1 (behind b4a, NAT to 63 ranges of 4 ports) to the server", "h1", SERVER, 10)
    check_ping("ping of h2 (behind b4b, NAT to 64 ports, encapsulation limit) to the server", "h2", SERVER, 10)
    check_ping("ping of b4c (whole address, no NAT) to the server", "b4c", SERVER, 10)
    info("lwaftr: ping of h1 to the server, 20 echoes", Ping("h1", SERVER, 20).figures())
    _, output = shell("h1", f"ping -f -q -n -c 1000 {SERVER}", 60)
    found = re.search(r"(\d+) received", output)
    check("ping flood of h1, 1,000", "1000 come back", found[1] if found else output, bool(found) and int(found[1]) == 1000)
    check_ping("ping from the server to 203.0.113.1, identifier 1232 (b4a's)", "net", SHARED, 5, ident=1232)
    check_ping("ping from the server to 203.0.113.1, identifier 3100 (b4b's)", "net", SHARED, 5, ident=3100)
    check_ping("ping from the server to 203.0.113.2", "net", ALONE, 5)
    _, output = shell("net", f"ping -n -c 1 -W 2 -e 80 {SHARED}")
    check("ping from the server to 203.0.113.1, identifier 80 (nobody's)", f"Destination Host Unreachable from {OWN}", " ".join(output.splitlines()[1:2]),
          f"From {OWN}" in output and "Host Unreachable" in output)


def names():
    dig = f"dig +time=2 +tries=1 +short @{SERVER}"
    _, output = shell("h1", f"{dig} server.example; {dig} +tcp server.example; {dig} +bufsize=4096 txt big.example | wc -c")
    words = output.split()
    check("DNS by dig: UDP, TCP, and an answer of 2,500 bytes in fragments", f"{SERVER}, {SERVER}, 2400 or more", ", ".join(words),
          words[:2] == [SERVER] * 2 and words[-1].isdigit() and int(words[-1]) >= 2400)


def transfers():
    for box in ("h1", "h2", "b4c"):
        check_transfer(f"curl, 300 kB, {box} from the server", download, box, WEB, 300_000)
    for where, port, who in ((SHARED, 1232, "h1 through b4a"), (SHARED, 3072, "h2 through b4b"), (ALONE, 80, "b4c")):
        for way, transfer in (("down", download), ("up", upload)):
            check_transfer(f"TCP from the server to {where} port {port} ({who}): 1 MB {way}", transfer, "net", f"http://{where}:{port}", 1_000_000)
    one = f"curl -sS --max-time 30 -o /dev/null -w '%{{http_code}}\\n' {WEB}/50000 &"
    _, output = shell("h1", f"for i in $(seq 20); do {one} done; wait", 60)
    answers = output.split().count("200")
    check("20 connections of h1 at the same time", "20 answers 200", f"{answers} answers 200", answers == 20)


def port_or_identifier(packet):
    """The source port, or the identifier of an echo."""
    return struct.unpack("!H", packet.body[4:6] if packet.protocol == packets.ICMP else packet.body[:2])[0]


def check_ports(to_server):
    used = collections.defaultdict(set)
    for packet in to_server.of_version(4):
        if packet.source == SHARED and not packet.offset:
            port = port_or_identifier(packet)
            used["b4a" if port in network.A_PORTS else "b4b" if port in network.B_PORTS else "nobody"].add(port)
    check("source ports and identifiers of 203.0.113.1 that the server saw", "all of a port set, more than 20 of b4a's",
          f"{len(used['b4a'])} of b4a's 252, {len(used['b4b'])} of b4b's 64, {len(used['nobody'])} of nobody's", not used["nobody"] and len(used["b4a"]) > 20)


def destination_options(packet):
    return [data for kind, data in packet.extensions if kind == packets.DESTINATION_OPTIONS]


def check_limits(link_of_b):
    limits = sum(bool(destination_options(packet)) for packet in link_of_b.of_version(6))
    check("b4b's tunnel packets have Linux's default encapsulation limit, and were taken", "more than 100", limits, limits > 100)


def udp_rate():
    _, output = shell("h1", f"iperf3 -c {SERVER} -u -b 5M -t 3 -l 1200 -J", 30)
    try:
        total = json.loads(output)["end"]["sum"]
        info("iperf3, UDP at 5 Mbit/s up for 3 s", f"{total['lost_packets']} of {total['packets']} lost, jitter {total['jitter_ms']:.1f} ms")
    except (ValueError, KeyError):
        info("iperf3, UDP", output[-200:])


def ways():
    for words, protocol in (("", "UDP"), ("-I", "ICMP"), ("-T", "TCP")):
        check_traceroute(f"traceroute ({protocol}) of h1 to the server", WAY, "h1", f"{words} {SERVER}")
    _, output = shell("h1", f"mtr -n -r -c 3 -i 0.3 {SERVER}", 60)
    rows = [line.split() for line in output.splitlines() if "|--" in line]
    seen, loss = [row[1] for row in rows], [row[2] for row in rows]
    check("mtr of h1 to the server, 3 rounds", f"{WAY}, no loss", f"{seen}, loss {loss}", seen == WAY and set(loss) == {"0.0%"})
    check_traceroute("traceroute of b4c to the server", WAY[1:], "b4c", SERVER)
    check_traceroute("traceroute of the server to b4c", ["198.51.100.1", OWN, ALONE], "net", ALONE)
    seen = traceroute("net", f"-U -p 1235 -m 6 {SHARED}")
    check("traceroute of the server to 203.0.113.1 port 1235 (h1, closed); b4a itself answers from a private address",
          f"198.51.100.1, {OWN}, then 203.0.113.1", seen, seen[:2] == ["198.51.100.1", OWN] and SHARED in seen)


def closed_ports():
    for box, where, port, what in (("h1", SERVER, 9999, "h1 to a closed port of the server"), ("net", ALONE, 9999, "the server to a closed port of b4c"),
                                   ("net", SHARED, 1235, "the server to a closed port of h1, through b4a's NAT")):
        check_refused(f"UDP of {what}", box, where, port)
    check_connect("TCP of h1 to a closed port of the server", "Connection refused", "h1", SERVER, 9998)
    check_connect("TCP from the server to 203.0.113.1 port 5000 (nobody's; errors_down)", "No route to host", "net", SHARED, 5000)


def large_datagrams():
    for box, where, port, who in ECHOES:
        lost = {size: error for size in SIZES for good, error in [udp_echo(box, where, port, size)] if not good}
        check(f"UDP without DF, {who}: {SIZES[0]} to {SIZES[-1]} bytes", "all come back", lost or "all come back", not lost)
    check_ping("ping of h1, 5,000 bytes", "h1", SERVER, 3, pause=0.1, size=5000)
    check_ping("ping from the server to b4c, 5,000 bytes", "net", ALONE, 3, pause=0.1, size=5000)


def fragments_of_tunnel_packets():
    """1500 bytes of IPv4 into the tunnel are two fragments of the tunnel packet, which b4c's kernel puts together."""
    before = counter("b4c", "snmp6", "Ip6ReasmOKs")
    with Capture("isp", "cc", "live/cc-fragments.pcap", "out") as link:
        good, _ = udp_echo("net", ALONE, 7, 1472, count=5)
    lengths = [packet.length for packet in link.of_version(6) if packet.is_fragment]
    together = counter("b4c", "snmp6", "Ip6ReasmOKs") - before
    check("1500 bytes of IPv4 without DF towards b4c: fragments of the tunnel packet (RFC 2473, section 7.2), put together by its kernel (Ip6ReasmOKs)",
          "5 come back; 10 fragments of at most 1500 bytes; 5 put together",
          f"{good} come back; {len(lengths)} fragments, {sorted(set(lengths))} bytes; {together} put together",
          good == 5 and len(lengths) == 10 and max(lengths) <= 1500 and together == 5)
    for size in (1472, 8000):
        back = is_answered_from_fragments(size)
        check(f"tunnel packet of {size + 28 + 40} bytes in fragments that Linux made: put together, sent out, answered", "comes back",
              "comes back" if back else "nothing", back)


def is_answered_from_fragments(size):
    """b4c's kernel cuts the tunnel packet of a datagram to the server's echo."""
    body = (hashlib.sha512(b"up").digest() * (size // 64 + 1))[:size]
    with open_socket("b4c", socket.AF_INET, socket.SOCK_DGRAM) as listener:
        listener.bind((ALONE, 4000))
        listener.settimeout(6)
        send_in_tunnel("b4c", B4["c"], packets.udp(ALONE, SERVER, 4000, 7, body, ident=size), AFTR)
        try:
            return listener.recv(70000) == body
        except OSError:
            return False


def links_that_reorder():
    """Links that change the order of packets and send some twice."""
    links = (("b4c", "wan"), ("isp", "cc"), ("net", "e0"))
    for box, device in links:
        must(box, f"tc qdisc add dev {device} root netem delay 3ms 3ms duplicate 10%")
    seen = {size: (udp_echo("b4c", SERVER, 7, size, count=5)[0], udp_echo("net", ALONE, 7, size, count=5)[0]) for size in (1472, 4000, 20000, 40000)}
    check("fragments over links that change the order and send a tenth twice (netem): UDP of b4c, and to b4c", "5 and 5 of 5 of each size", seen,
          set(seen.values()) == {(5, 5)})
    check_transfer("TCP over the same links, 500 kB", download, "b4c", WEB, 500_000)
    for box, device in links:
        must(box, f"tc qdisc del dev {device} root")


def hairpins():
    for box, where, port, who in (("h1", SHARED, 3072, "h1 from h2, both behind 203.0.113.1"), ("h2", SHARED, 1232, "h2 from h1, both behind 203.0.113.1"),
                                  ("h1", ALONE, 80, "h1 from b4c"), ("b4c", SHARED, 3072, "b4c from h2")):
        check_transfer(f"hairpin by TCP, 500 kB: {who}", download, box, f"http://{where}:{port}", 500_000)
    check_echo("hairpin by UDP, 1400 bytes: h1 to h2", "h1", SHARED, 3073, 1400)
    check_echo("hairpin by UDP in fragments, 4,000 bytes: b4c to h1", "b4c", SHARED, 1234, 4000)
    check_ping("hairpin by ping: h1 to b4c", "h1", ALONE)
    check_refused("hairpin by UDP to a closed port of h2: its error comes back to h1", "h1", SHARED, 3074)
    check_connect("hairpin to a port of nobody (5000)", "No route to host", "h1", SHARED, 5000)
    check_traceroute("traceroute of h1 to b4c", ["192.168.1.1", OWN, ALONE], "h1", ALONE)


def protocols_without_ports():
    """GRE and ESP of the subscriber who has a whole address."""
    for box, local, remote, address in (("b4c", ALONE, SERVER, "10.9.0.1"), ("net", SERVER, ALONE, "10.9.0.2")):
        must(box, f"ip tunnel add g0 mode gre local {local} remote {remote}; ip addr add {address}/30 dev g0; ip link set g0 up")
    check_ping("GRE between b4c (whole address) and the server: ping through it", "b4c", "10.9.0.2")
    for box in ("b4c", "net"):
        must(box, "ip tunnel del g0")
    esp = f"proto esp mode transport auth 'hmac(sha256)' 0x{'11' * 32} enc 'ecb(cipher_null)' ''"
    for box, there, back in (("b4c", "out", "in"), ("net", "in", "out")):
        must(box, f"ip xfrm state add src {ALONE} dst {SERVER} spi 0x100 {esp}; ip xfrm state add src {SERVER} dst {ALONE} spi 0x101 {esp}; "
             f"ip xfrm policy add src {ALONE} dst {SERVER} proto 17 dir {there} tmpl proto esp mode transport; "
             f"ip xfrm policy add src {SERVER} dst {ALONE} proto 17 dir {back} tmpl proto esp mode transport")
    check_echo("ESP between b4c (whole address) and the server: UDP inside", "b4c", SERVER, 7, 500)
    for box in ("b4c", "net"):
        must(box, "ip xfrm state flush; ip xfrm policy flush")


def marks():
    """DSCP and congestion marks of the packet inside stand in the tunnel packet."""
    with Capture("isp", "cc", "live/cc.pcap", "out") as link:
        Ping("b4c", SERVER, 2, tos=0xb8)
        Ping("net", ALONE, 2, tos=0xb8)
        must("b4c", "sysctl -q -w net.ipv4.tcp_ecn=1")
        download("b4c", WEB, 50_000)
        must("b4c", "sysctl -q -w net.ipv4.tcp_ecn=2")
    outers = [packet for packet in link.of_version(6) if packet.source == AFTR and packet.inner()]
    pairs = collections.Counter((packet.inner().tos, packet.traffic_class) for packet in outers)
    check("TOS of what is inside and traffic class outside, towards b4c (DSCP 46; ECN of a TCP flow)", "equal",
          {f"{inside:#x}/{outside:#x}": count for (inside, outside), count in pairs.items()},
          all(inside == outside for inside, outside in pairs) and (0xb8, 0xb8) in pairs and any(inside & 3 == 2 for inside, _ in pairs))


def odd_headers():
    change = f"ip -6 tunnel change {network.tunnel_words('b')}"
    must("b4b", f"{change} encaplimit 0 hoplimit 2 tclass 0xff flowlabel 0xfffff")
    with Capture("isp", "cb", "live/cb-odd.pcap", "in") as link:
        replies = Ping("h2", SERVER, 3).replies
    options = [data.hex() for packet in link.of_version(6) for data in destination_options(packet)]
    must("b4b", f"{change} hoplimit 64 tclass 0x0 flowlabel 0x0 encaplimit 4")
    check("b4b with encapsulation limit 0, hop limit 2, traffic class 0xff, flow label 0xfffff: ping of h2", "3 of 3, option 0400040100010100",
          f"{replies} of 3, option {options[:1]}", replies == 3 and set(options) == {"0400040100010100"})
    good, error = udp_echo("h1", SERVER, 7, 300, checksum=False)
    check("UDP of h1 without a checksum", "comes back", "comes back" if good else error, good == 1)
    _, output = shell("b4c", f"ping -n -c 1 -W 2 -R {SERVER}")
    route = re.findall(r"\d+\.\d+\.\d+\.\d+", output.split("RR:")[1].split("---")[0]) if "RR:" in output else []
    due = [ALONE, "198.51.100.1", SERVER, SERVER, "198.51.100.1", ALONE]
    check("ping -R of b4c: the recorded route has no address of lwaftr (Linux's router writes 192.0.2.1)", due, route, route == due)
    code, _ = shell("b4c", f"ping -c 1 -W 1 {AFTR}")
    replies = Ping("net", OWN, 1, wait=1).replies
    check("echoes of b4c to 2001:db8::1, of the server to 192.0.2.1", "no answer, no answer",
          ", ".join("answered" if answered else "no answer" for answered in (not code, replies)), bool(code) and not replies)


def congestion():
    """Congestion marked between subscriber and router."""
    load_rules("isp", ["table ip6 congestion {", " chain f { type filter hook forward priority 0;", f"  ip6 daddr {AFTR} ip6 ecn {{ ect0, ect1 }} ip6 ecn set ce", " }", "}"])
    must("b4c", "sysctl -q -w net.ipv4.tcp_ecn=1")
    with Capture("inet", "out", "live/ce.pcap", "out", "tcp port 80") as to_server:
        upload("b4c", WEB, 50_000)
    must("b4c", "sysctl -q -w net.ipv4.tcp_ecn=2")
    must("isp", "nft delete table ip6 congestion")
    marked = collections.Counter(packet.tos & 3 for packet in to_server.of_version(4) if packet.source == ALONE)
    check("upload whose tunnel packets were marked CE (3) on their way: ECN of what left the tunnel (Linux's decapsulation makes it 3)",
          "0 and 2, as it was inside", dict(marked), set(marked) == {0, 2})


def foreign_ports():
    """A subscriber whose NAT uses ports of nobody and of a neighbour."""
    must("b4a", "nft add rule ip nat outside tcp dport 80 ip daddr 198.51.100.7 snat to 203.0.113.1:5000-5010; "
         "nft add rule ip nat outside udp dport 7 snat to 203.0.113.1:3072-3080")
    network.forget_connections("b4a")
    # Linux's ip6tnl passes an ICMPv6 error on if the address is its own; elsewhere the NAT alone has it, so that it can be hairpinned to
    with Capture("inet", "out", "live/foreign.pcap", "out") as to_server, Capture("isp", "ca", "live/ca.pcap") as link:
        without = connect("h1", SERVER, 80, 1.5)
        must("b4a", f"conntrack -F 2> /dev/null; ip addr add {SHARED}/32 dev t0")
        seen = connect("h1", SERVER, 80)
        udp_error = udp_echo("h1", SERVER, 7, 50, mode=DF, wait=2)[1]
        must("b4a", f"ip addr del {SHARED}/32 dev t0; ip route replace default dev t0")
    must("b4a", "nft flush chain ip nat outside")
    network.forget_connections("b4a")
    leaked = [str(packet) for packet in to_server.of_version(4) if packet.source == SHARED]
    check("b4a's NAT set to ports outside of its set (5000) and of b4b's set (3072): what the server sees", "nothing", leaked or "nothing", not leaked)
    check_errors_to_b4a(link)
    check("what h1's connect reports: b4a's kernel passes the ICMPv6 error on", "No route to host", seen, seen == "No route to host")
    info("if 203.0.113.1 is no address of b4a's own, but its NAT's alone, Linux passes nothing on", f"TCP: {without}; UDP: {udp_error}")


def check_errors_to_b4a(link):
    seen = link.of_version(6)
    errors = [packet for packet in seen if packet.source == AFTR and packet.protocol == packets.ICMPV6]
    kinds = collections.Counter((packet.body[0], packet.body[1], not packet.faults()) for packet in errors)
    check("what b4a gets: ICMPv6 type 1 code 5 (RFC 7596, section 6.2) with a right checksum", "only these, 2 or more",
          {f"type {kind} code {code} checksum {'right' if right else 'WRONG'}": count for (kind, code, right), count in kinds.items()},
          len(errors) >= 2 and set(kinds) == {(1, 5, True)})
    quoted = errors[0].body[8:] if errors else b""
    # isp took one of the hop limit
    sent = [packet.data[:7] + bytes([packet.hop_limit - 1]) + packet.data[8:] for packet in seen if packet.destination == AFTR]
    same = bool(quoted) and any(data.startswith(quoted) for data in sent)
    check("the ICMPv6 error quotes the tunnel packet", "as it was sent", "as it was sent" if same else packets.in_hex(quoted), same)


def foreign_sources():
    """Another subscriber's address, an address of nobody, a protocol without ports from a shared address, a tunnel end of nobody."""
    with Capture("inet", "out", "live/forged.pcap", "out", f"dst host {SERVER}") as to_server:
        send_raw("b4a", "t0", packets.udp(ALONE, SERVER, 4001, 7, b"of another subscriber"), SERVER)
        send_raw("b4a", "t0", packets.udp("10.7.7.7", SERVER, 1232, 7, b"private"), SERVER)
        send_raw("b4a", "t0", packets.ipv4(SHARED, SERVER, packets.GRE, b"\0\0\x08\0" + b"GRE of a shared address"), SERVER)
        must("b4c", "ip -6 addr add 2001:db8:3::99/64 dev wan nodad")
        send_in_tunnel("b4c", "2001:db8:3::99", packets.udp(ALONE, SERVER, 4002, 7, b"of another end"), AFTR)
        time.sleep(0.5)
    must("b4c", "ip -6 addr del 2001:db8:3::99/64 dev wan")
    leaked = [str(packet) for packet in to_server.of_version(4)]
    check("forged: b4c's address by b4a, a private one, GRE of a shared address, b4c's address from another tunnel end: what the server sees", "nothing",
          leaked or "nothing", not leaked)
