"""A subscriber whose tunnel is made by Linux's segment routing (RFC 8986: H.Encaps.Red with one segment, End.DX4), which shares no code with ip6tnl."""
import collections
import time

import network
import packets
from boxes import Capture, ip, must, shell
from network import AFTR, FORWARDING, QUIET, SERVER, SHARED
from probes import Ping, check_ping, check_refused, check_transfer, download, udp_echo, upload
from results import check
from router import ALL, Live, compare_with_file, write_table

END, ADDRESS = "2001:db8:4::b4", "203.0.113.8"


def second():
    add_subscriber()
    table = write_table("/tmp/second.toml", ALL + ((END, ADDRESS, 0, 0, 0),))
    with Live("second", table) as run:
        with Capture("isp", "cs", "second/cs.pcap") as link:
            traffic()
    check_tunnel_packets(link)
    compare_with_file(run)


def add_subscriber():
    must(None, "ip netns add b4s; ip netns add h4")
    segments = "net.ipv6.conf.all.seg6_enabled=1 net.ipv6.conf.default.seg6_enabled=1"
    for box in ("b4s", "h4"):
        must(box, f"sysctl -q -w {QUIET} {FORWARDING} {segments} net.ipv4.ping_group_range='0 2147483647'; ip link set lo up")
    network.make_links([("b4s", "wan", "isp", "cs"), ("b4s", "lan", "h4", "e0")])
    ip("isp", "addr add 2001:db8:4::ff/64 dev cs nodad", f"-6 route add {END}/128 via 2001:db8:4::1")
    ip("h4", f"addr add {ADDRESS}/32 dev e0", "route add 192.168.4.1/32 dev e0", "route add default via 192.168.4.1 mtu 1460")
    ip("b4s", "addr add 2001:db8:4::1/64 dev wan nodad", "-6 route add default via 2001:db8:4::ff", "addr add 192.168.4.1/32 dev lan", f"route add {ADDRESS}/32 dev lan",
       f"sr tunsrc set {END}", f"-6 route add {END}/128 encap seg6local action End.DX4 nh4 {ADDRESS} dev lan",
       f"route add default encap seg6 mode encap.red segs {AFTR} dev wan")
    network.start_hosts_services("h4")
    shell("b4s", "ping -c1 -W2 2001:db8:4::ff")
    shell("b4s", f"ping -c1 -W2 {ADDRESS}")
    time.sleep(1.5)


def traffic():
    web = f"http://{SERVER}"
    check_ping("ping of h4, whose tunnel is of segment routing, to the server", "h4", SERVER, 10)
    check_ping("ping of the server to h4", "net", ADDRESS, 10)
    large_pings()
    check_transfer("download of h4, 1 MB", download, "h4", web, 1_000_000)
    check_transfer("upload of h4, 1 MB", upload, "h4", web, 1_000_000)
    check_transfer("download of the server from h4, 300 kB", download, "net", f"http://{ADDRESS}", 300_000)
    seen = {size: udp_echo("h4", SERVER, 7, size, count=3)[0] for size in (10, 1400, 1432)}
    check("UDP of h4 to the server and back: 10, 1,400, 1,432 bytes", "3 of 3 of each", seen, set(seen.values()) == {3})
    check_refused("UDP of h4 to a closed port", "h4", SERVER, 9999)
    check_transfer("hairpin: h4 from h1 behind b4a (ip6tnl), 300 kB", download, "h4", f"http://{SHARED}:1232", 300_000)
    check_transfer("hairpin: h1 behind b4a from h4, 300 kB", download, "h1", f"http://{ADDRESS}", 300_000)
    good, _ = udp_echo("net", ADDRESS, 7, 1472, wait=2)
    check("1500 bytes of IPv4 without DF to h4, in fragments of the tunnel packet (RFC 6333, section 5.3, asks a subscriber's end to put them together; End.DX4 does not)",
          "0 of 1 comes back", f"{good} of 1 comes back", good == 0)


def large_pings():
    """Echoes in IPv4 fragments inside the tunnel; their replies come back as fragments of the tunnel packet."""
    with Capture("inet", "out", "second/large.pcap", "inout", "icmp or ip[6:2] & 0x1fff != 0") as capture:
        replies = Ping("h4", SERVER, 3, 0.1, 3000, wait=2).replies
    whole, _ = packets.reassemble(capture.packets())
    echoes = collections.Counter(packet.source for packet in map(packets.parse, whole) if packet.protocol == packets.ICMP and packet.length == 3028)
    check("ping of h4, 3,000 bytes (IPv4 fragments in the tunnel): the server is asked and answers", "3 and 3", f"{echoes[ADDRESS]} and {echoes[SERVER]}",
          echoes[ADDRESS] == echoes[SERVER] == 3)
    check("its replies, as fragments of the tunnel packet, which End.DX4 does not put together", "0 of 3 come back", f"{replies} of 3 come back", replies == 0)


def check_tunnel_packets(link):
    seen = link.of_version(6)
    up = collections.Counter(f"next header {packet.next} flow label {packet.flow_label}" for packet in seen if packet.destination == AFTR)
    check("its tunnel packets: IPv4 in IPv6 without any header between", "next header 4", dict(up), bool(up) and all(words.startswith("next header 4 ") for words in up))
    down = [packet for packet in seen if packet.source == AFTR]
    faults = [str(packet) for packet in down if packet.faults()]
    check("what comes into its tunnel: checksums", "0 wrong", f"{len(faults)} wrong of {len(down)} {faults[:2]}", not faults and len(down) > 500)
