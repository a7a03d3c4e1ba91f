"""Path MTU of both sides, errors about tunnels, and TCP whose segment size is clamped."""
import collections
import os
import socket
import time

import network
import packets
from boxes import Capture, load_rules, must, open_socket, shell
from network import AFTR, ALONE, B4, OWN, SERVER, SHARED, set_link_mtu
from probes import (DF, EQUAL, IP_MTU, IP_MTU_DISCOVER, NO_DF_UNLEARNT, Ping, check_connect, check_echo, check_learnt, check_transfer, connect, download,
                    learnt_mtu, send_raw, udp_echo, upload)
from results import check, info
from router import Live, compare_with_file, write_table

WEB = f"http://{SERVER}"
CLAMP = ("table ip clamp {", " chain f { type filter hook forward priority 0;", "  tcp flags syn tcp option maxseg size set rt mtu", " }", "}")
HOLE = ("table ip hole {", " chain f { type filter hook forward priority 0;", "  icmp type destination-unreachable icmp code frag-needed drop", " }", "}")


# ---- group pmtu: tunnels of 1500, and settings

def pmtu():
    table = write_table("/tmp/base.toml")
    later = {40000: write_table("/tmp/small.toml", mtu6=1400, mtu4=1400), 60000: write_table("/tmp/hop1.toml", hop_limit=1),
             80000: write_table("/tmp/silent.toml", errors_up="false", errors_down="false", icmp_in="false", hairpin="false"), 100000: table}
    with Live("pmtu", table, *(f"{point}-{point}:{path}" for point, path in later.items())) as run:
        packets_that_do_not_fit()
        small_links()
        lost_fragment()
        small_link_behind_router()
        tunnels_that_end_nowhere()
        run.go_to(40001)
        small_settings()
        run.go_to(60001)
        network.forget()
        check_connect("hop_limit = 1: isp's kernel sends time exceeded to 2001:db8::1; what the server's connect reports", "No route to host", "net", ALONE, 80)
        run.go_to(80001)
        silent_settings()
        run.go_to(100001)
        replies = Ping("h1", ALONE, 3).replies
        check("the first table again: hairpin ping of h1 to b4c", "3 of 3", f"{replies} of 3", replies == 3)
    due = [str(point) for point in later]
    check("points of VERSIONS", due, run.points(), run.points() == due)
    compare_with_file(run)


def packets_that_do_not_fit():
    """DF into a tunnel of 1460 bytes."""
    check_learnt("download of h1, which offers segments of 1460 bytes: the server's packets of 1500 bytes with DF do not fit", download, "h1", WEB, 500_000,
                 1460, "net", SHARED)
    network.forget()
    check_learnt("upload of h1: b4a's kernel tells it the size", upload, "h1", WEB, 500_000, 1460, "h1", SERVER)
    check_transfer("download of h2 (b4b's tunnel takes 1452 bytes)", download, "h2", WEB, 500_000)
    network.forget()
    error, size = send_twice_with_df()
    check("UDP with DF, 1500 bytes, from the server to b4c", "Message too long; 1460", f"{error}; {size}", (error, size) == ("Message too long", 1460))
    for box, where, what in (("net", ALONE, "the server to b4c"), ("h1", SERVER, "h1 to the server")):
        network.forget()
        output = shell(box, f"tracepath -n -m 6 {where}", 30)[1]
        check(f"tracepath of {what}", "pmtu 1460, reached", " | ".join(line.strip() for line in output.splitlines()), "pmtu 1460" in output and "reached" in output)


def send_twice_with_df():
    """The error of the second datagram, and the path MTU that the socket knows then."""
    with open_socket("net", socket.AF_INET, socket.SOCK_DGRAM) as client:
        client.setsockopt(socket.IPPROTO_IP, IP_MTU_DISCOVER, DF)
        client.connect((ALONE, 7))
        client.send(bytes(1472))
        time.sleep(0.3)
        try:
            client.send(bytes(1472))
            error = "sent"
        except OSError as raised:
            error = os.strerror(raised.errno)
        return error, client.getsockopt(socket.IPPROTO_IP, IP_MTU)


def small_links():
    """A link of 1400 bytes on the way of a tunnel: 'packet too big' goes to 2001:db8::1, which passes the error on."""
    for name, box, where in (("a", "h1", SHARED), ("c", "b4c", ALONE)):
        network.forget()
        set_link_mtu(name, 1400, tunnel=False)
        check_learnt(f"the link to b4{name} takes 1400 bytes: download with DF; isp's kernel sends 'packet too big' to 2001:db8::1, which is passed on",
                     download, box, WEB, 300_000, 1360, "net", where)
    # the server learnt 1360, so it sends fragments: lwaftr puts them together and makes tunnel packets of up to mtu6, which is 1500
    set_link_mtu("c", 1400)
    for size in (1400, 4000):
        replies = Ping("net", ALONE, 3, 0.1, size, wait=1).replies
        info(f"the same link, pings of {size + 28:,} bytes without DF by the server, in fragments of at most 1360: tunnel packets of more than 1400 bytes "
             "(no path MTU is learnt; RFC 8201)", f"{replies} of 3 come back")
    network.forget()
    set_link_mtu("a", 1500)
    set_link_mtu("c", 1500)
    set_link_mtu("b", 1400)
    check_learnt("the link to b4b takes 1400 bytes: hairpin download of h2 from h1 with DF; the error goes into h1's tunnel", download, "h2",
                 f"http://{SHARED}:1232", 300_000, 1360, "h1", SHARED)
    set_link_mtu("b", 1500)
    network.forget()
    sender_that_does_not_learn()


def sender_that_does_not_learn():
    set_link_mtu("c", 1400)
    with Capture("b4c", "t0", "pmtu/no-df.pcap", "in") as capture:
        for number in range(3):
            send_raw("net", "e0", packets.udp(SERVER, ALONE, 4010, 9997, b"n" * 1400, ident=100 + number), ALONE)
        time.sleep(0.3)
    info("the link to b4c takes 1400 bytes, mtu6 = 1500: 3 datagrams of 1,428 bytes without DF by a sender that does not learn (no path MTU is learnt; RFC 8201)",
         f"{len(capture.packets())} of 3 reach b4c")
    set_link_mtu("c", 1500)


def lost_fragment():
    """A fragment of a tunnel packet is lost: b4c's kernel sends time exceeded, code 1."""
    network.forget()
    must("b4c", "sysctl -q -w net.ipv6.ip6frag_time=1")
    load_rules("isp", ["table ip6 cut {", " chain f { type filter hook forward priority 0;", f"  ip6 daddr {B4['c']} frag frag-off != 0 drop", " }", "}"])
    with Capture("b4c", "wan", "pmtu/reassembly-wan.pcap", "out", "icmp6") as link, Capture("inet", "out", "pmtu/reassembly-net.pcap", "out", "icmp") as to_server:
        udp_echo("net", ALONE, 7, 1472, wait=3.5)
    must("isp", "nft delete table ip6 cut")
    must("b4c", "sysctl -q -w net.ipv6.ip6frag_time=60")
    errors = collections.Counter((packet.body[0], packet.body[1]) for packet in link.of_version(6) if packet.protocol == packets.ICMPV6 and packet.destination == AFTR)
    passed = collections.Counter((packet.body[0], packet.body[1]) for packet in to_server.of_version(4))
    check("a fragment of a tunnel packet is lost; b4c's kernel gives it up after a second: type and code of its errors (ICMPv6), of what the server gets (ICMP)",
          "host unreachable (3, 1) for each (3, 1) (RFC 2473, section 8.3; Linux's ip6tnl passes on code 0 alone)", f"{dict(errors)}; {dict(passed)}",
          bool(errors) and set(errors) == {(3, 1)} and passed == errors)


def small_link_behind_router():
    network.forget()
    must("inet", f"ip route add {SERVER}/32 dev out mtu lock 1300")
    check_learnt("a link of 1300 behind the router: upload of h1; inet's kernel sends 'fragmentation needed' to 203.0.113.1, which comes through the tunnel and "
                 "b4a's NAT", upload, "h1", WEB, 300_000, 1300, "h1", SERVER)
    must("inet", f"ip route del {SERVER}/32 dev out")


def tunnels_that_end_nowhere():
    network.forget()
    must("b4b", "ip link set wan down")
    must("isp", "ip -6 neigh flush dev cb")
    seen = connect("net", SHARED, 3072)
    must("b4b", f"ip link set wan up; ip -6 addr replace {B4['b']}/64 dev wan nodad; ip -6 route replace default via 2001:db8:2::ff")
    check("b4b is off: isp's kernel sends 'address unreachable' to 2001:db8::1; what the server's connect reports", "No route to host", seen, seen == "No route to host")
    network.remove_tunnel_of_b4c()
    with Capture("b4c", "wan", "pmtu/no-tunnel.pcap", "out") as link:
        seen = connect("net", ALONE, 80)
    network.restore_tunnel_of_b4c()
    errors = collections.Counter((packet.body[0], packet.body[1]) for packet in link.of_version(6) if packet.protocol == packets.ICMPV6 and packet.destination == AFTR)
    check("b4c has no tunnel: type and code of its kernel's ICMPv6 error; what the server's connect reports", "(1, 4); No route to host", f"{dict(errors)}; {seen}",
          set(errors) == {(1, 4)} and seen == "No route to host")


def small_settings():
    """mtu4 and mtu6 of 1400."""
    network.forget()
    check_learnt("mtu4 = 1400: upload of h1 with DF, told by the router through the tunnel and b4a's NAT", upload, "h1", WEB, 300_000, 1400, "h1", SERVER)
    network.forget()
    with Capture("inet", "out", "pmtu/mtu4.pcap", "out", "udp port 7 or ip[6:2] & 0x1fff != 0") as to_server:
        good, _ = udp_echo("h1", SERVER, 7, 1432, count=3)
    sizes = sorted({len(data) for data in to_server.packets()})
    check("mtu4 = 1400: UDP of 1,460 bytes without DF", "3 of 3; IPv4 fragments of at most 1400", f"{good} of 3; {sizes}", good == 3 and max(sizes) <= 1400)
    set_link_mtu("a", 1400)
    set_link_mtu("c", 1400)
    network.forget()
    check_echo("mtu6 = 1400 and links of 1400: UDP of 1,500 bytes without DF to b4c", "net", ALONE, 7, 1472, mode=NO_DF_UNLEARNT)
    check_learnt("mtu6 = 1400 and links of 1400: download of h1 with DF", download, "h1", WEB, 300_000, 1360, "net", SHARED)
    set_link_mtu("a", 1500)
    set_link_mtu("c", 1500)


def silent_settings():
    """Errors, ICMP from outside and hairpins are off."""
    must("b4a", "nft add rule ip nat outside tcp dport 80 snat to 203.0.113.1:5000-5010")
    network.forget_connections("b4a")
    with Capture("isp", "ca", "pmtu/silent.pcap", "out") as link:
        seen = connect("h1", SERVER, 80, 1.5)
    must("b4a", "nft flush chain ip nat outside")
    network.forget_connections("b4a")
    errors = [packet for packet in link.of_version(6) if packet.source == AFTR]
    check("errors_up = false: a port outside of the set", "no answer, no packet to b4a", f"{seen}, {len(errors)} packets", seen == "no answer" and not errors)
    check_connect("errors_down = false: TCP from the server to a port of nobody", "no answer", "net", SHARED, 5000, 1.5)
    replies = Ping("net", ALONE, 2, 0.2, wait=1).replies
    check("icmp_in = false: ping from the server to b4c", "0 of 2", f"{replies} of 2", replies == 0)
    check_connect("hairpin = false: h1 to h2", "no answer", "h1", SHARED, 3072, 1.5)
    check_transfer("and TCP of h1 to the server", download, "h1", WEB, 100_000)


# ---- group mtu: tunnels of 1280 and 1480

def mtu():
    """TCP that finds the size, TCP that is told it (the option of SYN is lowered), and a way that loses ICMP errors."""
    tables = {1500: write_table("/tmp/base.toml"), 1480: write_table("/tmp/mtu1480.toml", mtu6=1480), 1280: write_table("/tmp/mtu1280.toml", mtu6=1280)}
    windows = {}
    with Live("mtu", tables[1500], f"30000-30000:{tables[1480]}", f"60000-60000:{tables[1280]}") as run:
        for link_mtu, mtu6, point in ((1280, 1500, 0), (1480, 1480, 30001), (1280, 1280, 60001)):
            if point:
                run.go_to(point)
            for name in "abc":
                set_link_mtu(name, link_mtu)
            what = f"links to subscribers of {link_mtu}, mtu6 = {mtu6}"
            found_sizes(what, link_mtu - 40)
            windows[what] = clamped_sizes(run, what, link_mtu, mtu6)
            lost_errors(what, link_mtu == mtu6)
            if link_mtu == mtu6:
                datagrams(what, link_mtu - 40)
            for name in "abc":
                set_link_mtu(name, 1500)
            network.forget()
    for what, (begin, end) in windows.items():
        large = [verdict for verdict in run.verdicts if begin <= int(verdict[0]) < end and verdict[2:4] == ["drop", "too-big"]]
        check(f"{what}, clamped: records dropped as too-big", "0", f"{len(large)} of {end - begin}", not large)
    compare_with_file(run)


def set_clamp(on):
    for box in ("b4a", "b4b"):
        if on:
            load_rules(box, CLAMP)
        else:
            must(box, "nft delete table ip clamp")


def found_sizes(what, fits):
    """The server's first packets are of 1500 bytes with DF."""
    for box, where, way in (("h1", SHARED, "via 192.168.1.1"), ("b4c", ALONE, "dev t0 advmss 1460")):
        network.forget()
        must(box, f"ip route replace {SERVER}/32 {way}")
        check_learnt(f"{what}, SYN not changed: download of {box}", download, box, WEB, 300_000, fits, "net", where)
        must(box, f"ip route del {SERVER}/32")
    network.forget()
    check_learnt(f"{what}: upload of h1, whose b4a tells it the size", upload, "h1", WEB, 300_000, fits, "h1", SERVER)


def clamped_sizes(run, what, link_mtu, mtu6):
    """b4a and b4b lower the option of SYN and SYN-ACK. The records of these transfers: number of the first, and of the first one behind them."""
    set_clamp(True)
    folder, words = f"mtu/clamped-{link_mtu}-{mtu6}", f"src host {AFTR}"
    with Capture("isp", "ca", f"{folder}-a.pcap", "out", words) as link_a, Capture("isp", "cb", f"{folder}-b.pcap", "out", words) as link_b:
        network.forget()
        begin = run.count()[0]
        transfers = ((download, "h1", WEB), (upload, "h1", WEB), (download, "h2", WEB), (upload, "h2", WEB), (download, "net", f"http://{SHARED}:1232"))
        equal = sum(transfer(box, url, 300_000)[0] for transfer, box, url in transfers)
        end = run.count()[0]
    seen = link_a.of_version(6) + link_b.of_version(6)
    most, fragments, known = max(packet.length for packet in seen), sum(packet.is_fragment for packet in seen), learnt_mtu("net", SHARED)
    check(f"{what}, SYN clamped by b4a and b4b (nft: maxseg size set rt mtu): h1 and h2 down and up, the server from h1",
          f"5 of 5 {EQUAL}; no fragment; tunnel packets of at most {link_mtu}; the server learns nothing",
          f"{equal} of 5; {fragments} fragments; {most}; {known}", equal == 5 and not fragments and most <= link_mtu and known is None)
    return begin, end


def lost_errors(what, without_clamp):
    """A way behind the router that loses 'fragmentation needed': clamped TCP goes on. Without the clamp, if that is tried, it stands still."""
    load_rules("inet", HOLE)
    network.forget()
    good, _, error = download("h1", WEB, 100_000, 30)
    check(f"{what}, clamped, 'fragmentation needed' lost behind the router: download of h1", EQUAL, "equal" if good else error, good)
    set_clamp(False)
    if without_clamp:
        network.forget()
        good, _, error = download("h1", WEB, 100_000, 4)
        check(f"{what}, not clamped, the same loss: download of h1", "0 bytes", error.split(" milliseconds ")[-1][:60], not good and "with 0 out of" in error)
        shell("net", "ss -K dst 203.0.113.0/24")  # else the server would go on with it
    must("inet", "nft delete table ip hole")


def datagrams(what, fits):
    """Without DF the router cuts to mtu6."""
    network.forget()
    sizes = (fits - 28, fits - 27, 1472, 3000, 9000)
    for box, where, port in (("net", ALONE, 7), ("net", SHARED, 1234), ("net", SHARED, 3073), ("h1", SERVER, 7), ("h2", SERVER, 7), ("b4c", SERVER, 7)):
        lost = {size: seen for size in sizes for seen in [udp_echo(box, where, port, size, count=2)] if seen != (2, "")}
        check(f"{what}: UDP without DF of {box} to {where} port {port}: {sizes[0]} to 9,000 bytes, and back", "2 of 2 of each", lost or "2 of 2 of each", not lost)
    ends = (("net", SHARED, 1232), ("net", SHARED, 3100), ("net", ALONE, None), ("h1", SERVER, None), ("h2", SERVER, None), ("b4c", SERVER, None))
    replies = [Ping(box, where, 3, 0.1, 3000, ident=ident).replies for box, where, ident in ends]
    check(f"{what}: ping of 3,000 bytes: the server to h1, h2, b4c; h1, h2, b4c to the server", [3] * 6, replies, replies == [3] * 6)
