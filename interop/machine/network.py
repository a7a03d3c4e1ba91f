"""The network of the laboratory.

  h1 192.168.1.2 -- b4a =tunnel=\\                                                 own 192.0.2.1
  h2 192.168.2.2 -- b4b =tunnel== isp --- the router under test (or Linux's own) --- inet --- net 198.51.100.7
                    b4c =tunnel=/     2001:db8::1

Every box but the router under test is a network namespace with Linux's forwarding, tunnels and NAT. The router under test is lwaftr
between two TUN devices (tun6 in isp, tun4 in inet); to compare, it is the namespace aftr with Linux's ip6tnl."""
import os
import socket
import time

from boxes import BASE, ip, load_rules, must, open_socket, shell, start

AFTR, OWN, SHARED, ALONE, SERVER = "2001:db8::1", "192.0.2.1", "203.0.113.1", "203.0.113.2", "198.51.100.7"
# the ends of the tunnels; b4a has two
B4 = {"a": "2001:db8:1::1", "a2": "2001:db8:1::11", "b": "2001:db8:2::1", "c": "2001:db8:3::1"}
# b4a's port set has 63 ranges of 4 ports (offset 6, length 8, psid 52), b4b's has one of 64 (offset 0, length 10, psid 48)
A_RANGES = [(at * 1024 + 52 * 4, at * 1024 + 52 * 4 + 3) for at in range(1, 64)]
A_PORTS = {port for low, high in A_RANGES for port in range(low, high + 1)}
B_PORTS = set(range(3072, 3136))
BOXES = "h1 h2 b4a b4b b4c isp aftr inet net".split()
HOSTS = ("h1", "h2", "net")
LINKS = (("h1", "e0", "b4a", "lan"), ("h2", "e0", "b4b", "lan"), ("b4a", "wan", "isp", "ca"), ("b4b", "wan", "isp", "cb"), ("b4c", "wan", "isp", "cc"),
         ("isp", "core", "aftr", "six"), ("aftr", "four", "inet", "back"), ("inet", "out", "net", "e0"))
ADDRESSES = {
    "h1": ["192.168.1.2/24 dev e0"], "h2": ["192.168.2.2/24 dev e0"],
    "b4a": ["192.168.1.1/24 dev lan", f"{B4['a']}/64 dev wan nodad", f"{B4['a2']}/64 dev wan nodad"],
    "b4b": ["192.168.2.1/24 dev lan", f"{B4['b']}/64 dev wan nodad"],
    "b4c": [f"{B4['c']}/64 dev wan nodad"],
    "isp": ["2001:db8:1::ff/64 dev ca nodad", "2001:db8:2::ff/64 dev cb nodad", "2001:db8:3::ff/64 dev cc nodad", "2001:db8:f::1/64 dev core nodad"],
    "aftr": ["2001:db8:f::2/64 dev six nodad", f"{AFTR}/128 dev lo nodad", f"{OWN}/24 dev four"],
    "inet": ["192.0.2.2/24 dev back", "198.51.100.1/24 dev out"],
    "net": [f"{SERVER}/24 dev e0"]}
# b4a's tunnels have no encapsulation limit, b4b's has Linux's default, b4c's takes the traffic class from the packet inside
TUNNELS = {
    "b4a": [f"t0 mode ipip6 local {B4['a']} remote {AFTR} dev wan encaplimit none", f"t1 mode ipip6 local {B4['a2']} remote {AFTR} dev wan encaplimit none"],
    "b4b": [f"t0 mode ipip6 local {B4['b']} remote {AFTR} dev wan"],
    "b4c": [f"t0 mode ipip6 local {B4['c']} remote {AFTR} dev wan encaplimit none tclass inherit"]}
ROUTES = {
    "b4a": ["-6 route add default via 2001:db8:1::ff", "route add default dev t0"],
    "b4b": ["-6 route add default via 2001:db8:2::ff", "route add default dev t0"],
    "b4c": [f"addr add {ALONE}/32 dev t0", "-6 route add default via 2001:db8:3::ff", "route add default dev t0"],
    "h1": ["route add default via 192.168.1.1"], "h2": ["route add default via 192.168.2.1"],
    "net": ["route add default via 198.51.100.1"],
    "aftr": ["-6 route add default via 2001:db8:f::1", "route add default via 192.0.2.2"],
    "isp": [f"-6 route add {AFTR}/128 via 2001:db8:f::2"],
    "inet": [f"route add 203.0.113.0/24 via {OWN}"]}
# Linux as the router: a tunnel for each subscriber; the two that share an address are told apart by marks
LINUX_ROUTER = (
    f"-6 tunnel add ka mode ipip6 local {AFTR} remote {B4['a']} encaplimit none", f"-6 tunnel add kb mode ipip6 local {AFTR} remote {B4['b']}",
    f"-6 tunnel add kc mode ipip6 local {AFTR} remote {B4['c']} encaplimit none tclass inherit", "link set ka up", "link set kb up", "link set kc up",
    f"route add {ALONE}/32 dev kc", f"route add {SHARED}/32 dev ka table 1", f"route add {SHARED}/32 dev kb table 2",
    "rule add fwmark 1 table 1", "rule add fwmark 2 table 2")
QUIET = "net.ipv6.conf.all.accept_dad=0 net.ipv6.conf.default.accept_dad=0 net.ipv4.conf.all.rp_filter=0 net.ipv4.conf.default.rp_filter=0"
SETTINGS = (QUIET, "net.ipv6.conf.default.router_solicitations=0", "net.ipv6.conf.all.accept_ra=0", "net.ipv6.conf.default.accept_ra=0",
            "net.ipv4.icmp_ratelimit=0", "net.ipv6.icmp.ratelimit=0", "net.ipv4.conf.all.send_redirects=0", "net.ipv4.conf.default.send_redirects=0",
            "net.ipv4.ping_group_range='0 2147483647'", "net.ipv6.conf.default.mldv2_unsolicited_report_interval=600000", "net.ipv4.conf.all.accept_redirects=0")
FORWARDING = "net.ipv4.ip_forward=1 net.ipv6.conf.all.forwarding=1"
OFFLOADS = "tx off rx off tso off gso off gro off sg off"
services = []


def set_up():
    make_boxes()
    make_links(LINKS)
    for box, addresses in ADDRESSES.items():
        ip(box, *(f"addr add {address}" for address in addresses))
    for box, tunnels in TUNNELS.items():
        for tunnel in tunnels:
            ip(box, f"-6 tunnel add {tunnel}", f"link set {tunnel.split()[0]} up")
    for box, routes in ROUTES.items():
        ip(box, *routes)
    load_rules("b4a", rules_of_b4a())
    load_rules("b4b", rules_of_b4b())
    ip("aftr", *LINUX_ROUTER)
    load_rules("aftr", rules_of_linux_router())
    start_services()
    for box, neighbour in (("b4a", "2001:db8:1::ff"), ("b4b", "2001:db8:2::ff"), ("b4c", "2001:db8:3::ff"), ("aftr", "2001:db8:f::1")):
        shell(box, f"ping -c1 -W2 {neighbour}")


def make_boxes():
    for box in BOXES:
        must(None, f"ip netns add {box}")
        forwarding = "" if box in HOSTS else FORWARDING
        reflects = "net.ipv4.fwmark_reflect=1" if box == "aftr" else ""
        must(box, f"sysctl -q -w {' '.join(SETTINGS)} {forwarding} {reflects}; ip link set lo up")
    shell(None, "sysctl -q -w net.ipv4.icmp_msgs_per_sec=100000 net.ipv4.icmp_msgs_burst=100000 net.core.netdev_max_backlog=20000")


def make_links(links):
    """A pair of devices for each: box and device of the one end, and of the other."""
    for box, device, other_box, other_device in links:
        ip(None, f"link add {device} netns {box} type veth peer name {other_device} netns {other_box}")
    for box, device, other_box, other_device in links:
        for where, it in ((box, device), (other_box, other_device)):
            must(where, f"ethtool -K {it} {OFFLOADS} > /dev/null 2>&1; ip link set {it} up")


def rules_of_b4a():
    """NAT to 63 ranges of 4 ports: a chain for each range, and connections take them in turn."""
    inside = 'oifname { "t0", "t1" } ip saddr 192.168.1.0/24'
    outside = 'iifname { "t0", "t1" }'
    chains = [f" chain range{at} {{ meta l4proto {{ tcp, udp, icmp }} snat to {SHARED}:{low}-{high}; }}" for at, (low, high) in enumerate(A_RANGES)]
    turns = ", ".join(f"{at} : goto range{at}" for at in range(len(A_RANGES)))
    return ["table ip nat {", *chains, " chain outside { }", " chain post { type nat hook postrouting priority 100;", f"  {inside} jump outside",
            f"  {inside} meta l4proto {{ tcp, udp, icmp }} numgen inc mod {len(A_RANGES)} vmap {{ {turns} }}", " }",
            " chain pre { type nat hook prerouting priority -100;",
            f"  {outside} tcp dport 1232 dnat to 192.168.1.2:80", f"  {outside} tcp dport 1233 dnat to 192.168.1.2:5201",
            f"  {outside} udp dport 1234 dnat to 192.168.1.2:7", f"  {outside} udp dport 1235 dnat to 192.168.1.2:9999",
            f"  {outside} udp dport 2256 dnat to 192.168.1.2:2256", f"  {outside} icmp type echo-request dnat to 192.168.1.2", " }", "}"]


def rules_of_b4b():
    """NAT to one range of 64 ports."""
    inside = 'oifname "t0" ip saddr 192.168.2.0/24'
    return ["table ip nat {", " chain outside { }", " chain post { type nat hook postrouting priority 100;", f"  {inside} jump outside",
            f"  {inside} meta l4proto {{ tcp, udp, icmp }} snat to {SHARED}:3072-3135", " }",
            " chain pre { type nat hook prerouting priority -100;", '  iifname "t0" tcp dport 3072 dnat to 192.168.2.2:80',
            '  iifname "t0" udp dport 3073 dnat to 192.168.2.2:7', '  iifname "t0" udp dport 3074 dnat to 192.168.2.2:9999',
            '  iifname "t0" icmp type echo-request dnat to 192.168.2.2', " }", "}"]


def rules_of_linux_router():
    """A mark for each connection of the shared address: 1 is b4a's, 2 is b4b's."""
    ports = ", ".join(f"{low}-{high}" for low, high in A_RANGES)
    new = '  iifname "four" ct state new'
    return ["table ip m {", " chain pre { type filter hook prerouting priority -150;",
            '  iifname "ka" ct mark set 1 meta mark set 1', '  iifname "kb" ct mark set 2 meta mark set 2',
            f"{new} udp dport {{ {ports} }} ct mark set 1", f"{new} tcp dport {{ {ports} }} ct mark set 1",
            f"{new} udp dport 3072-3135 ct mark set 2", f"{new} tcp dport 3072-3135 ct mark set 2",
            '  iifname "four" meta mark set ct mark', " }", "}"]


def start_hosts_services(box):
    """A web server on port 80 and an echo of UDP on port 7."""
    services.append(start(box, ["python3", f"{BASE}/machine/web.py", "80"]))
    services.append(start(box, ["python3", f"{BASE}/machine/echo.py", "7"]))


def start_iperf(*ports):
    """Servers of iperf3 beside the server's first one."""
    for port in ports:
        services.append(start("net", ["iperf3", "-s", "-p", str(port)]))


def start_services():
    os.makedirs("/tmp/dns", exist_ok=True)
    for box in ("net", "h1", "h2", "b4c"):
        start_hosts_services(box)
    for box in ("net", "h1"):
        services.append(start(box, ["iperf3", "-s"]))
    services.append(start("net", ["dnsmasq", "-k", "--conf-file=/dev/null", "--no-resolv", "--no-hosts", "--user=root", "--pid-file=/tmp/dns/pid",
                                  f"--address=/server.example/{SERVER}", "--txt-record=big.example," + ",".join(["x" * 200] * 12)]))
    for box, port in (("net", 80), ("h1", 80), ("h2", 80), ("b4c", 80), ("net", 5201), ("net", 53), ("h1", 5201)):
        wait_for_service(box, port)


def wait_for_service(box, port, seconds=20):
    end = time.time() + seconds
    while time.time() < end:
        with open_socket(box, socket.AF_INET, socket.SOCK_STREAM) as client:
            try:
                client.connect(("127.0.0.1", port))
                return
            except OSError:
                time.sleep(0.2)


def forget():
    """Removes every path MTU that was learnt, and every connection that a NAT knows."""
    for box in BOXES:
        tracked = "; conntrack -F" if box in ("b4a", "b4b", "aftr") else ""
        shell(box, f"ip route flush cache; ip -6 route flush cache{tracked}")


def forget_connections(box):
    must(box, "conntrack -F 2> /dev/null")


def use_linux_router():
    # a device that was down has lost its IPv6 address
    ip("isp", "link set core up", "-6 addr replace 2001:db8:f::1/64 dev core nodad", f"-6 route replace {AFTR}/128 via 2001:db8:f::2")
    ip("inet", "link set back up", f"route replace 203.0.113.0/24 via {OWN}")
    ip("aftr", "-6 route replace default via 2001:db8:f::1", "route replace default via 192.0.2.2")
    shell("aftr", "ping -c1 -W2 2001:db8:f::1; ping -c1 -W2 192.0.2.2")
    forget()


def set_link_mtu(name, mtu, tunnel=True):
    """Both ends of a subscriber's link, and the subscriber's tunnel unless it is left as it is; b4b's has 8 bytes for the encapsulation limit."""
    must("isp", f"ip link set c{name} mtu {mtu}")
    must(f"b4{name}", f"ip link set wan mtu {mtu}")
    if tunnel:
        must(f"b4{name}", f"ip link set t0 mtu {mtu - (48 if name == 'b' else 40)}")


def tunnel_words(name):
    """The words of a subscriber's first tunnel for `ip -6 tunnel change`."""
    return TUNNELS[f"b4{name}"][0]


def remove_tunnel_of_b4c():
    ip("b4c", "-6 tunnel del t0")


def restore_tunnel_of_b4c():
    ip("b4c", f"-6 tunnel add {tunnel_words('c')}", "link set t0 up", f"addr add {ALONE}/32 dev t0", "route replace default dev t0")


def answer_by_the_same_tunnel():
    """b4a answers through the tunnel that a connection last came by."""
    ip("b4a", "rule add fwmark 11 table 11", "route add default dev t1 table 11")
    must("b4a", "nft 'add chain ip nat by { type filter hook prerouting priority -140; }; add rule ip nat by iifname \"t1\" ct mark set 11; "
         "add rule ip nat by iifname \"lan\" ct mark 11 meta mark set 11'")


def answer_by_the_first_tunnel():
    ip("b4a", "route replace default dev t0", "rule del fwmark 11 table 11", "route flush table 11")
    must("b4a", "nft delete chain ip nat by")
    forget_connections("b4a")
