"""Tables that come into force under traffic."""
import collections
import re
import socket
import struct
import threading
import time

import network
import packets
from boxes import Capture, must, open_socket, shell, start
from network import AFTR, ALONE, B4, SERVER, SHARED
from probes import check_echo, connect, download
from results import check, info
from router import ALL, Live, compare_with_file, more_bindings, moved_bindings, name_of, write_table

DATAGRAMS = 2500
IPERF_PORTS = {5201: "h1", 5202: "h2", 5203: "b4c"}


# ---- group reload

def reload():
    table, moved = write_table("/tmp/base.toml"), write_table("/tmp/moved.toml", moved_bindings())
    large = write_table("/tmp/large.toml", moved_bindings() + more_bindings(4000))
    network.answer_by_the_same_tunnel()
    with Live("reload", table, f"20000-20200:{moved}", f"60000-60000:{large}", "--errors=10", "--workers=2") as run:
        binding_that_moves(run)
        old_end_is_refused()
        large_table(run)
        limited_errors()
    points = run.points()
    check("points of VERSIONS", "in 20000-20200; 60000", points, len(points) == 2 and 20000 <= int(points[0]) <= 20200 and points[1] == "60000")
    network.answer_by_the_first_tunnel()
    compare_with_file(run)


class Receiver(threading.Thread):
    """Takes numbered datagrams at h1."""

    def __init__(self):
        super().__init__()
        self.numbers = []
        self.socket = open_socket("h1", socket.AF_INET, socket.SOCK_DGRAM)
        self.socket.setsockopt(socket.SOL_SOCKET, socket.SO_RCVBUF, 4 << 20)
        self.socket.bind(("192.168.1.2", 2256))
        self.socket.settimeout(3)

    def run(self):
        try:
            while len(self.numbers) < DATAGRAMS:
                self.numbers.append(struct.unpack("!I", self.socket.recv(2000)[:4])[0])
        except TimeoutError:
            pass  # those that are missing are counted
        self.socket.close()


def binding_that_moves(run):
    """From one end of b4a to the other, in a window of 200 records, in the middle of a stream of datagrams."""
    receiver = Receiver()
    with open_socket("net", socket.AF_INET, socket.SOCK_DGRAM) as sender, Capture("isp", "ca", "reload/ca.pcap", "out", f"src host {AFTR}") as link:
        sender.connect((SHARED, 2256))
        receiver.start()
        for number in range(DATAGRAMS):
            sender.send(struct.pack("!I", number) + bytes(200))
            if number == DATAGRAMS // 2:
                run.control("goto 20000")
            time.sleep(0.0015)
        receiver.join()
    lost, twice = DATAGRAMS - len(set(receiver.numbers)), len(receiver.numbers) - len(set(receiver.numbers))
    ends = [packet.destination for packet in link.of_version(6) if packet.inner() and packet.inner().protocol == packets.UDP]
    changes = sum(first != second for first, second in zip(ends, ends[1:]))
    check(f"a binding moves from {B4['a']} to {B4['a2']} in a window of 200 records, in the middle of {DATAGRAMS:,} datagrams of the server to h1",
          "none lost, none twice; one change of the tunnel's end",
          f"{lost} lost, {twice} twice; {changes} change ({ends.count(B4['a'])} to the old end, {ends.count(B4['a2'])} to the new)",
          not lost and not twice and changes == 1 and ends[0] == B4["a"])


def old_end_is_refused():
    check_echo("and both ways through the new end: UDP echo of h1", "net", SHARED, 1234, 500, count=5)
    must("b4a", f"ip addr add {SHARED}/32 dev t0")
    seen = connect("h1", SERVER, 80)
    must("b4a", f"ip addr del {SHARED}/32 dev t0; ip route replace default dev t1; conntrack -F 2> /dev/null")
    check("b4a's old end is refused now: a new connection of h1 through it (the error is passed on)", "No route to host", seen, seen == "No route to host")


def large_table(run):
    """A large table comes in the middle of a download and of pings."""
    seen = {}
    threads = [threading.Thread(target=lambda: seen.update(download=download("h1", f"http://{SERVER}", 4_000_000))),
               threading.Thread(target=lambda: seen.update(pings=shell("h2", f"ping -q -n -c 600 -i 0.005 {SERVER}", 60)[1]))]
    shell("h1", "ip route flush cache")
    for thread in threads:
        thread.start()
    time.sleep(0.7)
    at = run.count()[0]
    run.control("goto 60000")
    for thread in threads:
        thread.join()
    good, _, error = seen["download"]
    replies = re.search(r"(\d+) received", seen["pings"])
    check("a table of 4,003 bindings comes in the middle of a download of 4 MB and 600 pings of h2 (both bindings stay)", "equal; 600 of 600",
          f"{'equal' if good else error}; {replies[1] if replies else seen['pings']} of 600 (asked for at record {at})", good and bool(replies) and replies[1] == "600")


def limited_errors(count=300):
    """A flood of forged packets, under --errors 10."""
    packet = packets.udp(SHARED, SERVER, 5000, 7, b"flood")
    with Capture("isp", "cc", "reload/cc.pcap", "out", f"src host {AFTR}") as link, open_socket("b4c", socket.AF_INET, socket.SOCK_RAW, 255) as sender:
        sender.setsockopt(socket.SOL_SOCKET, socket.SO_BINDTODEVICE, b"t0\0")
        begun = time.time()
        for _ in range(count):
            sender.sendto(packet, (SERVER, 0))
        most = 10 + 10 * (time.time() - begun + 1)
        time.sleep(0.5)
    errors = len(link.packets())
    check(f"--errors 10: {count} forged packets of b4c: ICMPv6 errors", f"5 to {most:.0f}", errors, 5 <= errors <= most)


# ---- group steady

def steady():
    """Three tables under the downloads of three subscribers. Two of them keep their bindings."""
    table = write_table("/tmp/base.toml")
    loads = {20000: write_table("/tmp/steady-moved.toml", moved_bindings() + more_bindings(1000)),
             40000: write_table("/tmp/steady-gone.toml", tuple(binding for binding in ALL if binding[0] != "a")), 60000: table}
    network.start_iperf(*list(IPERF_PORTS)[1:])
    network.answer_by_the_same_tunnel()
    time.sleep(1)
    with Live("steady", table, *(f"{point}-{point}:{path}" for point, path in loads.items()), "--workers=2") as run:
        asked, phases = loads_under_downloads(run, loads)
    shell("net", "ss -K dst 203.0.113.0/24")
    network.answer_by_the_first_tunnel()
    due = [str(point) for point in loads]
    check("three loads at the points asked for, under three downloads", due, f"{run.points()}, asked for at records {asked}",
          run.points() == due and all(record < point for record, point in zip(asked, loads)))
    check_records(run)
    report_resent(phases)
    compare_with_file(run)


def loads_under_downloads(run, loads):
    """The records at which each load was asked for, and the segments that were sent again in each phase."""
    clients = [start(box, ["iperf3", "-c", SERVER, "-p", str(port), "-R", "-t", "600", "-b", "1M", "-l", "8K"]) for port, box in IPERF_PORTS.items()]
    time.sleep(4)
    phases = [("at first", resent())]
    time.sleep(6)
    phases.append(("no load", resent()))
    asked = []
    for point, what in zip(loads, ("h1's binding moves, 1,000 others come", "h1's binding goes", "the first table again")):
        asked.append(run.count()[0])
        run.go_to(point)
        time.sleep(4)
        phases.append((what, resent()))
    for client in clients:
        client.terminate()
        client.wait()
    time.sleep(1)
    return asked, phases


def resent():
    """For each port of iperf3: segments that the server sent again, and those of them that the receiver already had, as Linux counts them."""
    counts = {port: (0, 0) for port in IPERF_PORTS}
    text = shell("net", "ss -tinH state established")[1].replace("\n\t", " ")
    for line in text.splitlines():
        found = re.search(r":(\d+) +\S+:\d+", line)
        if found and int(found[1]) in counts:
            port = int(found[1])
            numbers = (re.search(words, line) for words in (r"retrans:\d+/(\d+)", r"dsack_dups:(\d+)"))
            counts[port] = tuple(old + (int(number[1]) if number else 0) for old, number in zip(counts[port], numbers))
    return counts


def subscriber_of(data):
    """Whose record it is: a, b, c, or ? for nobody's."""
    packet = packets.parse(data)
    if isinstance(packet, packets.IPv6):
        return next((name[0] for name, end in B4.items() if end == packet.source), "?")
    if packet.destination == ALONE:
        return "c"
    port = packet.ports()[1] if packet.protocol == packets.TCP and not packet.offset else None
    return "a" if port in network.A_PORTS else "b" if port in network.B_PORTS else "?"


def check_records(run):
    """Each record with its verdict, by the subscriber whose it is."""
    _, records = packets.read_capture(f"{run.folder}/in.pcap")
    verdicts = collections.defaultdict(collections.Counter)
    for (_, data), verdict in zip(records, run.verdicts):
        if data:
            verdicts[subscriber_of(data)][name_of(verdict)] += 1
    for name, who in (("b", "h2 behind b4b"), ("c", "b4c")):
        counts = verdicts[name]
        others = set(counts) - {"up", "down", "drop too-big"}
        check(f"{who}, whose binding stays: its records, each with its verdict", "none dropped, but for too-big before the server knows the size", dict(counts),
              not others and counts["up"] > 200 and counts["down"] > 200 and counts["drop too-big"] <= 20)
    counts = verdicts["a"]
    check("h1 behind b4a, whose binding moves and goes: its records", "some dropped as no-binding", dict(counts), counts["drop no-binding"] > 0 and counts["up"] > 200)


def report_resent(phases):
    first, last = phases[0][1], phases[-1][1]
    for port, box in IPERF_PORTS.items():
        steps = ", ".join(f"{what} {counts[port][0] - before[port][0]}" for (_, before), (what, counts) in zip(phases, phases[1:]))
        total, needless = (new - old for new, old in zip(last[port], first[port]))
        info(f"{box}, whose binding {'moves and goes' if box == 'h1' else 'stays'}: segments that the server sent again, and those of them that the receiver already had",
             f"{total}, {needless}; {steps}")
