"""What hosts do: pings, downloads, datagrams, connections, traceroutes."""
import errno
import hashlib
import json
import os
import re
import select
import socket
import struct
import time

import packets
import results
import web
from boxes import open_socket, shell
from network import SERVER

IP_MTU_DISCOVER, IP_MTU, SO_NO_CHECK = 10, 14, 11
# values of IP_MTU_DISCOVER: no DF; DF and the path MTU that was learnt; no DF and whatever was learnt
NO_DF, DF, NO_DF_UNLEARNT = 0, 2, 5
EQUAL = "equal"
TEN_MEGABYTES = 10_000_000


class Ping:
    """Echoes by a raw socket, which waits for late replies as the ping of iputils does not."""

    def __init__(self, box, where, count=5, pause=0.05, size=56, ident=None, tos=0, wait=6.0):
        self.count, self.pause, self.size, self.wait = count, pause, size, wait
        self.ident = os.getpid() & 0xffff if ident is None else ident
        self.sent, self.times = {}, {}
        with open_socket(box, socket.AF_INET, socket.SOCK_RAW, packets.ICMP) as self.socket:
            self.socket.setsockopt(socket.IPPROTO_IP, IP_MTU_DISCOVER, NO_DF)
            self.socket.setsockopt(socket.IPPROTO_IP, socket.IP_TOS, tos)
            self.socket.connect((where, 0))
            self._run()
        taken = sorted(self.times.values()) or [0.0]
        self.replies = len(self.times)
        self.least, self.median, self.most = taken[0], taken[len(taken) // 2], taken[-1]
        self.mean = sum(taken) / len(taken)

    def _run(self):
        following = time.time()
        end = following + self.count * self.pause + self.wait
        while time.time() < end and self.replies_missing():
            if len(self.sent) < self.count and time.time() >= following:
                self._send(len(self.sent) + 1)
                following += self.pause
            self._receive(following if len(self.sent) < self.count else end)

    def replies_missing(self):
        return len(self.times) < self.count

    def _send(self, number):
        self.sent[number] = time.time()
        try:
            self.socket.send(packets.echo_request(self.ident, number, self.size))
        except OSError:
            pass  # an error about an earlier echo

    def _receive(self, until):
        self.socket.settimeout(max(0.001, until - time.time()))
        try:
            reply = packets.IPv4(self.socket.recv(70000)).body
        except OSError:
            return
        ident, number = struct.unpack("!HH", reply[4:8])
        if reply[0] == 0 and ident == self.ident and number in self.sent:
            self.times.setdefault(number, (time.time() - self.sent[number]) * 1000)

    def figures(self):
        return f"least {self.least:.2f}, median {self.median:.2f}, mean {self.mean:.2f}, most {self.most:.2f} ms"


def check_ping(name, box, where, count=3, **words):
    """All echoes have to come back."""
    replies = Ping(box, where, count, **words).replies
    results.check(name, f"{count} of {count}", f"{replies} of {count}", replies == count)


def download(box, url, size, seconds=60, options=""):
    """Whether a download is right, Mbit/s, and what curl says if it fails."""
    path = f"/tmp/got.{box}"
    code, output = shell(box, f"curl -sS {options} --max-time {seconds} -w '%{{speed_download}} %{{errormsg}}' -o {path} {url}/{size}", seconds + 5)
    if code:
        return False, 0, output.strip()
    with open(path, "rb") as file:
        return file.read() == web.body(size), float(output.split()[0]) * 8 / 1e6, ""


def upload(box, url, size, seconds=60):
    """Whether an upload is right, Mbit/s, and what curl says if it fails."""
    path = f"/tmp/put.{size}"
    if not os.path.exists(path):
        with open(path, "wb") as file:
            file.write(web.body(size))
    code, output = shell(box, f"curl -sS --max-time {seconds} -w ' %{{speed_upload}}' -T {path} {url}/", seconds + 5)
    if code:
        return False, 0, output.strip()
    answer, speed = output.split()[:2]
    return answer == hashlib.sha256(web.body(size)).hexdigest(), float(speed) * 8 / 1e6, ""


def check_transfer(name, transfer, box, url, size):
    good, _, error = transfer(box, url, size)
    results.check(name, EQUAL, "equal" if good else error, good)


def check_rate(name, transfer, box, url, size):
    good, rate, error = transfer(box, url, size)
    results.check(name, EQUAL, f"{'equal' if good else 'not equal ' + error}, {rate:.1f} Mbit/s", good)


def check_learnt(name, transfer, box, url, size, mtu, learner, where):
    """A transfer after which the learner knows a path MTU; None: that it knows none."""
    good, _, error = transfer(box, url, size)
    known = learnt_mtu(learner, where)
    results.check(name, f"{EQUAL}; {learner} learns {mtu}", f"{'equal' if good else error}; {known}", good and known == mtu)


def learnt_mtu(box, where):
    found = re.search(r"\bmtu (\d+)", shell(box, f"ip route get {where}")[1])
    return int(found[1]) if found else None


def udp_echo(box, where, port, size, mode=NO_DF, count=1, bind=None, wait=6.0, checksum=True):
    """Datagrams to an echo: how many come back right, and the error that ends it."""
    good = 0
    with open_socket(box, socket.AF_INET, socket.SOCK_DGRAM) as client:
        client.setsockopt(socket.IPPROTO_IP, IP_MTU_DISCOVER, mode)
        if not checksum:
            client.setsockopt(socket.SOL_SOCKET, SO_NO_CHECK, 1)
        if bind:
            client.bind(bind)
        client.settimeout(wait)
        try:
            client.connect((where, port))
            for number in range(count):
                good += _one_echo(client, _datagram(number, size), wait)
        except OSError as error:
            return good, _words(error)
    return good, ""


def _datagram(number, size):
    block = hashlib.sha512(number.to_bytes(2, "little")).digest()
    return (block * (size // 64 + 1))[:size]


def _one_echo(client, body, wait):
    client.send(body)
    end = time.time() + wait
    while time.time() < end:
        if client.recv(70000) == body:
            return True
    return False


def _words(error):
    if isinstance(error, TimeoutError):
        return "no answer"
    return os.strerror(error.errno) if error.errno else str(error)


def check_echo(name, box, where, port, size, count=3, **words):
    good, error = udp_echo(box, where, port, size, count=count, **words)
    results.check(name, f"{count} of {count}", f"{good} of {count} {error}".strip(), good == count)


def check_refused(name, box, where, port):
    """A datagram to a closed port."""
    error = udp_echo(box, where, port, 100)[1]
    results.check(name, "Connection refused", error, error == "Connection refused")


def connect(box, where, port, wait=8.0):
    """A TCP connection: 'connected', or why there is none."""
    for _ in range(3):
        with open_socket(box, socket.AF_INET, socket.SOCK_STREAM) as client:
            client.settimeout(wait)
            try:
                client.connect((where, port))
                client.getpeername()
                return "connected"
            except OSError as error:
                # a refusal between connect and poll leaves no error in the socket: asked again
                if error.errno != errno.ENOTCONN:
                    return _words(error)
    return "Connection refused"


def check_connect(name, expected, box, where, port, wait=8.0):
    seen = connect(box, where, port, wait)
    results.check(name, expected, seen, seen == expected)


def connections_at_once(box, where, port, count, wait=4.0):
    """TCP connections at the same time: how many are made."""
    clients, made = [], 0
    for _ in range(count):
        client = open_socket(box, socket.AF_INET, socket.SOCK_STREAM)
        client.bind(("192.168.1.1", 0))
        client.setblocking(False)
        if client.connect_ex((where, port)) in (0, errno.EINPROGRESS):
            clients.append(client)
    waiting, end = list(clients), time.time() + wait
    while waiting and time.time() < end:
        for client in select.select([], waiting, [], max(0, end - time.time()))[1]:
            waiting.remove(client)
            made += not client.getsockopt(socket.SOL_SOCKET, socket.SO_ERROR)
    for client in clients:
        client.close()
    return made


def traceroute(box, words, seconds=40):
    """The routers on the way."""
    _, output = shell(box, f"traceroute -n -w 1 -q 1 {words}", seconds)
    return [line.split()[1] for line in output.splitlines()[1:] if len(line.split()) > 1]


def check_traceroute(name, expected, box, words):
    seen = traceroute(box, words)
    results.check(name, expected, seen, seen == expected)


def send_raw(box, device, packet, where):
    """Sends an IPv4 packet, with the header that it has, out of a device."""
    with open_socket(box, socket.AF_INET, socket.SOCK_RAW, 255) as sender:
        sender.setsockopt(socket.SOL_SOCKET, socket.SO_BINDTODEVICE, device.encode() + b"\0")
        sender.sendto(packet, (where, 0))


def send_in_tunnel(box, source, packet, where):
    """Sends an IPv4 packet as the payload of an IPv6 packet, which the kernel cuts into fragments where it must."""
    with open_socket(box, socket.AF_INET6, socket.SOCK_RAW, packets.IN_IPV4) as sender:
        sender.bind((source, 0))
        sender.sendto(packet, (where, 0))


def counter(box, file, key):
    """A counter of /proc/net, as Ip6ReasmOKs of snmp6."""
    found = re.search(rf"^{key}\s+(\d+)", shell(box, f"cat /proc/net/{file}")[1], re.M)
    return int(found[1]) if found else 0


def iperf(box, words, port=5201, seconds=60):
    """Mbit/s that were received, segments sent again, and bytes; or 0 and the end of the output."""
    _, output = shell(box, f"iperf3 -c {SERVER} -p {port} -J {words}", seconds)
    try:
        end = json.loads(output)["end"]
        received = end["sum_received"]
        return received["bits_per_second"] / 1e6, end["sum_sent"].get("retransmits"), received["bytes"]
    except (ValueError, KeyError):
        return 0.0, output[-160:], 0


def check_speeds(name):
    """What TCP carries, by curl and by iperf3."""
    url = f"http://{SERVER}"
    check_rate(f"{name}: download of 10 MB by curl, h1 from the server", download, "h1", url, TEN_MEGABYTES)
    check_rate(f"{name}: upload of 10 MB by curl, h1 to the server", upload, "h1", url, TEN_MEGABYTES)
    for way, words in (("up", ""), ("down", "-R")):
        rate, again, _ = iperf("h1", f"-n 10M {words}")
        results.check(f"{name}: iperf3, 10 MB {way}", "it ends", f"{rate:.1f} Mbit/s, {again} segments sent again", rate > 0)
