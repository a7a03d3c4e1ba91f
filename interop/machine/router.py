"""The router under test: its tables, lwaftr between two TUN devices, and the comparison with a run over the recorded capture."""
import json
import os
import subprocess
import time

import network
import packets
import results
from boxes import BASE, RESULTS, ip, must, shell
from network import AFTR, ALONE, B4, OWN, SHARED

LWAFTR = f"{BASE}/lwaftr"
# False once the program writes each packet without waiting for the next record: then no fillers are sent, and the group `lag` judges
FILLERS = True
# a binding: the name of a tunnel's end (or its address), IPv4 address, offset, length, psid
ALL = (("a", SHARED, 6, 8, 52), ("b", SHARED, 0, 10, 48), ("c", ALONE, 0, 0, 0))
DEFAULTS = dict(mtu6=1500, mtu4=1500, hop_limit=64, errors_up="true", errors_down="true")
KEPT_BYTES = 3_000_000


def write_table(path, bindings=ALL, **settings):
    """A table file, by default with errors in both directions."""
    lines = ["version = 2", "[softwire]", f'aftr = "{AFTR}"', f'own = "{OWN}"']
    lines += [f"{key} = {value}" for key, value in (DEFAULTS | settings).items()]
    for end, address, offset, length, psid in bindings:
        lines += ["[[binding]]", f'b4 = "{B4.get(end, end)}"', f'ipv4 = "{address}"', f"offset = {offset}", f"length = {length}", f"psid = {psid}"]
    with open(path, "w") as file:
        file.write("\n".join(lines) + "\n")
    return path


def moved_bindings():
    """All bindings, b4a's at its second tunnel end."""
    return tuple(("a2", *binding[1:]) if binding[0] == "a" else binding for binding in ALL)


def more_bindings(count):
    """Bindings of nobody in the laboratory."""
    return tuple((f"2001:db8:1000::{at:x}", f"203.0.113.{3 + at // 256}", 0, 8, at % 256) for at in range(count))


class Live:
    """lwaftr between tun6 and tun4, joined by tunpipe: `with Live("name", table, words..) as live: ..`"""

    def __init__(self, name, table, *words, fillers=FILLERS, keep=True):
        self.name, self.folder, self.table, self.words = name, f"{RESULTS}/{name}", table, words
        self.options = [*(["-r"] if keep else []), *([] if fillers else ["-n"])]

    def __enter__(self):
        os.makedirs(self.folder, exist_ok=True)
        self.log = open(f"{self.folder}/log", "w")
        command = [f"{BASE}/tunpipe", "-4", "inet/tun4", "-6", "isp/tun6", "-d", self.folder, *self.options, "--", LWAFTR, self.table, *self.words]
        self.process = subprocess.Popen(command, stdin=subprocess.DEVNULL, stdout=self.log, stderr=self.log)
        self._wait_for_devices()
        self._lead_traffic_here()
        network.forget()
        return self

    def _wait_for_devices(self, seconds=20):
        end = time.time() + seconds
        while time.time() < end and self.process.poll() is None:
            if not shell(None, "ip -n isp link show tun6 && ip -n inet link show tun4")[0]:
                return
            time.sleep(0.1)

    @staticmethod
    def _lead_traffic_here():
        device = "mtu 1500 txqueuelen 5000 addrgenmode none"
        must("isp", "sysctl -q -w net.ipv6.conf.tun6.router_solicitations=0")
        ip("isp", f"link set tun6 {device}", "link set core down", "link set tun6 up", f"-6 route replace {AFTR}/128 dev tun6")
        ip("inet", f"link set tun4 {device}", "link set back down", "link set tun4 up", "route replace 203.0.113.0/24 dev tun4 src 198.51.100.1",
           f"route replace {OWN}/32 dev tun4 src 198.51.100.1")

    def control(self, line):
        with open(f"{self.folder}/control", "w") as file:
            file.write(line + "\n")

    def count(self):
        """The number of the next record, and how many records have their verdict."""
        path = f"{self.folder}/count"
        if os.path.exists(path):
            os.unlink(path)
        self.control("count")
        while not os.path.exists(path):
            time.sleep(0.01)
        with open(path) as file:
            return tuple(map(int, file.read().split()))

    def go_to(self, record):
        """Sends fillers until a record behind this one is there; returns once this one has its verdict."""
        self.control(f"goto {record + 2}")
        while self.process.poll() is None and self.count()[1] < record:
            time.sleep(0.05)
        time.sleep(0.1)

    def program_id(self):
        with open(f"{self.folder}/pid") as file:
            return int(file.read())

    def __exit__(self, *_):
        time.sleep(0.2)
        if self.process.poll() is None:
            self.control("stop")
        try:
            self.status = self.process.wait(timeout=30)
        except subprocess.TimeoutExpired:
            self.process.kill()
            self.status = "does not end"
        self.log.close()
        self.statistics = {key: int(value) for key, value in (line.split() for line in self._lines("statistics"))}
        self.verdicts = [line.split() for line in self._lines("verdicts") if line[:1].isdigit()]
        self.versions = self._lines("versions")

    def _lines(self, name):
        path = f"{self.folder}/{name}"
        if not os.path.exists(path):
            return []
        with open(path) as file:
            return file.read().splitlines()

    def points(self):
        """The records from which the later tables judge, as VERSIONS has them."""
        return [line.split()[-1] for line in self.versions[1:]]

    def tally(self):
        """How many records had each verdict, and how many packets were sent for them, without fillers."""
        lines = (line.split(None, 2) for line in self._lines("tally"))
        return {words: (int(records), int(sent)) for records, sent, words in lines}


def name_of(verdict):
    """A verdict without its numbers: `up`, `drop ttl`, .."""
    return " ".join(verdict[2:-1])


def compare_with_file(live):
    """The recorded capture as one file, under the same tables at the same points, gives the same files."""
    name, folder = live.name, live.folder
    tables = [live.table] + [f"{words[3]}-{words[3]}:{words[1]}" for words in map(str.split, live.versions[1:]) if words[0] != "-"]
    options = [word for word in live.words if word.startswith("--")]
    again = {"out.pcap": f"{folder}/again.pcap", "verdicts": f"{folder}/again-verdicts"}
    shell(None, f"{LWAFTR} run {folder}/in.pcap {again['out.pcap']} {again['verdicts']} {folder}/again-versions {' '.join(tables + options)}", 120)
    equal = [not shell(None, f"cmp {folder}/{first} {second}")[0] for first, second in again.items()]
    results.check(f"{name}: what came live is what a run over the recorded capture gives, byte for byte", "equal, equal, status 0",
                  ", ".join("equal" if same else "differs" for same in equal) + f", status {live.status}", all(equal) and live.status == 0)
    check_checksums(name, folder)
    report_drops(live)
    report_figures(live)
    remove_large_captures(folder)
    for path in (*again.values(), f"{folder}/again-versions"):
        if os.path.exists(path):
            os.unlink(path)


def check_checksums(name, folder, most=2500):
    sent = [data for _, data in packets.ip_packets(f"{folder}/out.pcap")][:most]
    faults = [data for data in sent if packets.parse(data).faults()]
    results.check(f"{name}: checksums of the packets sent (the first {most:,})", "0 wrong", f"{len(faults)} wrong of {len(sent)}", not faults)


def report_drops(live):
    """The first record of each rule that drops, so that a reader sees what it was."""
    _, records = packets.read_capture(f"{live.folder}/in.pcap")
    first = {}
    for (_, data), verdict in zip(records, live.verdicts):
        if verdict[2] == "drop" and data:
            first.setdefault(" ".join(verdict[3:-1]), f"record {verdict[0]}, {packets.describe(data)}")
    if first:
        results.info(f"{live.name}: the first record of each rule that drops", "; ".join(f"{rule}: {packet}" for rule, packet in first.items()))
    if live.name == "live":
        packets.write_capture(f"{live.folder}/sample.pcap", packets.PLAIN_IP, [record for record in records if record[1]][-4000:])


def report_figures(live):
    figures = live.statistics
    results.info(f"{live.name}: records, of these fillers, packets sent; from device to verdict, ms; the program's processor time and memory",
                 f"{figures['records']}, {figures['fillers']}, {figures['sent']}; least {figures['least'] / 1000}, median {figures['median'] / 1000}, "
                 f"99 of 100 {figures['percentile99'] / 1000}; {figures['processor_ms'] / 1000} s, {figures['kilobytes'] // 1024} MB")
    results.info(f"{live.name}: verdicts", json.dumps({words: records for words, (records, _) in live.tally().items()}).replace('"', ""))


def remove_large_captures(folder):
    """A group that failed keeps its captures."""
    for name in ("in.pcap", "out.pcap"):
        path = f"{folder}/{name}"
        if os.path.getsize(path) > KEPT_BYTES and not results.failures(results.group):
            os.unlink(path)
