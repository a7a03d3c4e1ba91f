#!/usr/bin/env python3
"""Seconds and memory of whole runs over three kinds of traffic.

  bench/program_times/run.py [--records N] [--turns N] [--kind KIND] [--bindings N] [PROGRAM..]

Captures of N records (1,000,000), by one binding and by 65,536: `imix` (IPv4 packets of 64, 576 and 1,460 bytes as 7 to 4 to 1), `small`
(records of 64 to 100 bytes) and `frag` (as `imix`, but every fifth datagram has 600 to 2,600 bytes and comes in two or three fragments, of the
tunnel packet, of a packet from the network or of one in the tunnel). Up and down come in turn; of a hundred datagrams one goes from
subscriber to subscriber, one is of nobody's port, one is an echo, and of the others two are UDP where three are TCP. Each program runs
with 1, 2, 4 and 16 workers, in turn with `cp` of the capture. It prints medians of N turns (5) as rows of a table, and below it the shares
of verdicts. Exit code 1 where a verdict is none of those that are wanted, their shares are others, or programs or workers write unlike files.
--kind and --bindings leave out the others; without PROGRAM it is the one that ./lwaftr runs. Memory is told where /usr/bin/time is there.
At most 1.2 GB stand in a temporary folder at once."""
import argparse
import collections
import hashlib
import itertools
import os
import random
import statistics
import struct
import subprocess
import sys
import tempfile
import time

TOP = os.path.dirname(os.path.dirname(os.path.dirname(os.path.realpath(__file__))))
KINDS, WORKERS = ("imix", "small", "frag"), (1, 2, 4, 16)
DATAGRAMS = 100_000  # that are made; a longer capture has them again
UDP, TCP, ICMP = 17, 6, 1
AFTR, B4 = 0x20010DB8 << 96 | 1, 0x20010DB8_00010000 << 64
NOBODYS = 1000  # no binding of offset 6 owns a port below 1024
SHARES = {"up": 0.485, "down": 0.495, "hairpin": 0.01, "drop no-binding": 0.01}
OUTPUTS = ("out.pcap", "verdicts.txt", "versions.txt")


def layout(count):
    """One binding, or 65,536 on 512 addresses: length of the identifier, and how many addresses have it."""
    return [(8, 1)] if count == 1 else [(6, 256), (7, 128), (8, 128)]


def bindings(count):
    """Tunnel's end, address, length and identifier of each."""
    places = [(length, address) for length, many in layout(count) for address in range(many)]
    found = [(0x64400000 + place, length, psid) for place, (length, _) in enumerate(places) for psid in range(1 << length)]
    return [((B4 + number).to_bytes(16, "big"), address.to_bytes(4, "big"), length, psid) for number, (address, length, psid) in enumerate(found[:count])]


def table(them):
    lines = ['version = 1\n[softwire]\naftr = "2001:db8::1"\nown = "192.0.2.1"\n']
    for b4, address, length, psid in them:
        end, shared = b4.hex(":", 2), ".".join(map(str, address))
        lines.append(f'[[binding]]\nb4 = "{end}"\nipv4 = "{shared}"\noffset = 6\nlength = {length}\npsid = {psid}\n')
    return "".join(lines)


def sealed(data, at, front=b""):
    """The bytes with their Internet checksum at a place: 2^16 is 1 modulo 65,535 (RFC 1071)."""
    total = int.from_bytes(front + data + bytes(len(data) % 2), "big") % 0xFFFF
    return data[:at] + (0xFFFF - total).to_bytes(2, "big") + data[at + 2 :]


def header4(body, protocol, src, dst, number, place=0):
    return sealed(struct.pack("!BBHHHBBH", 0x45, 0, 20 + len(body), number, place, 64, protocol, 0) + src + dst, 10) + body


def tunnelled(body, b4, kind=4):
    return struct.pack("!IHBB", 6 << 28, len(body), kind, 64) + b4 + AFTR.to_bytes(16, "big") + body


def parts(r, body):
    """Two or three parts of a body: offset in units of eight bytes, whether more follow, and the bytes."""
    size = -(-len(body) // r.choice([2, 3]) // 8) * 8
    return [(at // 8, at + size < len(body), body[at : at + size]) for at in range(0, len(body), size)]


class Datagrams:
    """Datagrams of a kind between the subscribers and the network, each as its records."""

    def __init__(self, kind, them):
        self.r, self.kind, self.them = random.Random(f"{kind} {len(them)}"), kind, them
        self.noise = self.r.randbytes(1 << 16)
        self.peers = [bytes([198, 51, 100, it]) for it in range(1, 255)]

    def end(self, port=None):
        """A subscriber's end of the tunnel, its address, and a port that it owns."""
        b4, address, length, psid = self.r.choice(self.them)
        low = 10 - length
        return b4, address, port or self.r.randrange(1, 64) << 10 | psid << low | self.r.randrange(1 << low)

    def size(self, least, tunnel):
        """Of an IPv4 packet."""
        if self.kind == "small":
            return self.r.randint(max(least, 64 - tunnel), 100 - tunnel)
        return self.r.choices([64, 576, 1460], [7, 4, 1])[0]

    def body(self, protocol, src, sport, dst, dport, size):
        """What stands behind an IPv4 header in a packet of so many bytes."""
        size -= 20
        if protocol == ICMP:
            front, at, pseudo = struct.pack("!BBHHH", 8 if dport else 0, 0, 0, sport or dport, 1), 2, b""
        elif protocol == UDP:
            front, at, pseudo = struct.pack("!4H", sport, dport, size, 0), 6, src + dst + struct.pack("!HH", UDP, size)
        else:
            front, at, pseudo = struct.pack("!HHIIHHHH", sport, dport, 1, 1, 0x5010, 8192, 0, 0), 16, src + dst + struct.pack("!HH", TCP, size)
        place = self.r.randrange(len(self.noise) - size)
        return sealed(front + self.noise[place : place + size - len(front)], at, pseudo)

    def datagram(self, number):
        up, of = number % 2 == 0, number % 200
        protocol = ICMP if of in (51, 160) else UDP if number // 2 % 5 < 2 else TCP
        b4, address, port = self.end(NOBODYS if of in (31, 140) else None)
        far, other = self.r.choice(self.peers), self.r.randrange(1024, 65536)
        if of in (10, 110):
            _, far, other = self.end()
        ends = (address, port, far, other) if up else (far, other, address, port)
        if protocol == ICMP:
            ends = (address, port, far, port) if up else (far, port, address, 0)
        cut = self.kind == "frag" and number % 5 == 4
        size = self.r.randint(600, 2600) if cut else self.size(40 if protocol == TCP else 28, 40 * up)
        return self.records(self.body(protocol, *ends, size), protocol, ends[0], ends[2], b4 if up else None, cut)

    def records(self, body, protocol, src, dst, b4, cut):
        number = self.r.randrange(65536)
        if cut and (not b4 or self.r.random() < 0.25):
            pieces = [header4(part, protocol, src, dst, number, more << 13 | at) for at, more, part in parts(self.r, body)]
            return [tunnelled(it, b4) for it in pieces] if b4 else pieces
        packet = header4(body, protocol, src, dst, number)
        if cut:
            long = self.r.randrange(1 << 32)
            return [tunnelled(struct.pack("!BBHI", 4, 0, at << 3 | more, long) + part, b4, 44) for at, more, part in parts(self.r, packet)]
        return [tunnelled(packet, b4)] if b4 else [packet]

    def all(self, count):
        """The records of so many datagrams: those of one stand some three apart."""
        placed = [(3.3 * piece + number, it) for number in range(count) for piece, it in enumerate(self.datagram(number))]
        return [it for _, it in sorted(placed, key=lambda it: it[0])]


def write_capture(path, kind, them, count):
    made = Datagrams(kind, them).all(min(count, DATAGRAMS))
    with open(path, "wb") as out:
        out.write(struct.pack("<IHHiIII", 0xA1B2C3D4, 2, 4, 0, 0, 262_144, 101))
        for number, it in zip(range(count), itertools.cycle(made)):
            out.write(struct.pack("<IIII", 1_700_000_000 + number // 100_000, number % 100_000 * 10, len(it), len(it)) + it)


def timed(words):
    """Seconds by the clock and of the processor, megabytes at most, and what was said."""
    words = ["/usr/bin/time", "-f", "%M", "-o", "memory", *words] if os.path.exists("/usr/bin/time") else words
    start = time.perf_counter()
    child = subprocess.Popen(words, stdout=subprocess.PIPE)
    said = child.stdout.read()
    _, status, usage = os.wait4(child.pid, 0)
    taken = time.perf_counter() - start
    child.returncode = os.waitstatus_to_exitcode(status)
    if child.returncode:
        sys.exit(f"{' '.join(words)} ended with {child.returncode}")
    memory = float("nan")
    if words[0] == "/usr/bin/time":
        with open("memory", encoding="utf-8") as it:
            memory = int(it.read()) / 1024
    return (taken, usage.ru_utime + usage.ru_stime, memory), said


def digest(said):
    """Of the files that a run wrote, and of what it said."""
    found = hashlib.sha256(said)
    for name in OUTPUTS:
        with open(name, "rb") as it:
            found.update(hashlib.file_digest(it, "sha256").digest())
    return found.hexdigest()


def shares():
    """How many records in all have each verdict."""
    with open("verdicts.txt", encoding="ascii") as lines:
        words = (it.split() for it in lines)
        came = collections.Counter(" ".join(it[2:4] if it[2] == "drop" else it[2:3]) for it in words if it[0].isdigit())
    return {name: number / came.total() for name, number in came.most_common()}


def is_wanted(kind, found):
    if kind == "frag":
        return set(found) == {*SHARES, "held"}
    return set(found) == set(SHARES) and all(abs(found[name] - share) < 0.001 for name, share in SHARES.items())


def row(cells):
    print(f"| {' | '.join(cells)} |", flush=True)


def medians(turns):
    """Medians of each program's turns, one row of cells: by the clock, of the processor, of memory."""
    found = [[statistics.median(it) for it in zip(*of)] for of in turns]
    return [", ".join(f"{it[place]:.{digits}f}" for it in found) for place, digits in ((0, 2), (1, 2), (2, 1))]


def compare(kind, count, programs, words):
    """Runs all programs over one capture. Whether all is as it has to be, and the shares of its verdicts."""
    them = bindings(count)
    write_capture("in.pcap", kind, them, words.records)
    with open("t.toml", "w", encoding="ascii") as it:
        it.write(table(them))
    turns, digests, found = collections.defaultdict(list), set(), {}
    for turn in range(words.turns):
        turns["cp"].append(timed(["cp", "in.pcap", "copy.pcap"])[0])
        os.remove("copy.pcap")
        for workers, (place, program) in itertools.product(WORKERS, list(enumerate(programs))[:: -1 if turn % 2 else 1]):
            taken, said = timed([program, "run", "in.pcap", *OUTPUTS, "t.toml", "--workers", str(workers)])
            turns[workers, place].append(taken)
            if not digests:
                found = shares()
            digests.add(digest(said))
            for name in OUTPUTS:
                os.remove(name)
    size, beside = os.path.getsize("in.pcap"), f", {count:,} bindings" if count > 1 else ""
    row([f"`{kind}` ({size / 1e6:.0f} MB){beside}", "`cp`", *medians([turns["cp"]])])
    for workers in WORKERS:
        row(["", str(workers), *medians([turns[workers, place] for place in range(len(programs))])])
    told = f"`{kind}`{beside}: {', '.join(f'{name} {share:.2%}' for name, share in found.items())}"
    told += "" if is_wanted(kind, found) else "; other verdicts than those that are wanted"
    told += "" if len(digests) == 1 else f"; {len(digests)} unlike outcomes"
    return is_wanted(kind, found) and len(digests) == 1, told


def main():
    it = argparse.ArgumentParser(description=__doc__, formatter_class=argparse.RawDescriptionHelpFormatter)
    it.add_argument("programs", nargs="*", metavar="PROGRAM")
    it.add_argument("--records", type=int, default=1_000_000)
    it.add_argument("--turns", type=int, default=5)
    it.add_argument("--kind", choices=KINDS)
    it.add_argument("--bindings", type=int, choices=(1, 65_536))
    words = it.parse_args()
    programs = [os.path.abspath(it) for it in words.programs]
    programs = programs or [subprocess.run([f"{TOP}/build", "--program"], capture_output=True, text=True, check=True).stdout.strip()]
    outcomes = []
    print(f"a load of {os.getloadavg()[0]:.1f} on {os.cpu_count()} processors\n")
    print("| records | workers | wall, s | processor, s | memory, MB |\n|---|---|---|---|---|", flush=True)
    with tempfile.TemporaryDirectory() as folder:
        os.chdir(folder)
        for count, kind in itertools.product((1, 65_536), KINDS):
            if words.kind in (None, kind) and words.bindings in (None, count):
                outcomes.append(compare(kind, count, programs, words))
    print("", *(told for _, told in outcomes), sep="\n")
    sys.exit(0 if all(right for right, _ in outcomes) else 1)


if __name__ == "__main__":
    main()
