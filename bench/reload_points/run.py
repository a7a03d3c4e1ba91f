#!/usr/bin/env python3
"""Where tables came into force: how many records behind the first one that their windows allow.

  bench/reload_points/run.py [RUNS] [PROGRAM]

Over 11,900 small records, one round, with two, three and ten windows, by 1, 2, 4 and 16 workers, each RUNS times (20). For each it prints the median and
the greatest distance between a table's EARLIEST and the record that VERSIONS prints, and in how many runs every table came before the last
record. The program is the one that ./lwaftr runs, or PROGRAM.
"""
import os
import statistics
import struct
import subprocess
import sys
import tempfile

TOP = os.path.dirname(os.path.dirname(os.path.dirname(os.path.realpath(__file__))))
RECORDS = 11_900  # of 88 bytes: one round, where two workers or more are asked for
TABLE = """version = 1
[softwire]
aftr = "2001:db8::1"
own = "192.0.2.1"
[[binding]]
b4 = "2001:db8:1::1"
ipv4 = "203.0.113.1"
offset = 6
length = 8
psid = 52
"""


def folded(total):
    while total >> 16:
        total = (total & 0xFFFF) + (total >> 16)
    return total


def packet():
    """A UDP packet of the subscriber in its tunnel."""
    addresses = bytes([203, 0, 113, 1, 198, 51, 100, 7])
    header = struct.pack("!BBHHHBBH", 0x45, 0, 32, 1, 0, 64, 17, 0) + addresses
    checksum = 0xFFFF ^ folded(sum(struct.unpack("!10H", header)))
    header = header[:10] + struct.pack("!H", checksum) + header[12:]
    inner = header + struct.pack("!4H", 1232, 53, 12, 0) + b"test"
    ends = bytes.fromhex("20010db800010000" "0000000000000001" "20010db800000000" "0000000000000001")
    return struct.pack("!IHBB", 0x60000000, len(inner), 4, 64) + ends + inner


def capture():
    one = packet()
    head = struct.pack("<IHHiIII", 0xA1B2C3D4, 2, 4, 0, 0, 262_144, 101)
    return head + b"".join(struct.pack("<IIII", 1, 0, len(one), len(one)) + one for _ in range(RECORDS))


def windows(count):
    """The first records at which tables may come: 10 and 200, or so many parts of the records."""
    return [10, 200] if count == 2 else [10 + place * RECORDS // (count + 1) for place in range(count)]


def points(program, firsts, workers):
    loads = [f"{first}-1000000:t.toml" for first in firsts]
    words = [program, "run", "in.pcap", "out.pcap", "verdicts.txt", "versions.txt", "t.toml", *loads, "--workers", str(workers)]
    subprocess.run(words, check=True, stdout=subprocess.DEVNULL)
    with open("versions.txt", encoding="utf-8") as lines:
        return [int(it.split()[-1]) for it in lines if it.split()[-2] == "at"]


def main():
    runs = int(sys.argv[1]) if len(sys.argv) > 1 else 20
    program = os.path.abspath(sys.argv[2]) if len(sys.argv) > 2 else subprocess.run(
        [f"{TOP}/build", "--program"], capture_output=True, text=True, check=True).stdout.strip()
    with tempfile.TemporaryDirectory() as folder:
        os.chdir(folder)
        with open("in.pcap", "wb") as it:
            it.write(capture())
        with open("t.toml", "w", encoding="utf-8") as it:
            it.write(TABLE)
        print(f"a load of {os.getloadavg()[0]:.1f} on {os.cpu_count()} processors")
        print("| windows | workers | records behind EARLIEST: median, greatest | runs with all before the last record |")
        print("|---|---|---|---|")
        for count in (2, 3, 10):
            firsts = windows(count)
            for workers in (1, 2, 4, 16):
                behind, whole = [], 0
                for _ in range(runs):
                    came = points(program, firsts, workers)
                    behind += [point - first for point, first in zip(came, firsts)]
                    whole += len(came) == len(firsts) and came[-1] < RECORDS
                print(f"| {count} | {workers} | {statistics.median(behind):.0f}, {max(behind)} | {whole} of {runs} |")


if __name__ == "__main__":
    main()
