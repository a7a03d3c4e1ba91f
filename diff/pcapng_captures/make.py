"""Makes pcapng files with other tools, or files that are costly to read. python3 make.py FOLDER [hostile]"""
import os
import struct
import subprocess
import sys

folder = sys.argv[1]
path = lambda name: os.path.join(folder, name)


def run(*words):
    subprocess.run(words, check=True, stdout=subprocess.DEVNULL, stderr=subprocess.DEVNULL)


def classic(name, link, count, nano):
    magic = 0xA1B23C4D if nano else 0xA1B2C3D4
    with open(path(name), "wb") as out:
        out.write(struct.pack("<IHHiIII", magic, 2, 4, 0, 0, 262144, link))
        for number in range(count):
            body = bytes([0x45] + [number % 251] * (27 + number % 97))
            if link == 1:
                body = bytes(12) + b"\x08\x00" + body
            fraction = (number * 7919 + 1) % (10**9 if nano else 10**6)
            out.write(struct.pack("<IIII", 1_700_000_000 + number, fraction, len(body), len(body)) + body)


def block(kind, body):
    total = struct.pack("<I", 12 + len(body))
    return struct.pack("<I", kind) + total + body + total


SECTION = block(0x0A0D0D0A, struct.pack("<IHHq", 0x1A2B3C4D, 1, 0, -1))
INTERFACE = block(1, struct.pack("<HHI", 101, 0, 262144))

def hostile(name, *parts):
    with open(path(f"hostile_{name}.pcapng"), "wb") as out:
        for part in parts:
            out.write(part)


if len(sys.argv) > 2:
    size = 100_000_000
    begin = SECTION + INTERFACE
    packet = block(6, struct.pack("<IIIII", 0, 0, 1_000_000, 80, 80) + bytes(80))
    hostile("blocks_of_12", begin, block(5, b"") * (size // 12))
    hostile("interfaces", (SECTION + INTERFACE * 65_536) * (size // (28 + 20 * 65_536)))
    hostile("options", SECTION, block(1, struct.pack("<HHI", 101, 0, 262144) + struct.pack("<HH", 1, 0) * ((size - 100) // 4)))
    hostile("later_options", begin, block(1, struct.pack("<HHI", 101, 0, 262144) + struct.pack("<HH", 1, 0) * ((size - 100) // 4)))
    hostile("interfaces_and_packets", SECTION, (INTERFACE + packet) * 65_536, packet * 700_000)
    hostile("sections", begin, SECTION * (size // 28))
    hostile("packets_of_16", begin, block(3, bytes(4)) * (size // 16))
    hostile("packets_with_options", begin, block(6, struct.pack("<IIIII", 0, 0, 0, 80, 80) + bytes(900_000)) * (size // 900_032))
    hostile("one_long_block", begin, block(5, bytes(size - 100)))
    hostile("long_block_and_packets", begin, block(5, bytes(size // 2)), packet * (size // 2 // 112))
    hostile("block_cut", begin, struct.pack("<II", 5, 4_000_000_000), bytes(size))
    sys.exit()

classic("micro.pcap", 101, 300, False)
classic("nano.pcap", 101, 300, True)
classic("ether.pcap", 1, 300, True)
run("editcap", "-F", "pcapng", path("micro.pcap"), path("editcap_micro.pcapng"))
run("editcap", "-F", "pcapng", path("nano.pcap"), path("editcap_nano.pcapng"))
run("editcap", "-F", "pcapng", path("ether.pcap"), path("editcap_ether.pcapng"))
run("tshark", "-r", path("nano.pcap"), "-F", "pcapng", "-w", path("tshark.pcapng"))
run("mergecap", "-F", "pcapng", "-w", path("mergecap.pcapng"), path("micro.pcap"), path("nano.pcap"))
with open(path("dump.txt"), "w") as out:
    for number in range(40):
        out.write(f"12:00:{number:02}.{number * 25013:06}\n0000 45 00 00 1c " + "00 " * (20 + number) + "\n")
run("text2pcap", "-l", "101", "-t", "%H:%M:%S.%f", path("dump.txt"), path("text2pcap.pcapng"))
from scapy.all import IP, UDP, Ether, PcapNgWriter

writer = PcapNgWriter(path("scapy.pcapng"))
for number in range(50):
    packet = Ether(src="02:00:00:00:00:01", dst="02:00:00:00:00:02") / IP(dst="198.51.100.7") / UDP() / bytes(number)
    packet.time = 1_600_000_000 + number / 8
    writer.write(packet)
writer.close()
