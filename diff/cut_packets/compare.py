"""Has tshark put pieces together again, and compares what comes out with the packets that were cut.

    compare.py PACKETS WORK

PACKETS has the lines that the program wrote. Each packet's pieces become a capture of their own in WORK, in order and also
backwards; what tshark joins must be the packet's body or payload, and no piece may be longer than the link takes.
"""
import os
import struct
import subprocess
import sys


def capture(path, packets):
    with open(path, "wb") as out:
        out.write(struct.pack("<IHHiIII", 0xA1B2C3D4, 2, 4, 0, 0, 262144, 101))
        for number, packet in enumerate(packets):
            out.write(struct.pack("<IIII", 1, number, len(packet), len(packet)) + packet)


def joined(path, field):
    options = ["-o", "ip.check_checksum:TRUE", "-o", "ip.defragment:TRUE", "-o", "ipv6.defragment:TRUE"]
    told = subprocess.run(["tshark", *options, "-r", path, "-T", "fields", "-e", field, "-e", "ip.checksum.status"],
                          capture_output=True, text=True, check=True).stdout
    rows = [line.split("\t") for line in told.splitlines()]
    if any("0" in row[1].split(",") for row in rows):
        sys.exit(f"{path}: a wrong checksum")
    return [bytes.fromhex(row[0].replace(":", "")) for row in rows if row[0]]


def read(path):
    cuts = []
    for line in open(path):
        words = line.split()
        if words and words[0] == "packet":
            cuts.append((int(words[1]), words[2], bytes.fromhex(words[3]), []))
        elif cuts and words:
            cuts[-1][3].append(bytes.fromhex(words[0]))
    return cuts


def main():
    cuts = read(sys.argv[1])
    most = {4: 0, 6: 0}
    pieces_in_all = 0
    for mtu, listed, packet, pieces in cuts:
        version = packet[0] >> 4
        most[version] = max(most[version], len(pieces))
        pieces_in_all += len(pieces)
        if listed != "true" or any(len(piece) > mtu for piece in pieces):
            sys.exit(f"{len(packet)} bytes at {mtu}: too long a piece, or another list")
        if len(packet) <= mtu:
            if pieces != [packet]:
                sys.exit(f"{len(packet)} bytes at {mtu}: it fits and was changed")
            continue
        body = packet[40:] if version == 6 else packet[4 * (packet[0] & 15):]
        field = "ipv6.reassembled.data" if version == 6 else "ip.reassembled.data"
        for order in (pieces, pieces[::-1]):
            path = os.path.join(sys.argv[2], "pieces.pcap")
            capture(path, order)
            if joined(path, field) != [body]:
                sys.exit(f"{len(packet)} bytes at {mtu}: tshark joins something else")
    print(f"{len(cuts)} packets, {pieces_in_all} pieces: all put together again; at most {most[6]} and {most[4]} pieces")


main()
