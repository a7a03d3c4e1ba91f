# Makes a capture of upstream packets of 100 bytes and a table of 65,536 bindings: 1,024 addresses in 100.64.0.0/22, each
# shared by 64 subscribers (offset 6, length 6).
#     make.py COUNT CAPTURE TABLE
import ipaddress
import struct
import sys

count, capture, table = int(sys.argv[1]), sys.argv[2], sys.argv[3]
AFTR = ipaddress.IPv6Address("2001:db8::1").packed
B4 = int(ipaddress.IPv6Address("2001:db8:1::"))
FIRST = int(ipaddress.IPv4Address("100.64.0.0"))
PEER = ipaddress.IPv4Address("198.51.100.7").packed


def checksum(header):
    total = sum(struct.unpack(">10H", header))
    while total >> 16:
        total = (total & 0xFFFF) + (total >> 16)
    return 0xFFFF - total


def packet(number):
    subscriber = number * 40503 % 65536
    address = struct.pack(">I", FIRST + subscriber // 64)
    port = 1024 + 16 * (subscriber % 64) + number % 16
    header = struct.pack(">BBHHHBBH", 0x45, 0, 60, number & 0xFFFF, 0, 64, 17, 0) + address + PEER
    header = header[:10] + struct.pack(">H", checksum(header)) + header[12:]
    datagram = struct.pack(">HHHH", port, 53, 40, 0) + bytes(32)
    source = (B4 + subscriber).to_bytes(16, "big")
    return struct.pack(">IHBB", 0x60000000, 60, 4, 64) + source + AFTR + header + datagram


with open(capture, "wb") as out:
    out.write(struct.pack("<IHHiIII", 0xA1B2C3D4, 2, 4, 0, 0, 262144, 101))
    for number in range(count):
        out.write(struct.pack("<IIII", number // 1000, number % 1000, 100, 100) + packet(number))

with open(table, "w") as out:
    out.write('version = 1\n[softwire]\naftr = "2001:db8::1"\nown = "192.0.2.1"\n')
    for subscriber in range(65536):
        out.write(
            '[[binding]]\nb4 = "%s"\nipv4 = "%s"\noffset = 6\nlength = 6\npsid = %d\n'
            % (ipaddress.IPv6Address(B4 + subscriber), ipaddress.IPv4Address(FIRST + subscriber // 64), subscriber % 64)
        )
