# Makes a table file of 65,536 bindings (65,535 in one layout).
#     make.py LAYOUT TABLE
import ipaddress
import sys

B4 = int(ipaddress.IPv6Address("2001:db8:1::"))
FIRST = int(ipaddress.IPv4Address("100.64.0.0"))


# Rows of (address, offset, length, identifier), an address as its number from 0 on.
def rows_of(layout):
    if layout == "one-address":
        return 1, [(0, 0, 16, psid) for psid in range(65536)]
    if layout == "65536-addresses":
        return 1, [(address, 0, 0, 0) for address in range(65536)]
    if layout == "1024-by-64":
        return 1, [(number // 64, 6, 6, number % 64) for number in range(65536)]
    if layout == "two-shapes":
        # the lower half of the ports and the upper half, as two shapes
        return 2, [(number // 2, 0, 1, 0) if number % 2 == 0 else (number // 2, 1, 0, 0) for number in range(65536)]
    if layout == "255-by-257":
        # 256 single ports and the upper half of the ports; the bindings of all addresses in turn
        return 2, [(address, 0, 16, port) for port in range(256) for address in range(255)] + [(address, 1, 0, 0) for address in range(255)]
    if layout == "refused-at-the-last":
        # single ports, and at last the whole address
        return 2, [(0, 0, 16, port) for port in range(65535)] + [(0, 0, 0, 0)]
    sys.exit("no such layout")


version, rows = rows_of(sys.argv[1])
with open(sys.argv[2], "w") as out:
    out.write('version = %d\n[softwire]\naftr = "2001:db8::1"\nown = "192.0.2.1"\n' % version)
    for number, (address, offset, length, psid) in enumerate(rows):
        out.write(
            '[[binding]]\nb4 = "%s"\nipv4 = "%s"\noffset = %d\nlength = %d\npsid = %d\n'
            % (ipaddress.IPv6Address(B4 + number), ipaddress.IPv4Address(FIRST + address), offset, length, psid)
        )
