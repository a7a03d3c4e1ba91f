#!/usr/bin/env bash
# Has tshark dissect a capture of ICMP packets with every checksum verified. Each line shows a packet: its number, length,
# addresses (outer and quoted), ICMP type and code, the state of its checksums (1 is good), and the quoted UDP ports.
#     diff/icmp_packets/dissect.sh CAPTURE
set -e
options=(-o ip.check_checksum:TRUE -r "$1")
tshark "${options[@]}" -T fields -e frame.number -e frame.len -e ip.src -e ip.dst -e ipv6.src -e ipv6.dst \
    -e icmp.type -e icmp.code -e icmp.mtu -e icmpv6.type -e icmpv6.code -e ip.checksum.status -e icmp.checksum.status \
    -e icmpv6.checksum.status -e udp.srcport -e udp.dstport
complaints="$(tshark "${options[@]}" -Y '_ws.malformed || _ws.expert.severity >= warning
    || ip.checksum.status == "Bad" || icmp.checksum.status == "Bad" || icmpv6.checksum.status == "Bad"' 2> /dev/null)"
[ -z "$complaints" ] || { echo "tshark complains of:"; echo "$complaints"; exit 1; }
without="$(tshark "${options[@]}" -Y '(icmp || icmpv6) && !(icmp.type in {0, 8}) && !udp.dstport' 2> /dev/null)"
[ -z "$without" ] || { echo "no quoted packet in:"; echo "$without"; exit 1; }
echo "no complaint"
