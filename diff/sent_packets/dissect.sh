#!/usr/bin/env bash
# Has tshark dissect a capture of packets that were sent, with every checksum verified and every packet put together again.
#     diff/sent_packets/dissect.sh CAPTURE
set -e
here="$(cd "$(dirname "$0")" && pwd)"
options=(-o ip.check_checksum:TRUE -o ip.defragment:TRUE -o ipv6.defragment:TRUE -r "$1")
count() { tshark "${options[@]}" -Y "$1" 2> /dev/null | wc -l; }
complaints="$(tshark "${options[@]}" -Y '_ws.malformed || _ws.expert.severity >= warning
    || ip.checksum.status == "Bad" || icmp.checksum.status == "Bad" || icmpv6.checksum.status == "Bad"' 2> /dev/null)"
[ -z "$complaints" ] || { echo "tshark complains of:"; echo "$complaints" | head -20; exit 1; }
said="$(count frame) packets, $(count 'ipv6.fraghdr || ip.flags.mf == 1 || ip.frag_offset > 0') fragments,"
said="$said $(count 'ipv6.reassembled.length || ip.reassembled.length') put together, $(count 'icmp || icmpv6') errors"
echo "$1: $said"
[ "$said" = "$(python3 "$here/expected.py")" ] || { echo "expected: $(python3 "$here/expected.py")"; exit 1; }
