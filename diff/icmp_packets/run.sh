#!/usr/bin/env bash
# Writes a packet of each kind that the ICMP crates write into packets.pcap, and has tshark dissect it: it fails where
# tshark warns of anything, finds a checksum wrong, or does not find the quoted packet. Needs python3 and tshark.
#     diff/icmp_packets/run.sh [REPOSITORY]
set -e
here="$(cd "$(dirname "$0")" && pwd)"
top="$(cd "${1:-$here/../..}" && pwd)"
work="/tmp/icmp_packets_bench$(echo "$top" | tr / _)"
repository="$work/repository"
"$here/../../bench/repository.py" "$repository" "$top" icmp_packets aftr_base ip_codec icmp_codec icmp_errors icmp_relay
cp "$here/program/main.rt.txt" "$repository/crates/icmp_packets/src/main.rt"
(cd "$repository/crates/icmp_packets" && rt try > "$work/packets.txt" 2> "$work/build.txt")
python3 "$here/capture.py" "$work/packets.txt" "$here/packets.pcap"
"$here/dissect.sh" "$here/packets.pcap"
