#!/usr/bin/env bash
# Writes packets of every kind that are sent into a capture, in both forms, and has tshark dissect them with every checksum
# verified: it fails where tshark warns of anything, finds a checksum wrong, does not put the pieces of a packet together again, or
# finds another number of packets. The program is run, and not proved. Needs python3 and tshark.
#     diff/sent_packets/run.sh [REPOSITORY]
set -e
here="$(cd "$(dirname "$0")" && pwd)"
top="$(cd "${1:-$here/../..}" && pwd)"
work="/tmp/sent_packets_bench$(echo "$top" | tr / _)"
repository="$work/repository"
"$here/../../bench/repository.py" "$repository" "$top" sent_packets aftr_base ip_codec icmp_codec capture_io softwire_encap verdict_core packet_render
cp "$here/program/main.rt.txt" "$repository/crates/sent_packets/src/main.rt"
for form in classic blocks; do
    (cd "$repository/crates/sent_packets" && rt try --seconds 600 -- "$form" > "$work/$form.txt" 2> "$work/build.txt")
    python3 -c 'import sys; print(open(sys.argv[1]).read().split("\n")[0])' "$work/$form.txt" \
        | python3 -c 'import sys; sys.stdout.buffer.write(bytes.fromhex(sys.stdin.read()))' > "$work/$form.pcap"
    "$here/dissect.sh" "$work/$form.pcap"
done
