#!/usr/bin/env bash
# Cuts packets of sizes round every border, and has tshark put the pieces together again: it fails where anything but the
# packet comes out, a piece is too long or a checksum is wrong. Needs python3 and tshark.
#     diff/cut_packets/run.sh [REPOSITORY]
set -e
here="$(cd "$(dirname "$0")" && pwd)"
top="$(cd "${1:-$here/../..}" && pwd)"
work="/tmp/cut_packets_bench$(echo "$top" | tr / _)"
repository="$work/repository"
"$here/../../bench/repository.py" "$repository" "$top" cut_packets aftr_base ip_codec fragmenter
cp "$here/program/main.rt.txt" "$repository/crates/cut_packets/src/main.rt"
: > "$work/packets.txt"
# A run may write a megabyte.
for word in 6-1280 6-1287 6-1288 6-1500 4-576 4-577 4-583 4-584 longest; do
    (cd "$repository/crates/cut_packets" && rt try -- "$word" >> "$work/packets.txt" 2> "$work/build.txt")
done
python3 "$here/compare.py" "$work/packets.txt" "$work"
