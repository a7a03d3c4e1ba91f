#!/usr/bin/env bash
# Counts what the packets of a verdict cost: instructions a turn, by callgrind, as the difference of 11,000 and 1,000 turns, and how
# often each run takes memory. Builds the program in a temporary repository, which proves it first. Needs valgrind. The crates are
# those of this repository, or of the one that is named.
#     bench/sent_costs/run.sh [REPOSITORY]
set -e
here="$(cd "$(dirname "$0")" && pwd)"
top="$(cd "${1:-$here/../..}" && pwd)"
work="/tmp/sent_costs_bench$(echo "$top" | tr / _)"
repository="$work/repository"
bench="$repository/crates/costs_bench"
"$here/../repository.py" "$repository" "$top" costs_bench aftr_base binding_rules table_words ip_codec capture_io verdict_core packet_render
mkdir -p "$bench/proofs/verdict"
cp "$here/program/main.rt.txt" "$bench/src/main.rt"
cp "$here/program/Invariants.antt.txt" "$bench/proofs/verdict/Invariants.antt"
program="$bench/out/costs_bench"
rm -f "$program"
(cd "$bench" && rt run > "$work/build.txt" 2>&1) || true
[ -x "$program" ] || { tail "$work/build.txt"; exit 1; }

instructions() {
    valgrind --tool=callgrind --callgrind-out-file=/dev/null "$program" "$@" 2>&1 | sed -n 's/.*Collected : //p'
}

allocations() {
    valgrind "$program" "$@" 2>&1 | sed -n 's/.*total heap usage: \([0-9,]*\) allocs.*/\1/p'
}

for kind in "up 100 wide" "up 1460 wide" "down 100 wide" "down 1460 wide" "up 1460 narrow" "down 1460 narrow" "up 65535 narrow" "down 65535 narrow"; do
    few="$(instructions $kind few)"
    many="$(instructions $kind many)"
    echo "$kind: $("$program" $kind few), $(((many - few) / 10000)) instructions a turn," \
        "memory taken $(allocations $kind few) times in 1,000 turns and $(allocations $kind many) in 11,000"
done
