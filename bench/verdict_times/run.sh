#!/usr/bin/env bash
# Times a verdict on each kind of packet, over the words of a table of 65,536 bindings: builds the program in a temporary
# repository, which proves it first, and runs it three times. The crates are those of this repository, or of the one that is
# named.
#     bench/verdict_times/run.sh [REPOSITORY]
set -e
here="$(cd "$(dirname "$0")" && pwd)"
top="$(cd "${1:-$here/../..}" && pwd)"
work="/tmp/verdict_times_bench$(echo "$top" | tr / _)"
repository="$work/repository"
bench="$repository/crates/verdicts_bench"
"$here/../repository.py" "$repository" "$top" verdicts_bench aftr_base binding_rules table_words ip_codec icmp_codec verdict_core
mkdir -p "$bench/proofs/right_in"
cp "$here/program/main.rt.txt" "$bench/src/main.rt"
cp "$here/program/Invariants.antt.txt" "$bench/proofs/right_in/Invariants.antt"
program="$bench/out/verdicts_bench"
rm -f "$program"
(cd "$bench" && rt run > "$work/build.txt" 2>&1) || true
[ -x "$program" ] || { tail "$work/build.txt"; exit 1; }
for turn in 1 2 3; do
    "$program"
done
