#!/usr/bin/env bash
# Times `compile`, and random looks over tables of 65,536 bindings: builds the program in a temporary repository, which
# proves it first, and runs it three times. The crates are those of this repository, or of the one that is named.
#     bench/table_lookups/run.sh [REPOSITORY]
set -e
here="$(cd "$(dirname "$0")" && pwd)"
top="$(cd "${1:-$here/../..}" && pwd)"
work="/tmp/table_lookups_bench$(echo "$top" | tr / _)"
repository="$work/repository"
"$here/../repository.py" "$repository" "$top" lookups_bench aftr_base binding_rules table_words
mkdir -p "$repository/crates/lookups_bench/proofs/found_in"
cp "$here/program/main.rt.txt" "$repository/crates/lookups_bench/src/main.rt"
cp "$here/program/Invariants.antt.txt" "$repository/crates/lookups_bench/proofs/found_in/Invariants.antt"
program="$repository/crates/lookups_bench/out/lookups_bench"
rm -f "$program"
(cd "$repository/crates/lookups_bench" && rt run > "$work/build.txt" 2>&1) || true
[ -x "$program" ] || { tail "$work/build.txt"; exit 1; }
for turn in 1 2 3; do
    "$program"
done
