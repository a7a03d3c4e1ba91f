#!/usr/bin/env bash
# Draws by 4 and by 16 seats in threads beside a desk that puts 255 tables into force, 10 times each: builds the program in a
# temporary repository, which proves it first, and runs it. It ends with 1 where a try fails.
#     bench/area_stress/run.sh
set -eo pipefail
here="$(cd "$(dirname "$0")" && pwd)"
top="$(cd "$here/../.." && pwd)"
work=/tmp/area_stress_bench
repository="$work/repository"
bench="$repository/crates/stress_bench"
"$here/../repository.py" "$repository" "$top" stress_bench aftr_base swap_core area_swap
cp "$here/program/main.rt.txt" "$bench/src/main.rt"
for file in "$here"/program/*.antt.txt; do
    name="$(basename "$file" .antt.txt)"
    mkdir -p "$bench/proofs/$name"
    cp "$file" "$bench/proofs/$name/Invariants.antt"
done
rm -f "$bench/out/stress_bench"
(cd "$bench" && ${RT:-rt} run > "$work/build.txt" 2>&1) || true
[ -x "$bench/out/stress_bench" ] || { tail "$work/build.txt"; exit 1; }
"$bench/out/stress_bench" | tee "$work/said.txt"
[ "$(grep -c 'tries: 0 failed,' "$work/said.txt")" = 4 ]
