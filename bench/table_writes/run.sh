#!/usr/bin/env bash
# Times the writing of tables of 65,545 words into shared areas, where few or all of their words differ: builds the program in a
# temporary repository, which proves it first, and runs it.
#     bench/table_writes/run.sh
set -e
here="$(cd "$(dirname "$0")" && pwd)"
top="$(cd "$here/../.." && pwd)"
work=/tmp/table_writes_bench
repository="$work/repository"
bench="$repository/crates/writes_bench"
"$here/../repository.py" "$repository" "$top" writes_bench aftr_base swap_core area_swap
cp "$here/program/main.rt.txt" "$bench/src/main.rt"
for file in "$here"/program/*.antt.txt; do
    name="$(basename "$file" .antt.txt)"
    mkdir -p "$bench/proofs/$name"
    cp "$file" "$bench/proofs/$name/Invariants.antt"
done
rm -f "$bench/out/writes_bench"
(cd "$bench" && ${RT:-rt} run > "$work/build.txt" 2>&1) || true
[ -x "$bench/out/writes_bench" ] || { tail "$work/build.txt"; exit 1; }
"$bench/out/writes_bench"
