#!/usr/bin/env bash
# Times the draws of 1, 2, 4, 8 and 16 threads over shared areas, one or up to 64 by one exchange: builds the program in a
# temporary repository, which proves it first, and runs it three times.
#     bench/area_draws/run.sh
set -e
here="$(cd "$(dirname "$0")" && pwd)"
top="$(cd "$here/../.." && pwd)"
work=/tmp/area_draws_bench
repository="$work/repository"
"$here/../repository.py" "$repository" "$top" draws_bench aftr_base swap_core area_swap
mkdir -p "$repository/crates/draws_bench/proofs/draw_on" "$repository/crates/draws_bench/proofs/seats_of"
cp "$here/program/main.rt.txt" "$repository/crates/draws_bench/src/main.rt"
cp "$here/program/DrawOn.antt.txt" "$repository/crates/draws_bench/proofs/draw_on/Invariants.antt"
cp "$here/program/SeatsOf.antt.txt" "$repository/crates/draws_bench/proofs/seats_of/Invariants.antt"
rm -f "$repository/crates/draws_bench/out/draws_bench"
(cd "$repository/crates/draws_bench" && ${RT:-rt} run > "$work/build.txt" 2>&1) || true
[ -x "$repository/crates/draws_bench/out/draws_bench" ] || { tail "$work/build.txt"; exit 1; }
for turn in 1 2 3; do
    "$repository/crates/draws_bench/out/draws_bench"
done
