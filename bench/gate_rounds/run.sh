#!/usr/bin/env bash
# Times rounds of 1, 2, 4, 8 and 16 workers over upstream packets that are looked up among 65,536 bindings: builds the program in a
# temporary repository, which proves it first, and runs it.
#     bench/gate_rounds/run.sh
set -e
here="$(cd "$(dirname "$0")" && pwd)"
top="$(cd "$here/../.." && pwd)"
work=/tmp/gate_rounds_bench
repository="$work/repository"
bench="$repository/crates/gate_bench"
"$here/../repository.py" "$repository" "$top" gate_bench aftr_base ip_codec binding_rules swap_core area_swap table_words item_stage worker_gate
mkdir -p "$bench/proofs/judge_all"
cp "$here/program/main.rt.txt" "$bench/src/main.rt"
cp "$here/program/judge_all.antt.txt" "$bench/proofs/judge_all/Invariants.antt"
rm -f "$bench/out/gate_bench"
(cd "$bench" && ${RT:-rt} run > "$work/build.txt" 2>&1) || true
[ -x "$bench/out/gate_bench" ] || { tail "$work/build.txt"; exit 1; }
"$bench/out/gate_bench"
