#!/usr/bin/env bash
# Rounds by 4 and by 16 workers beside a desk that puts 255 tables into force: builds the program in a
# temporary repository, which proves it first, and runs it once. It ends with 1 where a record was not drawn once, or a table or an
# outcome is wrong.
#     bench/gate_stress/run.sh
set -e
here="$(cd "$(dirname "$0")" && pwd)"
top="$(cd "$here/../.." && pwd)"
work=/tmp/gate_stress_bench
repository="$work/repository"
bench="$repository/crates/stress_bench"
"$here/../repository.py" "$repository" "$top" stress_bench aftr_base ip_codec verdict_core binding_rules swap_core area_swap table_words item_stage worker_gate
mkdir -p "$bench/proofs/run_rounds" "$bench/proofs/plan_of"
cp "$here/program/main.rt.txt" "$bench/src/main.rt"
cp "$here/program/run_rounds.antt.txt" "$bench/proofs/run_rounds/Invariants.antt"
cp "$here/program/plan_of.antt.txt" "$bench/proofs/plan_of/Invariants.antt"
cp "$here/program/plan_of_answers.antt.txt" "$bench/proofs/plan_of/Answers.antt"
cp "$here/program/growing.antt.txt" "$bench/proofs/Growing.antt"
echo "pub mod Growing" > "$bench/proofs/Lib.antt"
(cd "$bench" && ${RT:-rt} run > "$work/build.txt" 2>&1) || true
grep ' workers, ' "$work/build.txt" || { tail "$work/build.txt"; exit 1; }
[ "$(grep -cE ' ([0-9]+) records, \1 drawn, 255 tables came, 0 outcomes wrong, 0 points outside' "$work/build.txt")" = 2 ]
