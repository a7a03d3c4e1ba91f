#!/usr/bin/env bash
# Stresses round_pipeline: 20,000 runs with 1 to 16 workers and 1 to 3 buffers each, with faults of the source and the sink at any
# round, on 1, 2 and 4 processors, alone and next to busy loops. Builds the program in a temporary repository, which proves it first,
# over the caller of pipeline_cases. It ends with 1 if a run goes wrong or does not end.
#     bench/round_turns/run.sh
set -e
here="$(cd "$(dirname "$0")" && pwd)"
top="$(cd "$here/../.." && pwd)"
work=/tmp/round_turns_bench
repository="$work/repository"
bench="$repository/crates/turns_bench"
"$here/../repository.py" "$repository" "$top" turns_bench round_pipeline
cp "$here/program/main.rt.txt" "$bench/src/main.rt"
cp "$top/crates/pipeline_cases/src/callers.rt" "$top/crates/pipeline_cases/src/numbers.rt" "$bench/src/"
cp -r "$top/crates/pipeline_cases/proofs" "$bench/"
find "$bench/proofs" -name '*.antt' -exec sed -i 's/pipeline_cases/turns_bench/' {} +
(cd "$bench" && ${RT:-rt} run > "$work/build.txt" 2>&1) || true
program="$bench/out/turns_bench"
[ -x "$program" ] || { tail "$work/build.txt"; exit 1; }
"$here/stress.sh" "$program"
