#!/usr/bin/env bash
# Times a stage over packets that wait for nothing and over floods of fragments, the latter in one round and in parts: builds the
# program in a temporary repository, which proves it first, and runs it. It says too how many of the entries are equal.
# The crates are those of this repository, or of the one that is named.
#     bench/stage_floods/run.sh [REPOSITORY]
set -e
here="$(cd "$(dirname "$0")" && pwd)"
top="$(cd "${1:-$here/../..}" && pwd)"
work="/tmp/stage_floods_bench$(echo "$top" | tr / _)"
repository="$work/repository"
bench="$repository/crates/stage_bench"
"$here/../repository.py" "$repository" "$top" stage_bench aftr_base capture_io item_stage
mkdir -p "$bench/proofs/rounds/round_of" "$bench/proofs/take_parts"
cp "$here/program/main.rt.txt" "$bench/src/main.rt"
cp "$here/program/rounds.rt.txt" "$bench/src/rounds.rt"
cp "$here/program/proofs/PlaceLemmas.antt.txt" "$bench/proofs/PlaceLemmas.antt"
cp "$here/program/proofs/round_of.antt.txt" "$bench/proofs/rounds/round_of/Invariants.antt"
cp "$here/program/proofs/take_parts.antt.txt" "$bench/proofs/take_parts/Invariants.antt"
printf 'mod PlaceLemmas\n' > "$bench/proofs/Lib.antt"
program="$bench/out/stage_bench"
rm -f "$program"
(cd "$bench" && rt run > "$work/build.txt" 2>&1) || true
[ -x "$program" ] || { tail "$work/build.txt"; exit 1; }
"$program"
