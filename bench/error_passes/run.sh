#!/usr/bin/env bash
# Times the questions to a limit on errors: builds the program in a temporary repository, which proves it first, and runs it three
# times. The crate is that of this repository, or of the one that is named.
#     bench/error_passes/run.sh [REPOSITORY]
set -e
here="$(cd "$(dirname "$0")" && pwd)"
top="$(cd "${1:-$here/../..}" && pwd)"
work="/tmp/error_passes_bench$(echo "$top" | tr / _)"
repository="$work/repository"
"$here/../repository.py" "$repository" "$top" passes_bench error_limit
cp "$here/program/main.rt.txt" "$repository/crates/passes_bench/src/main.rt"
program="$repository/crates/passes_bench/out/passes_bench"
rm -f "$program"
(cd "$repository/crates/passes_bench" && rt run > "$work/build.txt" 2>&1) || true
[ -x "$program" ] || { tail "$work/build.txt"; exit 1; }
for turn in 1 2 3; do
    "$program"
done
