#!/usr/bin/env bash
# Times the pieces of floods by one lane, and shows the memory of a full one: builds the program in a temporary repository,
# which proves it first, and runs it. The crates are those of this repository, or of the one that is named.
#     bench/lane_floods/run.sh [REPOSITORY]
set -e
here="$(cd "$(dirname "$0")" && pwd)"
top="$(cd "${1:-$here/../..}" && pwd)"
work="/tmp/lane_floods_bench$(echo "$top" | tr / _)"
repository="$work/repository"
"$here/../repository.py" "$repository" "$top" floods_bench aftr_base reassembly_lane
cp "$here/program/main.rt.txt" "$repository/crates/floods_bench/src/main.rt"
program="$repository/crates/floods_bench/out/floods_bench"
rm -f "$program"
(cd "$repository/crates/floods_bench" && rt run > "$work/build.txt" 2>&1) || true
[ -x "$program" ] || { tail "$work/build.txt"; exit 1; }
"$program"
if [ -x /usr/bin/time ]; then
    /usr/bin/time -f '%M KiB at most' "$program" > /dev/null
fi
