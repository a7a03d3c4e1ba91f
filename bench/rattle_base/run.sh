#!/usr/bin/env bash
# Times the real files of aftr_io next to cp, over 200 MB, and sum16 of aftr_base next to the plain loop in C, over 100 MB: builds the
# program in a temporary repository, which proves it first, and runs it.
#     bench/rattle_base/run.sh
set -e
here="$(cd "$(dirname "$0")" && pwd)"
top="$(cd "$here/../.." && pwd)"
work=/tmp/aftr_base_bench
repository="$work/repository"
"$here/../repository.py" "$repository" "$top" base_bench aftr_base aftr_io
cp "$here/main.rt.txt" "$repository/crates/base_bench/src/main.rt"
[ -f "$work/in" ] || head -c 209715200 /dev/urandom > "$work/in"
cat "$work/in" > /dev/null
(cd "$repository/crates/base_bench" && rt run)
for turn in 1 2 3; do
    rm -f "$work/copy"
    start=$(date +%s%N)
    cp "$work/in" "$work/copy"
    echo "cp of 200 MB: $(($(date +%s%N) - start)) ns"
done
rm -f "$work/copy" "$work/out"
cc -O2 -march=x86-64-v2 "$here/sum.c" -o "$work/sum" && "$work/sum"
