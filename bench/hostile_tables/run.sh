#!/usr/bin/env bash
# Times `check` of table files that cost much to read, of files that are no TOML and of tables of 65,536 bindings in four spellings,
# each with 4,000,000 KiB of address space; then of each of them with
# 1 GiB of address space. A file is given up after 120 s. The program is that of this repository, or the one that is named.
#     bench/hostile_tables/run.sh [PROGRAM]
set -e
here="$(cd "$(dirname "$0")" && pwd)"
top="$(cd "$here/../.." && pwd)"
work=/tmp/hostile_tables_bench
if [ -n "${1:-}" ]; then
    program="$(realpath "$1")"
else
    program="$("$top/build" --program)"
fi
if [ ! "$work/made" -nt "$here/make.py" ]; then
    rm -rf "$work"
    python3 "$here/make.py" "$work"
    touch "$work/made"
fi
cd "$work"
for limit in 4000000 1048576; do
    echo "address space: $limit (KiB)"
    for file in *.toml; do
        (ulimit -v "$limit"; exec python3 "$here/time_check.py" "$program" "$file")
    done
done
