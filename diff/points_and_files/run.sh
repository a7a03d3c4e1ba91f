#!/usr/bin/env bash
# The files of runs with loads beside those of each table alone, and runs of 1 and of 16 workers beside one another, over
# captures of 40,000 records of many kinds. Prints a line for each run, and ends with 1 if anything is otherwise.
#     diff/points_and_files/run.sh [PROGRAM]
# PROGRAM takes the words of `lwaftr`; without it the program of this repository is built.
set -eu
here="$(cd "$(dirname "$0")" && pwd)"
top="$(cd "$here/../.." && pwd)"
program="${1:-}"
if [ -z "$program" ]; then
    program="$("$top/build" --program)"
fi
program="$(realpath "$program")"
work="$(mktemp -d /tmp/points_and_files.XXXXXX)"
trap 'rm -rf "$work"' EXIT
python3 "$here/compare.py" "$program" "$work"
