#!/usr/bin/env bash
# Builds the command `check` alone over the crates of this repository, or of the one that is named, in a temporary repository, which
# proves it first, and prints the name of the program. So two states of the crates of tables can be compared without the proofs of
# all that stands above them.
#     bench/table_checks/small.sh [REPOSITORY]
set -e
here="$(cd "$(dirname "$0")" && pwd)"
top="$(cd "${1:-$here/../..}" && pwd)"
work="/tmp/table_checks_small$(echo "$top" | tr / _)"
repository="$work/repository"
"$here/../repository.py" "$repository" "$top" check_alone aftr_base aftr_io binding_rules binding_file
cp "$here/program/main.rt.txt" "$repository/crates/check_alone/src/main.rt"
program="$repository/crates/check_alone/out/check_alone"
rm -f "$program"
(cd "$repository/crates/check_alone" && rt run > "$work/build.txt" 2>&1) || true
[ -x "$program" ] || { tail "$work/build.txt" >&2; exit 1; }
echo "$program"
