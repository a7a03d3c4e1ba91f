#!/usr/bin/env bash
# Times `check` of tables of 65,536 bindings in six layouts: the seconds of five turns or of as many as are asked for, the least and the
# middle one, by the clock and of the processor, and the most memory, for each program that is named. The programs come in turn, and
# every other time in the other order. Without a name it is the program of this repository; small.sh builds a smaller one.
#     [TURNS=N] bench/table_checks/run.sh [PROGRAM]..
set -e
here="$(cd "$(dirname "$0")" && pwd)"
top="$(cd "$here/../.." && pwd)"
work=/tmp/table_checks_bench
mkdir -p "$work"
if [ $# = 0 ]; then
    set -- "$("$top/build" --program)"
fi
for layout in one-address 65536-addresses 1024-by-64 two-shapes 255-by-257 refused-at-the-last; do
    table="$work/$layout.toml"
    [ -f "$table" ] || python3 "$here/make.py" "$layout" "$table"
    python3 - "$layout" "$table" "$@" <<'P'
import os, statistics, subprocess, sys, time
layout, table, programs = sys.argv[1], sys.argv[2], sys.argv[3:]
wall, busy, most, said = {p: [] for p in programs}, {p: [] for p in programs}, {}, {}
for turn in range(int(os.environ.get("TURNS", "5"))):
    for program in programs[:: 1 if turn % 2 == 0 else -1]:
        start = time.perf_counter()
        child = subprocess.Popen([program, "check", table], stdout=subprocess.PIPE, stderr=subprocess.STDOUT)
        line = child.stdout.read().decode().strip()
        _, status, usage = os.wait4(child.pid, 0)
        taken = time.perf_counter() - start
        wall[program].append(taken)
        busy[program].append(usage.ru_utime + usage.ru_stime)
        most[program] = max(most.get(program, 0), usage.ru_maxrss // 1024)
        said[program] = f"{line}, status {os.waitstatus_to_exitcode(status)}"
for program in programs:
    clock = f"{min(wall[program]):.3f} s, {statistics.median(wall[program]):.3f} s"
    processor = f"{min(busy[program]):.3f} s, {statistics.median(busy[program]):.3f} s"
    print(f"{layout}: {clock}, processor {processor}, {most[program]} MB; {said[program]}; {program}")
P
done
