#!/usr/bin/env bash
# Times a run over 10,000, 100,000 and 1,000,000 upstream packets of 100 bytes with 65,536 bindings, beside `cp` of the
# same capture; with the most memory taken and, where strace is there, the system calls of the longest run.
#     bench/upstream_run/run.sh
set -e
here="$(cd "$(dirname "$0")" && pwd)"
top="$(cd "$here/../.." && pwd)"
work=/tmp/upstream_run_bench
mkdir -p "$work"
cd "$work"
program="$("$top/build" --program)"
for count in 10000 100000 1000000; do
    [ -f "in$count.pcap" ] || python3 "$here/make.py" "$count" "in$count.pcap" t0.toml
    cat "in$count.pcap" t0.toml > /dev/null
    for turn in 1 2 3 4 5; do
        python3 - "$count" "$program" run "in$count.pcap" out.pcap verdicts.txt versions.txt t0.toml <<'P'
import resource, subprocess, sys, time
start = time.perf_counter()
said = subprocess.run(sys.argv[2:], stdout=subprocess.PIPE, check=True).stdout.decode().strip()
taken = time.perf_counter() - start
usage = resource.getrusage(resource.RUSAGE_CHILDREN)
count = int(sys.argv[1])
print(f"{count} records: {taken:.3f} s, {count / taken:,.0f} records a second, {usage.ru_maxrss // 1024} MB; {said}")
P
    done
    python3 - "in$count.pcap" copy.pcap <<'P'
import subprocess, sys, time
best = 9.0
for turn in range(5):
    start = time.perf_counter()
    subprocess.run(["cp"] + sys.argv[1:], check=True)
    best = min(best, time.perf_counter() - start)
print(f"cp: {best:.3f} s")
P
done
if command -v strace > /dev/null; then
    strace -f -c -o calls.txt "$program" run in1000000.pcap out.pcap verdicts.txt versions.txt t0.toml
    head -12 calls.txt
fi
rm -f out.pcap copy.pcap verdicts.txt versions.txt
