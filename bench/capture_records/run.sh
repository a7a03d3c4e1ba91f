#!/usr/bin/env bash
# Times reading captures of 1,000,000 records, of 80 and of 390 bytes, classic and of blocks, by the real files, in rounds of
# 262,144 captured bytes (as one worker has) and of 1,048,576 (as several have), and one by one: builds the program in a temporary
# repository, takes the least processor time of 25 turns, and counts system calls and allocations where strace and valgrind are there.
#     bench/capture_records/run.sh [REPOSITORY]
set -e
here="$(cd "$(dirname "$0")" && pwd)"
top="$(cd "${1:-$here/../..}" && pwd)"
work=/tmp/capture_records_bench
repository="$work/repository"
crate="$repository/crates/records_bench"
"$here/../repository.py" "$repository" "$top" records_bench aftr_base aftr_io capture_io pcapng_io
mkdir -p "$crate"/proofs/count_{records,packets,rounds}
cp "$here/program/main.rt.txt" "$crate/src/main.rt"
cp "$here/program/Invariants.antt.txt" "$crate/proofs/count_records/Invariants.antt"
cp "$here/program/PacketsInvariants.antt.txt" "$crate/proofs/count_packets/Invariants.antt"
cp "$here/program/RoundsInvariants.antt.txt" "$crate/proofs/count_rounds/Invariants.antt"
python3 - "$work" <<'P'
import os, struct, sys


def block(kind, body):
    total = struct.pack("<I", 12 + len(body))
    return struct.pack("<I", kind) + total + body + total


for size in 80, 390:
    path = os.path.join(sys.argv[1], f"records_{size}")
    if os.path.exists(path + ".pcapng"):
        continue
    with open(path + ".pcap", "wb") as out:
        out.write(struct.pack("<IHHiIII", 0xa1b2c3d4, 2, 4, 0, 0, 262144, 101))
        for number in range(1_000_000):
            out.write(struct.pack("<IIII", 1_700_000_000 + number // 1000, number % 1000, size, size) + bytes(size))
    padded = bytes((size + 3) // 4 * 4)
    with open(path + ".pcapng", "wb") as out:
        out.write(block(0x0A0D0D0A, struct.pack("<IHHq", 0x1A2B3C4D, 1, 0, -1)) + block(1, struct.pack("<HHI", 101, 0, 262144)))
        for number in range(1_000_000):
            ticks = (1_700_000_000 + number // 1000) * 1_000_000 + number % 1000
            out.write(block(6, struct.pack("<IIIII", 0, ticks >> 32, ticks & 0xFFFFFFFF, size, size) + padded))
P
rm -f "$crate/out/records_bench"
(cd "$crate" && rt run > "$work/build.txt" 2>&1) || true
program="$crate/out/records_bench"
[ -x "$program" ] || { tail "$work/build.txt"; exit 1; }
cd "$work"
# the least processor time of 25 turns of a command, by the number of records
processor() {
    python3 - "$@" <<'P'
import resource, subprocess, sys


def used():
    usage = resource.getrusage(resource.RUSAGE_CHILDREN)
    return usage.ru_utime + usage.ru_stime


least = 1000
for turn in range(25):
    before = used()
    subprocess.run(sys.argv[1:], check=True, stdout=subprocess.DEVNULL)
    least = min(least, used() - before)
print(f"{least * 1000:.1f} ns a record of processor")
P
}
for size in 80 390; do
    for form in pcap pcapng; do
        file="records_$size.$form"
        cat "$file" > /dev/null
        echo "$file, cat: $(processor cat "$file")"
        for way in 262144 1048576 records; do
            echo "$file, $way: $(processor "$program" "$file" $way), $("$program" "$file" $way)"
            if command -v strace > /dev/null; then
                strace -f -c -o calls.txt "$program" "$file" $way > /dev/null
                echo "    $(awk '$NF == "read" || $NF == "pread64" { n += $4 } END { print n }' calls.txt) reads of the system"
            fi
            if [ "$size" = 80 ] && command -v valgrind > /dev/null; then
                valgrind "$program" "$file" $way 2>&1 | sed -n 's/.*total heap usage: \([0-9,]*\) allocs.*/    \1 allocations/p'
            fi
        done
    done
done
