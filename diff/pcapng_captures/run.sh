#!/usr/bin/env bash
# Has other tools write pcapng files, reads each, and compares every packet's time and captured length with what tshark
# prints of it. Needs tshark, editcap, mergecap, text2pcap, and scapy: PYTHON names the python that has it. The program is
# built and proved first.
#     diff/pcapng_captures/run.sh [REPOSITORY]      compares
#     diff/pcapng_captures/run.sh REPOSITORY time       reads files of 100 MB that are costly to read
#     diff/pcapng_captures/run.sh REPOSITORY far        sets a reader near place 2^62, where no block is read any more (nothing is proved)
set -e
python="${PYTHON:-python3}"
here="$(cd "$(dirname "$0")" && pwd)"
top="$(cd "${1:-$here/../..}" && pwd)"
work="/tmp/pcapng_captures_bench"
repository="$work/repository"
crate="$repository/crates/pcapng_captures"
program="$crate/out/pcapng_captures"
"$here/../../bench/repository.py" "$repository" "$top" pcapng_captures aftr_base aftr_io capture_io pcapng_io
mkdir -p "$crate/proofs/tell" "$work/files"
if [ "$2" = far ]; then
    cp "$here/program/far.rt.txt" "$repository/crates/pcapng_io/src/far.rt"
    printf '\n#[cfg(test)]\nmod far;\n' >> "$repository/crates/pcapng_io/src/lib.rt"
    cd "$repository/crates/pcapng_io"
    exec rt try --test
fi
cp "$here/program/main.rt.txt" "$crate/src/main.rt"
cp "$here/program/Invariants.antt.txt" "$crate/proofs/tell/Invariants.antt"
rm -f "$program"
(cd "$crate" && rt run -- count > "$work/build.txt" 2>&1) || true
[ -x "$program" ] || { tail "$work/build.txt"; exit 1; }
cd "$work"
if [ "$2" = time ]; then
    "$python" "$here/make.py" files hostile
    for file in files/hostile_*.pcapng; do
        mv "$file" capture.pcapng
        cat capture.pcapng > /dev/null
        echo "$(basename "$file" .pcapng): $(stat -c %s capture.pcapng) bytes," \
            "$( { /usr/bin/time -f "%U + %S s of processor, %M KB" "$program" count; } 2>&1 | tr '\n' ' ')"
    done
    rm capture.pcapng
    exit
fi
"$python" "$here/make.py" files
for file in files/{editcap_micro,editcap_nano,editcap_ether,tshark,mergecap,text2pcap,scapy}.pcapng; do
    cp "$file" capture.pcapng
    "$program" > ours.txt
    tshark -r "$file" -T fields -e frame.time_epoch -e frame.cap_len 2> /dev/null | awk '{ sub(/\./, "", $1); print $1, $2 } END { print "end" }' > theirs.txt
    cmp ours.txt theirs.txt
    echo "$(basename "$file"): $(($(wc -l < ours.txt) - 1)) packets alike"
done
