#!/usr/bin/env python3
"""Captures of others beside the second router.

    diff/field.sh FOLDER [--program FILE]

Every capture below FOLDER (what begins as one of any kind does, or is named so), whatever its link type and whether it is damaged, is
run as it is, unpacked where it is packed, and turned into pcapng by editcap; one of another link type than the two also with its link
type written over as Ethernet and as plain IP, so that its records are read as they fall. Each under three tables of addresses that stand
in it, two of them loads. Prints what came, and each difference; exit code 1 where there is one. Broken off, it prints what came so far."""
import argparse
import collections
import gzip
import ipaddress
import lzma
import os
import random
import shutil
import signal
import subprocess
import sys
import tempfile
import zlib

HERE = os.path.dirname(os.path.abspath(__file__))
sys.path.insert(0, HERE)
import jobs  # noqa: E402
import router  # noqa: E402
import run as beside  # noqa: E402
import tables  # noqa: E402

ENDINGS = (".pcap", ".pcapng", ".cap", ".ntar", ".dmp", ".dump", ".trc", ".snoop", ".erf")
BEGINS = (*router.MAGICS, b"\x0a\x0d\x0d\x0a", b"\x34\xcd\xb2\xa1", b"\xa1\xb2\xcd\x34", b"snoo")
MOST = 4_000_000


def captures(folder):
    """Path and bytes of each capture."""
    for at, _, names in sorted(os.walk(folder)):
        for name in sorted(names):
            path = os.path.join(at, name)
            if not os.path.isfile(path):
                continue
            with open(path, "rb") as file:
                data = file.read(MOST + 1)
            if len(data) <= MOST and (data[:4] in BEGINS or name.lower().rpartition(".gz")[0].endswith(ENDINGS) or name.lower().endswith(ENDINGS)):
                yield path, data


def forms(path, data):
    """A capture as it is and in other forms."""
    yield "as it is", data
    try:
        if data[:2] == b"\x1f\x8b":
            data = gzip.decompress(data)
            yield "unpacked", data
        elif data[:6] == b"\xfd7zXZ\0":
            data = lzma.decompress(data)
            yield "unpacked", data
    except (OSError, EOFError, lzma.LZMAError, zlib.error):
        pass
    if shutil.which("editcap"):
        with tempfile.TemporaryDirectory(dir=beside.MEMORY) as folder:
            to = os.path.join(folder, "it")
            subprocess.run(["editcap", "-F", "pcapng", path, to], capture_output=True, timeout=60)
            if os.path.exists(to):
                with open(to, "rb") as file:
                    yield "turned into pcapng", file.read()
    if data[:4] in router.MAGICS and len(data) >= 24:
        wanted = [it.to_bytes(4, "little" if router.MAGICS[data[:4]][0] == "<" else "big") for it in (1, 101)]
        if data[20:24] not in wanted:
            for it, name in zip(wanted, ("Ethernet", "plain IP")):
                yield f"taken as {name}", data[:20] + it + data[24:]


def addresses(data):
    """The ends of IPv4 and of IPv6 packets of a capture, the most frequent ones first; and pairs of an outer source and an inner one."""
    v4, v6, pairs = collections.Counter(), collections.Counter(), collections.Counter()
    try:
        records = router.Capture(data).records
    except router.Refused:
        records = []
    for *_, it in records[:2000]:
        for at in (0, 14, 18, 16, 4):
            if at + 20 <= len(it) and it[at] == 0x45:
                v4.update([it[at + 12 : at + 16], it[at + 16 : at + 20]])
            elif at + 40 <= len(it) and it[at] >> 4 == 6:
                v6.update([it[at + 8 : at + 24], it[at + 24 : at + 40]])
                if it[at + 6] == 4 and at + 60 <= len(it):
                    pairs[it[at + 8 : at + 24], it[at + 52 : at + 56]] += 1
                    v4.update([it[at + 52 : at + 56], it[at + 56 : at + 60]])
    return [it for it, _ in v4.most_common(40)], [it for it, _ in v6.most_common(10)], [it for it, _ in pairs.most_common(20)]


def own_tables(r, data):
    """Three tables of a capture's own addresses, in files."""
    v4, v6, pairs = addresses(data)
    v6 = v6 or [jobs.AFTR]
    for kind in range(3):
        aftr = v6[kind % len(v6)]
        own = v4[-1] if kind == 1 and len(v4) > 3 else jobs.OWN
        rows, taken = [], {own}
        if kind == 0:
            for b4, address in pairs:
                if address not in taken:
                    rows.append((b4, address, 0, 0, 0))
                    taken.add(address)
        for at, address in enumerate(v4[kind % 2 :: 1 + kind % 2]):
            if address in taken:
                continue
            taken.add(address)
            offset, length = r.choice([(0, 0), (0, 0), (0, 1), (6, 1), (0, 8)]) if kind < 2 else (0, 2)
            for psid in range(1 << length) if length < 3 else [0, 4]:
                rows.append((v6[(at + psid) % len(v6)], address, offset, length, psid))
        keys = {"mtu6": r.choice([1280, 1500]), "mtu4": r.choice([576, 1500]), "errors_up": True, "errors_down": True, "hairpin": kind != 1}
        yield tables.table_text(r, 2, rows, aftr=aftr, own=own, **keys).encode()


def one(r, data):
    made = list(own_tables(r, data))
    files = {"in": data, "t.toml": made[0], "a": made[1], "b": made[2]}
    low, high = sorted(r.randrange(60) for _ in range(2))
    words = ["run", "in", "out", "verdicts", "versions", "t.toml", f"{low}-{low}:a", f"{low}-{high + 1}:b"]
    words += ["--workers", r.choice(["1", "4", "16"])] + r.choice([[], [], ["--errors", "3"]])
    return jobs.Job(words, files)


def main():
    it = argparse.ArgumentParser(description=__doc__, formatter_class=argparse.RawDescriptionHelpFormatter)
    it.add_argument("folder")
    it.add_argument("--program")
    it.add_argument("--keep", default=os.path.join(os.path.dirname(HERE), "out", "diff"))
    words = it.parse_args()
    beside.PROGRAM = os.path.abspath(words.program) if words.program else beside.program_here()
    files = runs = wrong = records = 0
    came = collections.Counter()
    signal.signal(signal.SIGTERM, signal.default_int_handler)
    try:
        for path, data in captures(words.folder):
            r = random.Random(path.removeprefix(words.folder))
            for form, made in forms(path, data):
                job = one(r, made)
                why, found = beside.difference(job)
                came += found
                runs += 1
                records += sum(count for (kind, name), count in found.items() if kind == "rule" or (kind == "outcome" and " " not in name))
                if why:
                    wrong += 1
                    print(f"{path}, {form}: {why}\n  {beside.keep(words.keep, f'field-{wrong}', beside.smaller(job))}", flush=True)
            files += 1
    except KeyboardInterrupt:
        print("broken off")
    beside.show(came)
    print(f"{files} captures in {runs} forms, {records} records, {wrong} differ")
    sys.exit(1 if wrong or not files else 0)


if __name__ == "__main__":
    main()
