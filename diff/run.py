#!/usr/bin/env python3
"""The program beside the second router.

    diff/run.sh SEED COUNT [-j N] [--program FILE] [--keep FOLDER] [--log FILE] [--stop-at N] [--only KIND]
    diff/run.sh --job SEED [--program FILE] [--keep FOLDER]
    diff/run.sh --sum FILE

Runs COUNT jobs from SEED on in N processes, and prints what came, by status, refusal, rule, reply and outcome, and each difference with
the command that shows it again. A job that differs is made smaller and kept in FOLDER (out/diff). Exit code 1 where there is one.
With --log each 250 jobs add a line to FILE, so that what ran counts where a run is broken off; --sum prints the totals of such a file.
With --stop-at N it ends behind the N-th difference; with --only it runs those of the jobs that are about one thing: run, words, table, demo."""
import argparse
import collections
import json
import multiprocessing
import os
import re
import shlex
import struct
import subprocess
import sys
import tempfile
import time

HERE = os.path.dirname(os.path.abspath(__file__))
sys.path.insert(0, HERE)
import expect  # noqa: E402
import jobs  # noqa: E402
import router  # noqa: E402

PROGRAM = ONLY = None
MEMORY = "/dev/shm" if os.access("/dev/shm", os.W_OK) else None
STATUS = {0: "done", 1: "done, a load was refused", 2: "usage", 3: "read fault", 4: "write fault", 5: "table refused", 6: "capture refused", 7: "out of memory"}
SLICE = 250


def run(job, folder):
    """Exit code, standard output, the status line, and the files that are there afterwards."""
    for name, data in job.files.items():
        with open(os.path.join(folder, name), "wb") as file:
            file.write(data)
    it = subprocess.run([PROGRAM, *job.words], cwd=folder, stdin=subprocess.DEVNULL, capture_output=True, timeout=300)
    found = {}
    for name in os.listdir(folder):
        with open(os.path.join(folder, name), "rb") as file:
            found[name] = file.read()
    error = it.stderr.decode("utf-8", "replace").split("\n")
    return it.returncode, it.stdout.decode("utf-8", "replace"), error[0] or None, found


def counted(words, code, status, written):
    """What came, by kind and name."""
    try:
        it = expect.job_of(words)
    except expect.NoJob:
        it = ("none",)
    verdicts, versions = (written.get(name, b"").decode("utf-8", "replace") for name in (it[1][2:4] if it[0] == "run" else ("", "")))
    came = collections.Counter({("status", STATUS.get(code, str(code))): 1})
    if status and status.startswith(("table refused", "capture refused")):
        came["refusal", without_numbers(status)] += 1
    for line in verdicts.splitlines():
        words = line.split()
        if words[0] in ("expired", "unfinished"):
            came["line", words[0]] += 1
        elif words[2] != "drop":
            came["outcome", words[2]] += 1
            came["outcome", f"{words[2]} in pieces"] += int(words[-1]) > 1
        else:
            came["rule", words[3]] += 1
            came["reply", words[3]] += words[-1] != "0"
            came["reply", f"{words[3]} kept back"] += words[4] == "limited"
    for line in versions.splitlines():
        came["load", without_numbers(" ".join(line.split()[2:]))] += 1
    return +came


def without_numbers(text):
    """A refusal without its places: `link 113` is `link N`; the names of keys stay."""
    return re.sub(r"(?<= )\d+", "N", text)


def difference(job):
    """What differs, or None; and what came."""
    with tempfile.TemporaryDirectory(dir=MEMORY) as folder:
        code, said, status, found = run(job, folder)
    written = {name: data for name, data in found.items() if job.files.get(name) != data}
    wanted = expect.expected(job.words, job.files, written)
    came = counted(job.words, code, status, written)
    if wanted.code != code or wanted.status != status:
        return f"wanted {wanted.code} {wanted.status!r}, got {code} {status!r}", came
    # The lines of VERDICTS say most, a byte of OUT least.
    for name in sorted({*wanted.files, *written}, reverse=True):
        one, other = wanted.files.get(name, b""), written.get(name, b"")
        if one != other:
            return f"{name} differs at {first_of(one, other)}", came
    if wanted.said != said:
        return f"wanted {wanted.said!r}, got {said!r}", came
    return None, came


def first_of(one, other):
    """Where the first byte stands that two files have not alike, and of texts the two lines."""
    at = next((at for at, (x, y) in enumerate(zip(one, other)) if x != y), min(len(one), len(other)))
    line = one[:at].count(b"\n")
    try:
        wanted, got = (it.decode("ascii").splitlines()[line : line + 1] for it in (one, other))
    except UnicodeDecodeError:
        return f"byte {at}"
    return f"byte {at}: wanted {wanted}, got {got}"


# ------------------------------------------------------------------------------------------------------------------ smaller jobs


def cut(name, data):
    """A file in pieces that may be left out: the first one stays."""
    if data[:4] in router.MAGICS:
        order, at, pieces = router.MAGICS[data[:4]][0], 24, [data[:24]]
        while len(data) - at >= 16:
            size = 16 + struct.unpack_from(order + "I", data, at + 8)[0]
            pieces.append(data[at : at + size])
            at += size
        return pieces + [data[at:]] * (at < len(data))
    if data[:4] == b"\x0a\x0d\x0d\x0a" and len(data) >= 12:
        order, at, pieces = "<", 0, []
        while len(data) - at >= 12:
            if data[at : at + 4] == b"\x0a\x0d\x0d\x0a":
                order = ">" if data[at + 8 : at + 12] == b"\x1a\x2b\x3c\x4d" else "<"
            size = max(12, struct.unpack_from(order + "I", data, at + 4)[0])
            pieces.append(data[at : at + size])
            at += size
        return pieces + [data[at:]] * (at < len(data))
    if name != "in":
        return re.split(rb"(?=\[\[)|(?<=\n)(?=[a-z])", data)
    return [data]


def fewer(pieces, differs, until):
    """As few pieces behind the first one as still show a difference: halves, quarters and so on are left out in turn."""
    first, rest = pieces[:1], pieces[1:]
    step = max(1, len(rest) // 2) if rest else 0
    while step:
        at = 0
        while at < len(rest) and time.time() < until:
            tried = rest[:at] + rest[at + step :]
            if differs(first + tried):
                rest = tried
            else:
                at += step
        step //= 2
    return first + rest


def smaller(job, seconds=60):
    """The job with fewer words, records, blocks and lines, as long as it differs. Times and numbers of records may then be others."""
    until = time.time() + seconds

    def differs(words, files):
        try:
            return difference(jobs.Job(words, files))[0] is not None
        except (subprocess.TimeoutExpired, OSError, ValueError):
            return False

    files = dict(job.files)
    words = job.words[:6] + fewer([None, *job.words[6:]], lambda them: differs(job.words[:6] + them[1:], files), until)[1:]
    for name in sorted(files):
        pieces = cut(name, files[name])
        if len(pieces) > 1:
            files[name] = b"".join(fewer(pieces, lambda them: differs(words, {**files, name: b"".join(them)}), until))
    named = {name: data for name, data in files.items() if any(name in it for it in words)}
    return jobs.Job(words, named if differs(words, named) else files)


def one(seed):
    job = jobs.job(seed, ONLY)
    if job is None:
        return seed, None, None
    try:
        why, came = difference(job)
    except (subprocess.TimeoutExpired, OSError) as error:
        why, came = f"{type(error).__name__}: {error}", collections.Counter()
    return seed, why, came


def keep(folder, seed, job):
    to = os.path.join(folder, str(seed))
    os.makedirs(to, exist_ok=True)
    for name, data in job.files.items():
        with open(os.path.join(to, name), "wb") as file:
            file.write(data)
    with open(os.path.join(to, "command"), "w", encoding="utf-8") as file:
        file.write("lwaftr " + shlex.join(job.words) + "\n")
    return to


# ------------------------------------------------------------------------------------------------------------------ many jobs


def show(came):
    for kind in ("status", "refusal", "load", "outcome", "line", "rule", "reply"):
        for (of, name), count in sorted(came.items()):
            if of == kind:
                print(f"{count:>10}  {kind:<8} {name}")


def added(file):
    """The totals of a log: jobs, differences, and what came."""
    count, failed, came = 0, [], collections.Counter()
    with open(file, encoding="utf-8") as lines:
        for line in lines:
            it = json.loads(line)
            count += it["count"]
            failed += it["differ"]
            for kind, names in it["came"].items():
                came.update({(kind, name): number for name, number in names.items()})
    return count, failed, came


def write_slice(file, seed, count, failed, came):
    kinds = {}
    for (kind, name), number in sorted(came.items()):
        kinds.setdefault(kind, {})[name] = number
    with open(file, "a", encoding="utf-8") as log:
        log.write(json.dumps({"seed": seed, "count": count, "differ": failed, "came": kinds}) + "\n")


def run_all(words):
    """All jobs, slice by slice: how many ran, those that differ, and what came."""
    ran, differ, all_came = 0, [], collections.Counter()
    with multiprocessing.Pool(words.processes) as pool:
        for begin in range(words.seed, words.seed + words.count, SLICE):
            size, of_slice, failed, came = min(SLICE, words.seed + words.count - begin), 0, [], collections.Counter()
            for seed, why, found in pool.imap_unordered(one, range(begin, begin + size), chunksize=4):
                if found is None:
                    continue
                ran += 1
                of_slice += 1
                came += found
                if why:
                    failed.append(seed)
                    print(f"job {seed}: {why}\n  diff/run.sh --job {seed}", flush=True)
                    if words.stop_at and len(differ) + len(failed) >= words.stop_at:
                        return ran, differ + failed, all_came + came
            if words.log:
                write_slice(words.log, begin, of_slice, failed, came)
            differ += failed
            all_came += came
    return ran, differ, all_came


def program_here():
    """The program that ./lwaftr runs."""
    build = os.path.join(os.path.dirname(HERE), "build")
    return subprocess.run([build, "--program"], capture_output=True, text=True, check=True).stdout.strip()


def main():
    global PROGRAM, ONLY
    it = argparse.ArgumentParser(description=__doc__, formatter_class=argparse.RawDescriptionHelpFormatter)
    it.add_argument("seed", type=int, nargs="?", default=1)
    it.add_argument("count", type=int, nargs="?", default=500)
    it.add_argument("--job", type=int)
    it.add_argument("--sum")
    it.add_argument("--program")
    it.add_argument("-j", "--processes", type=int, default=os.cpu_count())
    it.add_argument("--log")
    it.add_argument("--stop-at", type=int)
    it.add_argument("--only", choices=jobs.KINDS)
    it.add_argument("--keep", default=os.path.join(os.path.dirname(HERE), "out", "diff"))
    words = it.parse_args()
    if words.sum:
        count, failed, came = added(words.sum)
        show(came)
        print(f"{count} jobs, {len(failed)} differ")
        sys.exit(1 if failed else 0)
    PROGRAM = os.path.abspath(words.program) if words.program else program_here()
    if words.job is not None:
        job = jobs.job(words.job)
        why, _ = difference(job)
        print(keep(words.keep, words.job, job))
        print(shlex.join(job.words))
        print(why or "no difference")
        sys.exit(1 if why else 0)
    begun, ONLY = time.time(), words.only
    ran, failed, came = run_all(words)
    show(came)
    for seed in failed[:5]:
        print(f"made smaller and kept in {keep(words.keep, seed, smaller(jobs.job(seed)))}")
    print(f"{ran} jobs from {words.seed} on in {time.time() - begun:.0f} s, {len(failed)} differ")
    sys.exit(1 if failed else 0)


if __name__ == "__main__":
    main()
