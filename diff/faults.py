#!/usr/bin/env python3
"""Each call of the program failing in turn, and what stays of the files.

    diff/faults.sh [--program FILE] [--most N] [--only WORD] [--job TITLE]

Five jobs, by 1 and by 16 workers: a packet, fragments, loads, a pcapng capture with loads in wide windows, and a capture of several
rounds. In each, every opening, creation, read, append, put, growth of memory and start of a thread fails in turn, once and from there on
(faults.c, which gcc compiles); a run with more than N calls of a kind (100) has N of them failed, spread evenly. Then memory in twenty
steps, files and a disk that fill, a standard output that is closed, full or unread, a reader of each output that goes away, and a kill
in the middle. Each ending is held against 'Exit codes' of docs/FORMATS.md by the second router. Exit code 1 where one is otherwise, or nothing ran.
--only takes the rows whose name has WORD (memory, files, disk, stdout, reader and killed are those behind the calls), --job one job."""
import argparse
import collections
import functools
import itertools
import os
import random
import re
import resource
import signal
import struct
import subprocess
import sys
import tempfile
import threading
import time

HERE = os.path.dirname(os.path.abspath(__file__))
sys.path.insert(0, HERE)
import expect  # noqa: E402
import jobs  # noqa: E402
import router  # noqa: E402
import run as beside  # noqa: E402
import tables  # noqa: E402

JOB = None
OUTPUTS = ("out", "verdicts", "versions")
STATUS = {3: "read fault", 4: "write fault", 7: "out of memory"}
KINDS = {"open": 3, "create": 4, "read": 3, "append": 4, "put": 4, "grow": 7, "thread": None}
EIO, EINTR, EAGAIN, ENOMEM, EACCES, ENOSPC = 5, 4, 11, 12, 13, 28
HOW = {"open": [EIO], "create": [EACCES], "read": [EIO, EINTR, 0], "append": [ENOSPC, EINTR, 0], "put": [EIO, EINTR, 0], "grow": [ENOMEM], "thread": [EAGAIN]}


# ------------------------------------------------------------------------------------------------------------------ jobs


def bound_table(r):
    """Tables without a fault."""
    while True:
        found = tables.good_table(r).encode()
        if len(router.table_of(found).bindings) > 2:
            return found


def five():
    """Title, words and files of the five jobs, or of the one that is asked for."""
    return [it for it in every_job() if JOB in (None, it[0])]


def every_job():
    r = random.Random("faults")
    words = ["run", "in", "out", "verdicts", "versions", "t.toml"]
    first = bound_table(r)
    maker = jobs.Packets(r, router.table_of(first))
    second, third = bound_table(r), bound_table(r)
    some = maker.records(150)
    whole = [maker.ip4(maker.far(), maker.binding()[1], 17, r.randbytes(300), options=b"") for _ in range(40)]
    pieces = [piece for it in whole for piece in maker.cut_packet(it, r.randrange(65536))]
    loads = ["20-20:a", "40-40:b", "60-60:c", "140-140:a"]
    yield "a packet", words, {"t.toml": first, "in": b"".join(jobs.classic(r, [maker.up()], 101))}
    yield "fragments", words, {"t.toml": first, "in": b"".join(jobs.classic(r, pieces, 101))}
    files = {"t.toml": first, "a": second, "b": b"no table", "c": third, "in": b"".join(jobs.classic(r, some, 101))}
    yield "loads", words + loads + ["--errors", "2"], files
    files = {**files, "b": first, "in": b"".join(jobs.blocks(r, some, 101))}
    yield "pcapng", words + ["0-50:a", "10-90:c", "900-901:b"], files
    many = [it for it in maker.records(1200) if len(it) < 1500] * 12
    files = {"t.toml": first, "a": second, "c": third, "in": b"".join(jobs.classic(r, many, 101))}
    yield "rounds", words + ["5000-5000:a", "9000-9000:c"], files


# ------------------------------------------------------------------------------------------------------------------ what is promised


class Due:
    """What is due of a job's words over its files."""

    def __init__(self, words, files):
        self.words, self.files = words, files
        _, self.names, self.loads, _, self.errors = expect.job_of(words)
        found = [router.table_of(files[name]) for *_, name in self.loads]
        self.wide = any(earliest != latest for earliest, latest, _ in self.loads)
        self.why = [str(it).removeprefix("rules ") if isinstance(it, router.Refused) else None for it in found]
        self.tables = [router.table_of(files["t.toml"])] + [it for it in found if isinstance(it, router.Table)]

    @functools.lru_cache(64)
    def capture(self, place):
        """The capture, or what lies before a place in it; None where its header is not there."""
        try:
            return router.Capture(self.files["in"] if place is None else self.files["in"][:place])
        except router.Refused:
            return None

    @functools.lru_cache(64)
    def outputs(self, points, place):
        made, lines, summary = router.run(self.capture(place), self.tables, points, self.errors)
        return made, "".join(f"{it}\n" for it in lines).encode(), summary + "\n"

    def points(self, text, place, whole):
        """The points of VERSIONS or of a front of it, and whether it is one; a line that is not whole has no point."""
        count = len(self.capture(place).records)
        lines, points, left = [f"0 {self.names[4]} initial\n"], [], text
        for (earliest, latest, name), why in zip(self.loads, self.why):
            line = f"- {name} refused {why}\n" if why else f"- {name} not-reached\n" if earliest > count else None
            lines.append(line or (len(points) + 1, name, max([earliest, *points[-1:]]), min(latest, count)))
            if not line:
                found = re.search(rf"^{len(points) + 1} {re.escape(name)} at (\d+)$", text, re.M)
                if found and int(found[1]) in range(lines[-1][2], lines[-1][3] + 1) and text[found.end() :][:1] == "\n":
                    points.append(int(found[1]))
                    lines[-1] = f"{len(points)} {name} at {found[1]}\n"
                else:
                    break
        for line in lines:
            if isinstance(line, tuple):
                number, name, low, high = line
                due = next((it for it in (f"{number} {name} at {at}\n" for at in range(low, high + 1)) if it.startswith(left)), None)
                return tuple(points), not whole and due is not None
            if not left.startswith(line):
                return tuple(points), not whole and line.startswith(left)
            left = left[len(line) :]
        return tuple(points), left == ""

    def fixed(self):
        """VERSIONS, where each window has one number."""
        count, lines, version = len(self.capture(None).records), [f"0 {self.names[4]} initial\n"], 0
        for (earliest, _, name), why in zip(self.loads, self.why):
            version += not why and earliest <= count
            lines.append(f"- {name} refused {why}\n" if why else f"- {name} not-reached\n" if earliest > count else f"{version} {name} at {earliest}\n")
        return "".join(lines)

    def whole(self, seen, code, status, place=None, silent=False):
        """What is wrong with a run that has to have its outputs and summary whole."""
        ending = self.capture(place).ending if place is None else None
        wanted = (6, f"capture refused: {ending}") if ending else (1, "done, a load was refused") if any(self.why) else (0, None)
        wanted = (code, status) if code is not None else wanted
        if (seen.code, seen.status) not in [wanted] + [(wanted[0], None)] * silent:
            return f"ended {seen.code} {seen.status}, not {wanted}"
        points, good = self.points(seen.files.get("versions", b"").decode(), place, True)
        if not good:
            return "VERSIONS is otherwise"
        made, lines, summary = self.outputs(points, place)
        if (seen.files.get("out"), seen.files.get("verdicts"), seen.said) != (made, lines, summary):
            return "an output is otherwise"
        return None

    def front(self, seen, made_in_order=True):
        """What is wrong with files that have to be fronts."""
        made = [name in seen.files for name in OUTPUTS]
        if made_in_order and made != sorted(made, reverse=True):
            return f"made {made}"
        points, good = self.points(seen.files.get("versions", b"").decode(), None, False)
        if not good:
            return "VERSIONS is no front"
        out, lines, summary = self.outputs(points, None)
        if not out.startswith(seen.files.get("out", b"")) or not lines.startswith(seen.files.get("verdicts", b"")):
            return "an output is no front"
        if seen.said and (not summary.startswith(seen.said) or (out, lines) != (seen.files.get("out"), seen.files.get("verdicts"))):
            return "a summary before its outputs"
        return None

    def judge(self, seen, code, place=None, silent=False):
        """What is wrong with a run in which something failed: `code` is that of the fault, None where any will do; `silent` where there was
        no memory for the status line either."""
        kept = {name: seen.files.get(name) for name in self.files}
        if kept != self.files:
            return "an input was changed"
        if seen.code in (0, 1, 6):
            return self.whole(seen, None, None, silent=silent)
        if seen.code not in (3, 4, 7) or (code and seen.code != code) or seen.status not in [STATUS[seen.code]] + [None] * silent:
            return f"ended {seen.code} {seen.status}"
        if seen.code != 3:
            return self.front(seen)
        if not any(name in seen.files for name in OUTPUTS):
            behind = place is not None and place > max(len(data) for name, data in self.files.items() if name != "in")
            return "said something" if seen.said else "nothing was written" if behind else None
        return self.whole(seen, 3, "read fault", place)


class Seen:
    def __init__(self, code, said, status, files):
        self.code, self.said, self.status, self.files = code, said, status, files


# ------------------------------------------------------------------------------------------------------------------ runs


def start(words, folder, files, env=None, before=None, out=subprocess.PIPE):
    for name, data in files.items():
        with open(os.path.join(folder, name), "wb") as file:
            file.write(data)
    how = {"env": {**os.environ, **(env or {})}, "preexec_fn": before, "stdin": subprocess.DEVNULL, "stdout": out, "stderr": subprocess.PIPE}
    return subprocess.Popen([beside.PROGRAM, *words], cwd=folder, **how)


def seen_of(process, folder):
    out, err = process.communicate(timeout=120)
    found = {}
    for name in os.listdir(folder):
        path = os.path.join(folder, name)
        if os.path.isfile(path):
            with open(path, "rb") as file:
                found[name] = file.read()
    return Seen(process.returncode, (out or b"").decode(), err.decode("utf-8", "replace").split("\n")[0] or None, found)


class Table:
    """The rows: what failed, how many runs, how they ended, what was lost."""

    def __init__(self):
        self.rows, self.wrong = collections.OrderedDict(), 0

    def add(self, what, title, seen, why):
        row = self.rows.setdefault(what, collections.Counter())
        row["runs"] += 1
        row[f"code {seen.code}"] += 1
        if why:
            row["lost"] += 1
            self.wrong += 1
            print(f"{what}: {title}: {why}", flush=True)

    def untried(self, what):
        self.rows.setdefault(what, collections.Counter())

    def show(self):
        print("| what | runs | ended with | lost |\n|---|---|---|---|")
        for what, row in self.rows.items():
            codes = ", ".join(f"{name[5:]}: {count}" for name, count in sorted(row.items()) if name.startswith("code"))
            print(f"| {what} | {row['runs']} | {codes} | {row['lost']} |")
        print(f"{self.runs()} runs, {self.wrong} otherwise")

    def runs(self):
        return sum(row["runs"] for row in self.rows.values())


WORDS = {EIO: "an error", EINTR: "interrupted", 0: "one byte of it moved", EAGAIN: "an error", ENOMEM: "refused", EACCES: "refused", ENOSPC: "no room"}


def calls_fail(table, library, most, only):
    if not all(calls(words, files, library, "read") for _, words, files in five()):
        sys.exit("faults.c was not loaded")
    for (title, words, files), workers in itertools.product(five(), (1, 16)):
        due, title = Due(words, files), f"{title}, {workers} workers"
        words = words + ["--workers", str(workers)]
        for kind, goes_on in itertools.product(KINDS, (False, True)):
            for how in HOW[kind] if not goes_on else HOW[kind][:1]:
                what = f"{kind}: {WORDS[how]}{', and all behind it' if goes_on else ''}"
                if only and only not in what:
                    continue
                each_call(table, due, title, words, files, library, kind, how, goes_on, most, what)


def each_call(table, due, title, words, files, library, kind, how, goes_on, most, what):
    count = None
    for number in itertools.count(1):
        if count and number > count:
            return
        if count and count > most and number * most // count == (number - 1) * most // count:
            continue
        with tempfile.TemporaryDirectory(dir=beside.MEMORY) as folder, tempfile.NamedTemporaryFile(dir=beside.MEMORY) as told:
            told.truncate(128)
            env = {"FAULT": f"{kind}:{number}:{how}", "FAULT_FILE": told.name, "LD_PRELOAD": library, **({"FAULT_ON": "1"} if goes_on else {})}
            seen = seen_of(start(words, folder, files, env), folder)
            numbers = struct.unpack("11q", told.read(88))
        if not numbers[7]:
            return
        if count is None:
            count = calls(words, files, library, kind)
        place = numbers[8] if kind == "read" else None
        bad = due.judge(seen, KINDS[kind], place, silent=kind == "grow")
        if not bad and how == 0 and seen.code not in (0, 1, 6):
            bad = f"ended {seen.code} where one byte moved"
        # (below the status line a refused table is read again for its lines, of which nothing is said where that fails)
        if not bad and how == EIO and seen.code in (0, 1, 6) and not numbers[10]:
            bad = "the fault was not told"
        table.add(what, f"{title}, call {number}", seen, bad)


def calls(words, files, library, kind):
    """How many calls of a kind a run without a fault makes."""
    with tempfile.TemporaryDirectory(dir=beside.MEMORY) as folder, tempfile.NamedTemporaryFile(dir=beside.MEMORY) as told:
        told.truncate(128)
        seen_of(start(words, folder, files, {"FAULT_FILE": told.name, "LD_PRELOAD": library}), folder)
        return struct.unpack("9q", told.read(72))[list(KINDS).index(kind)]


def limits(table, only):
    """Address space and the size of files, in twenty steps each, and a disk of some size."""
    for (title, words, files), workers in itertools.product(five(), (1, 16)):
        due, title = Due(words, files), f"{title}, {workers} workers"
        words = words + ["--workers", str(workers)]
        largest = max(len(it) for it in due.outputs(due.points("", None, False)[0], None)[:2])
        for step in range(20):
            if not only or only in "memory":
                room = 2**20 * (5 + step + step * step // 4)

                def with_room(room=room):
                    resource.setrlimit(resource.RLIMIT_AS, (room, room))

                judge_limited(table, due, "ulimit -v of 5 to 114 MB", f"{title}, {room}", words, files, with_room)
            if not only or only in "files":
                size = largest * step // 19

                def before(size=size):
                    signal.signal(signal.SIGXFSZ, signal.SIG_IGN)
                    resource.setrlimit(resource.RLIMIT_FSIZE, (size, size))

                judge_limited(table, due, "files of at most so many bytes", f"{title}, {size}", words, files, before)
        if not only or only in "disk":
            for step in range(10):
                full_disk(table, due, f"{title}, step {step}", words, files, 4096 * (1 + step) + (largest * step // 9 if step else 0))


def judge_limited(table, due, what, title, words, files, before):
    with tempfile.TemporaryDirectory(dir=beside.MEMORY) as folder:
        seen = seen_of(start(words, folder, files, before=before), folder)
    if what.startswith("ulimit") and seen.code in (127, -11, -6) and (seen.status or "").find("shared") >= 0:
        table.add("(the loader had no room)", title, seen, None)
        return
    table.add(what, title, seen, due.judge(seen, None))


def full_disk(table, due, title, words, files, room):
    """OUT, VERDICTS and VERSIONS on a disk of so many bytes."""
    with tempfile.TemporaryDirectory() as folder:
        disk = os.path.join(folder, "disk")
        os.mkdir(disk)
        if subprocess.run(["mount", "-t", "tmpfs", "-o", f"size={room}", "none", disk], capture_output=True).returncode:
            table.untried("(no disk could be mounted)")
            return
        try:
            words = [f"disk/{it}" if it in OUTPUTS else it for it in words]
            seen = seen_of(start(words, folder, files), folder)
            for name in os.listdir(disk):
                with open(os.path.join(disk, name), "rb") as file:
                    seen.files[name] = file.read()
        finally:
            subprocess.run(["umount", disk], check=True)
    table.add("a disk that fills", title, seen, due.judge(seen, None))


def ends_of_streams(table, only):
    for (title, words, files), workers in itertools.product(five(), (1, 16)):
        due, title = Due(words, files), f"{title}, {workers} workers"
        words = words + ["--workers", str(workers)]
        if not only or only in "stdout":
            with tempfile.TemporaryDirectory(dir=beside.MEMORY) as folder:
                seen = seen_of(start(words, folder, files, before=lambda: os.close(1)), folder)
            table.add("standard output closed", title, seen, due.judge(seen, 4) or (None if seen.code == 4 else "not told"))
            with tempfile.TemporaryDirectory(dir=beside.MEMORY) as folder, open("/dev/full", "wb") as full:
                seen = seen_of(start(words, folder, files, out=full), folder)
            table.add("standard output full", title, seen, due.judge(seen, 4) or (None if seen.code == 4 else "not told"))
            reading, writing = os.pipe()
            os.close(reading)
            with tempfile.TemporaryDirectory(dir=beside.MEMORY) as folder:
                seen = seen_of(start(words, folder, files, out=writing), folder)
            os.close(writing)
            table.add("standard output unread", title, seen, due.judge(seen, 4) or (None if seen.code == 4 else "not told"))
        if not only or only in "reader":
            for name, size in itertools.product(OUTPUTS, (0, 1, 100, 70000)):
                if name == "versions" and due.wide:
                    continue
                reader_goes(table, due, title, words, files, name, size)
        if title.startswith("rounds") and (not only or only in "killed"):
            for step in range(40):
                killed(table, due, f"{title}, step {step}", words, files, step)


def reader_goes(table, due, title, words, files, name, size):
    """An output is a pipe whose reader takes so many bytes and goes."""
    with tempfile.TemporaryDirectory(dir=beside.MEMORY) as folder:
        path, took = os.path.join(folder, name), []
        os.mkfifo(path)

        def read():
            with open(path, "rb", buffering=0) as pipe:
                left = size
                while left:
                    found = pipe.read(min(left, 4096))
                    if not found:
                        return
                    took.append(found)
                    left -= len(found)

        reader = threading.Thread(target=read, daemon=True)
        reader.start()
        seen = seen_of(start(words, folder, files), folder)
        reader.join(10)
    took, seen.files[name] = b"".join(took), b""
    versions = due.fixed() if name == "versions" else seen.files.get("versions", b"").decode()
    every = dict(zip(OUTPUTS, due.outputs(due.points(versions, None, False)[0], None)), versions=versions.encode())
    # A pipe takes more than its reader: what else went in is not known, and all of it did where the run ended well.
    seen.files[name] = every[name] if seen.code in (0, 1, 6) or name == "versions" else took
    why = due.judge(seen, 4) if every[name].startswith(took) else "its reader took something else"
    table.add(f"the reader of {name.upper()} goes away", f"{title}, {size} bytes", seen, why)


def killed(table, due, title, words, files, step):
    with tempfile.TemporaryDirectory(dir=beside.MEMORY) as folder:
        process = start(words, folder, files)
        time.sleep(0.0008 * step)
        process.kill()
        seen = seen_of(process, folder)
    if seen.code == -9:
        kept = {name: seen.files.get(name) for name in files}
        why = "an input was changed" if kept != files else due.front(seen)
    else:
        why = due.judge(seen, None)
    table.add("killed in the middle", title, seen, why)


def main():
    global JOB
    it = argparse.ArgumentParser(description=__doc__, formatter_class=argparse.RawDescriptionHelpFormatter)
    it.add_argument("--program")
    it.add_argument("--most", type=int, default=100)
    it.add_argument("--only")
    it.add_argument("--job")
    words = it.parse_args()
    JOB = words.job
    beside.PROGRAM = os.path.abspath(words.program) if words.program else beside.program_here()
    table = Table()
    signal.signal(signal.SIGTERM, signal.default_int_handler)
    try:
        every(table, words)
    except KeyboardInterrupt:
        print("broken off")
    table.show()
    sys.exit(1 if table.wrong or not table.runs() else 0)


def every(table, words):
    with tempfile.TemporaryDirectory() as folder:
        library = os.path.join(folder, "faults.so")
        subprocess.run(["gcc", "-O1", "-shared", "-fPIC", "-o", library, os.path.join(HERE, "faults.c"), "-ldl"], check=True)
        calls_fail(table, library, words.most, words.only)
    limits(table, words.only)
    ends_of_streams(table, words.only)


if __name__ == "__main__":
    main()
