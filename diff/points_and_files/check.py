#!/usr/bin/env python3
"""Says whether the files of a run with loads are those of the points that it printed, by nothing but files.

    check.py PROGRAM FOLDER WORKERS TABLE [LOAD]...

In FOLDER lies in.pcap. The program runs once for each table alone, which gives each record's outcome and packets under that
table, and then with the loads. Of the latter it is asked:

- VERSIONS names the loads in their order: each has a point inside its window, in ascending order, or is refused, or its window
  begins behind the last record;
- the line of each record is that of the table in force by these points, with its version, and the lines of datagrams that end
  stand where they stood;
- OUT has the packets of those lines, in order, byte for byte;
- the summary counts these lines, and the exit code says whether a load was refused.

It prints what is otherwise, and ends with 1 if anything is."""
import bisect
import struct
import subprocess
import sys


class Run:
    """What a run wrote and said."""

    def __init__(self, program, folder, table, loads=(), workers=1, options=()):
        names = ["out.pcap", "verdicts.txt", "versions.txt"]
        words = [program, "run", "in.pcap", *names, table, *loads, "--workers", str(workers), *options]
        done = subprocess.run(words, cwd=folder, stdin=subprocess.DEVNULL, capture_output=True, timeout=600)
        self.code, self.said, self.told = done.returncode, done.stdout.decode(), done.stderr.decode()
        data = [open(f"{folder}/{name}", "rb").read() for name in names]
        self.out, self.verdicts, self.versions = data[0], data[1].decode(), data[2].decode()

    def files(self):
        return (self.out, self.verdicts, self.versions, self.said, self.code)


def packets(out):
    """The file header of a capture, and its records as they stand."""
    at, found = 24, []
    while at < len(out):
        size = 16 + struct.unpack_from("<I", out, at + 8)[0]
        found.append(out[at:at + size])
        at += size
    return out[:24], found


def by_record(run):
    """For each record: the lines before its own, its line behind the version, and its packets; then the lines behind all."""
    header, sent = packets(run.out)
    at, before, found = 0, [], []
    for line in run.verdicts.splitlines():
        parts = line.split(" ")
        if parts[0] in ("expired", "unfinished"):
            before.append(line)
            continue
        count = int(parts[-1])
        found.append((before, " ".join(parts[2:]), sent[at:at + count]))
        at, before = at + count, []
    return header, found, before


def points_of(versions, table, loads, count, wrong):
    """The points that are printed, and how many loads are refused."""
    lines = versions.splitlines()
    points, refused = [], 0
    if not lines or lines[0] != f"0 {table} initial":
        wrong.append(f"the first line of VERSIONS is {lines[:1]}")
    if len(lines) != len(loads) + 1:
        wrong.append(f"VERSIONS has {len(lines)} lines for {len(loads)} loads")
    for load, line in zip(loads, lines[1:]):
        window, name = load.split(":", 1)
        earliest, latest = map(int, window.split("-"))
        if line == f"- {name} not-reached":
            if earliest <= count:
                wrong.append(f"{line}, and there are {count} records")
        elif line.startswith(f"- {name} refused "):
            refused += 1
        else:
            point = line.removeprefix(f"{len(points) + 1} {name} at ")
            if not point.isdigit() or not earliest <= int(point) <= min(latest, count):
                wrong.append(f"{line}, for the load {load}")
                continue
            if points and int(point) < points[-1]:
                wrong.append(f"{line}, behind the point {points[-1]}")
            points.append(int(point))
    return points, refused


def expected(alone, points, count):
    """The files of these points, from the runs of each table alone."""
    header, first, behind = alone[0]
    out, lines = [header], []
    for number in range(count):
        version = bisect.bisect_right(points, number)
        before, line, sent = alone[version][1][number]
        lines += before + [f"{number} {version} {line}"]
        out += sent
    return b"".join(out), "".join(line + "\n" for line in lines + behind)


def summary(run, points):
    """What the summary has to say of these lines."""
    lines = [line.split(" ") for line in run.verdicts.splitlines()]
    lines = [line for line in lines if line[0] not in ("expired", "unfinished")]
    held = sum(line[2] == "held" for line in lines)
    dropped = sum(line[2] == "drop" for line in lines)
    sent = sum(int(line[-1]) for line in lines)
    forwarded = len(lines) - held - dropped
    return f"records {len(lines)} held {held} forwarded {forwarded} dropped {dropped} packets {sent} version {len(points)}\n"


def check(program, folder, workers, table, loads, known):
    """What the run of these loads printed, and what is wrong with it. The runs of one table are kept in `known`."""

    def alone_with(name):
        if name not in known:
            known[name] = by_record(Run(program, folder, name))
        return known[name]

    wrong = []
    ran = Run(program, folder, table, loads, workers)
    alone = [alone_with(table)]
    count = len(alone[0][1])
    points, refused = points_of(ran.versions, table, loads, count, wrong)
    for load, line in zip(loads, ran.versions.splitlines()[1:]):
        if " at " in line:
            alone.append(alone_with(load.split(":", 1)[1]))
    out, verdicts = expected(alone, points, count)
    for what, seen, wanted in (
        ("OUT", ran.out, out),
        ("VERDICTS", ran.verdicts, verdicts),
        ("the summary", ran.said, summary(ran, points)),
        ("the exit code", ran.code, 1 if refused else 0),
    ):
        if seen != wanted:
            wrong.append(f"{what} is not that of the points {points}")
    return points, wrong


def main():
    program, folder, workers, table, *loads = sys.argv[1:]
    points, wrong = check(program, folder, int(workers), table, loads, {})
    for text in wrong:
        print(text)
    print(f"points {points}, {len(wrong)} go otherwise")
    return 1 if wrong else 0


if __name__ == "__main__":
    sys.exit(main())
