#!/usr/bin/env python3
"""The runs of run.sh.

    compare.py PROGRAM FOLDER"""
import subprocess
import sys
from os import path

import check

HERE = path.dirname(path.abspath(__file__))
COUNT = 40_000

# Loads, each list with what it is to show.
LOADS = [
    ("one table in a wide window", ["100-30000:t1.toml"]),
    ("one table at one number", ["20000-20000:t3.toml"]),
    ("before the first record and behind the last", ["0-0:t1.toml", "40000-40000:t2.toml"]),
    ("four tables in one window", ["0-40000:t1.toml", "0-40000:t2.toml", "0-40000:t3.toml", "0-40000:t0.toml"]),
    ("refused ones between others", ["10-20:bad.toml", "10-9000:t1.toml", "11-9000:bad.toml", "16384-16384:t2.toml"]),
    ("one that is not reached", ["5-6:t2.toml", "40001-50000:t1.toml", "50000-50000:bad.toml"]),
    ("many", [f"{n * 150}-{n * 150 + 3000}:t{n % 4}.toml" for n in range(255)]),
]


def with_loads(program, folder):
    wrong, known = 0, {}
    for title, loads in LOADS:
        for workers in (1, 4, 16):
            points, texts = check.check(program, folder, workers, "t0.toml", loads, known)
            wrong += bool(texts)
            told = points if len(points) < 5 else f"{points[:4]} and {len(points) - 4} more"
            print(f"{title}, {workers} workers: points {told}, {'; '.join(texts) or 'as printed'}", flush=True)
    return wrong


def without_loads(program, folder):
    wrong = 0
    for options in ([], ["--errors", "3"], ["--errors=1000000"]):
        for table in ("t0.toml", "t2.toml", "t3.toml"):
            one = check.Run(program, folder, table, (), 1, options)
            many = [check.Run(program, folder, table, (), workers, options) for workers in (4, 16)]
            same = one.code == 0 and all(run.files() == one.files() for run in many)
            wrong += not same
            told = "agree" if same else f"DIFFER, code {one.code}"
            print(f"{' '.join([table] + options)}: 1, 4 and 16 workers {told}", flush=True)
    return wrong


def main():
    program, folder = sys.argv[1:]
    wrong = 0
    for seed in (1, 2):
        subprocess.run([sys.executable, f"{HERE}/make.py", str(COUNT), str(seed), folder], check=True)
        wrong += with_loads(program, folder) + without_loads(program, folder)
    print(f"points_and_files: {wrong} go otherwise")
    return 1 if wrong else 0


if __name__ == "__main__":
    sys.exit(main())
