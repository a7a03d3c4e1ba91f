#!/usr/bin/env python3
"""Sixteen workers beside one, over 20,000 records of many kinds under five tables, a hundred times.

    sixteen.py PROGRAM [TIMES]

With windows of one number the files have to be those of one worker, byte for byte; with wide windows those that the printed points
ask for (check.py). PROGRAM takes the words of `lwaftr`. Prints what was compared, and ends with 1 if anything is otherwise."""
import subprocess
import sys
import tempfile
from os import path

import check

HERE = path.dirname(path.abspath(__file__))
COUNT = 20_000
AT_ONE = ["2000-2000:t1.toml", "2001-2001:t2.toml", "9000-9000:t3.toml", "16000-16000:t0.toml", "19999-19999:t1.toml"]
WIDE = ["10-20000:t1.toml", "200-20000:t2.toml", "3000-20000:t3.toml", "3001-20000:t0.toml", "15000-20000:t1.toml"]


def main():
    program = path.realpath(sys.argv[1])
    times = int(sys.argv[2]) if len(sys.argv) > 2 else 100
    with tempfile.TemporaryDirectory() as folder:
        subprocess.run([sys.executable, f"{HERE}/make.py", str(COUNT), "1", folder], check=True)
        one = check.Run(program, folder, "t0.toml", AT_ONE, 1)
        same = sum(check.Run(program, folder, "t0.toml", AT_ONE, 16).files() == one.files() for _ in range(times))
        print(f"windows of one number, 16 workers: {same} of {times} runs wrote what one worker wrote", flush=True)
        as_printed, known, spread = 0, {}, set()
        for _ in range(times):
            points, wrong = check.check(program, folder, 16, "t0.toml", WIDE, known)
            as_printed += not wrong
            spread.add(tuple(points))
            for text in wrong:
                print(text, flush=True)
        print(f"wide windows, 16 workers: {as_printed} of {times} runs wrote what their points ask for; {len(spread)} lists of points")
    return 0 if one.code == 0 and same == as_printed == times else 1


if __name__ == "__main__":
    sys.exit(main())
