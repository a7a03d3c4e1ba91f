#!/usr/bin/env python3
"""The least stack with which `check` answers tables that are nested as deep as the library reads them.

    bench/hostile_tables/stack.py [PROGRAM]

A value is at most 80 inline tables deep, and each stands behind a key of at most 80 parts, so 13 kB spell some 6,500 tables in one
another. The library makes them by recursion, and lets go of them so. It prints a line for each file: the least stack, in KiB to the next
16, with which the program is not ended by a signal."""
import os
import resource
import subprocess
import sys
import tempfile

KEY = ".".join(["a"] * 80)
DEEP = f"{KEY} = " + f"{{ {KEY} = " * 79 + "1" + "}" * 79
HEADER = "[" + ".".join(["b"] * 80) + "]\n"
HEADERS = "".join("[[" + ".".join(["b"] * n) + "]]\n" for n in range(1, 81))
FILES = {
    "a table": DEEP + "\n",
    "below a header of 80 parts": HEADER + DEEP + "\n",
    "below 80 headers, one in another": HEADERS + DEEP + "\n",
    "a wrong last line": DEEP + "\n= 1\n",
    "a key twice": DEEP + "\nx = 1\nx = 1\n",
    "cut": DEEP[:-1] + "\n",
    "below 80 headers, and a wrong last line": HEADERS + DEEP + "\n= 1\n",
    "80 arrays": "a = " + "[" * 80 + "]" * 80 + "\n",
}


def ends_well(program, file, stack):
    def limit():
        resource.setrlimit(resource.RLIMIT_STACK, (stack * 1024, stack * 1024))
    return subprocess.run([program, "check", file], preexec_fn=limit, capture_output=True).returncode >= 0


def least(program, file):
    low, high = 128, 8192
    while high - low > 16:
        middle = (low + high) // 2
        if ends_well(program, file, middle):
            high = middle
        else:
            low = middle
    return high


def main():
    top = os.path.realpath(os.path.join(os.path.dirname(__file__), "..", ".."))
    program = os.path.abspath(sys.argv[1]) if len(sys.argv) > 1 else subprocess.run(
        [f"{top}/build", "--program"], capture_output=True, text=True, check=True).stdout.strip()
    with tempfile.TemporaryDirectory() as folder:
        for title, text in FILES.items():
            file = os.path.join(folder, "deep.toml")
            with open(file, "w", encoding="utf-8") as it:
                it.write(text)
            print(f"{title}: {len(text)} bytes, {least(program, file)} KiB")


if __name__ == "__main__":
    main()
