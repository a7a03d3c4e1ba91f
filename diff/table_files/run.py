#!/usr/bin/env python3
"""Judges table files by two programs, and says where their answers differ.

    diff/table_files/run.py PROGRAM OTHER COUNT [FIRST_SEED]

Each seed makes one file: a good table, one that is aimed at a refusal, a damaged one, or one of these with some bytes or lines changed. Both
programs are asked to `check` it; their exit codes and what they print have to be the same. A file that either of them refuses as
`too-costly` is not compared. If Python's TOML reader takes a file, neither may say `not-toml`. The folder of a file that differs is
kept and named."""
import collections
import os
import random
import subprocess
import sys
import tempfile
import tomllib

sys.path.insert(0, os.path.join(os.path.dirname(__file__), ".."))
import tables

PIECES = [b"[", b"]", b"{", b"}", b'"', b"'", b"=", b"#", b",", b".", b"\n", b"\r\n", b"\t", b" ", b"\\", b"0x", b"_", b"e", b"-", b"+", b"1", b"\xff",
          b'"""', b"'''", b"[[", b"]]", b"[[binding]]\n", b"[ binding ]\n", b"[softwire]\n", b"version = 2\n", b"psid = 1\n", b'"psid" = 1\n',
          b"psid = \"1\"\n", b"# x\n", b"\xef\xbb\xbf"]
KEYS = ("version", "aftr", "own", "b4", "ipv4", "offset", "length", "psid", "softwire", "binding")


def other_lines(r, text):
    """The same lines with some of them gone, doubled, moved, or their keys and values spelled otherwise."""
    lines = text.split(b"\n")
    for _ in range(r.randrange(1, 4)):
        at = r.randrange(len(lines))
        kind = r.randrange(6)
        if kind == 0:
            lines.insert(at, lines.pop(r.randrange(len(lines))))
        elif kind == 1:
            lines.insert(at, r.choice(lines))
        elif kind == 2 and len(lines) > 1:
            lines.pop(at)
        elif kind == 3:
            name = r.choice(KEYS).encode()
            lines[at] = lines[at].replace(name, r.choice([b'"' + name + b'"', b"'" + name + b"'", b" " + name + b"\t"]), 1)
        elif kind == 4:
            lines[at] = lines[at].replace(b"[[binding]]", r.choice([b"[[ binding ]]", b"[['binding']]", b"  [[binding]]  # x", b"[ [binding] ]", b"[[binding]"]))
        else:
            lines[at] = lines[at] + r.choice([b" # a comment", b"\t", b"  ", b"\r", b" x"])
    return b"\n".join(lines)


def other_bytes(r, text):
    """The same bytes with a few pieces put in, taken out or put in the place of others."""
    for _ in range(r.randrange(1, 4)):
        at = r.randrange(len(text) + 1)
        text = text[:at] + r.choice([b"", r.choice(PIECES)]) + text[at + r.randrange(3):]
    return text


def file_of(seed):
    r = random.Random(seed)
    text = r.choice([tables.good_table, tables.good_table, tables.aimed_table, tables.wrong_table])(r)
    text = text.encode() if isinstance(text, str) else text
    kind = r.randrange(5)
    if kind == 0:
        text = other_lines(r, text)
    elif kind == 1:
        text = other_bytes(r, text)
    elif kind == 2:
        text = other_lines(r, other_lines(r, text))
    return text


def answer_of(program, name):
    done = subprocess.run([program, "check", name], stdout=subprocess.PIPE, stderr=subprocess.STDOUT)
    return done.returncode, done.stdout.split(b"\n")[0]


def fits(value):
    """Whether each integer in it has 64 bits; Python reads longer ones too."""
    if isinstance(value, dict):
        return all(map(fits, value.values()))
    if isinstance(value, list):
        return all(map(fits, value))
    return not isinstance(value, int) or -(2**63) <= value < 2**63


def is_toml(text):
    try:
        return fits(tomllib.loads(text.decode()))
    except (ValueError, RecursionError):
        return False


def main():
    program, other = map(os.path.abspath, sys.argv[1:3])
    count = int(sys.argv[3])
    first = int(sys.argv[4]) if len(sys.argv) > 4 else 1
    came, differ = collections.Counter(), 0
    with tempfile.TemporaryDirectory() as folder:
        name = os.path.join(folder, "table.toml")
        for seed in range(first, first + count):
            text = file_of(seed)
            with open(name, "wb") as it:
                it.write(text)
            one, two = answer_of(program, name), answer_of(other, name)
            what = one[1].split(b" ")[:3]
            came[b" ".join(it for it in what if not it.isdigit()).decode()] += 1
            costly = b"too-costly" in one[1] or b"too-costly" in two[1]
            wrong = b"not-toml" in one[1] and is_toml(text)
            if one != two and not costly or wrong:
                differ += 1
                kept = os.path.join(tempfile.mkdtemp(), f"{seed}.toml")
                with open(kept, "wb") as it:
                    it.write(text)
                print(f"differs: seed {seed}, {one} and {two}{', TOML by Python' if wrong else ''}: {kept}", flush=True)
    for what, many in came.most_common():
        print(f"{many:7} {what}")
    print(f"{count} files, {differ} differ")
    sys.exit(1 if differ else 0)


if __name__ == "__main__":
    main()
