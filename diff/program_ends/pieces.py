#!/usr/bin/env python3
"""A capture or a table that comes through a pipe in pieces of 1, 3, 24 and 4,097 bytes: all is as with the plain file.

    pieces.py PROGRAM

The next piece is written when the pipe is empty, so a read brings no more than one. Both forms of a capture, by 1, 4 and 16 workers; a table of
each command that reads one; and one pipe that is named twice, which cannot be read again. Prints a line for each case that goes
otherwise, and the totals; ends with 1 if there is such a case."""
import array
import fcntl
import os
import subprocess
import sys
import tempfile
import termios

import ends
import pauses

SIZES = (1, 3, 24, 4097)
RECORDS = 60  # some 6,000 bytes
OUTPUTS = ("out.pcap", "verdicts.txt", "versions.txt")
RUN = ["run", "in.pcap", *OUTPUTS, "t0.toml"]
READ_FAULT = 3


def is_empty(pipe):
    count = array.array("i", [0])
    fcntl.ioctl(pipe, termios.FIONREAD, count)
    return count[0] == 0


def feed(run, data, size):
    """Writes the data in pieces, each when the one before it was taken; ends early where the program does."""
    try:
        for first in range(0, len(data), size):
            os.write(run.stdin.fileno(), data[first : first + size])
            while not is_empty(run.stdin.fileno()):
                if run.poll() is not None:
                    return
                os.sched_yield()
    except BrokenPipeError:
        pass


def told(program, words, files, data=None, size=None):
    """Exit code, standard output and the files of a run, whose standard input is this data in pieces, or nothing."""
    with tempfile.TemporaryDirectory() as folder:
        for name, content in files.items():
            with open(os.path.join(folder, name), "wb") as file:
                file.write(content)
        run = subprocess.Popen([program, *words], cwd=folder, stdin=subprocess.PIPE, stdout=subprocess.PIPE, stderr=subprocess.DEVNULL)
        if data is not None:
            feed(run, data, size)
        said, _ = run.communicate()
        written = [ends.held(folder, name) for name in OUTPUTS + ("new.toml",)]
        return run.returncode, said, [content and content.replace(b"/dev/stdin", b"t0.toml") for content in written]


def piped(words, name):
    return ["/dev/stdin" if word == name else word for word in words]


def main():
    program = os.path.abspath(sys.argv[1])
    captures = {
        "classic": ends.HEADER + b"".join(pauses.classic(number + 1) for number in range(RECORDS)),
        "pcapng": pauses.SECTION + b"".join(pauses.in_blocks(number + 1) for number in range(RECORDS)),
    }
    cases = []  # a title, the words, the name that is a pipe, and the files
    for form, capture in captures.items():
        for workers in (1, 4, 16):
            words = RUN + ["--workers", str(workers)]
            cases.append((f"{form}, {workers} workers", words, "in.pcap", {"in.pcap": capture, "t0.toml": ends.TABLE}))
    files = {"in.pcap": captures["classic"], "t0.toml": ends.TABLE}
    for words in (RUN, ["check", "t0.toml"], ["who", "t0.toml", "203.0.113.1", "1"], ["migrate", "t0.toml", "new.toml"]):
        cases.append((f"the table of {words[0]}", words, "t0.toml", files))
    failures, count = 0, 0
    for title, words, name, files in cases:
        due = told(program, words, files)
        assert due[0] == 0, due
        for size in SIZES:
            count += 1
            found = told(program, piped(words, name), files, files[name], size)
            if found != due:
                failures += 1
                print(f"{title}, pieces of {size}: {found[:2]} and not {due[:2]}, or other files")
    twice = [(piped(piped(RUN, "in.pcap"), "t0.toml"), "capture and table"), (piped(RUN, "t0.toml") + ["0-0:/dev/stdin"], "two tables")]
    for words, title in twice:
        count += 1
        found = told(program, words, files, ends.TABLE, 4097)
        if found != (READ_FAULT, b"", [None] * 4):
            failures += 1
            print(f"one pipe as {title}: {found}")
    print(f"{failures} of {count} pipes in pieces go otherwise")
    return 1 if failures else 0


if __name__ == "__main__":
    sys.exit(main())
