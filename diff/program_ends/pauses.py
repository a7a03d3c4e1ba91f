#!/usr/bin/env python3
"""A capture that comes through a pipe which pauses: what is written while the program waits for more.

    pauses.py PROGRAM

A reader hands in a capture in portions and waits behind each: at a pause all records but those of the last read are written, and in the
end all are. Both forms of a capture, by 1, 4 and 16 workers. Prints a line for each case that goes otherwise, and the totals; ends with
1 if there is such a case."""
import os
import subprocess
import sys
import tempfile
import time

import ends

PORTIONS = 5
EACH = 30  # records in a portion: with the header fewer than 4,096 bytes, which a pipe takes and gives as one
LONGEST = 20  # seconds at most until what is due is written


def block(kind, body):
    """A block of a pcapng file (draft-ietf-opsawg-pcapng, section 3.1)."""
    length = (len(body) + 12).to_bytes(4, "little")
    return kind.to_bytes(4, "little") + length + body + length


SECTION = block(0x0A0D0D0A, bytes.fromhex("4d3c2b1a01000000") + b"\xff" * 8) + block(1, bytes.fromhex("6500000000000400"))


def classic(number):
    return ends.record(number, ends.TUNNEL + ends.INNER)


def in_blocks(number):
    packet = ends.TUNNEL + ends.INNER
    time_of = (number * 1_000_000).to_bytes(8, "little")
    size = len(packet).to_bytes(4, "little")
    return block(6, bytes(4) + time_of[4:] + time_of[:4] + size + size + packet + bytes(-len(packet) % 4))


def verdicts(count):
    return "".join(f"{number} 0 up 1\n" for number in range(count)).encode()


def written(folder, least):
    """VERDICTS, once it is there and holds what is due, or when time is over. It is made when the first portion was read, and lines are
    written when the next one was."""
    begun = time.monotonic()
    while True:
        found = ends.held(folder, "verdicts.txt")
        if found is not None and len(found) >= least or time.monotonic() - begun > LONGEST:
            return found or b""
        time.sleep(0.01)


def wrong(folder, program, head, record, workers):
    """What goes otherwise in one run, or nothing."""
    words = ["run", "/dev/stdin", *ends.WORDS[2:], "--workers", str(workers)]
    run = subprocess.Popen([program, *words], cwd=folder, stdin=subprocess.PIPE, stdout=subprocess.PIPE, stderr=subprocess.PIPE)
    run.stdin.write(head)
    for portion in range(PORTIONS):
        first = portion * EACH
        run.stdin.write(b"".join(record(number + 1) for number in range(first, first + EACH)))
        run.stdin.flush()
        due = verdicts(first)
        found = written(folder, len(due))
        if found[: len(due)] != due or not verdicts(first + EACH).startswith(found):
            run.kill()
            run.communicate()
            return f"at the pause behind {first + EACH} records {found.count(bytes([10]))} lines are written"
    said, _ = run.communicate()
    if run.returncode != 0 or ends.held(folder, "verdicts.txt") != verdicts(PORTIONS * EACH):
        return f"ended with {run.returncode}: {said!r}"
    return None


def main():
    program = os.path.abspath(sys.argv[1])
    failures, count = 0, 0
    for form, head, record in (("classic", ends.HEADER, classic), ("pcapng", SECTION, in_blocks)):
        for workers in (1, 4, 16):
            with tempfile.TemporaryDirectory() as folder:
                with open(os.path.join(folder, "t0.toml"), "wb") as table:
                    table.write(ends.TABLE)
                found = wrong(folder, program, head, record, workers)
            count += 1
            if found:
                failures += 1
                print(f"{form}, {workers} workers: {found}")
    print(f"{failures} of {count} pauses go otherwise")
    return 1 if failures else 0


if __name__ == "__main__":
    sys.exit(main())
