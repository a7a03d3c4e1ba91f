#!/usr/bin/env python3
"""Runs the cases of make.py and make_runs.py by a program, over files, and compares all that it writes.

    run.py PROGRAM

PROGRAM takes the words of `lwaftr`. It prints each case that goes otherwise and the totals, and ends with 1 if there is one."""
import os
import subprocess
import sys
import tempfile

import make
import make_runs

SETTINGS = '[softwire]\naftr = "2001:db8::1"\nown = "192.0.2.1"\n'
SHAPE = "offset = 6\nlength = 8\npsid = "
CITY = [(f"2001:db8:1::{0x100 + n:x}", f"offset = 6\nlength = 6\npsid = {n}\n") for n in range(64)]
BINDINGS = {
    "whole": [("2001:db8:1::1", "")],
    "shared": [("2001:db8:1::1", SHAPE + "52\n")],
    "next": [("2001:db8:1::1", SHAPE + "53\n")],
    "pair": [("2001:db8:1::1", SHAPE + "52\n"), ("2001:db8:1::2", SHAPE + "53\n")],
    "none": [],
    "city": CITY,
    "crowd": CITY + [("2001:db8:1::140", "offset = 6\nlength = 6\npsid = 0\n")],
    "thin": CITY[:5] + CITY[6:],
}


def table(spec):
    """The text of a table: NAME, NAME/2 for version 2, and NAME+KEY=VALUE for one more setting."""
    if spec == "bad":
        return "="
    name, _, setting = spec.partition("+")
    name, _, version = name.partition("/")
    text = f"version = {version or 1}\n" + SETTINGS + (setting + "\n" if setting else "")
    for b4, shape in BINDINGS[name]:
        text += f'[[binding]]\nb4 = "{b4}"\nipv4 = "203.0.113.1"\n{shape}'
    return text


def little(*numbers):
    return b"".join(number.to_bytes(4, "little") for number in numbers)


def capture(records, link=101):
    data = bytes.fromhex("d4c3b2a102000400" "0000000000000000" "00000400") + little(link)
    for seconds, fraction, packet in records:
        data += little(seconds, fraction, len(packet), len(packet)) + packet
    return data


def records(text):
    """The records of a text, and the link type."""
    link, found = 101, []
    for word in text.split():
        if word == "=ethernet":
            link = 1
            continue
        name, _, time = word.partition("@")
        seconds, _, fraction = time.partition(".")
        found.append((int(seconds), int(fraction or 0), make_runs.PACKETS[name]))
    return link, found


def lines(text):
    return "".join(line + "\n" for line in text.split(", ") if line)


def run(program, folder, spec, options, data):
    for name, text in [("in.pcap", data), ("t0.toml", table(spec).encode())]:
        with open(f"{folder}/{name}", "wb") as file:
            file.write(text)
    for option in options:
        if ":" in option:
            load = option.split(":")[1]
            with open(f"{folder}/{load}", "w") as file:
                file.write(table(load))
    names = ["out.pcap", "verdicts.txt", "versions.txt"]
    words = [program, "run", "in.pcap", *names, "t0.toml", *options]
    done = subprocess.run(words, cwd=folder, stdin=subprocess.DEVNULL, capture_output=True, timeout=60)
    held = [open(f"{folder}/{name}", "rb").read() if os.path.exists(f"{folder}/{name}") else None for name in names]
    return (done.stderr.decode().splitlines(True) or ["done\n"])[0], done.stdout.decode(), held


def compare(title, seen, wanted):
    if seen == wanted:
        return 0
    for part, other in zip(seen, wanted):
        if part != other:
            print(f"{title}:\n  seen   {part}\n  wanted {other}")
    return 1


def main():
    program = os.path.abspath(sys.argv[1])
    wrong = count = 0
    for title, spec, outcome, record, sent in make.PLAIN + make.RELAYED:
        with tempfile.TemporaryDirectory() as folder:
            status, _, held = run(program, folder, spec, [], capture([(7, 9, record)]))
        first, *rest = outcome.split(", ")
        wanted = lines(", ".join(["0 0 " + first] + rest)).encode(), capture([(7, 9, packet) for packet in sent])
        wrong += compare(title, (status, held[1], held[0]), ("done\n", *wanted))
        count += 1
    for title, spec, options, taken, verdicts, versions, numbers, sent, status in make_runs.RUNS:
        link, list_taken = records(taken)
        with tempfile.TemporaryDirectory() as folder:
            told, said, held = run(program, folder, spec, options.split(), capture(list_taken, link))
        wanted_files = [capture(records(sent)[1]), lines(verdicts).encode(), ("0 t0.toml initial\n" + lines(versions)).encode()]
        wrong += compare(title, (told, said, held), (status + "\n", make_runs.summary(numbers) + "\n", wanted_files))
        count += 1
    print(f"worked_cases: {wrong} of {count} go otherwise")
    return 1 if wrong else 0


if __name__ == "__main__":
    sys.exit(main())
