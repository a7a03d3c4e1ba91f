#!/usr/bin/env python3
"""The cases of run.sh. Each runs in a folder of its own, in which a capture and tables lie.

    ends.py PROGRAM

The bytes of the capture and of what is written stand here as the RFCs make them: UDP of four bytes in a tunnel (RFC 2473), and
the same with its time to live lowered (RFC 791)."""
import os
import shutil
import subprocess
import sys
import tempfile
import threading

HEADER = bytes.fromhex("d4c3b2a1020004000000000000000000" "0000040065000000")
TUNNEL = bytes.fromhex("6000000000200440" "20010db8000100000000000000000001" "20010db8000000000000000000000001")
INNER = bytes.fromhex("45000020000100004011" "1490" "cb007101c6336407" "04d00035000c000074657374")
LOWERED = bytes.fromhex("45000020000100003f11" "1590" "cb007101c6336407" "04d00035000c000074657374")


def record(second, packet):
    return b"".join(n.to_bytes(4, "little") for n in (second, 0, len(packet), len(packet))) + packet


CAPTURE = HEADER + record(1, TUNNEL + INNER)
WRITTEN = HEADER + record(1, LOWERED)
TABLE = b"""version = 1
[softwire]
aftr = "2001:db8::1"
own = "192.0.2.1"
[[binding]]
b4 = "2001:db8:1::1"
ipv4 = "203.0.113.1"
"""
# The same in the newer edition, with each setting.
NEWER = b"""version = 2

[[binding]]
b4 = "2001:db8:1::1"
ipv4 = "203.0.113.1"
length = 0
offset = 0
psid = 0

[softwire]
aftr = "2001:db8::1"
errors_down = false
errors_up = false
hairpin = true
hop_limit = 64
icmp_in = true
mtu4 = 1500
mtu6 = 1500
own = "192.0.2.1"
"""
VERDICTS = b"0 0 up 1\n"
VERSIONS = b"0 t0.toml initial\n"
SAID = b"records 1 held 0 forwarded 1 dropped 0 packets 1 version 0\n"

WORDS = ["run", "in.pcap", "out.pcap", "verdicts.txt", "versions.txt", "t0.toml"]
WHOLE = {"out.pcap": WRITTEN, "verdicts.txt": VERDICTS, "versions.txt": VERSIONS}
NONE = {"out.pcap": None, "verdicts.txt": None, "versions.txt": None}
ANY = object()

# What is wrong with a case, a text each; and the titles of all cases.
failures = []
titles = []


def words(**changes):
    """The words of a run with some of them changed, as words(w1="other")."""
    changed = list(WORDS)
    for place, word in changes.items():
        changed[int(place[1:])] = word
    return changed


def held(folder, name):
    path = os.path.join(folder, name)
    if os.path.isdir(path):
        return "a folder"
    if not os.path.exists(path):
        return None
    with open(path, "rb") as file:
        return file.read()


def shown(value):
    if value is None:
        return "nothing"
    if value is ANY:
        return "anything"
    return f"{len(value)} bytes" if isinstance(value, bytes) and len(value) > 80 else repr(value)


class Front:
    """Some first bytes of these, or no file."""

    def __init__(self, data):
        self.data = data

    def __eq__(self, seen):
        return seen is None or (isinstance(seen, bytes) and self.data.startswith(seen))

    def __repr__(self):
        return f"a front of {shown(self.data)}"


# What a run leaves that could not write to one of its outputs.
FRONTS = {name: Front(data) for name, data in WHOLE.items()}

USAGE = b"usage\n"


def expect(title, what, seen, wanted):
    if wanted is ANY or wanted == seen:
        return
    failures.append(f"{title}: {what} is {shown(seen)}, and not {shown(wanted)}")


def expect_error(title, seen, wanted):
    """The status line, and below it lines for people, which begin with two blanks."""
    line, _, below = seen.partition(b"\n")
    expect(title, "the status line", line + b"\n" * (len(line) < len(seen)), wanted)
    for text in below.splitlines():
        if not text.startswith(b"  "):
            failures.append(f"{title}: {shown(text)} below the status line")


def folder_with_files(more=""):
    """A folder with the capture and tables, behind which the commands of a shell have made there what a case wants more."""
    folder = tempfile.mkdtemp(prefix="program_ends.")
    os.mkdir(os.path.join(folder, "folder"))
    for name, data in (("in.pcap", CAPTURE), ("t0.toml", TABLE), ("bad.toml", b"="), ("text", b"no capture\n")):
        with open(os.path.join(folder, name), "wb") as file:
            file.write(data)
    subprocess.run(["sh", "-ec", more], cwd=folder, check=True)
    return folder


def start(program, line, folder, **streams):
    # SIGPIPE as a shell hands it on: a program that does not turn it off is ended by it.
    return subprocess.Popen([program] + line, cwd=folder, stdin=subprocess.DEVNULL, stderr=subprocess.PIPE, **streams)


def run_plain(program, line, folder):
    process = start(program, line, folder, stdout=subprocess.PIPE)
    out, err = process.communicate(timeout=60)
    return process.returncode, out, err


def run_full(program, line, folder):
    with open("/dev/full", "wb") as full:
        process = start(program, line, folder, stdout=full)
        _, err = process.communicate(timeout=60)
    return process.returncode, b"", err


def run_closed(program, line, folder):
    closing = ["sh", "-c", 'exec "$0" "$@" >&-', program] + line
    process = subprocess.Popen(closing, cwd=folder, stdin=subprocess.DEVNULL, stderr=subprocess.PIPE)
    _, err = process.communicate(timeout=60)
    return process.returncode, b"", err


def run_all_closed(program, line, folder):
    closing = ["sh", "-c", 'exec "$0" "$@" <&- >&- 2>&-', program] + line
    process = subprocess.Popen(closing, cwd=folder)
    process.wait(timeout=60)
    return process.returncode, b"", b""


def run_unread(program, line, folder):
    reading, writing = os.pipe()
    os.close(reading)
    try:
        process = start(program, line, folder, stdout=writing)
        _, err = process.communicate(timeout=60)
    finally:
        os.close(writing)
    return process.returncode, b"", err


def feed(path, data):
    try:
        with open(path, "wb") as pipe:
            pipe.write(data)
    except OSError:
        pass


def run_piped(program, line, folder):
    """The input is a pipe with the capture's bytes."""
    path = os.path.join(folder, "pipe")
    os.mkfifo(path)
    feeder = threading.Thread(target=feed, args=(path, CAPTURE), daemon=True)
    feeder.start()
    process = start(program, line, folder, stdout=subprocess.PIPE)
    try:
        out, err = process.communicate(timeout=60)
        code = process.returncode
    except subprocess.TimeoutExpired:
        process.kill()
        out, err = process.communicate()
        code = "no end in 60 seconds"
    return code, out, err


def case(program, title, line, code, err, out=b"", files=NONE, run=run_plain, more=""):
    """One case: what the program ends with, and what the files hold behind it. The capture and the tables stay."""
    titles.append(title)
    folder = folder_with_files(more)
    try:
        seen = run(program, line, folder)
        expect(title, "the exit code", seen[0], code)
        expect_error(title, seen[2], err)
        expect(title, "standard output", seen[1], out)
        for name, data in {"in.pcap": CAPTURE, "t0.toml": TABLE, "bad.toml": b"=", **files}.items():
            expect(title, name, held(folder, name), data)
    finally:
        shutil.rmtree(folder)


def write_fault_files(*made):
    """The outputs of a run that could not make the next one: those made before are there, and empty."""
    return {**NONE, **{name: b"" for name in made}}


def all_cases(program):
    def run(*rest, **more):
        case(program, *rest, **more)

    read, write = b"read fault\n", b"write fault\n"
    run("all is there", WORDS, 0, b"", SAID, WHOLE)
    run("no words", [], 2, USAGE)
    run("four names", WORDS[:5], 2, USAGE)
    run("17 workers", WORDS + ["--workers", "17"], 2, USAGE)
    run("two outputs of one name", words(w3="out.pcap"), 2, USAGE)
    run("a missing capture", words(w1="other"), 3, read)
    run("a missing table", words(w5="other"), 3, read)
    run("a missing load", WORDS + ["0-0:other"], 3, read)
    run("a folder as the capture", words(w1="folder"), 3, read)
    run("a folder as the table", words(w5="folder"), 3, read)
    run("a folder as a load", WORDS + ["0-0:folder"], 3, read)
    run("a file that is no capture", words(w1="text"), 6, b"capture refused: cut header at 0\n")
    run("a table that is refused", words(w5="bad.toml"), 5, b"table refused: not-toml\n")
    run("a load that is refused", WORDS + ["0-0:bad.toml"], 1, b"done, a load was refused\n", SAID,
        {**WHOLE, "versions.txt": VERSIONS + b"- bad.toml refused not-toml\n"})
    run("a folder as OUT", words(w2="folder"), 4, write, files={**NONE, "folder": "a folder"})
    run("a folder as VERDICTS", words(w3="folder"), 4, write, files=write_fault_files("out.pcap"))
    run("a folder as VERSIONS", words(w4="folder"), 4, write, files=write_fault_files("out.pcap", "verdicts.txt"))
    run("OUT in a folder that is not there", words(w2="none/out.pcap"), 4, write)
    run("OUT below a file", words(w2="t0.toml/out.pcap"), 4, write)
    run("OUT is full", words(w2="/dev/full"), 4, write, files=FRONTS)
    run("VERDICTS is full", words(w3="/dev/full"), 4, write, files=FRONTS)
    run("VERSIONS is full", words(w4="/dev/full"), 4, write, files=FRONTS)
    run("standard output is full", WORDS, 4, write, files=WHOLE, run=run_full)
    run("standard output is closed", WORDS, 4, write, files=WHOLE, run=run_closed)
    run("all three streams are closed", WORDS, 4, b"", files=WHOLE, run=run_all_closed)
    run("nobody reads standard output", WORDS, 4, write, files=WHOLE, run=run_unread)
    run("check", ["check", "t0.toml"], 0, b"", b"valid 1 bindings\n")
    run("check of a missing file", ["check", "other"], 3, read)
    run("check of a folder", ["check", "folder"], 3, read)
    run("check into a full device", ["check", "t0.toml"], 4, write, run=run_full)
    run("check with closed standard output", ["check", "t0.toml"], 4, write, run=run_closed)
    run("check that nobody reads", ["check", "t0.toml"], 4, write, run=run_unread)
    run("who", ["who", "t0.toml", "203.0.113.1", "1232"], 0, b"", b"2001:db8:1::1\n")
    run("migrate", ["migrate", "t0.toml", "t1.toml"], 0, b"", b"migrated 1 bindings\n")
    run("migrate of a missing file", ["migrate", "other", "t1.toml"], 3, read, files={**NONE, "t1.toml": None})
    run("migrate of a table that is refused", ["migrate", "bad.toml", "t1.toml"], 5, b"table refused: not-toml\n",
        files={**NONE, "t1.toml": None})
    run("migrate into a folder", ["migrate", "t0.toml", "folder"], 4, write, files={**NONE, "folder": "a folder"})
    run("migrate into a full device", ["migrate", "t0.toml", "/dev/full"], 4, write)
    run("demo", ["demo", "0", "1", "1"], 0, b"", b"records 1 held 0 forwarded 0 dropped 1 packets 0 version 1\n")
    run("demo into a full device", ["demo", "0", "1", "1"], 4, write, run=run_full)
    # A pipe is read from its front, as a file is: either all of it, or not at all.
    piped(program)
    second_names(program)
    names_apart(program)


def piped(program):
    title = "a pipe as the capture"
    titles.append(title)
    folder = folder_with_files()
    try:
        code, out, err = run_piped(program, words(w1="pipe"), folder)
        whole = (code, out, err) == (0, SAID, b"")
        refused = (code, out) == (3, b"") and err.startswith(b"read fault\n")
        if not whole and not refused:
            failures.append(f"{title}: code {code}, {shown(out)} on standard output and {shown(err)} on standard error")
        for name, data in (WHOLE if whole else NONE).items():
            expect(title, name, held(folder, name), data)
        print(f"{title}: {'read whole' if whole else 'a read fault'}")
    finally:
        shutil.rmtree(folder)


def contents(folder):
    """What stands behind each name in a folder and below it, links as they are."""
    paths = [os.path.join(at, name) for at, folders, names in os.walk(folder) for name in folders + names]
    return {path: f"a link to {os.readlink(path)}" if os.path.islink(path) else held(folder, path) for path in paths}


def second_name(program, title, line, said, more=""):
    """Words of which two lead to one file: they are refused, the two are named, and all names hold what they held."""
    titles.append(title)
    folder = folder_with_files(more)
    try:
        before = contents(folder)
        code, out, err = run_plain(program, line, folder)
        expect(title, "the exit code", code, 2)
        expect(title, "standard output", out, b"")
        expect_error(title, err, USAGE)
        expect(title, "what is said of it", (err.splitlines() + [b""] * 2)[1].decode(), f"  {said}")
        after = contents(folder)
        touched = [os.path.relpath(it, folder) for it in sorted({*before, *after}) if before.get(it) != after.get(it)]
        expect(title, "what was touched", " ".join(touched), "")
    finally:
        shutil.rmtree(folder)


def second_names(program):
    def refused(*rest, **more):
        second_name(program, *rest, **more)

    lost = "are one file, which would be lost"
    for place, word in ((2, "OUT"), (3, "VERDICTS"), (4, "VERSIONS")):
        refused(f"the capture again as {word}", words(**{f"w{place}": "./in.pcap"}), f"{word}, `./in.pcap`, and IN, `in.pcap`, {lost}")
    refused("OUT by another way to the capture", words(w2="folder/../in.pcap"), f"OUT, `folder/../in.pcap`, and IN, `in.pcap`, {lost}")
    refused("a symbolic link to the capture as OUT", words(w2="link"), f"OUT, `link`, and IN, `in.pcap`, {lost}", more="ln -s in.pcap link")
    refused("the capture by a symbolic link, and itself as OUT", words(w1="link", w2="in.pcap"), f"OUT, `in.pcap`, and IN, `link`, {lost}",
            more="ln -s in.pcap link")
    refused("OUT through a symbolic link to a folder", words(w2="other/in.pcap"), f"OUT, `other/in.pcap`, and IN, `in.pcap`, {lost}",
            more="ln -s . other")
    refused("a hard link of the capture as VERDICTS", words(w3="link"), f"VERDICTS, `link`, and IN, `in.pcap`, {lost}", more="ln in.pcap link")
    refused("a hard link of the table as VERSIONS", words(w4="link"), f"VERSIONS, `link`, and TABLE, `t0.toml`, {lost}", more="ln t0.toml link")
    refused("a load again as VERDICTS", words(w3="./bad.toml") + ["0-0:t0.toml", "0-0:bad.toml"],
            f"VERDICTS, `./bad.toml`, and load 2, `bad.toml`, {lost}")
    refused("the last of 255 loads again as OUT", words(w2="./bad.toml") + ["0-0:t0.toml"] * 254 + ["0-0:bad.toml"],
            f"OUT, `./bad.toml`, and load 255, `bad.toml`, {lost}")
    refused("two new outputs that are one", words(w2="./new", w3="new"), "OUT, `./new`, and VERDICTS, `new`, are one file")
    refused("two new outputs that are one, by its whole name", words(w2="/proc/self/cwd/new", w4="new"),
            "OUT, `/proc/self/cwd/new`, and VERSIONS, `new`, are one file")
    refused("two new outputs by two ways to a folder", words(w2="folder/new", w4="other/new"),
            "OUT, `folder/new`, and VERSIONS, `other/new`, are one file", more="ln -s folder other")
    refused("two outputs that are one file", words(w3="old", w4="link"), "VERDICTS, `old`, and VERSIONS, `link`, are one file",
            more="echo old > old; ln old link")
    refused("migrate to the table itself", ["migrate", "t0.toml", "./t0.toml"], f"NEW-TABLE, `./t0.toml`, and TABLE, `t0.toml`, {lost}")
    refused("migrate to a link to the table", ["migrate", "t0.toml", "link"], f"NEW-TABLE, `link`, and TABLE, `t0.toml`, {lost}",
            more="ln -s t0.toml link")


def names_apart(program):
    """What is next to a second name, and none."""
    def run(*rest, **more):
        case(program, *rest, **more)

    nowhere = {**WHOLE, "out.pcap": None, "verdicts.txt": None}
    run("outputs that are there already", WORDS, 0, b"", SAID, WHOLE, more="echo old | tee out.pcap verdicts.txt > versions.txt")
    run("outputs of one last part", words(w2="folder/x", w3="x", w4="other/x"), 0, b"", SAID,
        {**NONE, "folder/x": WRITTEN, "x": VERDICTS, "other/x": VERSIONS}, more="mkdir other")
    run("a symbolic link to another file as OUT", words(w2="link"), 0, b"", SAID, {**WHOLE, "out.pcap": None, "link": WRITTEN, "old": WRITTEN},
        more="echo old > old; ln -s old link")
    run("the capture as the table", words(w5="in.pcap"), 5, b"table refused: not-toml\n")
    run("the capture as the table by a second name", words(w5="./in.pcap"), 5, b"table refused: not-toml\n")
    run("the table as a load by a second name", WORDS + ["0-0:./t0.toml"], 0, b"", SAID.replace(b"version 0", b"version 1"),
        {**WHOLE, "verdicts.txt": b"0 1 up 1\n", "versions.txt": VERSIONS + b"1 ./t0.toml at 0\n"})
    run("one device under one name", words(w2="/dev/null", w3="/dev/null"), 2, USAGE)
    run("one device under two names", words(w2="/dev/null", w3="/dev/../dev/null"), 0, b"", SAID, nowhere)
    run("a folder that is not there under two names", words(w2="none/x", w3="./none/x"), 4, b"write fault\n")
    run("migrate to another file that is there", ["migrate", "t0.toml", "old"], 0, b"", b"migrated 1 bindings\n", files={**NONE, "old": NEWER},
        more="echo old > old")


def main():
    program = os.path.abspath(sys.argv[1])
    all_cases(program)
    for failure in failures:
        print(failure)
    print(f"program_ends: {len(failures)} of {len(titles)} go otherwise")
    return 1 if failures else 0


if __name__ == "__main__":
    sys.exit(main())
