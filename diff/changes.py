#!/usr/bin/env python3
"""A program with one line changed: how many jobs it takes to find each change.

    diff/changes.sh [--jobs N] [--seed SEED] [--program FILE] [CRATE/EDIT..]

Each change is an edit that the prover refuses (crates/CRATE/must-fail/EDIT.edit or strength/CRATE/EDIT.edit). A copy of the crates gets
all of them, each beside what stood there, and the number in the variable CHANGE picks one, or none. Its program is built without a proof,
as `rt try` builds it but for the sanitizer, with which a job takes a hundred times as long, and held beside the second router over N jobs
(2,000) from SEED (1) on. Prints a row for each: how many jobs it took, and what differed. `unchanged` picks none, and nothing may
differ. Exit code 1 where a change is not found, or `unchanged` differs. With --program the program is kept in FILE, or taken from there."""
import argparse
import contextlib
import os
import re
import shlex
import shutil
import signal
import subprocess
import sys
import tempfile
import time

HERE = os.path.dirname(os.path.abspath(__file__))
TOP = os.path.dirname(HERE)
UNCHANGED = "unchanged"
CHANGES = (
    UNCHANGED, "addr_text/single_zero_group_compressed", "aftr_base/drops_the_last_carry", "aftr_text/windows_that_fall",
    "area_swap/publishes_the_opening_of_the_window", "binding_file/integers_above_the_range_wrapped", "binding_rules/names_the_later_first_place",
    "capture_io/rest_of_a_read_is_lost", "error_limit/filled_anew_when_time_goes_back", "fragmenter/copies_every_option",
    "icmp_codec/takes_timestamps_for_echoes", "icmp_errors/answers_loopback", "icmp_relay/relays_errors_about_errors",
    "ip_codec/sums_twenty_bytes", "ipv6_chain/takes_a_routing_header_with_segments_left", "item_stage/inner_key_without_the_tunnel",
    "lwaftr_engine/new_limit_each_round", "packet_render/cuts_one_byte_later", "pcapng_io/interfaces_kept_over_a_section",
    "port_locate/errors_up_by_the_quoted_source", "port_set/low_ports_owned", "reassembly_lane/one_nanosecond_longer",
    "reload_plan/versions_from_two", "run_output/times_without_their_fraction", "softwire_encap/loses_the_type_of_service",
    "table_words/tells_shapes_by_the_offset_alone", "traffic_gen/increment_even", "verdict_core/relays_by_the_quoted_address_alone",
    "worker_gate/keeps_the_version_for_the_number",
)


# What stands around the part of a line that differs.
LINES = (r"(\s*if )(.*)( \{)", r"(\s*match )(.*)( \{)", r"(\s*let \w+ = )(.*)(;)", r"(\s*\w+: )(.*)(,)", r"(.* => )(.*)(,)")

# The crate that all others stand on gets this, and asks it of the environment.
PICKED = """
unsafe extern "C" {
    pub safe fn picked_change() -> u32;
}

pub fn picked(number: u32) -> bool {
    picked_change() == number
}
"""
ASKED = """#include <stdlib.h>
unsigned picked_change(void) {
    static unsigned number = ~0u;
    if (number == ~0u)
        number = getenv("CHANGE") ? atoi(getenv("CHANGE")) : 0;
    return number;
}
"""

# The compiler, but that it leaves out the sanitizer. (It tells by its own name which tool it is.)
CLANG = """#include <string.h>
#include <unistd.h>
int main(int count, char **words) {
    int to = 0;
    for (int i = 0; i < count; i++)
        if (strcmp(words[i], "-fsanitize=address"))
            words[to++] = words[i];
    words[to] = 0;
    execv("{clang}", words);
    return 1;
}
"""


def edit_of(change):
    """The file that an edit changes, and what it puts in place of what."""
    crate, name = change.split("/")
    places = (os.path.join(TOP, "crates", crate, "must-fail", f"{name}.edit"), os.path.join(TOP, "strength", crate, f"{name}.edit"))
    with open(next(filter(os.path.exists, places)), encoding="utf-8") as it:
        (file,), (old,), (new,) = (re.findall(rf"^{word}: (.*)$", text, re.M) for text in [it.read()] for word in ("file", "old", "new"))
    return os.path.join("crates", crate, file), old, new


def both(text, old, new, pick):
    """The text with a line as it was and as it is changed: which of them holds is picked as it runs."""
    const = re.fullmatch(r"const (\w+): \w+ = (.*);", old)
    if const:
        other = re.fullmatch(r"const \w+: \w+ = (.*);", new)[1]
        front, rest = text.split(old)
        return front + old + re.sub(rf"\b{const[1]}\b", f"(if {pick} {{ {other} }} else {{ {const[2]} }})", rest)
    if new.startswith(old) and old.endswith(";"):
        return text.replace(old, f"{old} if {pick} {{ {new.removeprefix(old)} }}")
    new = re.sub(r"^(\s*)(\w+),$", r"\1\2: \2,", new)
    if old.endswith(",") and new.endswith("}"):
        new += ","
    for line in LINES:
        one, other = re.fullmatch(line, old), re.fullmatch(line, new)
        if one and other and one[1] == other[1]:
            return text.replace(old, f"{one[1]}(if {pick} {{ {other[2]} }} else {{ {one[2]} }}){one[3]}")
    made = f"if {pick} {{ {new} }} else {{ {old} }}"
    return text.replace(old, made if old.endswith(";") else f"({made})")


def copied(folder):
    """A copy of what the program is made of, with all changes in it, and where each stands."""
    shutil.copytree(os.path.join(TOP, "crates"), os.path.join(folder, "crates"), ignore=shutil.ignore_patterns("out", "must-fail", "proofs"))
    shutil.copy(os.path.join(TOP, "HANDLES"), folder)
    with open(os.path.join(TOP, "crates.txt"), encoding="utf-8") as file, open(os.path.join(folder, "crates.txt"), "w", encoding="utf-8") as to:
        to.write(re.sub(r"(?m)^(\w+):$", r"\1: aftr_base", file.read()).replace("aftr_base: aftr_base", "aftr_base:"))
    base = os.path.join(folder, "crates", "aftr_base")
    with open(os.path.join(base, "src", "lib.rt"), "a", encoding="utf-8") as file:
        file.write(PICKED)
    os.mkdir(os.path.join(base, "c"))
    with open(os.path.join(base, "c", "asked.c"), "w", encoding="utf-8") as file:
        file.write(ASKED)
    for number, change in list(enumerate(CHANGES))[1:]:
        path, old, new = edit_of(change)
        with open(os.path.join(folder, path), encoding="utf-8") as file:
            text = file.read()
        assert text.count(old) == 1, change
        pick = f"{'crate' if change.startswith('aftr_base/') else 'aftr_base'}::picked({number})"
        with open(os.path.join(folder, path), "w", encoding="utf-8") as file:
            file.write(both(text, old, new, pick))


# What is not taken from the toolchain as it is.
OWN = ("bin", "bin/rattle", "bin/rt", "bin/rtlib.py", "toolchain", "toolchain/bin", "toolchain/bin/clang")


def kit_in(folder):
    """The toolchain, but that its compiler leaves out the sanitizer, and that nothing is checked."""
    kit = os.path.dirname(os.path.dirname(os.path.realpath(shutil.which("rt"))))
    for below in ("", "bin", "toolchain", "toolchain/bin"):
        os.makedirs(os.path.join(folder, below), exist_ok=True)
        for name in os.listdir(os.path.join(kit, below)):
            if os.path.join(below, name) not in OWN:
                os.symlink(os.path.join(kit, below, name), os.path.join(folder, below, name))
    for name in ("rt", "rtlib.py"):
        shutil.copy(os.path.join(kit, "bin", name), os.path.join(folder, "bin", name))
    rattle, clang = (os.path.join(folder, it) for it in ("bin/rattle", "toolchain/bin/clang"))
    with open(rattle, "w", encoding="utf-8") as file:
        file.write("#!/bin/sh\n")
    os.chmod(rattle, 0o755)
    code = CLANG.replace("{clang}", os.path.join(kit, "toolchain", "bin", "clang"))
    subprocess.run(["cc", "-o", clang, "-xc", "-"], input=code, text=True, check=True)
    return os.path.join(folder, "bin", "rt"), os.path.join(kit, "toolchain", "lib")


def running(made):
    """The words of a process that runs the program below a folder, if there is one."""
    for number in filter(str.isdigit, os.listdir("/proc")):
        with contextlib.suppress(OSError):
            with open(f"/proc/{number}/cmdline", encoding="utf-8", errors="replace") as file:
                line = file.read().split("\0")
            at = next((at for at, it in enumerate(line) if it.startswith(made) and it.endswith("/program")), None)
            if at is not None and line[at + 1 : at + 2] == ["demo"]:
                return line[at]
    return None


def build(folder, to):
    """The program, unproved: `rt try` keeps none, so it is copied as it runs."""
    made = os.path.join(folder, "made")
    os.mkdir(made)
    copied(folder)
    rt, libraries = kit_in(os.path.join(folder, "kit"))
    words = [rt, "try", "--steps", "1", "--seconds", "30", "--", "demo", "1", "1000000", "1"]
    how = {"cwd": os.path.join(folder, "crates", "lwaftr_main"), "env": {**os.environ, "TMPDIR": made, "RT_ALLOW_C": "aftr_base"}}
    with open(os.path.join(folder, "log"), "w", encoding="utf-8") as log:
        it = subprocess.Popen(words, stdin=subprocess.DEVNULL, stdout=log, stderr=log, start_new_session=True, **how)
        try:
            while it.poll() is None:
                found = running(made)
                if found:
                    shutil.copy(found, f"{to}.made")
                    loader = [os.path.join(libraries, "ld-linux-x86-64.so.2"), "--inhibit-cache", "--library-path", libraries]
                    with open(to, "w", encoding="utf-8") as script:
                        script.write(f'#!/bin/sh\nexec {shlex.join([*loader, f"{to}.made"])} "$@"\n')
                    os.chmod(to, 0o755)
                    return
                time.sleep(0.2)
        finally:
            if it.poll() is None:
                os.killpg(it.pid, signal.SIGTERM)
                it.wait()
    with open(os.path.join(folder, "log"), encoding="utf-8") as log:
        sys.exit(f"the program was not built:\n{log.read()[-3000:]}")


def found(program, number, words):
    """How many jobs it took, and what differed, or None. A job that did not end in time, as where the machine is busy, is passed over."""
    first, end = words.seed, words.seed + words.jobs
    while first < end:
        with tempfile.TemporaryDirectory() as folder:
            beside = [sys.executable, os.path.join(HERE, "run.py"), str(first), str(end - first), "-j", "1"]
            beside += ["--program", program, "--stop-at", "1", "--keep", folder]
            said = subprocess.run(beside, stdout=subprocess.PIPE, text=True, env={**os.environ, "CHANGE": str(number)}).stdout
        it = re.search(r"^job (\d+): (.*)$", said, re.M)
        if not it and not re.search(r"^\d+ jobs from", said, re.M):
            sys.exit("run.py ended early")
        if not it or not it[2].startswith("TimeoutExpired"):
            return (int(it[1]) - words.seed + 1, it[2]) if it else (None, "")
        first = int(it[1]) + 1
    return None, ""


def main():
    it = argparse.ArgumentParser(description=__doc__, formatter_class=argparse.RawDescriptionHelpFormatter)
    it.add_argument("changes", nargs="*", default=CHANGES)
    it.add_argument("--jobs", type=int, default=2000)
    it.add_argument("--seed", type=int, default=1)
    it.add_argument("--program")
    words = it.parse_args()
    with tempfile.TemporaryDirectory(prefix="changes-") as folder:
        program = os.path.abspath(words.program or os.path.join(folder, "lwaftr"))
        if not os.path.exists(program):
            build(folder, program)
        missed = 0
        print("| crate | change | file | jobs | what differed |\n|---|---|---|---|---|", flush=True)
        for change in words.changes:
            number = CHANGES.index(change)
            count, what = found(program, number, words)
            missed += (count is None) == (number > 0)
            crate, _, name = change.rpartition("/")
            row = f"| {crate} | {name.replace('_', ' ')} | {edit_of(change)[0].split('/', 2)[2] if number else ''} |"
            print(row, f"{count or f'none of {words.jobs}'} | {what} |", flush=True)
    sys.exit(1 if missed else 0)


if __name__ == "__main__":
    main()
