"""The commands of OPERATING.md, each run if its programs are installed."""
import gzip
import os
import re
import shutil
import signal
import struct
import subprocess
import time
import unittest

from shared import B4, FAR, HERE, PROGRAM, SHARED, TOP, Folder, a_table, captures, ip4, tables, udp

# the first words of lines that are no commands for a test, and why
NOT_RUN = {
    "tcpdump": "a live capture", "parallel": "other machines", "lwaftr": "the line before goes on here", "LWAFTR_VERDICTS=verdicts.txt": "a window",
}
COMMANDS = ("tools/", "./lwaftr", "tshark", "mergecap", "zcat", "zstdcat", "bash", "editcap", "tcprewrite", "pv", "grep", "python3", "echo", "yanglint", "cp", *NOT_RUN)


def blocks():
    """The blocks of the page."""
    with open(os.path.join(TOP, "docs", "OPERATING.md"), encoding="utf-8") as file:
        found = re.findall(r"(?m)(?:^    .*\n)+", file.read())
    return ["".join(f"{line[4:]}\n" for line in it.splitlines()) for it in found]


def commands():
    """The lines of the page's blocks that are commands."""
    return [line for it in blocks() for line in it.splitlines() if line.strip().startswith(COMMANDS)]


class Operating(Folder):
    def setUp(self):
        super().setUp()
        self.file("table.toml", tables.text(a_table()))
        shutil.copy(os.path.join(HERE, "samples", "in.pcap"), self.file("in.pcap"))
        words = [self.file(it) for it in ("in.pcap", "out.pcap", "verdicts.txt", "versions.txt", "table.toml")]
        subprocess.run([PROGRAM, "run", *words], check=True, capture_output=True)
        for name in ("in.pcap", "out.pcap"):
            shutil.copy(self.file(name), self.file({"in.pcap": "part1.pcap", "out.pcap": "theirs.pcap"}[name]))
        self.file("new.toml", tables.text(a_table(mtu6=1400)))
        with open(self.file("in.pcap"), "rb") as file:
            capture = file.read()
        with gzip.open(self.file("in.pcap.gz"), "wb") as file:
            file.write(capture)
        if shutil.which("zstd"):
            subprocess.run(["zstd", "-q", self.file("in.pcap")], check=True)
        for name, link, front in (
            ("any", 276, b"\x08\0" + b"\0" * 18), ("cooked", 113, b"\0" * 14 + b"\x08\0"), ("loopback", 0, b"\2\0\0\0"), ("raw4", 228, b""),
            ("tagged", 1, b"\2" * 12 + b"\x88\xa8\0\1\x81\0\0\2\x08\0"),
        ):
            with open(self.file(f"{name}.pcap"), "wb") as file:
                frame = front + ip4(FAR, SHARED, 17, udp(53, 1232))
                file.write(struct.pack("<IHHiIII", 0xA1B2C3D4, 2, 4, 0, 0, 262144, link) + struct.pack("<IIII", 0, 0, len(frame), len(frame)) + frame)
        for name in ("ietf-softwire-br", "ietf-softwire-common"):
            shutil.copy(os.path.join(HERE, "tests", "modules", f"{name}@2019-11-16.yang"), self.file(f"{name}.yang"))
        os.mkdir(self.file("tables"))
        shutil.copy(self.file("table.toml"), self.file("tables/table.toml"))
        git = ["git", "-C", self.file("tables"), "-c", "user.name=n", "-c", "user.email=e@example.com"]
        subprocess.run([*git, "init", "-q"], check=True)
        subprocess.run([*git, "add", "."], check=True)
        subprocess.run([*git, "commit", "-q", "-m", "t"], check=True, env={**os.environ, "GIT_COMMITTER_DATE": "2026-11-01T00:00:00Z"})
        os.symlink(HERE, self.file("tools"))
        os.symlink(PROGRAM, self.file("lwaftr"))

    def is_installed(self, line):
        programs = {it.split()[0] for it in re.split(r" \| ", line)} - {"echo"}
        if "pandas" in line:
            return subprocess.run(["python3", "-c", "import pandas"], capture_output=True, check=False).returncode == 0
        return all(it.startswith((".", "tools/", "(")) or shutil.which(it) for it in programs)

    def test_every_command(self):
        lines = commands()
        self.assertGreater(len(lines), 40)
        for line in lines:
            if line.split()[0] in NOT_RUN:
                continue
            with self.subTest(line=line):
                if not self.is_installed(line):
                    self.skipTest(f"not installed: {line}")
                it = subprocess.run(line, shell=True, cwd=self.folder.name, capture_output=True, text=True, check=False)
                self.assertEqual(it.returncode, 1 if "diff_tables" in line else 0, it.stderr)
                if "plain.pcap" in line:
                    self.assertEqual(self.verdict_of_plain(), "0 0 down 1")
                if "who_at.py" in line:
                    self.assertIn(f",203.0.113.1,1232,{B4},", it.stdout)
                if "part.pcap" in line:
                    self.assertEqual(len(list(captures.records(self.file("part.pcap")))), 1)
                if line.startswith("tools/why.py"):
                    self.assertIn(it.stdout, blocks())

    def verdict_of_plain(self):
        words = [PROGRAM, "run", *(self.file(it) for it in ("plain.pcap", "p.out", "p.verdicts", "p.versions", "table.toml"))]
        subprocess.run(words, check=True, capture_output=True)
        with open(self.file("p.verdicts"), encoding="ascii") as file:
            return file.read().strip()

    @unittest.skipUnless(shutil.which("bash"), "no bash")
    def test_a_live_pipe_that_is_interrupted(self):
        """The shell's form of OPERATING keeps the end of a pipe whose writer is ended by an interrupt."""
        line = next(it for it in commands() if it.startswith("tcpdump"))
        reader = line.split(" | ", 1)[1]
        self.assertIn("trap '' INT", reader)
        for form, is_whole in ((reader, True), (reader.replace("trap '' INT; ", ""), False)):
            it = subprocess.Popen(
                ["bash", "-c", f"(cat in.pcap; exec sleep 60) | {form}"], cwd=self.folder.name, stdout=subprocess.PIPE, text=True, start_new_session=True
            )
            time.sleep(3)
            os.killpg(it.pid, signal.SIGINT)
            self.assertEqual("records 22 held 0" in it.communicate(timeout=60)[0], is_whole)
