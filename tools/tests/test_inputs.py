"""No tool loses or misreads its input."""
import os
import re
import resource
import struct
import subprocess
import sys

from shared import AFTR, B4, FAR, Folder, HERE, OWN, SHARED, a_table, captures, ip4, ip6, ran, tables, udp

WORDS = ("--aftr", AFTR, "--own", OWN)
FROM = ("from_csv.py", "from_snabb.py", "from_vpp.py")


def run_with(tool, *words, **keys):
    """A run with other streams, limits or variables; what it says is bytes."""
    return subprocess.run([sys.executable, os.path.join(HERE, tool), *map(str, words)], capture_output="stdout" not in keys, check=False, **keys)


def seconds_of_children():
    """The processor time of the programs that ended so far: it does not depend on what else the machine does."""
    used = resource.getrusage(resource.RUSAGE_CHILDREN)
    return used.ru_utime + used.ru_stime


class Inputs(Folder):
    def a_run(self, count=40):
        return self.run_program([ip4(FAR, SHARED, 17, udp(53, 1240))] * count, a_table())

    def bytes_of(self, path):
        with open(path, "rb") as file:
            return file.read()

    def test_no_input_is_overwritten(self):
        names = self.a_run()
        os.link(names[0], self.file("linked.pcap"))
        os.symlink(names[2], self.file("linked.txt"))
        rows = self.file("l.csv", f"203.0.113.1,6,8,52,{B4}\n")
        for tool, *words in (
            ("report.py", names[2], "--in", names[0], "--html", names[0]),
            ("report.py", names[2], "--in", names[0], "--html", self.file("linked.pcap")),
            ("report.py", names[2], "--png", self.file("linked.txt")),
            ("report.py", names[2], names[3], "--html", names[3]),
            ("report.py", names[2], "--html", self.file("one.html"), "--png", self.file("../") + os.path.basename(self.folder.name) + "/one.html"),
            ("from_csv.py", rows, *WORDS, "-o", rows),
            ("to_snabb.py", names[4], "-o", names[4]),
            ("to_vpp.py", names[4], "-o", self.file("./table.toml")),
        ):
            with self.subTest(tool=tool, words=words):
                before = {path: self.bytes_of(path) for path in (*names, rows)}
                code, _, error = ran(tool, *words)
                self.assertEqual((code, error.count("\n")), (2, 1), error)
                self.assertIn("nothing was touched", error)
                self.assertEqual(before, {path: self.bytes_of(path) for path in before})

    def test_standard_output_may_not_be_the_input(self):
        names = self.a_run()
        before = self.bytes_of(names[4])
        with open(names[4], "ab") as file:
            it = run_with("to_snabb.py", names[4], stdout=file, stderr=subprocess.PIPE)
        self.assertEqual((it.returncode, self.bytes_of(names[4])), (2, before), it.stderr)

    def converted(self, tool, text, *words):
        self.assertFalse(os.path.exists(self.file("made.toml")))
        code, _, error = ran(tool, self.file("source", text), *words, "-o", self.file("made.toml"))
        return code, error, os.path.exists(self.file("made.toml"))

    def test_columns_are_read_by_their_names(self):
        text = f"ipv4,length,offset,psid,b4\n203.0.113.1,8,6,52,{B4}\n"
        self.assertEqual(self.converted("from_csv.py", text, *WORDS)[0], 0)
        self.assertEqual(tables.read(self.file("made.toml")).bindings, a_table().bindings[:1])
        for names, said in (
            ("ipv4,offset,size,psid,b4", "the column 'size' is not known"), ("ipv4,offset,offset,psid,b4", "two columns are named as offset"),
            ("ipv4,offset,length,b4", "no column is named psid"), ("ipv4,offset,length,psid,b4,note", "the column 'note' is not known"),
        ):
            os.path.exists(self.file("made.toml")) and os.remove(self.file("made.toml"))
            code, error, made = self.converted("from_csv.py", f"# a list\n\n{names}\n203.0.113.1,6,8,52,{B4}\n", *WORDS)
            self.assertEqual((code, made), (1, False))
            self.assertIn(f"source:3: {said}", error)

    def test_a_comment_in_front_of_the_names(self):
        code, error, _ = self.converted("from_csv.py", f"# list\n\nipv4,offset,length,psid,b4\n203.0.113.1,6,8,52,{B4}\n", *WORDS)
        self.assertEqual((code, error), (0, ""))

    def test_an_empty_list_is_named(self):
        code, error, _ = self.converted("from_csv.py", "", *WORDS)
        self.assertEqual(code, 0)
        self.assertIn("source: no subscriber is in it", error)

    def test_numbers_are_decimal_digits(self):
        for word in ("1_0", "\uff15\uff12", "+6", "-3", "0b1", " 6 6"):
            code, error, made = self.converted("from_csv.py", f"203.0.113.1,6,8,{word},{B4}\n", *WORDS)
            self.assertEqual((code, made), (1, False), word)
            self.assertIn("source:1: psid ", error)

    def test_what_the_program_refuses_is_named_by_its_line_of_the_source(self):
        lists = {
            "a zone": (f"203.0.113.1,6,8,53,{B4}\n203.0.113.1,6,8,52,fe80::1%eth0\n", 2, "is not an IPv6 address"),
            "a quoted text": (f'203.0.113.2,0,0,0,"{B4}%""\nipv4 = ""9.9.9.9"\n', 2, "is not an IPv6 address"),
            "psid": (f"203.0.113.1,6,8,53,{B4}\n\n203.0.113.1,6,8,999,{B4}\n", 3, "rules psid 1"),
            "shape": (f"203.0.113.1,20,8,53,{B4}\n", 1, "rules shape 0"),
            "range": (f"203.0.113.1,6,300,53,{B4}\n", 1, "range binding 0 length"),
            "own": (f"{OWN},6,8,53,{B4}\n", 1, "rules own-address 0"),
            "twice": (f"# list\n203.0.113.1,6,8,52,{B4}\n203.0.113.1,6,8,53,{B4}\n203.0.113.1,6,8,52,2001:db8:1::9\n", 4, "it shares a port with line 2"),
        }
        for name, (text, line, said) in lists.items():
            with self.subTest(name):
                code, error, made = self.converted("from_csv.py", text, *WORDS)
                self.assertEqual((code, made), (1, False), error)
                self.assertRegex(error, rf"source:{line}: .*{said}")
        domain = f"map add domain ip4-pfx 203.0.113.1/32 ip6-pfx ::/0 ip6-src {AFTR} psid-offset 6 psid-len 8\n"
        code, error, made = self.converted("from_vpp.py", domain + f"map add rule index 0 psid 999 ip6-dst {B4}\n", "--own", OWN)
        self.assertEqual((code, made), (1, False))
        self.assertRegex(error, "source:2: refused: rules psid 0")
        text = f"softwire-config {{ binding-table {{\nsoftwire {{ ipv4 203.0.113.1; b4-ipv6 {B4}; psid 999;\n port-set {{ psid-length 8; shift 20; }} }} }} }}"
        code, error, made = self.converted("from_snabb.py", text, *WORDS)
        self.assertEqual((code, made), (1, False))
        self.assertRegex(error, r"source:2: refused: ")

    def test_an_address_with_a_zone_is_named_by_its_line(self):
        for zoned in ("fe80::1%eth0", "fe80::1%"):
            for tool, text in (
                ("from_csv.py", f"\n203.0.113.1,6,8,52,{zoned}\n"),
                ("from_vpp.py", f"map add domain ip4-pfx 203.0.113.1/32 ip6-pfx ::/0 ip6-src {AFTR} psid-offset 6 psid-len 8\nmap add rule index 0 psid 52 ip6-dst {zoned}\n"),
                ("from_vpp.py", f"\nmap add domain ip4-pfx 203.0.113.1/32 ip6-pfx ::/0 ip6-src {zoned} psid-offset 6 psid-len 8\n"),
                ("from_snabb.py", f"softwire-config {{ binding-table {{\nsoftwire {{ ipv4 203.0.113.1; b4-ipv6 {zoned}; }} }} }}"),
                ("from_snabb.py", f"softwire-config {{ binding-table {{\nsoftwire {{ ipv4 203.0.113.1; b4-ipv6 {B4}; br-address {zoned}; }} }} }}"),
            ):
                with self.subTest(tool=tool, text=text):
                    code, error, made = self.converted(tool, text, "--own", OWN, *(WORDS[:2] if tool == "from_csv.py" else ()))
                    self.assertEqual((code, made), (1, False))
                    self.assertRegex(error, f"source:2: .*'{zoned}' is not an IPv6 address")

    def test_settings_that_the_program_refuses(self):
        code, error, made = self.converted("from_csv.py", f"203.0.113.1,6,8,52,{B4}\n", *WORDS, "--mtu6", "70000")
        self.assertEqual((code, made), (1, False))
        self.assertIn("source: the table is refused: range softwire mtu6 (mtu6 has to be 1280 to 65535)", error)
        code, error, _ = self.converted("from_csv.py", "", "--aftr", "fe80::1%eth0", "--own", OWN)
        self.assertEqual((code, "is not an IPv6 address" in error), (2, True))

    def test_a_binding_too_many(self):
        rows = "".join(f"{10 + (at >> 16)}.{at >> 8 & 255}.{at & 255}.1,0,0,0,{B4}\n" for at in range(65537))
        code, error, made = self.converted("from_csv.py", rows, *WORDS)
        self.assertEqual((code, made), (1, False))
        self.assertIn("source:65537: here the table would have more than 65,536 bindings", error)

    def test_snabbs_defaults(self):
        text = f"softwire-config {{ external-interface {{ ip {OWN}; }} internal-interface {{ ip {AFTR}; }} binding-table {{ }} }}"
        code, error, _ = self.converted("from_snabb.py", text, "--hop-limit", "9")
        keys = tables.read(self.file("made.toml")).softwire
        self.assertEqual((code, keys.mtu6, keys.mtu4, keys.hop_limit, keys.errors_up, keys.errors_down, keys.hairpin, keys.icmp_in), (0, 1500, 1460, 9, True, True, True, True))
        self.assertIn("not said: mtu4: Snabb's default 1460 is taken (--mtu4)", error)
        self.assertNotIn("hop_limit", error)

    def test_wide_maps_and_deep_blocks_are_quick(self):
        maps = "psid-map { addr 0.0.0.0; end-addr 255.255.255.255; psid-length 8; shift 2; }"
        start = seconds_of_children()
        text = f"softwire-config {{ binding-table {{ {maps} softwire {{ ipv4 203.0.113.1; psid 52; b4 {B4}; }} }} }}"
        self.assertEqual(self.converted("from_snabb.py", text, *WORDS)[0], 0)
        self.assertEqual(tables.read(self.file("made.toml")).bindings, a_table().bindings[:1])
        os.remove(self.file("made.toml"))
        other = "psid-map { addr 9.0.0.0; end-addr 9.255.255.255; psid-length 4; }"
        code, error, made = self.converted("from_snabb.py", f"softwire-config {{ binding-table {{\n{maps}\n{other}\n}} }}", *WORDS)
        self.assertEqual((code, made), (1, False))
        self.assertIn("source:3: psid-map: another one gives 9.0.0.0 another shape", error)
        code, error, made = self.converted("from_snabb.py", "softwire-config { " + "instance { " * 3000, *WORDS)
        self.assertEqual((code, made, error.count("\n")), (1, False, 1))
        self.assertIn("nested more than 64 deep", error)
        self.assertLess(seconds_of_children() - start, 3)

    def test_commands_of_vpp_that_delete_are_rejected(self):
        domain = f"map add domain ip4-pfx 203.0.113.1/32 ip6-pfx ::/0 ip6-src {AFTR} psid-offset 6 psid-len 8\n"
        for line in ("map del domain index 0", f"map add rule index 0 psid 52 ip6-dst {B4} del"):
            code, error, made = self.converted("from_vpp.py", f"{domain}{line}\n", "--own", OWN)
            self.assertEqual((code, made), (1, False))
            self.assertIn("source:2: a command that deletes is not read", error)

    def test_an_address_with_two_shapes_is_named_for_vpp(self):
        table = a_table()
        table.bindings.append(tables.Binding(table.bindings[0].b4, table.bindings[0].ipv4, 6, 4, 15))
        code, _, error = ran("to_vpp.py", self.file("t.toml", tables.text(table)))
        self.assertEqual(code, 0)
        self.assertIn("203.0.113.1 has sets of 2 shapes, so 2 domains: VPP finds a domain by its prefix", error)

    def test_verdicts_of_fewer_records_than_the_capture(self):
        names = self.a_run()
        few = self.file("few", "".join(f"{at} 0 drop no-binding 0\n" for at in range(10)))
        code, out, error = ran("report.py", few, "--in", names[0])
        self.assertEqual((code, out), (2, ""))
        self.assertIn(f"{few} has lines of 10 records, and {names[0]} has more", error)

    def test_records_that_say_more_than_the_most(self):
        names = self.a_run()
        huge = self.file("huge.pcap")
        with open(huge, "wb") as file:
            file.write(self.bytes_of(names[0])[:24] + struct.pack("<IIII", 0, 0, 0xFFFFFFF0, 0xFFFFFFF0))
        blocks = self.file("huge.pcapng")
        with open(blocks, "wb") as file:
            file.write(struct.pack("<IIIHHqI", 0x0A0D0D0A, 28, 0x1A2B3C4D, 1, 0, -1, 28) + struct.pack("<IIHHII", 1, 20, 101, 0, 0, 20))
            file.write(struct.pack("<IIIIIII", 6, 0xFFFFFFF0, 0, 0, 0, 0xFFFFFF00, 0xFFFFFF00))
            file.truncate(1 << 32)
        passed = self.file("passed.pcapng")
        with open(passed, "wb") as file:
            file.write(struct.pack("<IIIHHqI", 0x0A0D0D0A, 28, 0x1A2B3C4D, 1, 0, -1, 28) + struct.pack("<II", 5, 0x3FFFFFF0))
            file.truncate(1 << 30)
        limit = lambda: resource.setrlimit(resource.RLIMIT_AS, (500_000_000, 500_000_000))  # noqa: E731
        for path, said in ((huge, b"the record at byte 24 says that it has 4294967280 bytes"), (blocks, b"the record at byte 48 says"), (passed, b"cut at byte|no record 0|more lines of records")):
            for tool, *words in (("compare.py", path, names[1]), ("why.py", path, names[4], 0, "--verdicts", names[2]), ("report.py", names[2], "--in", path)):
                it = run_with(tool, *words, preexec_fn=limit)
                self.assertEqual((it.returncode == 2, it.stderr.count(b"Traceback")), (True, 0), it.stderr)
                self.assertRegex(it.stderr, said)

    def test_packets_that_are_nested_deep(self):
        data = b""
        for _ in range(1000):
            data = ip6(B4, AFTR, 4, data)
        captures.write(self.file("one.pcap"), [(0, data)])
        captures.write(self.file("two.pcap"), [(0, data[:-1] + b"x")])
        code, out, error = ran("compare.py", self.file("one.pcap"), self.file("two.pcap"))
        self.assertEqual((code, error), (1, ""))
        self.assertIn("1 differs", out)
        names = self.run_program([data], a_table())
        self.assertEqual(ran("why.py", names[0], names[4], 0)[0], 0)

    def test_streams_that_are_closed(self):
        names = self.a_run()
        rows = self.file("l.csv", f"203.0.113.1,6,8,52,{B4}\n")
        shell = f'"{sys.executable}" "{HERE}/report.py" "{names[2]}" >&-'
        it = subprocess.run(["sh", "-c", shell], capture_output=True, check=False)
        self.assertEqual((it.returncode, it.stderr), (2, b"report.py: standard output is closed\n"))
        shell = f'"{sys.executable}" "{HERE}/from_csv.py" "{rows}" {" ".join(WORDS)} -o "{self.file("made.toml")}" 2>&-'
        self.assertEqual(subprocess.run(["sh", "-c", shell], check=False).returncode, 0)
        self.assertEqual(len(tables.read(self.file("made.toml")).bindings), 1)
        shell = f'"{sys.executable}" "{HERE}/from_vpp.py" "{self.file("v.cli", "set x")}" {" ".join(WORDS)} 2>&-'
        it = subprocess.run(["sh", "-c", shell], capture_output=True, text=True, check=False)
        self.assertEqual((it.returncode, it.stdout.partition("\n")[0]), (0, "version = 2"))
        # a reader of standard error that is gone
        reading, writing = os.pipe()
        os.close(reading)
        it = subprocess.run([sys.executable, f"{HERE}/from_vpp.py", self.file("v.cli", "set x\n"), *WORDS, "-o", self.file("made.toml")], stderr=writing, check=False)
        os.close(writing)
        self.assertEqual((it.returncode, len(tables.read(self.file("made.toml")).bindings)), (0, 0))
        shell = f'"{sys.executable}" "{HERE}/to_vpp.py" "{names[4]}" | true; "{sys.executable}" "{HERE}/report.py" "{names[2]}" | head -n 1'
        it = subprocess.run(["sh", "-c", shell], capture_output=True, check=False)
        self.assertEqual((it.stdout, it.stderr), (b"40 records, 0 packets sent\n", b""))

    def test_names_that_are_no_text(self):
        names = self.a_run()
        odd = os.fsencode(self.folder.name) + b"/v\xff\x1b]0;x.txt"
        os.link(names[2], odd)
        it = run_with("report.py", odd.decode(errors="surrogateescape"), "--html", self.file("page.html"))
        self.assertEqual((it.returncode, it.stderr), (0, b""))
        with open(self.file("page.html"), encoding="utf-8") as file:
            self.assertIn("<title>lwaftr: v??]0;x.txt</title>", file.read())
        for tool, *words in (("report.py", names[0].encode() + b"\x1b\xff", b"x\xe2\x80\xae"), ("from_csv.py", odd + b"none", *WORDS), ("why.py", odd, b"\x1b[2J", "0")):
            it = subprocess.run([sys.executable, os.path.join(HERE, tool), *words], capture_output=True, check=False)
            self.assertEqual((it.returncode, it.stderr.count(b"Traceback"), b"\x1b" in it.stderr, b"\xe2\x80\xae" in it.stderr), (2, 0, False, False), it.stderr)

    def test_words_of_a_file_are_cleaned(self):
        code, _, error = ran("from_vpp.py", self.file("v.cli", "set \x1b]0;x\x07 \u202e\n"), *WORDS)
        self.assertEqual(code, 0)
        self.assertIn(":1: left out: set ?]0;x? ?\n", error)
        text = "softwire-config { \x1b[2J 1; binding-table { } }"
        code, _, error = ran("from_snabb.py", self.file("s.conf", text), *WORDS)
        self.assertEqual(code, 0)
        self.assertIn(":1: left out: ?[2J\n", error)

    def test_an_environment_of_ascii_alone(self):
        names = self.a_run()
        versions = self.file("vs", "0 Z\u00fcrich.toml initial\n")
        it = run_with("report.py", names[2], versions, env={**os.environ, "LC_ALL": "C", "PYTHONUTF8": "0", "PYTHONCOERCECLOCALE": "0"})
        self.assertEqual((it.returncode, it.stderr), (0, b""))

    def test_numbers_that_no_run_has(self):
        names = self.a_run(1)
        for line in (f"{'9' * 5000} 0 up 1\n", f"0 0 up {'9' * 5000}\n"):
            for tool, *words in (("report.py", self.file("v", line)), ("compare.py", names[1], names[1], "--verdicts", self.file("v", line))):
                code, _, error = ran(tool, *words)
                self.assertEqual((code, "this is no line of VERDICTS" in error), (2, True))

    def test_counts_that_are_none(self):
        names = self.a_run(1)
        for tool, *words in (("report.py", names[2], "--most", "-5"), ("compare.py", names[1], names[1], "--window", "-1"), ("compare.py", names[1], names[1], "--window", "0")):
            code, _, error = ran(tool, *words)
            self.assertEqual((code, "is not a number from" in error), (2, True), error)

    def test_a_line_is_standard_input(self):
        it = run_with("from_csv.py", "-", *WORDS, input=f"203.0.113.1,6,8,52,{B4}\n".encode())
        self.assertEqual((it.returncode, it.stdout.count(b"[[binding]]")), (0, 1), it.stderr)

    def test_why_says_that_a_datagram_never_came(self):
        names = self.run_program([ip4(FAR, SHARED, 17, b"x" * 16, word=0x2000)], a_table())
        code, out, _ = ran("why.py", names[0], names[4], 0, "--verdicts", names[2])
        self.assertEqual(code, 0)
        self.assertIn("which never came: it was not whole at the end of the capture", out)
        self.assertIn("1970-01-01 00:00:01.000000000 UTC (1.000000000)", out)

    def test_every_help_has_the_exit_codes(self):
        for tool in sorted(it for it in os.listdir(HERE) if it.endswith(".py")):
            code, out, _ = ran(tool, "--help")
            self.assertEqual((code, "exit codes:" in out), (0, True), tool)
            # each word and option has a text, behind it or below it
            for name, text in re.findall(r"(?m)^  (\S+(?: \S+)*)((?:  .*)?(?:\n {10,}.*)*)$", out[out.index("\noptions:") :].split("\nexit codes:")[0]):
                self.assertRegex(text, r"\A\s+\w", f"{tool}: {name}")
            self.assertEqual(ran(tool, "--no-such-word")[0], 2, tool)

    def test_files_that_are_not_there(self):
        """Every tool ends with 2, and says in one line which file it is."""
        names, none = self.a_run(1), self.file("none")
        words = {
            "compare.py": [none, none], "diff_tables.py": [none, names[4]], "from_csv.py": [none, *WORDS], "ports.py": [none], "report.py": [none],
            "to_b4.py": [none, "uci"], "who_at.py": [none, f"0={names[4]}"], "why.py": [none, names[4], "0"],
        }
        for tool in sorted(it for it in os.listdir(HERE) if it.endswith(".py")):
            with self.subTest(tool=tool):
                code, out, error = ran(tool, *words.get(tool, [none]))
                self.assertEqual((code, out), (2, ""))
                self.assertRegex(error, rf"\A{tool}: (read fault\n  )?{none}\b.*\n(  .*\n)*\Z")
                self.assertNotIn("[Errno", error)

    def test_an_older_python(self):
        older = os.environ.get("OLDER_PYTHON", os.path.expanduser("~/.pyenv/versions/3.9.18/bin/python"))
        if not os.path.exists(older):
            self.skipTest("no Python 3.9: name one by OLDER_PYTHON")
        names = self.a_run()
        for tool in sorted(it for it in os.listdir(HERE) if it.endswith(".py")):
            it = subprocess.run([older, os.path.join(HERE, tool), "--help"], capture_output=True, check=False)
            self.assertEqual((it.returncode, it.stderr), (0, b""), tool)
        samples, other = os.path.join(HERE, "samples"), self.file("other.toml", tables.text(a_table(mtu6=1400)))
        for code, *words in (
            (0, "report.py", names[2], names[3], "--in", names[0], "--out", names[1], "--table", names[4], "--html", self.file("page.html"), "--json", self.file("r.json")),
            (0, "why.py", names[0], names[4], "3"), (0, "compare.py", names[1], names[1]), (1, "diff_tables.py", names[4], other), (1, "diff_tables.py", names[4], other, "--json"),
            (0, "ports.py", names[4]), (0, "who_at.py", self.file("q.csv", f"1,{SHARED},1232\n"), f"0={names[4]}"), (0, "to_b4.py", names[4], "uci"),
            (0, "from_csv.py", f"{samples}/list.csv", *WORDS), (0, "from_snabb.py", f"{samples}/snabb.conf"), (0, "from_vpp.py", f"{samples}/vpp.cli"),
            (0, "from_yang.py", f"{samples}/softwire_br.json", *WORDS), (0, "from_yang.py", f"{samples}/softwire_br.xml", *WORDS),
            (0, "to_snabb.py", names[4]), (0, "to_vpp.py", names[4]), (0, "to_yang.py", names[4]), (0, "to_yang.py", names[4], "--xml"),
        ):
            it = subprocess.run([older, os.path.join(HERE, words[0]), *words[1:]], capture_output=True, check=False)
            self.assertEqual((it.returncode, it.stderr.count(b"Traceback")), (code, 0), (words, it.stderr))
