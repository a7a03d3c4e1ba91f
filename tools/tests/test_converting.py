"""The converters of tables."""
import ipaddress
import os
import random
import re
import subprocess
import sys

from shared import a_table, AFTR, ALONE, B4, Folder, HERE, OTHER, OWN, PROGRAM, ran, same, tables


class Converting(Folder):
    def random_table(self, chosen, shapes):
        rows, taken = [], set()
        for at in range(chosen.randint(1, 30)):
            offset, length = chosen.choice(shapes)
            psid = chosen.randrange(1 << length)
            v4 = ipaddress.IPv4Address(0xCB007100 + shapes.index((offset, length)) * 8 + chosen.randrange(8))
            if (v4, psid) not in taken:
                taken.add((v4, psid))
                rows.append(tables.Binding(ipaddress.IPv6Address(0x20010DB8 << 96 | at), v4, offset, length, psid))
        keys = a_table(mtu6=chosen.randint(1280, 9000), mtu4=chosen.randint(576, 9000), hop_limit=chosen.randint(1, 255)).softwire
        for name in ("hairpin", "icmp_in", "errors_up", "errors_down"):
            setattr(keys, name, chosen.random() < 0.5)
        return tables.Table(keys, rows)

    def there_and_back(self, to, back, shapes, keep):
        for seed in range(20):
            table = self.random_table(random.Random(seed), shapes)
            code, out, error = ran(to, self.file("t.toml", tables.text(table)))
            self.assertEqual(code, 0, error)
            code, out, error = ran(back, self.file("other", out), "-o", self.file("back.toml"))
            self.assertEqual(code, 0, error)
            found = tables.read(self.file("back.toml"))
            self.assertTrue(same(found, table), seed)
            for name in keep:
                self.assertEqual(getattr(found.softwire, name), getattr(table.softwire, name), name)

    def test_snabb_and_back(self):
        keep = ("aftr", "own", "mtu6", "mtu4", "hop_limit", "hairpin", "icmp_in", "errors_up", "errors_down")
        self.there_and_back("to_snabb.py", "from_snabb.py", [(0, 0), (6, 8), (0, 16), (6, 0), (4, 12), (0, 8)], keep)

    def test_vpp_and_back(self):
        self.there_and_back("to_vpp.py", "from_vpp.py", [(0, 0), (6, 8), (0, 16), (4, 12), (0, 8)], ("aftr", "own", "mtu6"))

    def sample(self, tool, name, count, *words):
        code, out, error = ran(tool, os.path.join(HERE, "samples", name), "-o", self.file("table.toml"), *words)
        self.assertEqual(code, 0, error)
        it = subprocess.run([PROGRAM, "check", self.file("table.toml")], capture_output=True, text=True)
        self.assertEqual(it.stdout, f"valid {count} bindings\n", it.stderr)
        return error

    def test_samples(self):
        said = self.sample("from_snabb.py", "snabb.conf", 3)
        for line, what in ((4, "device"), (16, "vlan-tag"), (22, "error-rate-limiting"), (24, "ingress-filter"), (26, "reassembly"), (29, "flow-label")):
            self.assertRegex(said, rf":{line}: left out: .*{what}")
        table = tables.read(self.file("table.toml"))
        self.assertEqual((table.softwire.mtu4, table.softwire.hop_limit, table.softwire.icmp_in), (1460, 255, False))
        self.assertTrue(same(table, a_table()))
        said = self.sample("from_snabb.py", "snabb_psid_map.conf", 3, "--aftr", AFTR)
        self.assertIn(":14: left out: softwire of 2001:db8:1::5: its tunnel address is 2001:db8::9", said)
        said = self.sample("from_vpp.py", "vpp.cli", 3)
        for line in (3, 8, 9):
            self.assertIn(f":{line}: left out: ", said)
        self.assertTrue(same(tables.read(self.file("table.toml")), a_table()))
        self.sample("from_csv.py", "list.csv", 3, "--aftr", AFTR, "--own", OWN)
        self.assertTrue(same(tables.read(self.file("table.toml")), a_table()))

    def test_refusals_name_their_cause(self):
        code, _, error = ran("from_snabb.py", os.path.join(HERE, "samples", "snabb_psid_map.conf"))
        self.assertEqual((code, "say by --aftr" in error), (1, True))
        code, _, error = ran("from_snabb.py", self.file("s.conf", "softwire-config { binding-table { softwire { "))
        self.assertEqual((code, "ends inside" in error), (1, True))


    def from_csv(self, text):
        return ran("from_csv.py", self.file("l.csv", text), "--aftr", AFTR, "--own", OWN, "-o", self.file("table.toml"))

    def test_a_row_of_names(self):
        for names in ("ipv4,offset,length,psid,b4", "Address, PSID offset, PSID length, PSID, B4 address"):
            code, _, error = self.from_csv(f"{names}\n203.0.113.1,6,8,52,2001:db8:1::1\n")
            self.assertEqual(code, 0, error)
            self.assertEqual(len(tables.read(self.file("table.toml")).bindings), 1)

    def test_a_wrong_line_of_a_list_is_refused(self):
        right = "203.0.113.1,6,8,52,2001:db8:1::1"
        wrong = (
            "203.0.113.1,6,8,52,2001:db8:1::1/128", "203.0.113.1,6,8,052,2001:db8:1::1", "203.0.113.1,6,8,52", "203.0.113.1,6,8,52,2001:db8:1::1,x",
            "2O3.0.113.1,6,8,52,2001:db8:1::1", "one,6,8,52,2001:db8:1::1", "fd00::1,6,8,52,203.0.113.1", "ipv4,offset,length,52,b4",
        )
        for line in wrong:
            for number, text in ((1, f"{line}\n{right}\n"), (1, line), (2, f"{right}\n{line}\n"), (3, f"ipv4,offset,length,psid,b4\n\n{line}\n")):
                with self.subTest(line=line, number=number):
                    code, _, error = self.from_csv(text)
                    self.assertEqual(code, 1)
                    self.assertIn(f"l.csv:{number}: ", error.splitlines()[-1])
                    self.assertFalse(os.path.exists(self.file("table.toml")))

    def test_files_that_cannot_be_read_or_written(self):
        with open(self.file("binary"), "wb") as file:
            file.write(b"\xff\xfe\x80")
        for tool in ("from_csv.py", "from_vpp.py", "from_snabb.py", "to_vpp.py", "to_snabb.py"):
            settings = ("--aftr", AFTR, "--own", OWN) if tool.startswith("from") else ()
            for name in ("none", "binary"):
                code, _, error = ran(tool, self.file(name), *settings)
                self.assertEqual(code, 1 if tool.startswith("to") and name == "binary" else 2, tool)
                self.assertRegex(error, rf"^{tool}: (?s:.*){name}")
        words = os.path.join(HERE, "samples", "list.csv"), "--aftr", AFTR, "--own", OWN
        code, _, error = ran("from_csv.py", *words, "-o", self.file("none/table.toml"))
        self.assertEqual((code, "Traceback" in error), (2, False))
        with open("/dev/full", "w", encoding="utf-8") as full:
            it = subprocess.run([sys.executable, os.path.join(HERE, "from_csv.py"), *words], stdout=full, stderr=subprocess.PIPE, text=True)
        self.assertEqual((it.returncode, it.stderr.splitlines()[-1][:12]), (2, "from_csv.py:"), it.stderr)

    def test_a_byte_order_mark(self):
        for tool, name in (("from_csv.py", "list.csv"), ("from_vpp.py", "vpp.cli"), ("from_snabb.py", "snabb.conf")):
            with open(os.path.join(HERE, "samples", name), encoding="utf-8") as file:
                text = file.read()
            found = [ran(tool, self.file(name, front + text), "--aftr", AFTR, "--own", OWN) for front in ("", "\ufeff")]
            self.assertEqual(found[0][0], 0, found[0][2])
            self.assertEqual(found[0], found[1])

    def test_a_wrong_command_of_vpp_is_refused_with_its_line(self):
        domain = "map add domain ip4-pfx 203.0.113.1/32 ip6-pfx ::/0 ip6-src 2001:db8::1 psid-offset 6 psid-len 8"
        for line, said in (
            ("map add rule psid 52 ip6-dst 2001:db8:1::1", "index is wanted"),
            ("map add rule index 1 psid 52 ip6-dst 2001:db8:1::1", "there is no domain 1"),
            ("map add rule index -1 psid 52 ip6-dst 2001:db8:1::1", "index '-1' is no number"),
            ("map add rule index x psid 52 ip6-dst 2001:db8:1::1", "index 'x' is no number"),
            ("map add rule index 0 psid 52", "ip6-dst is wanted"),
            ("map add rule index 0 psid 052 ip6-dst 2001:db8:1::1", "psid '052' is no number"),
            ("map add rule index 0 psid 52 ip6-dst nowhere", "nowhere"),
            ("map add domain ip6-pfx ::/0 ip6-src 2001:db8::1", "ip4-pfx is wanted"),
            ("map add domain ip4-pfx 203.0.113.2/32 ip6-pfx ::/0", "ip6-src is wanted"),
            ("map params icmp source-address", "source-address is wanted"),
            ("map add rule index 0 psid 52 psid 53 ip6-dst 2001:db8:1::1", "psid stands twice"),
        ):
            with self.subTest(line=line):
                code, _, error = ran("from_vpp.py", self.file("v.cli", f"{domain}\n\n{line}\n"), "--own", OWN)
                self.assertEqual(code, 1)
                self.assertRegex(error.splitlines()[-1], rf"^from_vpp.py: .*v.cli:3: .*{said}")

    def test_what_is_left_out_of_commands_of_vpp(self):
        domain = "map add domain ip4-pfx 203.0.113.1/32 ip6-pfx ::/0 ip6-src 2001:db8::1 psid-offset 6 psid-len 8"
        rule = "map add rule index 0 psid 52 ip6-dst 2001:db8:1::1"
        for line, said, count in (
            (rule, None, 1),
            (f"{rule} tag x", "tag x", 1),
            ("map params icmp source-address 192.0.2.1 traffic-class copy", "traffic-class copy", 0),
            ("map params icmp source-address 192.0.2.1 more", "more", 0),
        ):
            with self.subTest(line=line):
                text = f"{domain}\n{domain}\nmap add rule index 1 psid 1 ip6-dst {B4}\n{line}\n"
                code, _, error = ran("from_vpp.py", self.file("v.cli", text), "--own", OWN, "-o", self.file("table.toml"))
                self.assertEqual(code, 0, error)
                self.assertEqual(re.findall(r":4: left out: (.*)", error), [said] if said else [])
                self.assertEqual(len(tables.read(self.file("table.toml")).bindings), 1 + count)

    def test_a_wrong_statement_of_snabb_is_refused_with_its_line(self):
        softwire = "softwire { ipv4 203.0.113.1; psid 52; b4 2001:db8:1::1; port-set { psid-length 8; } }"
        for statement, said in (
            ("softwire { ipv4 203.0.113; b4 2001:db8:1::1; }", "ipv4: "),
            ("softwire { ipv4 203.0.113.1; b4 nowhere; }", "b4: "),
            ("softwire { ipv4 203.0.113.1; b4 2001:db8:1::1; psid x; }", "psid 'x' is no number"),
            ("softwire { ipv4 203.0.113.1; b4 2001:db8:1::1; port-set { psid-length; } }", "psid-length '' is no number"),
            ("softwire { ipv4 203.0.113.1; b4 2001:db8:1::1; br 1; }", "br 1"),
            ("softwire { ipv4 203.0.113.1; b4 2001:db8:1::1; br -1; }", "br '-1' is no number"),
            ("softwire { ipv4 203.0.113.1; b4 2001:db8:1::1; br-address 7; }", "br-address: "),
            ("psid-map { psid-length 8; }", "psid-map has no addr"),
            ("psid-map { addr 203.0.113.6; end-addr 203.0.113.1; psid-length 8; }", "end-addr 203.0.113.1 is below addr 203.0.113.6"),
            ("psid-map { addr 203.0.113.6; } psid-map { addr 203.0.113.4; end-addr 203.0.113.9; shift 9; }", "gives 203.0.113.6 another shape"),
            ("softwire { ipv4 203.0.113.1; b4 2001:db8:1::1; psid 1; psid 2; }", "psid stands twice in softwire"),
            ("softwire { ipv4 203.0.113.1; b4 2001:db8:1::1", "ends inside"),
            ("softwire a b c;", "more than one value"),
        ):
            with self.subTest(statement=statement):
                text = f"softwire-config {{ binding-table {{ br-address {AFTR};\n{softwire}\n{statement}\n}} }}"
                text = text.split("\n}")[0] if said == "ends inside" else text
                code, _, error = ran("from_snabb.py", self.file("s.conf", text), "--own", OWN)
                self.assertEqual(code, 1)
                self.assertRegex(error.splitlines()[-1], rf"^from_snabb.py: .*s.conf:3: .*{said}")
        for statement, said in (
            ("mtu x", "mtu 'x' is no number (written as 52 or 0x34, without leading zeros)"), ("allow-incoming-icmp maybe", "allow-incoming-icmp 'maybe' is neither true nor false"),
            ("generate-icmp-errors", "generate-icmp-errors '' is neither true nor false"),
        ):
            code, _, error = ran("from_snabb.py", self.file("s.conf", f"softwire-config {{\n external-interface {{\n {statement}; }} }}"), "--own", OWN)
            self.assertEqual((code, error), (1, f"from_snabb.py: {self.file('s.conf')}:3: {said}\n"))

    def test_softwires_whose_leaves_have_several_orders(self):
        ports = "port-set { psid-length 8; reserved-ports-bit-count 6; }"
        orders = (
            f"softwire {{ ipv4 203.0.113.1; psid 52; b4-ipv6 {B4}; br-address {AFTR}; {ports} }}",
            f"softwire {{ {ports} br-address {AFTR}; b4-ipv6 {OTHER}; psid 53;\n ipv4 203.0.113.1; }} // the last one\n",
            f"softwire\n{{ ipv4 203.0.113.2; b4-ipv6 {ALONE}; br-address {AFTR}; }}",
        )
        odd = f"softwire {{ ipv4 203.0.113.9; psid 7; b4-ipv6 2001:db8:1::9; br-address {AFTR}; port-set {{ psid-length 8; }} reserved-ports-bit-count 6; }}"
        text = f"softwire-config {{ binding-table {{\n{orders[0]}\n{orders[1]}{orders[2]}\n{odd}\n}} }}"
        code, _, error = ran("from_snabb.py", self.file("s.conf", text), "--own", OWN, "-o", self.file("table.toml"))
        self.assertEqual(code, 0, error)
        found = tables.read(self.file("table.toml"))
        self.assertEqual([it for it in found.bindings if str(it.ipv4) != "203.0.113.9"], a_table().bindings)
        self.assertEqual(found.bindings[3][2:], (0, 8, 7))
        self.assertIn("s.conf:7: left out: softwire reserved-ports-bit-count", error)
        many = "".join(f"softwire {{ ipv4 203.0.113.1; psid {at}; b4-ipv6 {B4}; br-address {AFTR}; leaf{at} 1; {ports} }}\n" for at in range(100))
        code, _, error = ran("from_snabb.py", self.file("s.conf", f"softwire-config {{ binding-table {{\n{many}}} }}"), "--own", OWN, "-o", self.file("table.toml"))
        self.assertEqual((code, error.count("left out: softwire leaf"), len(tables.read(self.file("table.toml")).bindings)), (0, 100, 100))

    def test_what_is_left_out_of_a_configuration_of_snabb(self):
        text = f'''softwire-config {{
            instance {{ queue {{ external-interface {{ ip {OWN}; }} internal-interface {{ ip {AFTR}; }} }} }}
            instance {{
                queue {{ external-interface {{ ip {OWN}; }} internal-interface {{
                    ip 2001:db8::9;
                    hairpinning false; }} }}
                binding-table {{ softwire {{ ipv4 203.0.113.8; b4-ipv6 2001:db8:1::8; }} }}
            }}
            internal-interface {{
                hairpinning true; }}
            binding-table {{
                br-address {AFTR};
                psid-map {{ addr 203.0.113.1; psid-length 8; reserved-ports-bit-count 6;
                    shift 2;
                    bits 3; }}
                softwire {{ ipv4 203.0.113.1; psid 52; b4-ipv6 {B4}; port-set {{ psid-length 8; reserved-ports-bit-count 6;
                    shift 2;
                    mask 3; }} }}
                softwire {{ ipv4 203.0.113.1; psid 53; b4-ipv6 {OTHER};
                    b4 2001:db8:1::7;
                    br-address {AFTR};
                    br 0; }}
                softwire {{ ipv4 203.0.113.2; b4-ipv6 {ALONE}; }}
            }}
            binding-table {{ softwire {{ ipv4 203.0.113.9; b4-ipv6 2001:db8:1::9; }} }}
        }}
        softwire-config {{ binding-table {{ softwire {{ ipv4 203.0.113.9; b4-ipv6 2001:db8:1::9; }} }} }}
        hostname router;
        '''
        code, _, error = ran("from_snabb.py", self.file("s.conf", text), "-o", self.file("table.toml"))
        self.assertEqual(code, 0, error)
        for line, what in (
            (5, "internal-interface ip 2001:db8::9: 2001:db8::1 is taken"),
            (7, "binding-table"),
            (10, "internal-interface hairpinning true: false is taken"),
            (14, "psid-map shift 2: reserved-ports-bit-count is taken"),
            (15, "psid-map bits"),
            (17, "port-set shift 2: reserved-ports-bit-count is taken"),
            (18, "port-set mask"),
            (20, "softwire b4 2001:db8:1::7: b4-ipv6 is taken"),
            (22, "softwire br 0: br-address is taken"),
            (25, "binding-table"),
            (27, "softwire-config: the statement that is read is softwire-config of line 1"),
            (28, "hostname: the statement that is read is softwire-config of line 1"),
        ):
            self.assertIn(f"s.conf:{line}: left out: {what}\n", error)
        self.assertEqual(error.count("left out"), 12, error)
        self.assertTrue(same(tables.read(self.file("table.toml")), a_table()))
