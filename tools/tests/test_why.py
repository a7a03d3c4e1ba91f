"""`why.py`."""
import ipaddress
import os
import re
import struct
import subprocess
import sys

from shared import a_table, AFTR, B4, captures, FAR, Folder, HERE, icmp, icmp6, ip4, ip6, one_of_each_rule, OTHER, pieces4, pieces6, PROGRAM, ran, SHARED, tables, udp


class Explaining(Folder):
    def told(self, names, number):
        code, out, error = ran("why.py", names[0], names[4], number, "--verdicts", names[2])
        self.assertEqual(code, 0, error)
        return out

    def test_one_packet_of_each_rule(self):
        cases = one_of_each_rule()
        names = self.run_program([data for data, _, _ in cases], a_table())
        for number, (_, rule, said) in enumerate(cases):
            out = self.told(names, number)
            with self.subTest(rule=rule, number=number):
                self.assertRegex(out, rf"verdict: {number} 0 (drop )?{rule} ")
                self.assertIn(said, out.split("why: ")[1])

    def test_rules_of_settings(self):
        up = ip6(B4, AFTR, 4, ip4(SHARED, SHARED, 17, udp(1232, 1236)))
        names = self.run_program([up, ip4(FAR, SHARED, 1, icmp(8, 0, b"\4\xd0\0\0"))], a_table(hairpin=False, icmp_in=False))
        self.assertIn("hairpin = false", self.told(names, 0))
        self.assertIn("icmp_in = false", self.told(names, 1))

    def test_rules_of_fragments(self):
        def piece(number, place, more, size=8, fill=b"x"):
            return ip4(FAR, SHARED, 17, fill * size, number=number, word=place // 8 | (0x2000 if more else 0))

        records = [piece(1, 0, True), piece(1, 0, True, fill=b"y")]
        records += [piece(2, 16 * at, True) for at in range(257)]
        records += [piece(16 * at + 3, 0, True) for at in range(257)]
        names = self.run_program(records, a_table())
        self.assertIn("overlap", self.told(names, 1))
        self.assertIn("more than 256 fragments", self.told(names, 258))
        self.assertIn("256 datagrams wait", self.told(names, len(records) - 1))

    def test_it_runs_the_program_itself(self):
        names = self.run_program([ip4(FAR, SHARED, 17, udp(53, 1240))], a_table())
        code, out, error = ran("why.py", names[0], names[4], 0)
        self.assertEqual(code, 0, error)
        self.assertIn("why: port 1240 of 203.0.113.1 is nobody's", out)

    def why(self, names, number):
        return self.told(names, number).split("why: ")[1].strip()

    def test_the_first_fragment_tells_the_time_to_live(self):
        data = udp(53, 1232, b"x" * 16)
        first, last = pieces4(FAR, SHARED, 17, data, 16, ttl=1)[0], pieces4(FAR, SHARED, 17, data, 16)[1]
        names = self.run_program([first, ip4(FAR, SHARED, 17, udp(53, 1232)), last], a_table())
        out = self.told(names, 2)
        self.assertIn("verdict: 2 0 drop ttl 1", out)
        self.assertIn("the datagram of records 0, 2; its first fragment (record 0) tells ports and time to live", out)
        self.assertEqual(self.why(names, 2), "its time to live is 1")
        self.assertIn("destination: port 1232 of 203.0.113.1 is 2001:db8:1::1's", out)

    def test_fragments_of_a_tunnel_packet(self):
        records = pieces6(OTHER, AFTR, 4, ip4(SHARED, FAR, 17, udp(1232, 53, b"x" * 40)), 24)
        names = self.run_program(records, a_table())
        self.assertEqual(self.why(names, 0), "a fragment that waits for the rest of its datagram")
        self.assertIn("1 0 held", self.told(names, 1))
        self.assertEqual(self.why(names, 2), "its owner's tunnel ends at 2001:db8:1::1, it came from 2001:db8:1::2")
        self.assertIn("source: port 1232 of 203.0.113.1 is 2001:db8:1::1's", self.told(names, 2))

    def test_fragments_in_a_tunnel_in_fragments(self):
        inner = pieces4(SHARED, FAR, 17, udp(1236, 53, b"x" * 40), 24)
        records = pieces6(B4, AFTR, 4, inner[1], 24, number=9) + [ip6(B4, AFTR, 4, inner[0])]
        names = self.run_program(records, a_table())
        out = self.told(names, 2)
        self.assertIn("verdict: 2 0 drop no-binding 0", out)
        self.assertIn("the datagram of records 0, 1, 2; its first fragment (record 2)", out)
        self.assertEqual(self.why(names, 2), "its owner's tunnel ends at 2001:db8:1::2, it came from 2001:db8:1::1")

    def test_fragments_that_name_no_port(self):
        records = pieces4(FAR, SHARED, 17, udp(53, 1240, b"x" * 16), 16)[::-1] + [ip4(FAR, SHARED, 17, b"ab")]
        names = self.run_program(records, a_table())
        self.assertIn("203.0.113.1 is shared by 2 bindings, and this fragment names no port", self.told(names, 0))
        self.assertEqual(self.why(names, 1), "port 1240 of 203.0.113.1 is nobody's (offset 6, length 8)")
        self.assertIn("203.0.113.1 is shared by 2 bindings, and it is too short to name a port", self.told(names, 2))
        self.assertEqual(self.why(names, 2), "it is too short to name a port")

    def test_an_identification_that_comes_again(self):
        def datagram(port):
            return pieces4(FAR, SHARED, 17, udp(53, port, b"x" * 16), 16)

        names = self.run_program([*datagram(1232), *datagram(1240)], a_table())
        self.assertIn("records 0, 1;", self.told(names, 1))
        self.assertIn("records 2, 3;", self.told(names, 3))
        self.assertEqual(self.why(names, 3), "port 1240 of 203.0.113.1 is nobody's (offset 6, length 8)")
        odd = ip4(FAR, SHARED, 17, b"12345", word=0x2000)
        names = self.run_program([datagram(1240)[0], odd, datagram(1240)[0], datagram(1240)[1]], a_table())
        self.assertIn("records 0, 3;", self.told(names, 3))

    def test_a_datagram_that_was_given_up(self):
        first, last = pieces4(FAR, SHARED, 17, udp(53, 1240, b"x" * 16), 16)
        names = self.run_program([first], a_table())
        captures.write(names[0], [(0, first), (61 * 10**9, first), (62 * 10**9, last)])
        it = subprocess.run([PROGRAM, "run", *names], capture_output=True, text=True)
        self.assertEqual(it.returncode, 0, it.stderr)
        self.assertIn("records 1, 2;", self.told(names, 2))

    def test_a_table_that_is_not_in_force(self):
        names = self.run_program([ip4(FAR, SHARED, 17, udp(53, 1232)), ip4(FAR, SHARED, 17, udp(53, 1240), ttl=1)], a_table())
        other = a_table()
        other.bindings[0] = tables.Binding(ipaddress.IPv6Address(B4), ipaddress.IPv4Address(SHARED), 6, 8, 54)
        self.file("other.toml", tables.text(other))
        for number, found in ((0, "no-binding"), (1, "ttl")):
            code, out, error = ran("why.py", names[0], self.file("other.toml"), number, "--verdicts", names[2])
            self.assertEqual(code, 0, error)
            self.assertIn(f"why: under this table record {number} would be {found}: is it the table of the line's second number (0)?", out)

    def test_files_that_are_not_there(self):
        names = self.run_program([ip4(FAR, SHARED, 17, udp(53, 1232))], a_table())
        none = self.file("none")
        for words in ([none, names[4]], [names[0], none], [names[0], names[4], none], [names[0], names[4], names[3]], [names[0], names[4], names[1]]):
            code, _, error = ran("why.py", *words[:2], 0, *(["--verdicts", words[2]] if len(words) > 2 else []))
            self.assertEqual((code, len(re.findall("(?m)^(?!  )", error.strip())), error[:8]), (2, 1, "why.py: "), words)
            self.assertIn(words[-1] if len(words) > 2 else none, error)

    def test_a_capture_that_the_program_refuses(self):
        names = self.run_program([ip4(FAR, SHARED, 17, udp(53, 1232))], a_table())
        with open(names[0], "rb") as file:
            text = file.read()
        for wrong, code, said in ((text[:20] + struct.pack("<I", 113) + text[24:], 2, "link 113"), (text + b"cut", 0, "cut header")):
            with open(names[0], "wb") as file:
                file.write(wrong)
            found = ran("why.py", names[0], names[4], 0)
            self.assertEqual(found[0], code, found[2])
            self.assertIn(f"why.py: capture refused: {said}", found[2])
            self.assertEqual("sent into the tunnel" in found[1], code == 0, found[1])
        # a record of another link type behind the first
        block = lambda kind, body: struct.pack("<II", kind, 12 + len(body)) + body + struct.pack("<I", 12 + len(body))  # noqa: E731
        link = lambda number: block(1, struct.pack("<HHI", number, 0, 0))  # noqa: E731
        with open(names[0], "wb") as file:
            file.write(block(0x0A0D0D0A, struct.pack("<IHHq", 0x1A2B3C4D, 1, 0, -1)) + link(101) + link(1) + block(6, struct.pack("<IIIII", 0, 0, 0, 0, 0)))
        code, out, error = ran("why.py", names[0], names[4], 0)
        self.assertEqual((code, out), (2, ""))
        self.assertIn("why.py: capture refused: ng mixed-links 48\n", error)
        self.assertEqual(error.splitlines()[-1], "why.py: the run has no line of record 0")

    def test_pipes(self):
        names = self.run_program([ip4(FAR, SHARED, 17, udp(53, 1232))], a_table())
        pipe = "/dev/stdin"
        for words, file, code in (
            ((pipe, names[4], 0), 0, 2), ((names[0], pipe, 0), 4, 2), ((pipe, names[4], 0, "--verdicts", names[2]), 0, 2),
            ((names[0], pipe, 0, "--verdicts", names[2]), 4, 0), ((names[0], names[4], 0, "--verdicts", pipe), 2, 2),
        ):
            with open(names[file], "rb") as data:
                it = subprocess.run([sys.executable, os.path.join(HERE, "why.py"), *map(str, words)], input=data.read(), capture_output=True)
            said = b"why.py: /dev/stdin is no plain file: it is to be read more than once\n" if code else b""
            self.assertEqual((it.returncode, it.stderr), (code, said), words)

    def test_what_is_wrong_with_a_message(self):
        quote = ip4(SHARED, FAR, 17, udp(1232, 53))
        bad_quote = quote[:10] + b"\0\0" + quote[12:]
        bad_sum = icmp(3, 1, b"\0" * 4 + quote)[:2] + b"\1\2" + icmp(3, 1, b"\0" * 4 + quote)[4:]
        cases = (
            (icmp(8, 0, b"\4\xd0"), "icmp-bad", "fewer than 8 bytes"),
            (bad_sum, "icmp-bad", "wrong checksum"),
            (icmp(3, 1, b"\0" * 4 + bad_quote), "icmp-bad", "quotes no IPv4 header that sums up"),
            (icmp(3, 1, b"\0" * 4 + quote[:19]), "icmp-bad", "quotes no IPv4 header that sums up"),
            (icmp(13, 0, b"\0" * 16), "icmp-bad", "quotes no IPv4 header that sums up"),
            (icmp(8, 0, b"\4\xd0\0\0")[:2] + b"\1\2\4\xd0\0\0", "down", "sent into the tunnel"),
            (icmp(3, 1, b"\0" * 4 + quote), "down", "sent into the tunnel"),
            (icmp(3, 1, b"\0" * 4 + ip4(SHARED, FAR, 17, b"12345678", word=3)), "no-port", "the packet that it quotes is a later fragment"),
            (icmp(3, 1, b"\0" * 4 + ip4(SHARED, FAR, 1, icmp(3, 1, b"\0" * 24))), "no-port", "the packet that it quotes is an ICMP error"),
            (icmp(3, 1, b"\0" * 4 + quote[:22]), "no-port", "the packet that it quotes is too short"),
        )
        names = self.run_program([ip4(FAR, SHARED, 1, data) for data, _, _ in cases], a_table())
        for number, (_, rule, said) in enumerate(cases):
            with self.subTest(rule=rule, number=number):
                self.assertRegex(self.told(names, number), rf"verdict: {number} 0 (drop )?{rule} ")
                self.assertIn(said, self.why(names, number))

    def test_messages_are_shown_with_what_they_quote(self):
        quote = ip4(SHARED, FAR, 17, udp(1232, 53))
        tunnel = ip6(AFTR, B4, 4, ip4(FAR, SHARED, 17, udp(53, 1232)))
        records = [ip4(FAR, SHARED, 1, icmp(3, 1, b"\0" * 4 + quote)), icmp6(B4, AFTR, 3, 0, b"\0" * 4 + tunnel), icmp6(B4, AFTR, 128, 0, b"\0" * 4)]
        names = self.run_program(records, a_table())
        self.assertIn("quotes IPv4 203.0.113.1 port 1232 to 198.51.100.7 port 53, UDP", self.told(names, 0))
        out = self.told(names, 1)
        self.assertIn("IPv6 2001:db8:1::1 to 2001:db8::1, ICMPv6 type 3 code 0", out)
        self.assertIn("quotes IPv6 2001:db8::1 to 2001:db8:1::1, IPv4", out)
        self.assertIn("IPv4 198.51.100.7 port 53 to 203.0.113.1 port 1232, UDP", out)
        self.assertIn("ICMPv6 type 128 code 0", self.told(names, 2))
        self.assertIn("type 128", self.why(names, 2))
