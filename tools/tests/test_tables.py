"""Tables, and who owns a port."""
import ipaddress
import os
import subprocess
import sys
import unittest

from shared import a_table, B4, Folder, HERE, ran, SHARED, tables


class Judging(Folder):
    def test_the_program_judges_tables(self):
        right = '''version = 1
softwire = { aftr = "2001:db8::1", own = "192.0.2.1",
    hop_limit = 0x40, }
[[binding]]
b4 = "2001:db8:1::1"
ipv4 = "203.0.113.1"
offset = 6
length = 8
psid = 52
'''
        for text in (right, "\ufeff" + right, right.replace("\n", "\r\n"), right.replace("52", "0b110100 # psid")):
            found = tables.read(self.file("table.toml", text))
            self.assertEqual(found.bindings, a_table().bindings[:1])
            self.assertEqual(found.softwire, a_table().softwire)
        self.assertEqual(tables.read(self.file("table.toml", right.split("[[")[0])).bindings, [])
        for old, new, said in (
            ("psid = 52", "psid = 999", "rules psid 0"), ("version = 1", "version = 7", "version"), ("hop_limit", "hop-limit", "unknown-key"),
            ('aftr = "2001:db8::1"', "aftr = 1", "kind softwire aftr"), ("length = 8", "length = 14", "rules"),
            ("offset = 6", 'offset = "6"', "kind binding 0 offset"), ("hop_limit = 0x40", 'mtu6 = "abc"', "kind softwire mtu6"),
            ("psid = 52", "psid = " + "[" * 3000, "too-costly"), ("psid = 52", "psid = 052", "not-toml"),
        ):
            with self.subTest(new=new[:40]):
                self.assertEqual(right.count(old), 1)
                path = self.file("table.toml", right.replace(old, new))
                with self.assertRaisesRegex(tables.TableError, f"^table refused: {said}"):
                    tables.read(path)
                for tool in ("to_snabb.py", "to_vpp.py"):
                    code, out, error = ran(tool, path)
                    self.assertEqual((code, out), (1, ""))
                    self.assertRegex(error, f"^{tool}: table refused: {said}(?s:.*){path}")

    def test_a_table_that_comes_by_a_pipe(self):
        it = subprocess.run([sys.executable, os.path.join(HERE, "to_vpp.py"), "/dev/stdin"], input=tables.text(a_table()), capture_output=True, text=True)
        self.assertEqual((it.returncode, it.stdout.count("map add rule")), (0, 3), it.stderr)
        reading, writing = os.pipe()
        os.write(writing, tables.text(a_table()).encode())
        os.close(writing)
        it = subprocess.run([sys.executable, os.path.join(HERE, "to_vpp.py"), f"/dev/fd/{reading}"], pass_fds=(reading,), capture_output=True, text=True)
        os.close(reading)
        self.assertEqual((it.returncode, it.stdout.count("map add rule")), (0, 3), it.stderr)

    def test_a_program_that_is_not_there(self):
        it = subprocess.run(
            [sys.executable, os.path.join(HERE, "to_vpp.py"), self.file("t.toml", tables.text(a_table()))],
            capture_output=True, text=True, env={**os.environ, "LWAFTR": self.file("none")},
        )
        self.assertEqual((it.returncode, it.stderr.count("\n"), self.file("none") in it.stderr), (2, 1, True), it.stderr)


class Owning(unittest.TestCase):
    def test_ports_are_those_of_the_rule(self):
        for offset, length, psid in ((6, 8, 52), (0, 8, 4), (0, 16, 80), (6, 0, 0), (0, 0, 0), (15, 1, 1), (4, 12, 7)):
            low = 16 - offset - length
            owned = {i << (16 - offset) | psid << low | j for i in (range(1, 1 << offset) if offset else [0]) for j in range(1 << low)}
            it = tables.Binding(ipaddress.IPv6Address(B4), ipaddress.IPv4Address(SHARED), offset, length, psid)
            self.assertEqual({port for port in range(65536) if it.owns(port)}, owned)
            self.assertEqual({port for first, last in it.ranges() for port in range(first, last + 1)}, owned)
            self.assertEqual(sorted(port for span in it.spans() for port in range(65536)[span]), sorted(owned))
