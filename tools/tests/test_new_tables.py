"""`diff_tables.py` and `ports.py`."""
import ipaddress
import json
import random

from shared import ALONE, B4, OTHER, SHARED, WHOLE, Folder, a_table, ran, tables

NEXT = "2001:db8:1::4"


def binding(b4, ipv4, *shape):
    return tables.Binding(ipaddress.IPv6Address(b4), ipaddress.IPv4Address(ipv4), *shape)


class Differing(Folder):
    def told(self, old, new, *words):
        return ran("diff_tables.py", self.file("old.toml", tables.text(old)), self.file("new.toml", tables.text(new)), *words)

    def test_equal_tables(self):
        other = a_table()
        other.bindings.reverse()
        code, out, error = self.told(a_table(), other)
        self.assertEqual((code, error), (0, ""))
        self.assertEqual(out, "3 bindings before, 3 now. Subscribers: 0 gone, 0 loses ports, 0 moved, 0 gains ports, 0 new. Ports: 0 lost, 0 gained.\n")

    def test_each_kind_of_change(self):
        new = a_table(mtu6=1400)
        # B4 moves to another address, OTHER gets a wider set in place of its own, ALONE is gone, NEXT has B4's old set
        new.bindings = [binding(B4, "203.0.113.9", 6, 8, 52), binding(OTHER, SHARED, 6, 7, 27), binding(NEXT, SHARED, 6, 8, 52)]
        code, out, error = self.told(a_table(), new)
        self.assertEqual((code, error), (1, ""))
        self.assertIn("Subscribers: 1 gone, 1 loses ports, 1 moved, 0 gains ports, 1 new.", out)
        self.assertIn(f"  {ALONE}: loses 65,536 ports ({WHOLE} 0-65535)\n", out)
        self.assertIn(f"  {B4}: loses 252 ports ({SHARED} 1232-1235, 2256-2259, 3280-3283, 4304-4307 and 59 more ranges) which {NEXT} has now (port 1232 of {SHARED})", out)
        self.assertIn("  mtu6: 1500 before, 1400 now\n", out)
        self.assertLess(out.index("gone: "), out.index("loses ports: "))
        self.assertLess(out.index("moved: "), out.index("new: the subscriber was"))
        found = json.loads(self.told(a_table(), new, "--json")[1])
        self.assertEqual(found["settings"], [{"name": "mtu6", "old": 1500, "new": 1400}])
        self.assertEqual([it["change"] for it in found["subscribers"]], ["gone", "loses ports", "moved", "new"])
        self.assertEqual(found["subscribers"][3]["gained"][SHARED][:2], [[1232, 1235], [2256, 2259]])

    def test_ports_are_compared_and_not_spellings(self):
        old, new = a_table(), a_table()
        old.bindings = [binding(B4, SHARED, 0, 8, 4)]
        new.bindings = [binding(B4, SHARED, 0, 9, 8), binding(B4, SHARED, 0, 9, 9)]
        self.assertEqual(self.told(old, new)[0], 0)
        new.bindings = [binding(B4, SHARED, 0, 7, 2)]
        code, out, _ = self.told(old, new)
        self.assertEqual(code, 1)
        self.assertIn(f"{B4}: gains 256 ports ({SHARED} 1280-1535)", out)
        code, out, _ = self.told(new, old)
        self.assertIn(f"{B4}: loses 256 ports ({SHARED} 1280-1535)", out)

    def test_sets_of_other_shapes_are_compared_port_by_port(self):
        """Against sets of ports made one by one, for shapes that overlap in part."""
        shapes = ((6, 8, 52), (4, 8, 200), (0, 8, 4), (0, 6, 3), (6, 4, 3), (1, 3, 5), (6, 0, 0), (0, 0, 0), (0, 16, 80))
        for shape in shapes:
            old, new = a_table(), a_table()
            old.bindings, new.bindings = [binding(B4, SHARED, *shape)], [binding(B4, SHARED, 4, 6, 50)]
            ports = [set(filter(table.bindings[0].owns, range(65536))) for table in (old, new)]
            for its in json.loads(self.told(old, new, "--json")[1])["subscribers"]:
                for name, wanted in (("lost", ports[0] - ports[1]), ("gained", ports[1] - ports[0])):
                    spans = its[name].get(SHARED, [])
                    self.assertEqual({port for first, last in spans for port in range(first, last + 1)}, wanted)
                    self.assertEqual(sum(last - first + 1 for first, last in spans), len(wanted))

    def test_a_table_that_is_refused(self):
        code, out, error = ran("diff_tables.py", self.file("none"), self.file("t.toml", tables.text(a_table())))
        self.assertEqual((code, out), (2, ""))
        code, out, error = ran("diff_tables.py", self.file("t.toml"), self.file("bad.toml", "version = 7\n"))
        self.assertEqual((code, out), (1, ""))
        self.assertIn("table refused: version", error)


class Ports(Folder):
    def told(self, *words):
        return ran("ports.py", self.file("t.toml", tables.text(a_table())), *words)

    def test_a_subscriber(self):
        code, out, _ = self.told("--b4", B4)
        self.assertEqual(code, 0)
        self.assertTrue(out.startswith(f"{B4}: 1 set, 252 ports\n  {SHARED}, offset 6, length 8, psid 52: 252 ports: 1232-1235, 2256-2259, "), out)
        found = json.loads(self.told("--b4", ALONE, "--json")[1])
        self.assertEqual((len(found), found[0]["ranges"], found[0]["ports"]), (1, [[0, 65535]], 65536))

    def test_an_address(self):
        code, out, _ = self.told("--ipv4", SHARED)
        self.assertEqual(code, 0)
        self.assertIn(f"  offset 6, length 8, psid 53: {OTHER}: 1236-1239, ", out)
        self.assertIn("  free with offset 6, length 8: 254 of 256 sets: psid 0-51, 54-255\n", out)
        self.assertIn("203.0.113.77: 0 sets", self.told("--ipv4", "203.0.113.77")[1])

    def test_capacity(self):
        code, out, _ = self.told()
        self.assertEqual(code, 0)
        self.assertIn("2 addresses, 3 bindings of 3 subscribers, 66,040 ports in use\n254 sets are free", out)

    def test_every_conflict(self):
        table = a_table()
        table.bindings += [binding(NEXT, SHARED, 6, 8, 52), binding(NEXT, WHOLE, 6, 8, 1), binding(NEXT, SHARED, 6, 7, 26)]
        code, out, _ = ran("ports.py", self.file("t.toml", tables.text(table)))
        self.assertEqual(code, 1)
        self.assertEqual(out.count("port "), 4, out)
        self.assertIn(f"port 1232 of {SHARED} is in binding 0 (psid 52, {B4}) and in binding 3 (psid 52, {NEXT})", out)
        self.assertIn(f"port 1236 of {SHARED} is in binding 1 (psid 53, {OTHER}) and in binding 5", out)
        self.assertIn("4 conflicts; the program refuses the table", out)

    def test_conflicts_are_those_of_the_ports(self):
        """Against owners that are found port by port, over tables of one shape and of several."""
        shapes = ((6, 8), (6, 7), (0, 8), (4, 2), (6, 0), (0, 0), (0, 16))
        for seed in range(len(shapes)):
            chosen, table = random.Random(seed), a_table()
            its = [chosen.choice(shapes[: seed + 1]) for _ in range(20)]
            table.bindings = [binding(B4, chosen.choice((SHARED, WHOLE)), *shape, chosen.randrange(1 << shape[1]) % 8) for shape in its]
            owners, lowest = {}, {}
            for late, it in enumerate(table.bindings):
                for port in filter(it.owns, range(65536)):
                    first = owners.setdefault((it.ipv4, port), late)
                    if first != late:
                        lowest.setdefault((first, late), port)
            wanted = [[list(pair), port] for pair, port in lowest.items()]
            code, out, error = ran("ports.py", self.file("t.toml", tables.text(table)), "--json")
            self.assertEqual((code, error), (1 if wanted else 0, ""))
            if wanted:
                self.assertEqual(sorted([it["bindings"], it["port"]] for it in json.loads(out)["conflicts"]), sorted(wanted), seed)

    def test_conflicts_of_a_table_in_any_form(self):
        lines = [f'b4 = "{B4}"', f'ipv4 = "{SHARED}"', "offset = 6", "length = 8", "psid = 52"]
        settings = '[softwire]\naftr = "2001:db8::1"\nown = "192.0.2.1"\n'
        other = "\n".join(["[[binding]]", *lines, ""])
        for same in (
            other, "\n".join(["[[binding]] # a comment", *lines[::-1], ""]), "[[binding]]\n" + "\n".join(lines[::-1]) + "\n",
            "[[binding]]\n" + "\n".join([*lines[:4], "psid = 0x34", ""]), "[[binding]]\r\n" + "\r\n".join(lines) + "\r\n",
        ):
            for text in (f"version = 2\n{settings}{other}{same}", f"version = 2\n\n{other}\n{same}\n{settings}"):
                code, out, error = ran("ports.py", self.file("t.toml", text))
                self.assertEqual((code, out.count(f"port 1232 of {SHARED} is in binding 0"), error), (1, 1, ""), text)
