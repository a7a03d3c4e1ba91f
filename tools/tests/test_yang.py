"""`from_yang.py` and `to_yang.py`."""
import json
import os
import shutil
import subprocess
import unittest

from shared import B4, HERE, OWN, SHARED, Folder, a_table, ran, same, tables

SAMPLE = os.path.join(HERE, "samples", "softwire_br.json")
# the modules of RFC 8676, sections 7 and 8, as they stand there
MODULES = os.path.join(HERE, "tests", "modules")


class Yang(Folder):
    def read(self, tree, *words):
        os.path.exists(self.file("made.toml")) and os.remove(self.file("made.toml"))
        code, _, error = ran("from_yang.py", self.file("data", tree if isinstance(tree, str) else json.dumps(tree)), "--own", OWN, "-o", self.file("made.toml"), *words)
        return code, error

    def sample(self):
        with open(SAMPLE, encoding="utf-8") as file:
            return json.load(file)

    def instance(self, tree):
        return tree["ietf-softwire-br:br-instances"]["binding"]["bind-instance"][0]

    def test_samples_of_both_forms(self):
        for name in ("softwire_br.json", "softwire_br.xml"):
            code, _, error = ran("from_yang.py", os.path.join(HERE, "samples", name), "--own", OWN, "-o", self.file("made.toml"))
            self.assertEqual(code, 0, error)
            table = tables.read(self.file("made.toml"))
            self.assertTrue(same(table, a_table()))
            self.assertEqual(table.softwire, a_table().softwire)
            self.assertIn("softwire-num-max", error)

    def test_there_and_back(self):
        for keys in ({}, {"mtu6": 1400, "hairpin": False, "icmp_in": False, "errors_up": True}, {"errors_down": True}):
            for form in ((), ("--xml",)):
                code, out, error = ran("to_yang.py", self.file("t.toml", tables.text(a_table(**keys))), *form)
                self.assertEqual(code, 0, error)
                self.assertEqual(error.count("left out"), 3)
                self.assertEqual(self.read(out)[0], 0)
                found = tables.read(self.file("made.toml"))
                self.assertTrue(same(found, a_table()))
                self.assertEqual(found.softwire, a_table(**keys).softwire)

    def test_what_the_module_cannot_express(self):
        table = a_table()
        table.bindings += [tables.Binding(table.bindings[0].b4, table.bindings[0].ipv4, 6, 8, 9), tables.Binding(table.bindings[0].b4 + 9, table.bindings[0].ipv4 + 9, 0, 16, 80)]
        code, out, error = ran("to_yang.py", self.file("t.toml", tables.text(table)))
        self.assertEqual(code, 1)
        self.assertIn(f"left out: binding 3 ({B4}, {SHARED}): the module has one entry for each b4, and binding 0 is it", error)
        self.assertIn("left out: binding 4 (2001:db8:1::a, 203.0.113.10): its length is 16", error)
        self.assertEqual(out.count("binding-ipv6info"), 3)

    def test_several_instances(self):
        tree = self.sample()
        instances = tree["ietf-softwire-br:br-instances"]["binding"]["bind-instance"]
        instances.append({**instances[0], "name": "south", "softwire-payload-mtu": 1300, "softwire-path-mru": 1340})
        code, error = self.read(tree)
        self.assertEqual((code, "several instances (north, south): name one by --instance" in error), (1, True))
        code, error = self.read(tree, "--instance", "south")
        self.assertEqual((code, tables.read(self.file("made.toml")).softwire.mtu6), (0, 1340))
        self.assertIn("/br-instances/binding/bind-instance[0]: left out: the instance 'north'", error)
        self.assertEqual(self.read(tree, "--instance", "west")[0], 1)

    def test_defaults_are_the_modules(self):
        tree = self.sample()
        del self.instance(tree)["icmp-policy"], self.instance(tree)["enable-hairpinning"]
        self.assertEqual(self.read(tree)[0], 0)
        keys = tables.read(self.file("made.toml")).softwire
        self.assertEqual((keys.hairpin, keys.icmp_in, keys.errors_up, keys.errors_down), (True, True, True, True))

    def test_wrong_data_is_named_by_its_place(self):
        place = "/br-instances/binding/bind-instance"
        entry = f"{place}[0]/binding-table/binding-entry[1]"
        for leaf, value, where, said in (
            ("binding-ipv6info", "2001:db8:1::/64", f"{entry}/binding-ipv6info", "is a prefix"),
            ("binding-ipv6info", "fe80::1%eth0", f"{entry}/binding-ipv6info", "is not an IPv6 address"),
            ("binding-ipv4-addr", "1.2.3", f"{entry}/binding-ipv4-addr", "is not an IPv4 address"),
            ("port-set", {"psid-offset": -6}, f"{entry}/port-set/psid-offset", "is no number"),
            ("port-set", {"psid-len": True}, f"{entry}/port-set/psid-len", "is no number"),
            ("port-set", 7, f"{entry}/port-set", "a container belongs here"),
            ("port-set", {"psid-offset": 6, "psid-len": 8, "psid": 999}, entry, "refused: rules psid 1"),
            ("port-set", {"psid-offset": 6, "psid-len": 8, "psid": 52}, entry, f"shares a port with line {entry.replace('[1]', '[0]')}"),
        ):
            with self.subTest(leaf=leaf, value=value):
                tree = self.sample()
                self.instance(tree)["binding-table"]["binding-entry"][1][leaf] = value
                code, error = self.read(tree)
                self.assertEqual((code, os.path.exists(self.file("made.toml"))), (1, False))
                self.assertIn(f"data:{where}: ", error.splitlines()[-1])
                self.assertIn(said, error.splitlines()[-1])

    def test_entries_of_xml_are_read_whatever_their_form(self):
        """Plain entries are set apart before XML is read: the same data in other forms gives one table, and none is read out of a comment."""
        _, text, _ = ran("to_yang.py", self.file("t.toml", tables.text(a_table())), "--xml")
        first = text.index("<binding-entry>"), text.index("</binding-entry>") + len("</binding-entry>")
        entry = text[first[0] : first[1]]
        forms = (
            text.replace("><", ">\n<"), text.replace("<binding-ipv4-addr>", "<binding-ipv4-addr >", 1), text.replace("203.0.113.1<", "203.0.113.1&#10;<", 1),
            text.replace(">52<", ">\n52 <"), text.replace("/128", ""), text.replace("<psid>0</psid>", "<!-- whole --><psid>0</psid>"),
            text.replace("<binding-table>", f"<!-- {entry} --><binding-table>"), text.replace("<binding-table>", f"<?old {entry}?><binding-table>"),
            text.replace(" xmlns=", " xmlns:y=").replace("<", "<y:").replace("<y:/", "</y:").replace("<y:?", "<?"),
        )
        for form in forms:
            self.assertNotEqual(form, text)
            code, error = self.read(form)
            self.assertEqual(code, 0, error)
            self.assertTrue(same(tables.read(self.file("made.toml")), a_table()))
        # what is wrong is found at its line, and an entry in a text is no entry
        code, error = self.read(text.replace("</br-instances>", "</br-instance>"))
        self.assertEqual((code, f"line {text.count(chr(10))}" in error), (1, True), error)
        self.assertEqual(self.read(text.replace("<name>lwaftr", f'<name a="{entry}">lwaftr'))[0], 1)

    def test_entries_of_json_are_read_whatever_their_form(self):
        _, text, _ = ran("to_yang.py", self.file("t.toml", tables.text(a_table())))
        tree = json.loads(text)
        entries = self.instance(tree)["binding-table"]["binding-entry"]
        forms = [text, json.dumps(tree), json.dumps(tree, indent=4), json.dumps(tree, separators=(",", ":")), text.replace("/128", "")]
        for at in range(len(entries)):
            # one entry among plain ones with its leaves in another order
            entries[at] = dict(reversed(entries[at].items()))
            forms += [json.dumps(tree), json.dumps(tree, indent=1)]
        for form in forms:
            code, error = self.read(form)
            self.assertEqual(code, 0, error)
            self.assertTrue(same(tables.read(self.file("made.toml")), a_table()))
        # what is wrong is found at its line, and a list is no entry
        code, error = self.read(text.replace("\n]", ",\n]", 1))
        self.assertEqual((code, f"line {text[: text.index(chr(10) + ']')].count(chr(10)) + 2} " in error), (1, True), error)
        self.instance(tree)["binding-table"]["binding-entry"][1] = [entries[0]]
        code, error = self.read(tree)
        self.assertEqual((code, "binding-entry[1]: an entry of a binding table belongs here" in error), (1, True), error)

    def test_texts_that_are_no_data(self):
        for text in ("", "nothing", "{", "<a>", "[" * 100_000, '{"a":' * 5000, "<a>" * 5000, "{}", "<a/>", '<!DOCTYPE a [<!ENTITY b "c">]><a>&b;</a>', '{"br-instances": 1}'):
            code, error = self.read(text)
            self.assertEqual((code, error.count("Traceback"), error.count("\n")), (1, 0, 1), error)
        code, error = self.read('{"br-instances": {"binding": {}, "binding": {}}}')
        self.assertEqual((code, "binding is given twice" in error), (1, True))

    def test_an_entry_without_a_port_set_has_the_whole_address(self):
        tree = self.sample()
        del self.instance(tree)["binding-table"]["binding-entry"][2]["port-set"]
        self.assertEqual(self.read(tree)[0], 0)
        self.assertTrue(same(tables.read(self.file("made.toml")), a_table()))

    @unittest.skipUnless(shutil.which("yanglint"), "no yanglint")
    def test_data_is_valid_by_the_module(self):
        table = self.file("t.toml", tables.text(a_table()))
        ran("to_yang.py", table, "-o", self.file("made.json"))
        ran("to_yang.py", table, "--xml", "-o", self.file("made.xml"))
        samples = [os.path.join(HERE, "samples", f"softwire_br.{form}") for form in ("json", "xml")]
        for path in (self.file("made.json"), self.file("made.xml"), *samples):
            it = self.judged(path)
            self.assertEqual((it.returncode, it.stderr), (0, ""), path)
        # the judge sees what is wrong
        tree = self.sample()
        del self.instance(tree)["binding-table"]["binding-entry"][2]["port-set"]
        self.assertIn("psid-len", self.judged(self.file("wrong.json", json.dumps(tree))).stderr)

    def judged(self, path):
        """A run of yanglint over instance data."""
        words = ["-p", MODULES, "-F", "ietf-softwire-br:binding-mode", "-t", "config", f"{MODULES}/ietf-softwire-br@2019-11-16.yang", path]
        return subprocess.run(["yanglint", *words], capture_output=True, text=True, check=False)
