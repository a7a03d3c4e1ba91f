"""`to_b4.py`, `who_at.py` and the dissector."""
import json
import os
import shutil
import struct
import subprocess
import unittest

from shared import AFTR, ALONE, B4, FAR, HERE, OTHER, SHARED, Folder, a_table, captures, ip4, ip6, one_of_each_rule, ran, tables, total, udp

TSHARK = unittest.skipUnless(shutil.which("tshark"), "no tshark")


class Provisioning(Folder):
    def made(self, *words):
        code, out, error = ran("to_b4.py", self.file("t.toml", tables.text(a_table())), *words)
        self.assertEqual((code, error), (0, ""))
        return out

    def test_the_option_by_rfc_7598(self):
        lines = dict(line.split() for line in self.made("option").splitlines())
        router = "005a0010" + "20010db8000000000000000000000001"
        ports = "005d0004" + "06" + "08" + "3400"
        binding = "005c001d" + "cb007101" + "80" + "20010db8000100000000000000000001" + ports
        self.assertEqual(lines[B4], "00600035" + router + binding)
        self.assertEqual(lines[ALONE], "0060002d" + router + "005c0015" + "cb007102" + "80" + "20010db8000100000000000000000003")

    @TSHARK
    def test_tshark_reads_the_option(self):
        option = bytes.fromhex(self.made("option", "--b4", B4).split()[1])
        message = b"\7\0\0\1" + option
        sent = struct.pack("!HHHH", 547, 546, 8 + len(message), 0) + message
        pseudo = struct.pack("!16s16sIxxxB", bytes.fromhex("20010db8000000000000000000000001"), bytes.fromhex("20010db8000100000000000000000001"), len(sent), 17)
        sent = sent[:6] + struct.pack("!H", total(pseudo + sent)) + sent[8:]
        captures.write(self.file("one.pcap"), [(0, ip6(AFTR, B4, 17, sent))])
        out = subprocess.run(["tshark", "-V", "-r", self.file("one.pcap")], capture_output=True, text=True, check=True).stdout
        for said in ("S46 Lightweight 4over6 Container", AFTR, f"IPv4 address: {SHARED}", "Offset: 6", "PSID length: 8", "PSID: 52"):
            self.assertIn(said.lower(), out.lower(), out[out.find("DHCPv6"):])
        self.assertNotIn("Malformed", out)

    DUIDS = "".join(f"{b4},00:03:00:01:02:00:00:00:00:0{at}\n" for at, b4 in enumerate((B4, OTHER, ALONE), 1))

    def test_kea(self):
        out = self.made("kea", "--duids", self.file("duids.csv", f"# b4,duid\n{self.DUIDS}"))
        reservations = json.loads(out)["Dhcp6"]["reservations"]
        self.assertEqual([it["ip-addresses"] for it in reservations], [[B4], [OTHER], [ALONE]])
        self.assertEqual([it["duid"][-2:] for it in reservations], ["01", "02", "03"])
        self.assertEqual("0060%04x" % (len(reservations[1]["option-data"][0]["data"]) // 2) + reservations[1]["option-data"][0]["data"], self.made("option", "--b4", OTHER).split()[1])
        if shutil.which("kea-dhcp6"):
            whole = {"interfaces-config": {"interfaces": []}, "lease-database": {"type": "memfile", "persist": False}, "reservations": reservations}
            it = subprocess.run(["kea-dhcp6", "-t", self.file("kea.json", json.dumps({"Dhcp6": whole}))], capture_output=True, text=True, check=False)
            self.assertEqual((it.returncode, "Error" in it.stdout + it.stderr), (0, False), it.stdout + it.stderr)

    def test_what_kea_cannot_reserve(self):
        table = a_table()
        table.bindings.append(table.bindings[0]._replace(psid=9))
        words = self.file("t.toml", tables.text(table)), "kea", "--duids", self.file("duids.csv", self.DUIDS.partition("\n")[0])
        code, out, error = ran("to_b4.py", *words)
        self.assertEqual((code, len(json.loads(out)["Dhcp6"]["reservations"]), error.count("left out: the binding of")), (1, 1, 3), error)
        self.assertIn(f"{B4} ({SHARED}): option 96 holds one binding", error)
        self.assertIn(f"{OTHER} ({SHARED}): {words[3]} has no DUID of this subscriber", error)
        for line, said in ((f"{B4},xyz", "'xyz' is not a DUID"), (f"{B4}", "columns here: 1"), ("1.2.3.4,000300", "is not an IPv6 address"), (f"{B4},000300\n{B4},000301", "has a DUID already")):
            code, out, error = ran("to_b4.py", *words[:3], self.file("wrong.csv", line))
            self.assertEqual((code, out, said in error), (1, "", True), error)
        for words in (("kea",), ("uci", "--duids", words[3])):
            self.assertEqual(ran("to_b4.py", self.file("t.toml"), *words)[0], 2)

    def test_uci(self):
        out = self.made("uci", "--b4", OTHER)
        for line in ("config interface 'softwire0'", "option proto 'map'", "option type 'lw4o6'", f"option peeraddr '{AFTR}'", f"option ipaddr '{SHARED}'", "option psid '53'", "option offset '6'", "option psidlen '8'"):
            self.assertIn(line, out)

    def test_rules_of_nftables(self):
        shared, whole = (self.made("nft", "--lan", "10.9.0.0/16", "--b4", it) for it in (B4, ALONE))
        self.assertEqual(shared.count(f"numgen inc mod 63 map {{ 0 : {SHARED} . 1232-1235, 1 : {SHARED} . 2256-2259, "), 3)
        self.assertIn('oifname "softwire0" ip saddr 10.9.0.0/16 snat to 203.0.113.2', whole)
        self.assertEqual(ran("to_b4.py", self.file("t.toml"), "nft")[0], 2)
        if not shutil.which("nft") or os.geteuid() != 0:
            return
        for rules in (shared, whole):
            it = subprocess.run(["nft", "-c", "-f", self.file("rules", rules)], capture_output=True, text=True, check=False)
            if "Operation not permitted" not in it.stderr:
                self.assertEqual((it.returncode, it.stderr), (0, ""))

    def test_a_subscriber_that_is_not_there(self):
        code, out, error = ran("to_b4.py", self.file("t.toml", tables.text(a_table())), "uci", "--b4", "2001:db8::77")
        self.assertEqual((code, out), (1, ""))
        self.assertIn("no binding is there of 2001:db8::77", error)


class WhoAt(Folder):
    def setUp(self):
        super().setUp()
        later = a_table()
        later.bindings[0], later.bindings[1] = later.bindings[1]._replace(psid=52), later.bindings[0]._replace(psid=53)
        self.texts = tables.text(a_table()), tables.text(later)

    def test_tables_with_their_times(self):
        names = self.file("a.toml", self.texts[0]), self.file("b.toml", self.texts[1])
        asked = "# questions\n2026-11-01T00:00:00Z,203.0.113.1,1232\n2026-11-10T00:00:00+01:00,203.0.113.1,1232\n1793491200,203.0.113.1,1232\n1,203.0.113.1,1232\n2026-12-01,203.0.113.1,80\n"
        words = "2026-11-01=" + names[0], "2026-11-10T00:00:00=" + names[1]
        for order in (words, words[::-1]):
            code, out, error = ran("who_at.py", self.file("q.csv", asked), *order)
            self.assertEqual((code, error), (0, ""))
            self.assertEqual(out.splitlines(), [
                f"2026-11-01T00:00:00Z,{SHARED},1232,{B4},{names[0]}",
                f"2026-11-10T00:00:00+01:00,{SHARED},1232,{B4},{names[0]}",
                f"1793491200,{SHARED},1232,{B4},{names[0]}",
                f"1,{SHARED},1232,no-table,",
                f"2026-12-01,{SHARED},80,none,{names[1]}",
            ])
        self.assertIn(f",{OTHER},", ran("who_at.py", self.file("q.csv", "2026-11-10,203.0.113.1,1232\n"), *words)[1])

    @unittest.skipUnless(shutil.which("git"), "no git")
    def test_a_table_in_git(self):
        folder = self.folder.name
        git = ["git", "-C", folder, "-c", "user.name=n", "-c", "user.email=e@example.com"]
        subprocess.run([*git, "init", "-q"], check=True)
        for day, text in (("01", self.texts[0]), ("10", self.texts[1])):
            self.file("table.toml", text)
            subprocess.run([*git, "add", "table.toml"], check=True)
            when = {**os.environ, "GIT_COMMITTER_DATE": f"2026-11-{day}T00:00:00Z"}
            subprocess.run([*git, "commit", "-q", "-m", day], check=True, env=when)
        commits = subprocess.run([*git, "log", "--format=%H"], capture_output=True, text=True, check=True).stdout.split()
        asked = self.file("q.csv", "".join(f"2026-{day}T12:00:00Z,203.0.113.1,1232\n" for day in ("10-31", "11-09", "11-10")))
        code, out, error = ran("who_at.py", asked, "--git", self.file("table.toml"))
        self.assertEqual((code, error), (0, ""))
        self.assertEqual([line.split(",")[3:] for line in out.splitlines()], [["no-table", ""], [B4, commits[1]], [OTHER, commits[0]]])
        self.assertEqual(ran("who_at.py", asked, "--git", self.file("q.csv"))[0], 2)

    def test_wrong_questions(self):
        table = self.file("a.toml", self.texts[0])
        for line, said in (("now,1.2.3.4,5", "'now' is no time"), ("1,1.2.3,5", "is not an IPv4 address"), ("1,1.2.3.4,65536", "above 65535"), ("1,1.2.3.4", "columns here: 2")):
            code, out, error = ran("who_at.py", self.file("q.csv", f"\n{line}\n"), f"0={table}")
            self.assertEqual((code, out), (1, ""))
            self.assertIn(f"q.csv:2: ", error)
            self.assertIn(said, error)
        for words in ((), ("table",), ("x=table",), (f"0={table}", "--git", table)):
            self.assertEqual(ran("who_at.py", self.file("q.csv", ""), *words)[0], 2)


@TSHARK
class Dissecting(Folder):
    def tshark(self, names, *words):
        return subprocess.run(
            ["tshark", "-X", f"lua_script:{HERE}/lwaftr.lua", "-X", f"lua_script1:{names[2]}", "-r", names[0], *words], capture_output=True, text=True, check=False
        )

    def test_each_verdict_is_a_field(self):
        names = self.run_program([data for data, _, _ in one_of_each_rule()], a_table())
        fields = [f"-e{it}" for it in ("frame.number", "lwaftr.table", "lwaftr.verdict", "lwaftr.rule", "lwaftr.packets", "lwaftr.never")]
        it = self.tshark(names, "-T", "fields", "-E", "separator=/s", *fields)
        self.assertEqual(it.returncode, 0, it.stderr)
        with open(names[2], encoding="ascii") as file:
            lines = file.read().splitlines()
        never = {line.split()[1] for line in lines if line.startswith("unfinished")}
        wanted = []
        for words in (line.split() for line in lines if line[0].isdigit()):
            rule = words[3] if words[2] == "drop" else ""
            wanted.append(f"{int(words[0]) + 1} {words[1]} {words[2]} {rule} {words[-1]} {'unfinished' if words[0] in never else ''}")
        self.assertEqual([line.rstrip("\n") for line in it.stdout.splitlines()], wanted)

    def test_the_packets_of_a_rule(self):
        names = self.run_program([data for data, _, _ in one_of_each_rule()], a_table())
        it = self.tshark(names, "-Y", 'lwaftr.rule == "no-binding"', "-w", self.file("part.pcap"), "-F", "pcap")
        self.assertEqual(it.returncode, 0, it.stderr)
        self.assertEqual(len(list(captures.records(self.file("part.pcap")))), 3)

    def test_a_file_that_is_no_verdicts(self):
        names = self.run_program([ip4(FAR, SHARED, 17, udp(53, 1232))], a_table())
        it = self.tshark([names[0], names[1], names[4]])
        self.assertIn("has a line that is none of VERDICTS: version = 2", it.stderr)
