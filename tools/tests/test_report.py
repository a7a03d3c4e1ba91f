"""`report.py`."""
import json
import os
import re
import subprocess
import sys
import unittest

import browser
from shared import a_table, AFTR, captures, command, FAR, Folder, HERE, ip4, ip6, one_of_each_rule, PROGRAM, ran, SHARED, udp


class Reporting(Folder):
    def test_totals(self):
        cases = one_of_each_rule()
        names = self.run_program([data for data, _, _ in cases], a_table())
        code, out, error = ran("report.py", names[2], names[3], "--in", names[0], "--table", names[4])
        self.assertEqual(code, 0, error)
        self.assertIn(f"{len(cases)} records", out)
        self.assertRegex(out, r"no-binding +3 ")
        self.assertIn("0 " + names[4] + " initial", out)
        self.assertRegex(out, r"tunnel from 2001:db8:1::2: no-binding 1")

    def test_without_matplotlib(self):
        names = self.run_program([ip4(FAR, SHARED, 17, udp(53, 1232))], a_table())
        self.file("matplotlib.py", "raise ImportError\n")
        page, picture = self.file("page.html", "old"), self.file("page.png")
        it = subprocess.run(
            [sys.executable, os.path.join(HERE, "report.py"), names[2], "--html", page, "--png", picture],
            capture_output=True, text=True, env={**os.environ, "PYTHONPATH": self.folder.name}, check=False,
        )
        self.assertEqual((it.returncode, "matplotlib" in it.stderr), (2, True))
        self.assertFalse(os.path.exists(picture))
        with open(page, encoding="utf-8") as file:
            self.assertEqual(file.read(), "old")

    def test_a_file_that_is_no_verdicts(self):
        names = self.run_program([ip4(FAR, SHARED, 17, udp(53, 1232))], a_table())
        for wrong in (names[3], names[1], self.file("blank", "\n")):
            code, _, error = ran("report.py", wrong)
            self.assertEqual(code, 2)
            self.assertIn(f"{wrong}:1: this is no line of VERDICTS", error)

    def test_a_file_that_is_no_versions(self):
        names = self.run_program([ip4(FAR, SHARED, 17, udp(53, 1232))], a_table())
        for wrong in (names[0], names[2], names[4], self.file("blank", "\n")):
            code, out, error = ran("report.py", names[2], wrong)
            self.assertEqual((code, out), (2, ""))
            self.assertEqual(error, f"report.py: {wrong}:1: this is no line of VERSIONS; a capture is given by --in\n")
        lines = ["0 a table.toml initial", "- b.toml refused rules psid 0", "1 c.toml at 12", "- d.toml not-reached"]
        code, out, error = ran("report.py", names[2], self.file("four", "\n".join([*lines, ""])))
        self.assertEqual(code, 0, error)
        self.assertEqual(out.split("Tables\n")[1], "".join(f"  {it}\n" for it in lines))

    def test_a_capture_that_ends_before_its_verdicts(self):
        names = self.run_program([ip4(FAR, SHARED, 17, udp(53, 1232))] * 40, a_table())
        captures.write(self.file("other.pcap"), [(0, b"")] * 3)
        code, out, error = ran("report.py", names[2], "--in", self.file("other.pcap"))
        self.assertEqual((code, out), (2, ""))
        self.assertEqual(error, f"report.py: {names[2]} has more lines of records than {self.file('other.pcap')} has records (3)\n")

    def a_report(self, *more):
        names = self.run_program([data for data, _, _ in one_of_each_rule()], a_table(errors_down=True))
        words = names[2], names[3], "--in", names[0], "--out", names[1], "--table", names[4], *more
        code, out, error = ran("report.py", *words)
        self.assertEqual((code, error), (0, ""))
        return names, out

    def test_counters(self):
        names, out = self.a_report("--json", self.file("r.json"), "--prometheus", self.file("r.prom"))
        with open(self.file("r.json"), encoding="utf-8") as file:
            found = json.load(file)
        self.assertEqual(found["records"], len(one_of_each_rule()))
        self.assertEqual(found["rules"]["no-binding"]["packets"], 3)
        self.assertEqual(found["subscribers"]["tunnel from 2001:db8:1::2"], {"no-binding": 1})
        modules = os.path.join(HERE, "tests", "modules")
        leaves = "".join(command.text_of(os.path.join(modules, it)) for it in os.listdir(modules))
        for name in found["traffic-stat"]:
            self.assertIn(f"leaf {name} {{", leaves)
        # counted by hand from the list of packets: those whose first four bits are 4 or 6
        records = [it.bytes for it in captures.records(names[0])]
        for family, first in (("ipv4", 4), ("ipv6", 6)):
            its = [it for it in records if it and it[0] >> 4 == first]
            self.assertEqual(found["traffic-stat"][f"rcvd-{family}-packets"], len(its))
            self.assertEqual(found["traffic-stat"][f"rcvd-{family}-bytes"], sum(self.said(it) for it in its))
        sent = [it.bytes for it in captures.records(names[1])]
        stat = found["traffic-stat"]
        self.assertEqual(sum(stat[it] for it in ("sent-ipv4-packets", "sent-ipv6-packets", "out-icmpv4-error-packets")), len(sent))
        self.assertEqual(sum(stat[it] for it in ("sent-ipv4-bytes", "sent-ipv6-bytes", "out-icmpv4-error-bytes")), sum(map(len, sent)))
        self.assertEqual((stat["sent-ipv4-packets"], stat["sent-ipv6-packets"], stat["hairpin-ipv4-packets"]), (1, 2, 1))
        self.assertEqual(stat["hairpin-ipv4-bytes"], 32)
        with open(self.file("r.prom"), encoding="utf-8") as file:
            lines = file.read().splitlines()
        self.assertIn('lwaftr_dropped_packets_total{rule="no-binding"} 3', lines)
        self.assertIn("lwaftr_sent_ipv6_packets_total 2", lines)
        for line in lines:
            self.assertRegex(line, r'^(# (HELP|TYPE) lwaftr_\w+ .+|lwaftr_\w+(\{\w+="[\w-]+"\})? \d+)$')

    def said(self, data):
        """The length that a packet's header says, or that of what is there if it is less."""
        whole = 40 + int.from_bytes(data[4:6], "big") if data[0] >> 4 == 6 else int.from_bytes(data[2:4], "big")
        return min(len(data), whole)

    def test_reports_are_added(self):
        self.a_report("--json", self.file("one.json"))
        code, out, error = ran("report.py", "--add", self.file("one.json"), self.file("one.json"), "--json", "-")
        self.assertEqual((code, error), (0, ""))
        with open(self.file("one.json"), encoding="utf-8") as file:
            one = json.load(file)
        both = json.loads(out)
        self.assertEqual(both["records"], 2 * one["records"])
        self.assertEqual(both["traffic-stat"], {name: 2 * value for name, value in one["traffic-stat"].items()})
        self.assertEqual(both["rules"]["ttl"]["bytes"], 2 * one["rules"]["ttl"]["bytes"])
        self.assertIn(f"{2 * one['records']} records", ran("report.py", "--add", self.file("one.json"), self.file("one.json"))[1])
        for text in ("{}", "[]", "no", '{"kind": "lwaftr-report", "records": "x"}'):
            code, _, error = ran("report.py", "--add", self.file("one.json"), self.file("wrong.json", text))
            self.assertEqual((code, error.count("\n")), (2, 1), error)

    def test_out_of_another_run(self):
        names = self.run_program([ip4(FAR, SHARED, 17, udp(53, 1232))] * 3, a_table())
        captures.write(self.file("less.pcap"), [(0, b"\x45")])
        captures.write(self.file("more.pcap"), [(0, b"\x45")] * 9)
        for path, said in (("less.pcap", "tells of more packets than"), ("more.pcap", "has more records")):
            code, out, error = ran("report.py", names[2], "--in", names[0], "--out", self.file(path))
            self.assertEqual((code, out), (2, ""))
            self.assertIn(said, error)

    def test_a_page_needs_nothing_else(self):
        _, out = self.a_report("--html", self.file("page.html"))
        with open(self.file("page.html"), encoding="utf-8") as file:
            page = file.read()
        self.assertLess(len(page), 1_000_000)
        self.assertEqual(re.findall(r'(?:src|href)="[^"]*"|@import|url\(', page.split("</style>")[0]), [])
        self.assertNotRegex(page, r'<(?:script|img|link|iframe)[^>]*(?:src|href)=')
        self.assertIn("Released under the MIT License", page)
        self.assertIn("Permission is hereby granted", page)
        self.assertEqual(page.count("</script>"), 3)

    def test_names_end_no_script_and_no_text(self):
        names = self.run_program([ip4(FAR, SHARED, 17, udp(53, 1240))], a_table())
        versions = self.file("vs", "0 </script><script>alert(1)</script>&amp;<b>.toml initial\n")
        ran("report.py", names[2], versions, "--html", self.file("page.html"))
        with open(self.file("page.html"), encoding="utf-8") as file:
            page = file.read()
        self.assertNotIn("<script>alert", page)
        self.assertIn("&lt;script&gt;alert", page)

    @unittest.skipUnless(browser.PROGRAM, "no chromium")
    def test_the_page_in_a_browser(self):
        _, out = self.a_report("--html", self.file("page.html"))
        shown = browser.Browser(self.file("chromium"))
        self.addCleanup(shown.close)
        for width in (1280, 390):
            with self.subTest(width=width):
                shown.open(self.file("page.html"), width)
                self.fits(shown, width)
                self.numbers(shown, out)
                self.filters(shown, "ttl", "tunnel from 2001:db8:1::1")
        self.told_to_a_reader(shown)
        self.needs_nothing(shown)

    @unittest.skipUnless(browser.PROGRAM, "no chromium")
    def test_the_page_of_a_million_records(self):
        names = self.a_million_records()
        words = names[2], names[3], "--in", names[0], "--table", names[4], "--html", self.file("page.html"), "--most", "1000"
        code, out, error = ran("report.py", *words)
        self.assertEqual((code, error, out.partition(", ")[0]), (0, "", "1,000,000 records"))
        self.assertLess(os.path.getsize(self.file("page.html")), 1_000_000)
        shown = browser.Browser(self.file("chromium"))
        self.addCleanup(shown.close)
        for width in (1280, 390):
            with self.subTest(width=width):
                shown.open(self.file("page.html"), width)
                self.fits(shown, width)
                self.numbers(shown, out)
                self.filters(shown, "no-binding", "tunnel from 2001:db8:9::7")
        self.needs_nothing(shown)

    def a_million_records(self):
        """The files of a run: a capture of 1,000 parts that are alike but for their times, in which a tenth of the records is dropped."""
        first = 1_796_117_400_000_000_000
        part = [ip4(FAR, SHARED, 17, udp(53, 1232, bytes(40)), number=at) for at in range(900)]
        part += [ip6(f"2001:db8:9::{at % 400:x}", AFTR, 4, ip4(SHARED, FAR, 17, udp(1232, 53, bytes(40)))) for at in range(100)]
        part[100:128] = [data for data, _, _ in one_of_each_rule()][:28]
        names = self.run_program([], a_table())
        captures.write(names[0], ((first + 1_000_000 * (1000 * turn + at), data) for turn in range(1000) for at, data in enumerate(part)))
        subprocess.run([PROGRAM, "run", *names], check=True, capture_output=True)
        return names

    def fits(self, shown, width):
        """Nothing is cut off, and each chart has a place of its own."""
        self.assertLessEqual(shown.value("document.documentElement.scrollWidth"), width)
        cut = "[...document.querySelectorAll('.scroll')].filter((it) => it.scrollWidth > it.clientWidth).map((it) => it.firstElementChild.id)"
        self.assertEqual(shown.value(cut), [])
        for chart in ("c-outcomes", "c-drops", "c-rules"):
            area = shown.value(f"(({{ width, height }}) => [width, height])(Chart.getChart('{chart}').chartArea)")
            self.assertGreater(area[0], width / 2, chart)
            self.assertGreater(area[1], 100 if chart != "c-rules" else 40, chart)

    def needs_nothing(self, shown):
        """Nothing came on the console, and nothing but the page was fetched."""
        self.assertEqual(shown.errors, [])
        self.assertEqual([it.partition(":")[0] for it in set(shown.fetched)], ["file"])

    def numbers(self, shown, out):
        """The numbers of the page are those of the text."""
        rules = re.findall(r"(?m)^  ([a-z0-9-]+) +([\d,]+) +([\d.]+ %)$", out.split("Drops by rule")[1].split("answered")[0])
        self.assertEqual(self.rows(shown, "t-rules"), rules)
        outcomes = re.findall(r"(?m)^  (up|down|hairpin|held|drop) +([\d,]+) +([\d.]+ %)$", out)
        self.assertEqual(self.rows(shown, "t-outcomes"), outcomes)
        names = re.findall(r"(?m)^ +([\d,]+)  (.+): (.+)$", out.split("Most drops")[1])
        self.assertEqual(self.rows(shown, "t-subscribers"), [(name, count, kinds) for count, name, kinds in names])
        # the chart has them too
        for chart, kinds in (("c-outcomes", outcomes[:-1]), ("c-drops", rules), ("c-rules", rules)):
            label = shown.value(f"document.getElementById('{chart}').getAttribute('aria-label')")
            self.assertTrue(label.endswith(": " + ", ".join(f"{name} {count}" for name, count, _ in kinds)), label)

    def filters(self, shown, rule, subscriber):
        """A click on a rule filters the subscribers, and one on a subscriber the rules; the focus stays."""
        all_names = self.rows(shown, "t-subscribers")
        self.click(shown, "t-rules", rule)
        self.assertEqual([it[0] for it in self.rows(shown, "t-rules")], [rule])
        of_names = {name: dict(re.findall(r"([a-z0-9-]+) (\d{1,3}(?:,\d{3})*)", kinds)) for name, _, kinds in all_names}
        found = {name: kinds[rule] for name, kinds in of_names.items() if rule in kinds}
        self.assertEqual({name: count for name, count, _ in self.rows(shown, "t-subscribers")}, found)
        self.assertIn(subscriber, found)
        self.assertEqual(shown.value("document.activeElement.textContent + document.activeElement.getAttribute('aria-pressed')"), f"{rule}true")
        self.click(shown, "t-subscribers", subscriber)
        self.assertIn(rule, [it[0] for it in self.rows(shown, "t-rules")])
        self.assertIn(f"Only {subscriber}", shown.value("document.getElementById('filter').textContent"))
        shown.value("document.getElementById('all').click()")
        self.assertEqual(self.rows(shown, "t-subscribers"), all_names)
        shown.value("document.querySelector('#t-rules th:last-child button').click()")
        places = [int(it.replace(",", "")) for it in self.column(shown, "t-rules", 4)]
        self.assertGreater(len(places), 10)
        self.assertEqual(places, sorted(places, reverse=True))
        for scale in ("shares", "log", "counts"):
            shown.value(f"document.querySelector('[data-scale={scale}]').click()")
            pressed = shown.value("[...document.querySelectorAll('[data-scale]')].map((it) => it.dataset.scale + it.getAttribute('aria-pressed'))")
            self.assertEqual(sorted(pressed), sorted(it + str(it == scale).lower() for it in ("shares", "log", "counts")))

    def told_to_a_reader(self, shown):
        """What a screen reader is told: headings, tables with captions, pictures in words, and switches with their state."""
        roles = shown.roles()
        headings = [name for role, name in roles if role == "heading"]
        for name in ("in.pcap", "Outcomes", "Drops", "Subscribers with most drops", "What the rules mean", "Tables in force"):
            self.assertIn(name, headings)
        of = lambda wanted: [name for role, name in roles if role == wanted]  # noqa: E731
        self.assertEqual((len(of("table")), len(of("image"))), (4, 3))
        self.assertTrue(all(of("table")) and all(of("image")) and all(of("button")), roles)
        self.assertEqual(set(of("button")) & {"Counts", "Shares", "Logarithmic"}, {"Counts", "Shares", "Logarithmic"})
        self.assertEqual(len(of("status")), 1)

    def click(self, shown, table, text):
        shown.value(f"[...document.querySelectorAll('#{table} td button')].find((it) => it.textContent === '{text}').click()")

    def rows(self, shown, table):
        """The first three cells of each row of a table."""
        return [tuple(it) for it in shown.value(f"[...document.querySelectorAll('#{table} tbody tr')].map((it) => [...it.cells].slice(0, 3).map((cell) => cell.textContent))")]

    def column(self, shown, table, at):
        return shown.value(f"[...document.querySelectorAll('#{table} tbody tr')].map((it) => it.cells[{at}].textContent)")

    def test_a_picture(self):
        names = self.run_program([data for data, _, _ in one_of_each_rule()], a_table())
        try:
            import matplotlib  # noqa: F401
        except ImportError:
            self.skipTest("no matplotlib")
        code, _, error = ran("report.py", names[2], names[3], "--in", names[0], "--png", self.file("page.png"))
        self.assertEqual(code, 0, error)
        with open(self.file("page.png"), "rb") as file:
            self.assertEqual(file.read(8), b"\x89PNG\r\n\x1a\n")
