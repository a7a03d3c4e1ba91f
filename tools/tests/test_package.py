"""The Debian package."""
import gzip
import os
import re
import shutil
import subprocess
import sys
import unittest

from shared import HERE, TOP, Folder


@unittest.skipUnless(shutil.which("dpkg-deb"), "no dpkg-deb")
class Packaging(Folder):
    def setUp(self):
        super().setUp()
        made = subprocess.run([os.path.join(TOP, "packaging", "deb.sh"), "--stale", self.folder.name], capture_output=True, text=True, check=False)
        self.assertEqual(made.returncode, 0, made.stderr)
        subprocess.run(["dpkg-deb", "-x", made.stdout.strip(), self.file("root")], check=True)
        self.pages = {}
        for name in ("doc/lwaftr/OPERATING.md", "doc/lwaftr/FORMATS.md", "lwaftr/help"):
            with open(self.file(f"root/usr/share/{name}"), encoding="utf-8") as file:
                self.pages[name] = file.read()
        with gzip.open(self.file("root/usr/share/man/man1/lwaftr.1.gz"), "rt", encoding="utf-8") as file:
            self.pages["man"] = file.read()

    def test_pages_name_what_is_installed(self):
        for name, page in self.pages.items():
            with self.subTest(page=name):
                self.assertEqual(re.findall(r"(?<![\w/])(?:\./lwaftr|tools/|docs/|examples/|\.\./).*", page), [])
                for path in re.findall(r"/usr/(?!local)[\w./-]*\w", page):
                    self.assertTrue(os.path.exists(self.file("root") + path) , path)

    def test_help_of_the_tools_names_what_is_installed(self):
        commands = sorted(it for it in os.listdir(self.file("root/usr/bin")) if it != "lwaftr")
        self.assertEqual(commands, sorted("lwaftr-" + it[:-3].replace("_", "-") for it in os.listdir(HERE) if it.endswith(".py")))
        for name in commands:
            command = self.file(f"root/usr/bin/{name}")
            it = subprocess.run([sys.executable, command, "--help"], capture_output=True, text=True, check=True)
            self.assertTrue(it.stdout.startswith(f"usage: {name} "), it.stdout)
            self.assertNotIn("tools/", it.stdout)
            with open(command, encoding="utf-8") as file:
                self.assertEqual(file.readline(), "#!/usr/bin/python3 -B\n")
            with gzip.open(self.file(f"root/usr/share/man/man1/{name}.1.gz"), "rt", encoding="utf-8") as file:
                page = file.read()
            self.assertIn(f".TH {name.upper()} 1", page)
            self.assertIn(".SH EXIT STATUS\n.nf\n  0  done", page)

    def test_every_option_of_a_tool_is_in_its_manual(self):
        for name in sorted(os.listdir(self.file("root/usr/share/man/man1"))):
            it = subprocess.run(["man", "--warnings", "-E", "UTF-8", "-l", "-Tutf8", "-Z", self.file(f"root/usr/share/man/man1/{name}")], capture_output=True, text=True, check=False)
            self.assertEqual((it.returncode, it.stderr), (0, ""), name)

    def test_words_of_the_maker(self):
        maker = os.path.join(TOP, "packaging", "deb.sh")
        it = subprocess.run([maker, "--help"], capture_output=True, text=True, check=False)
        self.assertEqual((it.returncode, it.stdout.startswith("usage: packaging/deb.sh"), it.stderr), (0, True, ""))
        self.assertEqual(subprocess.run([maker, "--nothing"], capture_output=True, check=False).returncode, 2)

    @unittest.skipUnless(shutil.which("zsh") and shutil.which("fish"), "no zsh or no fish")
    def test_completions_are_read_by_their_shells(self):
        share = self.file("root/usr/share")
        subprocess.run(["zsh", "-n", f"{share}/zsh/vendor-completions/_lwaftr"], check=True)
        it = subprocess.run(["fish", "--no-config", "-c", f"source {share}/fish/vendor_completions.d/lwaftr.fish; complete -C 'lwaftr mig'"], capture_output=True, text=True, check=True)
        self.assertIn("migrate", it.stdout)
