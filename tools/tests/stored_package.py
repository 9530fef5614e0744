"""The Debian package of the built programs: made, judged by lintian, installed into a folder, run there as a user would, and removed.

The gate runs this after `rt ci`. What isn't on the machine is passed over.
"""

import glob
import os
import pty
import re
import shutil
import signal
import subprocess
import sys
import tempfile
import unittest
import urllib.request

from common import TOP, read_bytes

NEEDED = ("dpkg", "dpkg-deb", "readelf", "strip")


@unittest.skipUnless(all(map(shutil.which, NEEDED)), "this machine makes no Debian packages")
class Package(unittest.TestCase):
    @classmethod
    def setUpClass(cls):
        cls.folder = tempfile.TemporaryDirectory()
        made = subprocess.run([f"{TOP}/tools/package", cls.folder.name], capture_output=True, text=True, timeout=300, check=False)
        if made.returncode != 0:
            cls.folder.cleanup()
            raise AssertionError(made.stderr)
        cls.package = made.stdout.strip()

    @classmethod
    def tearDownClass(cls):
        cls.folder.cleanup()

    def test_it_has_one_file(self):
        self.assertEqual(glob.glob(f"{self.folder.name}/*"), [self.package])

    @unittest.skipUnless(shutil.which("lintian"), "lintian isn't there")
    def test_lintian_finds_no_error(self):
        words = ["lintian", "--allow-root", "--fail-on", "error", self.package]
        ran = subprocess.run(words, stdout=subprocess.PIPE, stderr=subprocess.STDOUT, text=True, timeout=300, check=False)
        self.assertEqual(ran.returncode, 0, ran.stdout)

    @unittest.skipUnless(os.geteuid() == 0, "only root installs a package")
    def test_installed_run_and_removed(self):
        with tempfile.TemporaryDirectory() as root:
            os.makedirs(f"{root}/var/lib/dpkg/info")
            os.makedirs(f"{root}/var/lib/dpkg/updates")
            os.makedirs(f"{root}/var/log")
            open(f"{root}/var/lib/dpkg/status", "wb").close()
            self.dpkg(root, "--force-depends", "--install", self.package)
            self.runs_an_example(root)
            self.talks_with_the_plant(root)
            self.explains_a_refusal(root)
            self.takes_an_export(root)
            self.says_who_writes(root)
            self.helps(root)
            self.names_its_own_commands(root)
            self.plays_scenarios(root)
            self.counts_executions(root)
            self.draws_rungs(root)
            self.goes_online(root)
            self.dpkg(root, "--purge", "logix")
            left = [path for path in glob.glob(f"{root}/**", recursive=True) if os.path.isfile(path) and "/var/" not in path]
            self.assertEqual(left, [])

    def dpkg(self, root, *words):
        ran = subprocess.run(["dpkg", f"--root={root}", *words], stdout=subprocess.PIPE, stderr=subprocess.STDOUT, timeout=120, check=False)
        self.assertEqual(ran.returncode, 0, ran.stdout)

    def runs_an_example(self, root):
        example = f"{root}/usr/share/doc/logix/examples/conveyor"
        words = [f"{root}/usr/bin/logix", "replay", f"{example}/project.json", f"{example}/journal.txt"]
        ran = subprocess.run(words, capture_output=True, timeout=60, check=False)
        self.assertEqual((ran.returncode, ran.stdout, ran.stderr), (0, read_bytes(f"{example}/report.txt"), b""))
        drawn = subprocess.run([f"{root}/usr/bin/logix_timeline"], input=ran.stdout, capture_output=True, timeout=60, check=False)
        self.assertEqual((drawn.returncode, drawn.stdout), (0, read_bytes(f"{example}/report.svg")))

    def talks_with_the_plant(self, root):
        example = f"{root}/usr/share/doc/logix/examples/plant"
        words = [sys.executable, f"{example}/plant.py"]
        path = f"{root}/usr/bin:{os.environ['PATH']}"
        ran = subprocess.run(words, env={**os.environ, "PATH": path}, capture_output=True, timeout=60, check=False)
        self.assertEqual((ran.returncode, ran.stdout, ran.stderr), (0, read_bytes(f"{example}/table.txt"), b""))

    def explains_a_refusal(self, root):
        with tempfile.NamedTemporaryFile() as project:
            ours, theirs = pty.openpty()
            words = [f"{root}/usr/bin/logix", "check", project.name]
            ran = subprocess.run(words, stdout=subprocess.PIPE, stderr=theirs, timeout=60, check=False)
            os.close(theirs)
            said = os.read(ours, 4096)
            os.close(ours)
        self.assertEqual((ran.returncode, ran.stdout), (2, b"project P1\n"))
        self.assertIn(b", line 1, column 1: there is no project", said)
        self.assertIn(b"P1: the text isn't JSON", said)
        ran = subprocess.run([f"{root}/usr/bin/logix_explain", "P1"], capture_output=True, timeout=60, check=False)
        self.assertEqual((ran.returncode, ran.stdout[:4]), (0, b"P1: "))

    def plays_scenarios(self, root):
        ran = subprocess.run([f"{root}/usr/bin/logix_scenario", f"{root}/usr/share/doc/logix/examples"], capture_output=True, text=True, timeout=60, check=False)
        self.assertEqual((ran.returncode, ran.stderr), (0, ""), ran.stdout)
        self.assertRegex(ran.stdout, r"(\d+) scenarios: \1 ok, 0 FAIL")
        report = f"{root}/usr/share/doc/logix/examples/conveyor/report.txt"
        ran = subprocess.run([f"{root}/usr/bin/logix_compare", report, report], capture_output=True, timeout=60, check=False)
        self.assertEqual((ran.returncode, ran.stdout, ran.stderr), (0, b"", b""))

    def counts_executions(self, root):
        if not os.path.exists(f"{root}/usr/libexec/logix/logix_cover"):
            return
        words = [f"{root}/usr/bin/logix_cover", *(f"{root}/usr/share/doc/logix/examples/blink/{name}" for name in ("project.json", "edit.txt"))]
        ran = subprocess.run(words, capture_output=True, text=True, timeout=60, check=False)
        self.assertEqual((ran.returncode, ran.stderr, ran.stdout.splitlines()[-1].split()[-3:]), (0, "", ["4", "0", "1"]))

    def takes_an_export(self, root):
        words = [f"{root}/usr/bin/logix_from_l5x", f"{root}/usr/share/doc/logix/examples/l5x/line.L5X"]
        ran = subprocess.run(words, capture_output=True, timeout=60, check=False)
        self.assertEqual(ran.returncode, 0, ran.stderr)
        self.assertRegex(ran.stderr, rb"^summary: 8 of 8 rungs, [^\n]*\ncheck: ok tasks 3 ")

    def says_who_writes(self, root):
        words = [f"{root}/usr/bin/logix_xref", f"{root}/usr/share/doc/logix/examples/blink/project.json", "Lamp"]
        ran = subprocess.run(words, capture_output=True, timeout=60, check=False)
        self.assertEqual((ran.returncode, ran.stdout), (0, b"Lamp\n  write Main Go 0 1 OTE  XIC(Button)OTE(Lamp);\n"))

    def helps(self, root):
        version = re.search(r"_(0\.\d+)_", self.package).group(1)
        for name in ("logix", "logix_live", "logix_timeline", "logix_wave"):
            words = [f"{root}/usr/bin/{name}", "--version"]
            ran = subprocess.run(words, capture_output=True, text=True, timeout=60, check=False)
            self.assertEqual((ran.returncode, ran.stdout, ran.stderr), (0, f"{name} {version}\n", ""))
        ran = subprocess.run([f"{root}/usr/bin/logix", "--help"], capture_output=True, text=True, timeout=60, check=False)
        self.named(root, ran.stdout)

    def names_its_own_commands(self, root):
        """The pages name commands and files that are there, and none of the repository's."""
        pages = [f"{root}/usr/share/doc/logix/README.md", *glob.glob(f"{root}/usr/share/doc/logix/examples/**/README.md", recursive=True)]
        self.assertGreater(len(pages), 15)
        for page in pages:
            self.named(root, read_bytes(page).decode())

    def named(self, root, text):
        self.assertNotRegex(text, r"\./logix|\btools/|(?<![/\w])docs/")
        for command in re.findall(r"\blogix_(?!VERSION)\w+", text):
            self.assertTrue(os.path.isfile(f"{root}/usr/bin/{command}"), command)
        for path in re.findall(r"/usr/share/[\w./-]*\w", text):
            self.assertTrue(os.path.exists(root + path.partition("/FOLDER")[0]), path)

    def draws_rungs(self, root):
        words = [f"{root}/usr/bin/logix_ladder", f"{root}/usr/share/doc/logix/examples/conveyor/project.json", "Conveyor", "Count"]
        ran = subprocess.run(words, capture_output=True, timeout=60, check=False)
        self.assertEqual((ran.returncode, ran.stderr, ran.stdout[:4]), (0, b"", b"<svg"))
        self.assertIn(b">Conveyor / Count<", ran.stdout)

    def goes_online(self, root):
        words = [f"{root}/usr/bin/logix_online", f"{root}/usr/share/doc/logix/examples/conveyor/project.json"]
        with subprocess.Popen(words, stdout=subprocess.PIPE, stderr=subprocess.PIPE) as process:
            address = process.stdout.readline().decode().strip()
            for name, wanted in (("", b"<!doctype html>"), ("page.js", b"// The page"), ("layout", b'{"title": "project.json", "proved": true')):
                with urllib.request.urlopen(address + name, timeout=60) as answer:
                    self.assertTrue(answer.read().startswith(wanted), name)
            process.send_signal(signal.SIGINT)
            self.assertEqual((process.wait(60), process.stderr.read()), (0, b""))


if __name__ == "__main__":
    unittest.main()
