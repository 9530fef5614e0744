"""tools/costs: what a process is at work on, the table, and the status of the command."""

import re
import subprocess
import sys
import tempfile
import unittest

from common import TOP
from lib.costs.processes import Process, Run
from lib.costs.table import table_of
from lib.costs.work import Kind, Work, work_of

RATTLE = "/opt/rattle/bin/rattle"
HOME = "/work/crates/lgx_num"
EDIT = "/tmp/rt-edit-7-abc"


class Works(unittest.TestCase):
    def test_by_words_and_folder(self):
        build = [RATTLE, "build", "--crate-name", "lgx_num", "src/lib.rt", "-o"]
        check = [RATTLE, "check", "--crate-name", "lgx_num", "src/lib.rt"]
        over = [*check, "--incremental"]
        seeds = set()
        for words, folder, kind in [
            ([*build, "/x/rlib/lgx_num.rlib", "--empty-contracts"], HOME, Kind.PROOF),
            ([*build, "out/lgx_num"], HOME, Kind.COMPILE),
            (check, HOME, Kind.CHECK),
            ([*over, "/tmp/rt-edits-7-x/seed"], EDIT, Kind.SEED),
            ([*over, "/tmp/rt-edits-7-x/0"], EDIT, Kind.EDIT),
            ([*over, "/tmp/rt-edits-7-x/12"], EDIT, Kind.EDIT),
            ([*over, "/tmp/rt-edits-7-x/seed"], EDIT, Kind.SOUND),
            (check, EDIT, Kind.WHOLE),
        ]:
            self.assertEqual(work_of(words, folder, seeds), Work("lgx_num", kind), words)

    def test_of_others_nothing(self):
        for words in [[], ["python3", "rt", "ci"], [RATTLE, "fmt", "--crate-name", "a"], ["/bin/cat", "build", "--crate-name"]]:
            self.assertIsNone(work_of(words, HOME, set()))


class Tables(unittest.TestCase):
    def test_each_crate_and_the_whole(self):
        low, high = Work("low", Kind.PROOF), Work("high", Kind.PROOF)
        bug = Work("low", Kind.EDIT)
        run = Run(0, 90.0, 100.0, 20.0, [Process(low, 10.0), Process(bug, 2.5), Process(bug, 1.5), Process(high, 60.0), Process(None, 9.0)])
        lines = table_of(run).splitlines()
        self.assertEqual([line.split()[0] for line in lines[1:4]], ["high", "low", "all"])
        self.assertEqual(lines[2].split(), ["low", "10.0", "0.0", "0.0", "0.0", "4.0", "0.0", "0.0", "2", "14.0"])
        self.assertEqual(lines[3].split()[2:], ["70.0", "0.0", "0.0", "0.0", "4.0", "0.0", "0.0", "2", "74.0"])
        self.assertEqual(lines[4], "the whole: 1.5 min by the clock, 2.0 processor minutes (100 s user, 20 s system)")
        self.assertEqual(lines[5], "of them not the prover's: 46 s")


class Runs(unittest.TestCase):
    def costs(self, *words):
        with tempfile.NamedTemporaryFile("r") as file:
            ran = subprocess.run([f"{TOP}/tools/costs", "--to", file.name, "--", *words], capture_output=True, text=True, check=False)
            return ran, file.read()

    def test_output_and_status_are_the_command_s(self):
        ran, text = self.costs("sh", "-c", "echo 3 passed, 1 failed; exit 3")
        self.assertEqual((ran.returncode, ran.stdout, ran.stderr), (3, "3 passed, 1 failed\n", ""))
        self.assertIn("the whole: 0.0 min by the clock", text)

    def test_a_command_that_is_killed(self):
        self.assertEqual(self.costs("sh", "-c", "kill -9 $$")[0].returncode, 137)

    def test_no_such_command(self):
        ran, _ = self.costs("/nonexistent")
        self.assertEqual((ran.returncode, ran.stdout), (70, ""))
        self.assertIn("/nonexistent", ran.stderr)

    def test_what_children_used_is_in_the_whole(self):
        child = f"{sys.executable} -c 'import time\nwhile time.process_time() < 1.1: pass'"
        _, text = self.costs("sh", "-c", f"{child}; true")
        used = re.search(r"\((\d+) s user, (\d+) s system\)", text)
        self.assertGreaterEqual(int(used[1]) + int(used[2]), 1)


if __name__ == "__main__":
    unittest.main()
