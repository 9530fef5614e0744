"""Explorations by the built program: the machines of examples/never, and questions that are refused. The gate runs this after `rt ci`. Words and
files that don't come are in stored_explore_program.py, answers worked out by hand in the hammer's explore_rules.py.
"""

from __future__ import annotations

import os
import subprocess
import unittest
from types import SimpleNamespace

import stored_runs
from common import TOOLS, TOP, built, read_bytes
from explore_files import MACHINES, NEVER, REFUSED, TAKEN, TRANSIENT, TRANSIENT_SHOWN, head, machine
from lib.hammer.cases import journal_text
from lib.hammer.explores import Moment, single
from lib.hammer.plain.journal import Script, read_journal
from lib.hammer.plain.project import Project
from lib.hammer.plain.question import Question

NAME = "logix_explore"
is_built = unittest.skipUnless(os.access(built(NAME), os.X_OK), f"{NAME} isn't built")


@is_built
class Explored(stored_runs.StoredRun):
    def asked(self, *contents: bytes) -> tuple[int, bytes]:
        """The status and the text of an answer to files of these contents."""
        words = [built(NAME), *(self.put(f"{at}.txt", one) for at, one in enumerate(contents))]
        ran = subprocess.run(words, capture_output=True, timeout=600, check=False)
        self.assertEqual(ran.stderr, b"")
        return ran.returncode, ran.stdout

    def report(self, project: bytes, journal: bytes) -> bytes:
        words = [built("logix"), "replay", self.put("p.json", project), self.put("j.txt", journal)]
        return subprocess.run(words, stdout=subprocess.PIPE, timeout=60, check=True).stdout

    def shows(self, answer: tuple[int, bytes], shown: tuple[int, int, int]) -> None:
        self.assertEqual((answer[0], answer[1].decode().split("\n")[0]), (8, head(shown)))

    def witnesses(self, contents: list[bytes], journal: bytes, shown: tuple[int, int, int]) -> None:
        """The journal is one of the script's, and the line holds after its last event, none before; by the plain interpreter, and its report ends there."""
        project = Project(contents[0])
        moment = Moment(SimpleNamespace(project=project, script=Script(contents[1]), question=Question(project, contents[2])))
        for at, event in enumerate(single(read_journal(journal))):
            moment.make(at, event)
        line, step, tick = shown
        self.assertEqual((moment.shown, moment.steps, moment.ticks), (line - 1, step, tick))
        self.assertEqual(self.report(contents[0], journal).splitlines()[-1], f"end {tick} {step} run lost 0".encode())

    def test_machines(self) -> None:
        for name, (_, shown) in MACHINES.items():
            answer = self.asked(*machine(name))
            if shown is None:
                self.assertEqual(answer, (0, b"never 1\n"), name)
            else:
                self.shows(answer, shown)
                self.witnesses(machine(name), answer[1], shown)

    def test_the_stored_witnesses(self) -> None:
        """There may be several of as few steps: these are witnesses too, with their reports."""
        for name, (files, shown) in MACHINES.items():
            if shown:
                stored = f"{NEVER}/{files[0].removesuffix('.json')}"
                journal = read_bytes(f"{stored}.witness.txt")
                self.assertEqual(journal.split(b"\n")[0].decode(), head(shown), name)
                self.witnesses(machine(name), journal, shown)
                self.assertEqual(self.report(machine(name)[0], journal), read_bytes(f"{stored}.report.txt"), name)

    def test_a_transient_is_left_out_at_the_end_of_scans(self) -> None:
        project, script, question = machine("edit, mended")
        self.shows(self.asked(project, script, TRANSIENT), TRANSIENT_SHOWN)
        self.assertEqual(self.asked(project, script, question), (0, b"never 1\n"))

    def test_a_window(self) -> None:
        """The starter's answer, due at tick 2, has come before reverse is pressed, unless it may come two ticks late."""
        project, script, question = machine("interlock")
        self.assertEqual(self.asked(project, script, b"within 1\n" + question), (0, b"never 1\n"))
        self.shows(self.asked(project, script, b"within 2\n" + question), (1, 95, 4))

    def test_questions_that_are_refused(self) -> None:
        project, script = machine("edit")[:2]
        for question, cause in REFUSED:
            self.assertEqual(self.asked(project, script, question.encode()), (3, f"question {cause}\n".encode()), question[:80])

    def test_questions_that_are_taken(self) -> None:
        """Of a script without steps to speak of; what holds at the opening is told."""
        project, script = machine("edit")[0], journal_text(["run 1 1 0", "end"])
        for question, lines in TAKEN:
            status, text = self.asked(project, script, question.encode())
            self.assertIn((status, text.split(b"\n")[0]), ((0, f"never {lines}".encode()), (8, b"# line 1 after step 0, tick 0")), question[:80])

    def test_each_file_is_refused_before_the_next_is_read(self) -> None:
        project, script, _ = machine("interlock")
        self.assertEqual(self.asked(b"x", b"x", b"x"), (2, b"project P1\n"))
        self.assertEqual(self.asked(project, b"x", b"x"), (3, b"script J1 line 1\n"))
        self.assertEqual(self.asked(project, script, b"x"), (3, b"question Q1 line 1\n"))


@unittest.skipUnless(os.access(built("logix_timeline"), os.X_OK), "logix_timeline isn't built")
class Picture(unittest.TestCase):
    def test_the_first_page_has_the_stored_witness(self) -> None:
        words = [f"{TOOLS}/with_project", built("logix_timeline"), "--project", f"{NEVER}/interlock.json", "--width", "1000"]
        drawn = subprocess.run(words, input=read_bytes(f"{NEVER}/interlock.report.txt"), stdout=subprocess.PIPE, timeout=60, check=True).stdout
        self.assertEqual(drawn, read_bytes(f"{TOP}/docs/never.svg"))


if __name__ == "__main__":
    unittest.main()
