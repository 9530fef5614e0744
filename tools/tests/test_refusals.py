"""What is said of refused projects and journals: those of refused_projects.py and refused_journals.py, by the plain reading of the rules."""

from __future__ import annotations

import json
import os
import random
import re
import tempfile
import unittest

import common  # noqa: F401 (where the tools are)
import refused_journals
import refused_projects
from lib.hammer.bent import Bender
from lib.hammer.made import Maker
from lib.hammer.plain import judge
from lib.hammer.plain.project import Project
from lib.hammer.plain.reader import Fault
from lib.places import running
from lib.places.ended import ended


def refusal(contents: bytes) -> str:
    """The line that the rules give."""
    try:
        Project(contents)
    except Fault as fault:
        return fault.line()
    return ""


class Refusals(unittest.TestCase):
    def setUp(self) -> None:
        room = tempfile.TemporaryDirectory()
        self.addCleanup(room.cleanup)
        self.addCleanup(os.chdir, os.getcwd())
        os.chdir(room.name)
        self.maxDiff = None

    def put(self, name: str, contents: bytes) -> None:
        with open(name, "wb") as file:
            file.write(contents)

    def test_each_project(self) -> None:
        for case in refused_projects.CASES:
            with self.subTest(case.name):
                self.put("line.json", case.contents())
                self.assertEqual(refusal(case.contents()), case.line)
                if case.line:
                    told = said("logix", ["check", "line.json"], 2, case.line)
                    self.assertEqual(told, refused_projects.IS_REFUSED + case.said)

    def test_each_journal(self) -> None:
        project = refused_projects.LINE.encode()
        self.put("line.json", project)
        for case in refused_journals.CASES:
            with self.subTest(case.name):
                self.put("line.txt", case.contents())
                status, text = judge.answer(["replay"], [project, case.contents()])
                self.assertEqual((status, text if status else "\n"), (3 if case.line else 0, case.line + "\n"))
                told = said("logix", ["replay", "line.json", "line.txt"], status, text)
                self.assertEqual(told, (refused_journals.IS_REFUSED if case.line else "") + case.said)

    def test_made_refusals_have_their_place(self) -> None:
        for seed in range(400):
            contents = made(seed)
            line = refusal(contents)
            if line:
                with self.subTest(seed=seed, line=line):
                    self.put("made.json", contents)
                    told = said("logix", ["check", "made.json"], 2, line).splitlines()
                    self.assertRegex(told[1], r"^made.json, line \d+.*: .*\S$")
                    self.assertNotRegex(told[1], "changed since|this instruction|names nothing")
                    codes = [at for at, one in enumerate(told) if re.match(r"[A-Z]\d+: .*\. To do: .*[.?]$", one)]
                    self.assertEqual(codes, [len(told) - 1])


def made(seed: int) -> bytes:
    """A made project with faults."""
    draw = random.Random(seed)
    project = Maker(draw, 0.1).project()
    return Bender(draw).value(project) if draw.random() < 0.5 else json.dumps(project, indent=1).encode()


def said(program: str, words: list[str], status: int, text: str) -> str:
    """What a terminal shows of a call that wrote this text."""
    report = running.report_of(program, words)
    for line in text.splitlines() if report else ():
        report.take(line)
    told = ended(program, words, status, text.partition("\n")[0], report)
    return f"{program}: " + "\n".join(told) + "\n" if told else ""


if __name__ == "__main__":
    unittest.main()
