"""Controllers that go wrong under tools/scenario: each run ends, with a status and a sentence, and nothing is told of what it didn't do."""

from __future__ import annotations

import os
import shlex
import stat
import sys
import time
from unittest import mock

from common import TESTS, TOOLS
from scenario_files import ScenarioTest
from lib.programs import Astray
from lib.scenario import bounded
from lib.scenario.refusals import refusal_of
from lib.scenario.session import checked

BAD = f"{TOOLS}/lib/hammer/bad_live.py"
COUNTS = (0, 1, 3)  # lines that are right
ENDED = "scenario: the controller was ended by --seconds: it "


class Controllers(ScenarioTest):
    built = False

    def bad(self, how: str, count: int, seconds: str = "60"):
        """A call with a controller that goes wrong after so many lines of its answers."""
        words = [sys.executable, "-B", BAD, how, str(count), f"{self.room}/plain_live"]
        for name, called in (("plain_live", [sys.executable, "-B", f"{TESTS}/plain_live.py"]), ("programs/logix_live", words)):
            with open(f"{self.room}/{name}", "w", encoding="utf-8") as file:
                file.write(f'#!/bin/sh\nexec {shlex.join(called)} "$@"\n')
            os.chmod(f"{self.room}/{name}", stat.S_IRWXU)
        refusal_of.cache_clear()
        lines = ("at 50: Button = 1 for 30", "run 100", "require", "at 50: Lamp = 1")
        return self.call(self.scenario(*lines), "--seconds", seconds)

    def test_one_that_says_nothing_more(self) -> None:
        for how in ("hangs", "half", "other", "closes", "deaf", "lines"):
            for count in COUNTS if how == "hangs" else COUNTS[1:2]:
                began = time.monotonic()
                with mock.patch.object(bounded, "GRACE", 0.5):
                    called = self.bad(how, count, "0.8")
                self.assertLess(time.monotonic() - began, 20)
                self.assertEqual((called.status, called.out, called.err[: len(ENDED)]), (1, "", ENDED), (how, count))

    def test_answers_that_are_no_lines_of_a_report(self) -> None:
        for how in ("rubbish", "double"):
            for count in COUNTS:
                called = self.bad(how, count)
                self.assertEqual((called.status, called.out), (1, ""), (how, count))
                self.assertRegex(called.err, "^scenario: the controller was ended: it answered ")

    def test_a_report_and_none(self) -> None:
        report = b"0 0 reply 31 ok\n0 1 begin Cont Main 0\n0 3 set Lamp -1\n9 9 fault minor 6/3 E -\nend 9 9 run lost 0\n"
        self.assertEqual(checked(report), report)
        self.assertEqual(checked(b"end 0 0 program lost 0\n"), b"end 0 0 program lost 0\n")
        for wrong in (b"", b"\n", report[:-1], report[:-20], b"\n" + report, report + report, report.replace(b"set", b"sat"), report.replace(b"0 3", b"x 3")):
            with self.assertRaises(Astray):
                checked(wrong)

    def test_one_that_is_ended_by_a_signal(self) -> None:
        for count in COUNTS:
            called = self.bad("signal", count)
            self.assertEqual((called.status, called.out), (6, ""), count)
            self.assertRegex(called.err, "^scenario: the controller.* was ended by signal 9( at the project .*)?\n$")

    def test_a_status_of_its_own(self) -> None:
        for count in COUNTS:
            called = self.bad("ends 4", count)
            self.assertEqual((called.status, called.out), (4, ""), count)
            self.assertRegex(called.err, "^scenario: the controller.* ended with status 4")
