"""tools/scenario --coverage, on the plain interpreter; most of it is seen on the built programs, in stored_cover.py."""

from __future__ import annotations

import os
import unittest

from coverage_files import PRESSED, CoverageTest
from scenario_files import LAMP
from lib.hammer.cases import file_text, journal_text
from lib.hammer.plain.judge import answer
from lib.scenario.coverage import Suite, covered

OTHER = "XIO(Button)OTE(Lamp);"


class Coverage(CoverageTest):
    built = False

    def test_one_scenario(self) -> None:
        called = self.call(self.scenario(*PRESSED), "--coverage", self.file)
        self.assertEqual((called.status, called.err), (0, ""))
        self.assertEqual(called.out.replace(self.room, "").splitlines()[-1], "coverage of /lamp.json: 4 instructions, 0 never executed, 1 never true")
        self.assertIn("         0         3      MOV(1,n)  (never true)\n", self.written())
        self.assertTrue(self.written().startswith("/lamp.json, run by 1 scenario\n\n"))

    def test_no_program(self) -> None:
        os.remove(f"{self.programs}/logix_cover")
        for path in (self.suite(), self.scenario(*PRESSED)):
            called = self.call(path, "--coverage", self.file)
            self.assertEqual((called.status, called.out, os.path.exists(self.file)), (70, "", False))
            self.assertRegex(called.err, "^scenario: there is no program logix_cover at .*: run tools/prove, ")
        self.assertEqual(self.call(self.scenario(*PRESSED)).status, 0)

    def test_a_journal_that_is_too_long(self) -> None:
        self.counts_by("echo journal J4 line 9\nexit 3")
        called = self.call(self.scenario(*PRESSED), "--coverage", self.file)
        self.assertEqual((called.status, called.err), (0, ""))
        self.assertEqual(self.written(), "not counted: /day.scenario: it has more events than a journal may have\n")


class Sums(CoverageTest):
    """Runs that are counted without a scenario."""

    built = False

    def run_of(self, name: str, *journal: str):
        contents = file_text({**LAMP, "programs": self.programs_of(name)})
        text = journal_text([*journal, "end"])
        return covered(self.put(name, contents.decode()), answer(["cover"], [contents, text])[1], contents, text)

    @staticmethod
    def programs_of(name: str) -> list[dict]:
        return [{**LAMP["programs"][0], "routines": [{"name": "Go", "rungs": ["XIC(Button)OTE(Lamp);", "NOP();"] if name == "a.json" else [OTHER]}]}]

    def test_own_rungs_are_summed(self) -> None:
        """Three scans with the project's rungs; one with an edited first rung and one more before; then one that an edit left alone."""
        suite = Suite()
        suite.add("1", self.run_of("a.json", "mode run", "cpu 15"))
        edits = ["@0 accept Main Go i 0 AFI(); | r 0 " + OTHER, "@0 test Main", "cpu 6", "@0 cancel Main", "cpu 5"]
        suite.add("2", self.run_of("a.json", "mode run", *edits))
        suite.add("3", self.run_of("b.json", "mode run", "cpu 2"))
        suite.add("4", None)
        text = suite.text().replace(self.room, "")
        a, b = text.split("/b.json, ")
        for line in ("/a.json, run by 2 scenarios\n  3 steps executed rungs that edits brought\n\n", "  4         0      XIC(Button)\n", "  0         4      OTE(Lamp)  (never true)\n",
                     "  5         0      NOP()\n"):  # fmt: skip
            self.assertIn(line, a)
        self.assertIn("run by 1 scenario\n\nMain / Go\n", b)
        self.assertTrue(b.endswith("\n\nnot counted: 4: it was not run\n"))
        self.assertEqual([line.replace(self.room, "") for line in suite.summary()], [
            "coverage of /a.json: 3 instructions, 0 never executed, 1 never true",
            "coverage of /b.json: 2 instructions, 1 never executed, 0 never true", "coverage: not counted: 4: it was not run",
        ])  # fmt: skip


if __name__ == "__main__":
    unittest.main()
