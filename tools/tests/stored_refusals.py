"""Refusals of the built programs on a terminal: the projects and journals of refused_projects.py and refused_journals.py, and what else is
said there. What the programs write, and their statuses, are those of the rules.

The gate runs this after `rt ci`.
"""

import json
import re
import subprocess
import unittest

from common import TOP, RoomTest, built
import refused_journals
import refused_projects
from terminal import on_terminal

LOGIX = built("logix")
AUDIT = f"{TOP}/examples/audit"
TWO_STATIONS = f"{TOP}/examples/two_stations"


class Terminal(RoomTest):
    def setUp(self):
        super().setUp()
        self.put("line.json", refused_projects.LINE)

    def logix(self, *words):
        """The built program, as ./logix runs it."""
        status, out, said = on_terminal([f"{TOP}/tools/run_explained", LOGIX, *words], cwd=self.room)
        return status, out.decode(), said


class Refused(Terminal):
    def test_each_project(self):
        for case in refused_projects.CASES:
            with self.subTest(case.name):
                self.put("line.json", case.contents())
                status, out, said = self.logix("check", "line.json")
                if case.line:
                    self.assertEqual((status, out, said), (2, case.line + "\n", refused_projects.IS_REFUSED + case.said))
                else:
                    self.assertEqual((status, out[:3], said), (0, "ok ", ""))

    def test_each_journal(self):
        for case in refused_journals.CASES:
            with self.subTest(case.name):
                self.put("line.txt", case.contents())
                status, out, said = self.logix("replay", "line.json", "line.txt")
                if case.line:
                    self.assertEqual((status, out, said), (3, case.line + "\n", refused_journals.IS_REFUSED + case.said))
                else:
                    self.assertEqual((status, out.splitlines()[-1][:4], said), (0, "end ", case.said))

    def test_explain_says_the_same(self):
        for case in refused_projects.CASES[::6]:
            with self.subTest(case.name):
                self.put("line.json", case.contents())
                words = [f"{TOP}/tools/explain", "--project", "line.json", case.line]
                ran = subprocess.run(words, cwd=self.room, stdout=subprocess.PIPE, timeout=60, check=True)
                self.assertEqual(ran.stdout.decode(), case.said)


class Ended(Terminal):
    def test_as_a_user_calls_it(self):
        case = refused_projects.CASES[0]
        self.put("line.json", case.contents())
        status, out, said = on_terminal([f"{TOP}/logix", "check", "line.json"], cwd=self.room)
        self.assertEqual((status, out.decode(), said), (2, case.line + "\n", refused_projects.IS_REFUSED + case.said))

    def test_help_and_version(self):
        for word in ("--help", "help"):
            status, out, said = self.logix(word)
            self.assertEqual((status, said), (0, ""))
            usage = subprocess.run([LOGIX], stdout=subprocess.PIPE, text=True, check=False).stdout
            commands = [command.split()[0] for command in usage.removeprefix("usage: logix ").split(", ")]
            self.assertEqual(sorted(re.findall(r"^  logix (\w+)", out, re.MULTILINE)), sorted(commands))
        self.assertRegex(self.logix("--version")[1], r"^logix 0\.\d+\n$")

    def test_a_script(self):
        self.put("shift.txt", "run 100 10 2\n@0 5 in In1 0 1\n@0 4 in In1 0 0\nend\n")
        status, out, said = self.logix("run", "line.json", "shift.txt")
        self.assertEqual((status, out), (3, "script J5 line 3\n"))
        self.assertEqual(said.splitlines()[1:3], ["shift.txt, line 3: line 2, of the same lane, has 5", "    @0 4 in In1 0 0"])

    def test_a_run_with_a_refused_command(self):
        self.put("shift.txt", "run 100 10 1\n@0 0 in Inn1 0 1\nend\n")
        status, _, said = self.logix("run", "line.json", "shift.txt")
        self.assertEqual(status, 0)
        first = r"logix: 1 command is refused; it is line \d+ of the journal: there is no connection 'Inn1'; is In1 meant\?"
        self.assertRegex(said.splitlines()[0], f"^{first}$")

    def test_lost_lines(self):
        """A scan of one instruction has a begin, the instruction and an end: two lines in three steps, after the reply."""
        project = {
            "schema": 2, "controller": "C", "tags": [{"name": "n", "type": "DINT"}],
            "programs": [{"name": "P", "main": "M", "routines": [{"name": "M", "rungs": ["ADD(n,1,n);"]}]}],
            "tasks": [{"name": "T", "kind": "continuous", "programs": ["P"]}], "watch": ["n"],
        }  # fmt: skip
        self.put("count.json", json.dumps(project))
        self.put("count.txt", "mode run\ncpu 300000\nend\n")
        status, out, said = self.logix("replay", "count.json", "count.txt")
        self.assertEqual((status, out.splitlines()[-1]), (0, "end 0 300000 run lost 100001"))
        self.assertEqual(said, "logix: the report has lost 100,001 lines: it keeps 100,000. To do: watch less, or take fewer steps.\n")

    def test_a_trace_that_breaks_a_law(self):
        status, out, said = self.logix("audit", f"{AUDIT}/project.json", f"{AUDIT}/doctored.txt")
        self.assertEqual((status, out), (8, "no L1 4\n"))
        with open(f"{AUDIT}/doctored.txt", encoding="ascii") as file:
            line = file.read().splitlines()[4]
        self.assertTrue(said.splitlines()[1].startswith(f"{AUDIT}/doctored.txt, line 5: "))
        self.assertEqual(said.splitlines()[2], f"    {line}")

    def test_the_second_project_of_a_link(self):
        self.put("b.json", "{")
        status, out, said = self.logix("link", f"{TWO_STATIONS}/a.json", "b.json", f"{TWO_STATIONS}/link.txt")
        self.assertEqual((status, out), (2, "b project P1\n"))
        self.assertTrue(said.splitlines()[1].startswith("b.json, line 1, column 2: the text ends"))

    def test_a_picture_of_no_report(self):
        for tool in ("timeline", "wave"):
            status, out, said = on_terminal([f"{TOP}/tools/{tool}"], b"project P1\n")
            self.assertEqual((status, out), (2, b""))
            self.assertIn("V1: line N is no line of a report. To do: was it a refusal", said)


class Xref(Terminal):
    def test_it_is_contained_in_the_programs_list(self):
        for example, tag in (("conveyor", "Motor"), ("parameters", "Total"), ("conveyor", "StartPB")):
            project = f"{TOP}/examples/{example}/project.json"
            proved = subprocess.run([f"{TOP}/logix", "xref", project], stdout=subprocess.PIPE, text=True, timeout=60, check=True).stdout
            answer = subprocess.run([f"{TOP}/tools/xref", project, tag], stdout=subprocess.PIPE, text=True, timeout=60, check=True).stdout
            lines = {"  " + " ".join(line.split()[:6]) for line in answer.splitlines()[1:]}
            self.assertTrue(lines)
            self.assertLessEqual(lines, set(proved.splitlines()))

    def test_a_refused_project(self):
        self.put("line.json", "{}")
        ran = subprocess.run([f"{TOP}/tools/xref", "line.json"], cwd=self.room, stdout=subprocess.PIPE, timeout=60, check=False)
        self.assertEqual((ran.returncode, ran.stdout), (2, b"project P2 schema\n"))


if __name__ == "__main__":
    unittest.main()
