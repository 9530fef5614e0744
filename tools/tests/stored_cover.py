"""logix_cover as a process, tools/cover and tools/scenario --coverage on it. The gate runs this after `rt ci`."""

from __future__ import annotations

import json
import os
import re
import subprocess
import unittest
import xml.etree.ElementTree as trees

import stored_runs
from common import TOP, RoomTest, built, read_bytes, read_text
from coverage_files import PRESSED, RUNGS, CoverageTest
from lib.hammer.plain.judge import answer
from lib.paths import TOOLS

NAME = "logix_cover"
CONVEYOR = f"{TOP}/examples/conveyor"
FILES = [f"{CONVEYOR}/project.json", f"{CONVEYOR}/journal.txt"]
is_built = unittest.skipUnless(os.access(built(NAME), os.X_OK), f"{NAME} isn't built")


@is_built
class Program(stored_runs.StoredRun):
    def call(self, words, wanted: bytes, status: int, **more) -> None:
        self.runs(words, wanted, status, name=NAME, **more)

    def test_an_example(self) -> None:
        self.call(FILES, answer(["cover"], [read_bytes(path) for path in FILES])[1].encode(), 0)

    def test_statuses(self) -> None:
        bad, long = self.put("bad.txt", "cpu x\n"), self.put("long.json", b"")
        os.truncate(long, stored_runs.MOST_BYTES + 1)
        for words in ([], FILES[:1], [*FILES, "x"], [b"\xff", b"\xfe"]):
            self.call(words, b"usage: logix_cover P J\n", 1)
        self.call([FILES[1], "nothing"], b"project P1\n", 2)
        self.call([FILES[0], bad], b"journal J1 line 1\n", 3)
        for words in (["nothing", FILES[1]], [FILES[0], "nothing"], [FILES[0], ""]):
            self.call(words, b"", 4)
        self.call([long, FILES[1]], b"", 7)
        with open("/dev/full", "wb") as full:
            self.call(FILES, b"", 5, out=full)

    def test_want_of_memory_ends_with_6(self) -> None:
        self.put("long.json", b" " * stored_runs.MOST_BYTES)
        self.call(["long.json", FILES[1]], b"", 6, most_memory=24_000_000)


def project(*rungs: str, sub: tuple[str, ...] = ()) -> str:
    """The text of a project with one program and some tags; its second routine has the rungs of `sub`."""
    routines = [{"name": "M", "rungs": rungs}, {"name": "Sub", "rungs": sub}]
    tags = [*({"name": name, "type": "BOOL"} for name in "abc"), *({"name": name, "type": "DINT", "dim": 4} for name in ("from", "to")), {"name": "t", "type": "TIMER"}]
    return json.dumps({
        "schema": 1, "controller": "C", "tags": tags, "programs": [{"name": "P", "main": "M", "routines": routines}],
        "tasks": [{"name": "T", "kind": "continuous", "programs": ["P"]}], "initial": [{"tag": "t.PRE", "value": -1}],
    })  # fmt: skip


@is_built
class Rows(stored_runs.StoredRun):
    """What is counted, worked out by hand: a scan begins by a step, each instruction is one, each element of a copy, each end of a routine."""

    def counts(self, text: str, events: str, *lines: str) -> None:
        files = [self.put("project.json", text), self.put("journal.txt", f"{events}\nend\n")]
        self.runs(files, "".join(f"{line}\n" for line in [*lines, "end"]).encode(), 0, name=NAME)

    def test_a_false_condition(self) -> None:
        self.counts(project("XIC(a)OTE(b);"), "mode run\ncpu 8", "0 0 0 2 2 0", "0 0 0 1 0 2")

    def test_legs_of_a_branch(self) -> None:
        """The code: rung, fork, XIC, end of leg, XIO, end of leg, join, OTE."""
        self.counts(project("[XIC(a),XIO(a)]OTE(b);"), "mode run\ncpu 4", "0 0 0 6 1 0", "0 0 0 4 1 0", "0 0 0 1 1 0")

    def test_what_a_jump_passes_is_not_counted(self) -> None:
        self.counts(project("JMP(l);", "OTE(b);", "LBL(l)OTE(c);"), "mode run\ncpu 5", "0 0 0 6 1 0", "0 0 0 2 1 0", "0 0 0 1 1 0")

    def test_the_elements_of_a_copy_are_no_instructions(self) -> None:
        self.counts(project("COP(from,to,3)OTE(b);"), "mode run\ncpu 7", "0 0 0 2 1 0", "0 0 0 1 1 0")

    def test_a_routine_that_is_called(self) -> None:
        self.counts(project("JSR(Sub,0);", sub=("OTE(b);",)), "mode run\ncpu 5", "0 0 0 1 1 0", "0 0 1 1 1 0")

    def test_versions_each_by_itself(self) -> None:
        """The scan in progress goes on in its own."""
        events = "mode run\ncpu 2\n@0 accept P M r 0 XIO(a)OTE(b);\n@0 test P\ncpu 2\ncpu 4\n@0 untest P\ncpu 4"
        self.counts(project("XIC(a)OTE(b);"), events, "0 0 0 2 2 0", "0 0 0 1 0 2", "0 1 0 2 1 0", "0 1 0 1 1 0")

    def test_an_instruction_that_is_at_fault(self) -> None:
        self.counts(project("TON(t,?,?)OTE(b);"), "mode run\ncpu 9", "0 0 0 2 1 0")

    def test_nothing_is_executed(self) -> None:
        self.counts(project("OTE(b);"), "cpu 1000\nmode run\ntick 3\ncpu 1")


@is_built
class Enough(RoomTest):
    """The stack that FORMATS.md says is enough."""

    ENOUGH, ends_well = stored_runs.Stack.ENOUGH, stored_runs.Stack.ends_well

    def test_it_is_enough(self) -> None:
        self.ends_well(NAME, FILES)


@is_built
class Tool(RoomTest):
    def called(self, *words: str) -> tuple[int, str, str]:
        ran = subprocess.run([f"{TOOLS}/cover", *words], capture_output=True, text=True, timeout=60, check=False)
        return ran.returncode, ran.stdout, ran.stderr

    def test_the_example_of_the_document(self) -> None:
        shown = re.search(r"^```cover\n(.*?)^```$", read_text(f"{TOP}/docs/FORMATS.md"), re.MULTILINE | re.DOTALL).group(1)
        blink = [f"{TOP}/examples/blink/{name}" for name in ("project.json", "edit.txt")]
        self.assertEqual(self.called(*blink, "--lines"), (0, shown, ""))
        self.assertEqual(self.called(*blink), (0, read_text(f"{TOP}/examples/blink/counts.txt"), ""))

    def test_statuses(self) -> None:
        self.assertEqual(self.called(FILES[0], f"{self.room}/nothing")[:2], (4, ""))
        self.assertEqual(self.called(FILES[0], FILES[0])[:2], (3, "journal J1 line 1\n"))
        self.assertEqual(self.called(*FILES, "--ladder", "/dev/full"), (5, "", "cover: /dev/full couldn't be written: No space left on device\n"))


@is_built
class Suites(CoverageTest):
    def test_a_suite(self) -> None:
        called = self.call(self.suite(), "--coverage", self.file)
        self.assertEqual((called.status, called.err), (2, ""))
        self.assertEqual(called.out.replace(self.room, "").splitlines()[-3:-1], [
            "coverage of /lamp.json: 4 instructions, 0 never executed, 0 never true",
            "coverage: not counted: /suite/c.scenario: it was not run",
        ])  # fmt: skip
        self.assertEqual(self.written(), """\
/lamp.json, run by 2 scenarios
  4 steps executed rungs that edits brought

Main / Go
      true     false
                      rung 0  XIC(Button)OTE(Lamp);
         3         0      XIC(Button)
         2         1      OTE(Lamp)
                      rung 1  XIC(Other)MOV(1,n);
         5         0      XIC(Other)
         2         3      MOV(1,n)

            instructions   never executed   never true
Main / Go              4                0            0
in all                 4                0            0

not counted: /suite/c.scenario: it was not run
""")

    def test_a_scenario_that_falls_short_is_counted(self) -> None:
        called = self.call(self.scenario("run 0", "require", "end: Lamp = 1"), "--coverage", self.file)
        self.assertEqual(called.status, 1)
        self.assertIn("         0         1      OTE(Lamp)  (never true)\n", self.written())

    def test_another_project(self) -> None:
        """Counted is the run on that one."""
        self.project(rungs=["XIO(Button)OTL(Lamp);"])
        os.rename(f"{self.room}/lamp.json", f"{self.room}/other.json")
        self.project(rungs=RUNGS)
        for paths in ([self.scenario(*PRESSED)], [self.suite()]):
            self.call(*paths, "--project", f"{self.room}/other.json", "--coverage", self.file)
            self.assertIn("/other.json, run by", self.written())
            self.assertNotIn("/lamp.json", self.written())

    def test_projects_are_summed_each_by_itself(self) -> None:
        self.scenario("run 0", name="suite/d.scenario", project="../../" + self.room.rsplit("/", 1)[1] + "/lamp.json")
        self.put("more/lamp.json", self.text("lamp.json"))
        self.scenario("run 0", name="suite/e.scenario", project="../more/lamp.json")
        called = self.call(self.suite(), "--coverage", self.file)
        self.assertEqual(called.out.replace(self.room, "").count("coverage of /lamp.json: "), 1)
        self.assertIn("/lamp.json, run by 3 scenarios\n", self.written())
        self.assertIn("/more/lamp.json, run by 1 scenario\n", self.written())

    def test_a_drawing(self) -> None:
        self.file = f"{self.room}/coverage.svg"
        self.call(self.suite(), "--coverage", self.file)
        texts = [text for text in trees.fromstring(self.text("coverage.svg")).iter("{http://www.w3.org/2000/svg}text")]
        self.assertEqual([text.text for text in texts if text.get("class") == "note"], ["3 / 0", "2 / 1", "5 / 0", "2 / 3"])
        self.assertEqual(texts[0].text.replace(self.room, ""), "/lamp.json, run by 2 scenarios: steps with a true condition / with a false one")

    def test_a_program_that_goes_wrong(self) -> None:
        for script, status, told in (
            ("echo ok", 1, "wrote what is no text of its own"), ("printf '0 0 0 9 1 0\\nend\\n'", 1, "counts at no instruction of the project: 0 0 0 9 1 0"),
            ("exit 6", 6, "ended with status 6"), ("kill -9 $$", 6, "ended by signal 9"),
        ):  # fmt: skip
            self.counts_by(script)
            called = self.call(self.scenario(*PRESSED), "--coverage", self.file)
            self.assertEqual((called.status, os.path.exists(self.file)), (status, False), script)
            self.assertIn(f"scenario: {NAME} {told}\n", called.err)

    def test_a_file_that_can_t_be_written(self) -> None:
        called = self.call(self.scenario(*PRESSED), "--coverage", f"{self.room}/no/c.txt")
        self.assertEqual(called.status, 5)
        self.assertIn("couldn't be written: No such file", called.err)


if __name__ == "__main__":
    unittest.main()
