"""The plain judge of the laws that `logix_laws` tells, on traces worked out by hand, a yes and a no of each law; and the hammer's kind that uses it."""

import random
import unittest

import common  # noqa: F401 (where the tools are)
from lib.hammer import trace_laws
from lib.hammer.cases import file_text, journal_text
from lib.hammer.plain.judge import answer
from lib.hammer.plain.laws import LAWS
from lib.hammer.program import Ran

# Cont is continuous; Fast comes every second tick, and may be up for less than three; Eye is an event task.
PROJECT = {
    "schema": 2, "controller": "Laws",
    "programs": [{"name": name, "main": "M", "routines": [{"name": "M", "rungs": []}]} for name in ("A", "B", "C", "D")],
    "tasks": [{"name": "Cont", "kind": "continuous", "programs": ["A"]},
              {"name": "Fast", "kind": "periodic", "priority": 5, "period": 2, "watchdog": 3, "programs": ["B", "C"]},
              {"name": "Eye", "kind": "event", "priority": 1, "programs": ["D"]}],
}
COMES = ["tick 0 0 -", "tick 2 0 -"]
FAST_ENDS = ["began 1 1 0", "left 1 1 ended", "began 1 2 0", "left 1 2 ended"]


def said(lines, **changed):
    """Of a trace after the change to Run; `changed`: of a task."""
    tasks = [{**task, **changed.get(task["name"], {})} for task in PROJECT["tasks"]]
    return answer(["laws"], [file_text({**PROJECT, "tasks": tasks}), journal_text(["act 31 run - ok 1", *lines, "end"])])


class Laws(unittest.TestCase):
    def keeps(self, *lines, **changed):
        self.assertEqual(said(lines, **changed), (0, f"yes {len(lines) + 1}\n"), lines)

    def breaks(self, law, *lines, **changed):
        """The last event is the first that breaks a law."""
        self.assertEqual(said(lines, **changed), (8, f"no {law} {len(lines)}\n"), lines)

    def test_regions(self):
        opened = ["began 0 0 0", "step 0 0 up -", *COMES]
        self.keeps(*opened, "step 0 0 - -", "step 0 0 down -", "began 1 1 0", "step 1 1 - -")
        self.keeps(*opened, "left 0 0 ended", "began 1 1 0")
        for other in ("began 1 1 0", "step 1 1 - -", "left 1 1 ended"):
            self.breaks("regions", *opened, other)
        self.breaks("regions", "began 0 0 0", "step 0 0 up -", "step 0 0 up -", "step 0 0 down -", *COMES, "began 1 1 0")

    def test_a_cps_is_a_region(self):
        copying = ["began 0 0 0", "step 0 0 sync -", *COMES]
        self.keeps(*copying, "step 0 0 - -", "step 0 0 syncend -", "began 1 1 0")
        self.breaks("regions", *copying, "began 1 1 0")

    def test_watchdogs(self):
        up = [*COMES, "tick 0 0 -", "tick 0 2 -"]
        self.keeps(*up, "tick 0 0 1")
        self.breaks("watchdogs", *up, "tick 0 0 -")
        self.breaks("watchdogs", *up, "tick 0 0 0")
        self.breaks("watchdogs", *COMES, "tick 0 0 1")
        self.keeps(*COMES, *FAST_ENDS, "tick 0 0 -", "tick 2 0 -", "tick 0 0 -", "tick 0 2 -", "tick 0 0 1")

    def test_of_two_the_first_is_told(self):
        both = {"Cont": {"watchdog": 5}}
        up = [*COMES, "tick 0 0 -", "tick 0 2 -"]
        self.keeps(*up, "tick 0 0 0", **both)
        self.breaks("watchdogs", *up, "tick 0 0 1", **both)

    def test_releases(self):
        self.keeps(*COMES, *FAST_ENDS, *COMES)
        self.keeps(*COMES, "tick 0 0 -", "tick 0 2 -")
        for tick in ("tick 0 0 -", "tick 0 2 -", "tick 3 0 -", "tick 4 0 -", "tick 2 2 -"):
            self.breaks("releases", "tick 0 0 -", tick)
        self.breaks("releases", "tick 2 0 -")
        self.breaks("releases", *COMES, "tick 0 0 -", "tick 2 0 -")
        self.breaks("releases", *COMES, "tick 0 0 -", "tick 0 0 -")

    def test_an_inhibited_task_is_not_due(self):
        self.keeps("tick 0 0 -", "tick 0 0 -", Fast={"inhibited": True})
        self.breaks("releases", "tick 0 0 -", "tick 2 0 -", Fast={"inhibited": True})

    def test_after_a_fault_nobody_is_due(self):
        faulted = ["began 0 0 0", "step 0 0 - major"]
        self.keeps(*faulted, "tick 0 0 -", "tick 0 0 -", "idle")
        self.breaks("releases", *faulted, "tick 0 0 -", "tick 2 0 -")

    def test_triggers(self):
        asked = ["began 0 0 0", "step 0 0 trigger:2 -"]
        self.keeps(*asked, "step 0 0 trigger:2 minor")
        self.keeps(*asked, "began 2 3 0", "left 2 3 ended", "step 0 0 trigger:2 -")
        self.breaks("triggers", *asked, "step 0 0 trigger:2 -")
        self.breaks("triggers", *asked, "step 0 0 trigger:2 major")
        self.breaks("triggers", "began 0 0 0", "step 0 0 trigger:2 minor")
        self.keeps(*asked, "step 0 0 trigger:2 -", Eye={"inhibited": True})
        self.breaks("triggers", *asked, "step 0 0 trigger:2 minor", Eye={"inhibited": True})

    def test_scans(self):
        self.keeps(*COMES, "began 1 1 0", "step 1 1 - -", "left 1 1 on", "left 1 1 ended", "began 1 2 0", "left 1 2 ended")
        self.breaks("scans", *COMES, "began 1 2 0")
        self.breaks("scans", *COMES, "began 1 1 0", "left 1 1 ended", "began 1 1 0")
        self.breaks("scans", *COMES, "began 1 1 0", "began 1 1 0")
        self.breaks("scans", *COMES, "began 1 1 0", "step 1 2 - -")
        self.breaks("scans", *COMES, "began 1 1 0", "left 1 2 ended")
        self.breaks("scans", *COMES, "step 1 1 - -")

    def test_copies(self):
        begun = ["began 0 0 0", "step 0 0 copy -"]
        self.keeps(*begun, "step 0 0 - -", *COMES, "began 1 1 0", "step 1 1 - -", *FAST_ENDS[1:], "step 0 0 copyend -", "left 0 0 ended")
        self.keeps(*begun, "act 31 program - ok 0", "act 31 run - ok 1", "began 0 0 0")
        for event in ("step 0 0 syncend -", "step 0 0 up -", "step 0 0 copy -", "step 0 0 - minor", "left 0 0 on", "began 0 0 0"):
            self.breaks("copies", *begun, event)
        self.breaks("copies", "began 0 0 0", "step 0 0 copyend -")
        self.breaks("copies", "began 0 0 0", "step 0 0 sync -", "step 0 0 copyend -")

    def test_starts(self):
        self.keeps("act 3 other - ok 4", "act 3 other - ok 0", "act 31 program - ok 0", "act 31 run - ok 1")
        for event in ("act 3 other - ok 2", "act 3 other - ok 6", "act 3 other - no 4", "act 31 program - ok 1", "act 0 accept 0 no 4"):
            self.breaks("starts", event)
        self.breaks("starts", "act 3 other - ok 4", "act 3 other - ok 4")
        self.breaks("starts", "act 31 program - ok 0", "act 3 other - ok 4")
        self.breaks("starts", "act 31 program - ok 0", "act 31 run - ok 0")
        self.breaks("starts", "began 0 0 0", "step 0 0 sync -", "act 3 other - ok 4")

    def test_modes(self):
        faulted = ["began 0 0 0", "step 0 0 - major"]
        self.keeps("act 31 run - no 0", "act 31 clear - no 0", "act 31 program - ok 0", "act 31 program - no 0", "act 31 run - ok 1")
        self.keeps(*faulted, "act 31 run - no 0", "act 31 program - no 0", "act 31 clear - ok 0", "act 31 run - ok 1")
        self.keeps("began 0 0 0", "step 0 0 sync -", "act 31 program - no 0", "step 0 0 syncend -", "act 31 program - ok 0")
        for event in ("act 31 run - ok 0", "act 31 clear - ok 0", "act 31 program - no 0"):
            self.breaks("modes", event)
        self.breaks("modes", *faulted, "act 31 run - ok 1")
        self.breaks("modes", "began 0 0 0", "step 0 0 sync -", "act 31 program - ok 0")

    def test_edits(self):
        owned = ["act 0 accept 0 ok:1 0"]
        tested = [*owned, "act 0 test 0 ok 0"]
        self.keeps(*tested, "act 0 untest 0 ok 0", "act 0 assemble 0 ok 0", "act 0 test 0 no 0", "act 1 accept 0 ok:2 0", "act 1 cancel 0 ok 0")
        self.keeps(*owned, "act 0 test 0 no 0", "act 1 test 0 no 0", "act 1 accept 1 ok:1 0", "act 1 test - no 0")
        for event in ("act 1 accept 0 ok:2 0", "act 1 test 0 ok 0", "act 0 untest 0 ok 0", "act 0 test 1 ok 0", "act 0 accept - ok:1 0"):
            self.breaks("edits", *owned, event)
        for event in ("act 0 test 0 ok 0", "act 0 untest 0 no 0", "act 0 assemble 0 no 0", "act 0 cancel 0 no 0"):
            self.breaks("edits", *tested, event)

    def test_numbers(self):
        self.keeps("act 0 accept 0 no 0", "act 0 accept 0 ok:1 0", "act 0 cancel 0 ok 0", "act 1 accept 0 ok:2 0", "act 1 accept 1 ok:1 0")
        self.breaks("numbers", "act 0 accept 0 ok:2 0")
        self.breaks("numbers", "act 0 accept 0 ok:1 0", "act 0 cancel 0 ok 0", "act 0 accept 0 ok:1 0")

    def test_the_first_of_two_laws(self):
        """A step into a region by a program that isn't the next."""
        self.breaks("regions", "began 0 0 0", "step 0 0 up -", *COMES, "began 1 2 0")

    def test_refusals(self):
        self.assertEqual(said(["began 7 0 0"]), (3, "trace K2 line 2\n"))
        self.assertEqual(said(["begun 0 0 0"]), (3, "trace K1 line 2\n"))

    def test_runs_of_the_plain_machine_keep_them(self):
        project = file_text(PROJECT)
        for journal in (["mode run", "cpu 30", "tick 1", "cpu 3", "tick 1", "cpu 20", "tick 9", "end"], ["mode run", "tick 30", "cpu 9", "end"]):
            status, trace = answer(["trace"], [project, journal_text(journal)])
            self.assertEqual((status, answer(["laws"], [project, trace.encode()])), (0, (0, f"yes {trace.count(chr(10)) - 1}\n")))


class Judge:
    """The plain judge in place of `logix_laws`; `bend` changes its answer."""

    def __init__(self, bend=lambda text: text):
        self.files, self.bend = {}, bend

    def put(self, name, contents):
        self.files[name] = contents
        return name

    def beside(self, name):
        return name

    def run(self, words, path):
        status, text = answer(["laws"], [self.files[word] for word in words])
        return Ran(status, self.bend(text).encode("latin-1"), b"", 0.0, 0)


class Kind(unittest.TestCase):
    def test_its_cases_break_each_law_and_keep_all(self):
        firsts = [answer(["laws"], trace_laws.laws(random.Random(seed), None)[1])[1].split(" ")[:2] for seed in range(400)]
        self.assertGreater(sum(first[0] == "yes" for first in firsts), 15)
        self.assertLessEqual(set(LAWS), {first[1] for first in firsts if first[0] == "no"})

    def test_another_answer_is_seen(self):
        for seed in range(5):
            judge, files = trace_laws.laws(random.Random(seed), None)
            self.assertIsNone(judge(Judge(), files))
            self.assertIn("from byte", judge(Judge(lambda text: text.replace("\n", "0\n")), files))


if __name__ == "__main__":
    unittest.main()
