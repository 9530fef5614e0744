"""Scenarios on the built programs: what is told to the controller, and what comes of it.

The gate runs this after `rt ci`. What is wanted follows from the rules: a scan of `XIC(Button)OTE(Lamp);` takes four steps, its begin,
two instructions and the end of the routine. A pace in scans ends with the begin of the next scan: so the first one takes five steps, and
each after it four.
"""

from __future__ import annotations

import json
import re
import unittest

from scenario_files import LAMP, ScenarioTest
from lib.scenario.refusals import refusal_of

PACE = "pace 1 ms, 4 steps"


class Told(ScenarioTest):
    """The journal that a scenario makes."""

    def journal(self, *lines: str, status: int = 0) -> list[str]:
        called = self.call(self.scenario(*lines), "--journal", f"{self.room}/j.txt")
        self.assertEqual((called.status, called.err), (status, ""), called.out)
        return self.text("j.txt").splitlines()

    def test_a_pace_in_scans(self):
        wanted = ["mode run", "cpu 5", "tick 10", "cpu 4", "tick 10", "cpu 4", "end"]
        self.assertEqual(self.journal("run 20"), wanted)
        wanted = ["mode run", "cpu 9", "tick 7", "cpu 8", "tick 3", "end"]
        self.assertEqual(self.journal("pace 7 ms, 2 scans", "run 10"), wanted)

    def test_a_pace_in_steps(self):
        self.assertEqual(self.journal("pace 5 ms, 3 steps", "run 9"), ["mode run", "cpu 3", "tick 5", "cpu 3", "tick 4", "end"])

    def test_an_input_keeps_the_other_bits(self):
        wanted = ["mode run", "in In1 0 1", "in In1 0 33", "cpu 4", "tick 1", "in In1 0 32", "cpu 4", "end"]
        self.assertEqual(self.journal(PACE, "at 0: Button = 1", "at 0: Other = 1", "at 1: Button = 0", "run 1"), wanted)

    def test_the_opening_value_of_an_input_is_its_module_s(self):
        self.project(initial=[{"tag": "Local:1:I", "value": -2147483648}])
        wanted = ["mode run", "in In1 0 -2147483647", "cpu 4", "end"]
        self.assertEqual(self.journal(PACE, "at 0: Button = 1", "run 0"), wanted)

    def test_a_pulse_goes_back(self):
        wanted = ["mode run", "in In1 0 1", "cpu 4", "tick 1", "cpu 4", "tick 1", "in In1 0 0", "cpu 4", "end"]
        self.assertEqual(self.journal(PACE, "at 0: Button = 1 for 2", "run 2"), wanted)
        wanted = ["mode run", "in In1 0 1", "cpu 4", "tick 1", "in In1 0 0", "cpu 4", "tick 1", "in In1 0 1", "cpu 4", "end"]
        self.assertEqual(self.journal(PACE, "at 0: Button = 1", "at 1: Button = 0 for 1", "run 2"), wanted)

    def test_again_and_again(self):
        lines = self.journal("pace 100 ms, 4 steps", "every 3 from 1 to 7: Button = 1 for 1", "run 9")
        wanted = ["mode run", "cpu 4"]
        for _ in range(3):
            wanted += ["in In1 0 1", "tick 1", "in In1 0 0", "tick 2"]
        self.assertEqual(lines, [*wanted[:2], "tick 1", *wanted[2:-1], "tick 1", "end"])

    def test_times_between_paces(self):
        wanted = ["mode run", "cpu 4", "tick 3", "in In1 0 1", "tick 2", "cpu 4", "end"]
        self.assertEqual(self.journal("pace 5 ms, 4 steps", "at 3: Button = 1", "run 5"), wanted)

    def test_lanes(self):
        accept = "accept Main Go r 0 XIO(Button)OTE(Lamp);"
        lines = self.journal(PACE, f"at 0 engineer 3: {accept}", "at 0 engineer 3: test Main", "at 1 operator: mode program", "run 1")
        wanted = ["mode run", f"@3 {accept}", "@3 test Main", "cpu 4", "tick 1", "mode program", "cpu 4", "end"]
        self.assertEqual(lines, wanted)

    def test_a_trigger_gets_the_last_word(self):
        tags = [{"name": "In", "type": "DINT", "dim": 2}, {"name": "Eye", "alias": "In[0].3"}]
        tags += [{"name": name, "type": "BOOL"} for name in ("Lamp", "Button")]
        programs = [*LAMP["programs"], {"name": "Q", "main": "Go", "routines": [{"name": "Go", "rungs": []}]}]
        tasks = [*LAMP["tasks"], {"name": "E", "kind": "event", "priority": 1, "programs": ["Q"]}]
        connections = [{"name": "In1", "tag": "In", "direction": "in", "trigger": "E"}]
        self.project(tags=tags, programs=programs, tasks=tasks, connections=connections)
        self.assertEqual(self.journal(PACE, "at 0: Eye = 1", "run 0"), ["mode run", "in In1 0 8", "in In1 1 0", "cpu 4", "end"])

    def test_scans_of_other_lengths(self):
        """A JSR on each other scan: the lengths 12 and 6 in turn, so what was expected of a scan is too long and too short."""
        sub = {"name": "Sub", "rungs": ["NOP();", "NOP();", "NOP();", "NOP();", "NOP();"]}
        rungs = ["XIO(Lamp)JMP(Skip);", "JSR(Sub);", "LBL(Skip)XIO(Lamp)OTE(Lamp);"]
        programs = [{**LAMP["programs"][0], "routines": [{"name": "Go", "rungs": rungs}, sub]}]
        self.project(programs=programs)
        # Off: begin, XIO, JMP, LBL, XIO, OTE, end: 7. On: begin, XIO, JMP, JSR, five NOPs, end, LBL, XIO, OTE, end: 14.
        wanted = ["mode run", "cpu 8"]
        for length in (14, 7, 14, 7):
            wanted += ["tick 10", f"cpu {length}"]
        self.assertEqual(self.journal("run 40"), [*wanted, "end"])

    def test_without_a_continuous_task_the_processor_comes_to_idle(self):
        rungs = ["XIC(Button)OTE(Lamp);"] * 50
        programs = [{**LAMP["programs"][0], "routines": [{"name": "Go", "rungs": rungs}]}]
        self.project(programs=programs, tasks=[{"name": "P", "kind": "periodic", "priority": 3, "period": 10, "programs": ["Main"]}])
        called = self.call(self.scenario("run 20"), "--journal", f"{self.room}/j.txt")
        # (a scan takes 102 steps, more than the first guess)
        self.assertEqual(self.text("j.txt").splitlines(), ["mode run", "cpu 256", "tick 10", "cpu 256", "tick 10", "cpu 256", "end"])
        self.assertRegex(called.out, r"P +2 +102 +102 +0\n")

    def test_a_scan_that_never_ends(self):
        programs = [{**LAMP["programs"][0], "routines": [{"name": "Go", "rungs": ["LBL(a)JMP(a);"]}]}]
        self.project(programs=programs, tasks=[{**LAMP["tasks"][0], "watchdog": 20}])
        called = self.play("run 50", "require", "faults: major 6/1 Cont")
        self.assertEqual(called.status, 0, called.out)
        self.assertIn("note: the scan at 0 ms isn't over after", called.out)
        self.assertIn("major 6/1 of task Cont, at 20 ms", called.out)

    def test_on_after_a_fault(self):
        """No steps while the controller is faulted; after the change to Run scans are kept again, from their begin on."""
        self.project(tags=[*LAMP["tags"], {"name": "a", "type": "DINT", "dim": 2}], rungs=["MOV(1,a[n]);"])
        lines = self.journal(
            "at 10: n = 5", "at 30: n = 1", "at 30 operator: clear", "at 30 operator: mode run", "run 40", "require", "faults: major 4/20 Cont",
            "end: a[1] = 1",
        )  # fmt: skip
        # The scan at 10 ms has begun, and ends with the MOV; so many steps as the last scan took are told at once, and two idle.
        wanted = ["mode run", "cpu 4", "tick 10", "in Hmi1 0 5", "cpu 3", "tick 20", "in Hmi1 0 1", "clear", "mode run", "cpu 4", "tick 10", "cpu 3", "end"]
        self.assertEqual(lines, wanted)

    def test_a_copy_that_holds_a_word(self):
        self.project(
            tags=[*LAMP["tags"], {"name": "a", "type": "DINT", "dim": 2}, {"name": "b", "type": "DINT", "dim": 2}],
            programs=[{**LAMP["programs"][0], "routines": [{"name": "Go", "rungs": ["CPS(a,b,2);"]}]}],
        )
        # After begin and CPS: held, an element, held, an element, and then it is taken: two steps of the next pace.
        wanted = ["mode run", "cpu 2", "tick 1", "in In1 0 1", "cpu 1", "in In1 0 1", "cpu 1", "in In1 0 1", "end"]
        self.assertEqual(self.journal("pace 1 ms, 2 steps", "at 1: Button = 1", "run 1"), wanted)


class Written(ScenarioTest):
    """Tags that are no inputs."""

    def test_each_kind_of_tag(self):
        members = [{"name": "On", "type": "BOOL"}, {"name": "Rate", "type": "INT"}, {"name": "Log", "type": "SINT", "dim": 4}]
        types = [{"name": "Motor", "members": members}]
        tags = [*LAMP["tags"], {"name": "M", "type": "Motor"}, {"name": "T", "type": "TIMER"}]
        tags += [{"name": "f", "type": "BOOL", "dim": 32}, {"name": "s", "type": "SINT", "dim": 5}]
        self.project(types=types, tags=tags, rungs=["MOV(Speed,n)MOV(Own,s[4]);"], watch=["n"])
        called = self.play(
            "at 10: Speed = -7, Program:Main.Own = -3, M.On = 1, M.Rate = 300, M.Log[1] = 5, M.Log[2] = -6",
            "at 10: T.PRE = 90, f[3] = 1, f[4] = 1, s[2] = 4, n.31 = 1",
            "at 20: f[3] = 0, M.On = 0", "run 30", "require",
            "at 10: n = -7 and s[4] = -3", "end: f[3] = 0 and f[4] = 1 and M.On = 0 and M.Rate = 300",
            "end: M.Log[1] = 5 and M.Log[2] = -6 and M.Log[0] = 0",
            "end: T.PRE = 90 and s[2] = 4 and s[4] = -3", "always: n.31 = 0 or n < 0",
        )  # fmt: skip
        self.assertEqual((called.status, called.err), (0, ""), called.out)
        self.assertIn("note: Speed, Program:Main.Own, M, T, f, s, n are no inputs: to set them, the tool runs a copy of the project with connections for them\n", called.out)

    def test_the_rest_of_a_word_is_the_program_s(self):
        """The program counts in one half of the word, and the operator writes the other."""
        self.project(tags=[*LAMP["tags"], {"name": "h", "type": "INT", "dim": 2}], rungs=["ADD(h[0],1,h[0]);"])
        done = ("at 10: h[1] = 5", "at 20: h[1] = 6 for 10", "run 40")
        called = self.play(*done, "require", "end: h[0] = 5 and h[1] = 5", "at 20: h[1] = 6 and h[0] = 3")
        self.assertEqual(called.status, 0, called.out)

    def test_the_rest_of_a_word_in_a_pace_of_steps(self):
        """Bits of a counter's status, one after another, in any spelling; the program sets one too, within the steps before."""
        self.project(tags=[*LAMP["tags"], {"name": "Cnt", "type": "COUNTER"}], rungs=["OTE(Cnt.OV);"])
        done = ("at 1: cnt.dn = 1", "at 1: CNT.UN = 1", "at 2: cnt.cd = 1 for 1", "run 3")
        called = self.play(PACE, *done, "require", "end: Cnt.DN = 1 and Cnt.UN = 1 and Cnt.OV = 1 and Cnt.CD = 0")
        self.assertEqual(called.status, 0, called.out)

    def test_nothing_else_changes(self):
        """The same project, but for names: the same report from a tag that is written as from an input."""
        self.project(rungs=["MOV(Speed,n);"], watch=["n"])
        lines = ["at 10: Speed = 5", "run 20"]
        self.call(self.scenario(*lines), "--report", f"{self.room}/a.txt")
        self.assertEqual(self.text("a.txt"), (
            "0 0 reply 31 ok\n0 1 begin Cont Main 0\n0 4 begin Cont Main 0\n10 4 reply 31 ok\n10 4 set Speed 5\n10 5 set n 5\n"
            "10 7 begin Cont Main 0\n20 10 begin Cont Main 0\nend 20 10 run lost 0\n"
        ))  # fmt: skip

    def test_an_output_may_be_written(self):
        self.project(connections=[*LAMP["connections"], {"name": "Out", "tag": "n", "direction": "out"}])
        called = self.play("at 0: n = 5", "at 0 engineer 1: out Out 0", "run 0", "require", "at 0 engineer 1: ok 5")
        self.assertEqual(called.status, 0, called.out)

    def refused(self, line: str, at: int, why: str) -> None:
        called = self.play(line, "run 10")
        self.assertEqual((called.status, called.out), (2, ""))
        self.assertEqual(called.err, f"{self.room}/day.scenario, line 2: {why}\n    {line}\n    {' ' * at}^\n")

    def test_where_a_copy_would_see_it(self):
        self.project(rungs=["COP(Local:1:I,Speed,1);"])
        why = "Speed can't be written: Speed is no input, and a word for it would change where the tag ends, "
        self.refused("at 0: Speed = 1", 6, why + "which a COP, CPS or FLL that names it sees")
        self.project(rungs=["COP(Local:1:I,n,1);"])
        self.assertEqual(self.play("at 0: n = 1", "run 10").status, 0)
        called = self.play("at 0: Speed = 1", "at 5 engineer 1: accept Main Go i 1 FLL(0,Speed,1);", "run 10")
        self.assertIn("which a COP, CPS or FLL that names it sees", called.err)

    def test_where_a_copy_fills_bits_without_a_name(self):
        types = [{"name": "Cmd", "members": [{"name": "On", "type": "BOOL"}, {"name": "Rate", "type": "INT"}, {"name": "n", "type": "DINT"}]}]
        tags = [*LAMP["tags"], {"name": "a", "type": "Cmd"}, {"name": "b", "type": "Cmd"}]
        self.project(types=types, tags=tags, rungs=["COP(a,b,1);"])
        why = "b.On can't be written: its tag b is no input, and a COP, CPS or FLL fills it, with bits of the same word that have no name"
        self.refused("at 0: b.On = 1", 6, why)
        self.assertEqual(self.play("at 0: a.On = 1, b.n = 5", "run 10", "require", "end: b.On = 1 and b.n = 0").status, 0)

    def test_what_cannot_be_written(self):
        self.project(tags=[*LAMP["tags"], {"name": "big", "type": "DINT", "dim": 129}])
        self.refused("at 0: big[3] = 1", 6, "big[3] can't be written: its tag big has 516 bytes, and a connection at most 512")
        self.refused("at 0: Speed = 40000", 6, "40000 doesn't fit Speed: a INT is from -32768 to 32767")
        self.refused("at 0: Lamp = 2", 6, "2 doesn't fit Lamp: a BOOL is from 0 to 1")
        self.refused("at 0: big = 2", 6, "big is an array of DINT: name a BOOL, a bit or an integer of it, as big[0]")

    def test_pulses_that_overlap(self):
        called = self.play("at 0: Button = 1 for 50", "at 20: Button = 0", "run 100")
        self.assertEqual(called.status, 2)
        why = "line 3: Button is set at 20 ms, while the pulse of line 2 lasts, up to 50 ms"
        self.assertIn(f"{why}\n    at 20: Button = 0\n           ^", called.err)


class Explained(ScenarioTest):
    """What is told beside an answer, so that it is understood."""

    def notes(self, *lines: str) -> list[str]:
        return re.findall(r"^  note: (.*)$", self.play(*lines).out, re.MULTILINE)

    def test_a_pulse_between_two_paces(self):
        told = "line 2: no rung sees the pulse of Button from 12 to 17 ms: it lies between the paces at 10 and 20 ms"
        self.assertEqual(self.notes("at 12: Button = 1 for 5", "run 40"), [told])
        told = "line 3: no rung sees the pulse of Button from 3 to 5 ms: it lies between the paces at 0 and 5 ms; nor 2 more pulses"
        self.assertEqual(self.notes("pace 5 ms, 3 steps", "every 10 from 3 to 23: Button = 1 for 2", "run 40"), [told])
        for seen in ("at 12: Button = 1 for 9", "at 10: Button = 1 for 1", "at 12: Button = 1"):
            self.assertEqual(self.notes(seen, "run 40"), [], seen)

    def test_a_test_that_a_scan_breaks_within(self):
        """The first rung clears n and the second one sets it: what holds at the end of each scan doesn't between the rungs."""
        self.project(rungs=["MOV(0,n);", "MOV(5,n);"], initial=[{"tag": "n", "value": 5}])
        for text, instead in (("always: n = 5", "always at Main: n = 5"), ("never : n = 0", "never at Main: n = 0")):
            told = self.play("run 20", "require", text).out.splitlines()[1:4]
            cure = f"that is within a scan; at the end of each scan it holds, so require: {instead}"
            self.assertEqual(told, [f"FAIL  {text}", "        at 0 ms, step 2: n 0; by a step of Main in task Cont", f"        {cure}"])
            self.assertEqual(self.play("run 20", "require", instead).status, 0)
        self.assertNotIn("within a scan", self.play("run 20", "require", "always: n = 4").out)
        self.project(rungs=["MOV(0,n);", "NOP();"], initial=[{"tag": "n", "value": 5}])
        self.assertNotIn("within a scan", self.play("run 20", "require", "always: n = 5").out)

    def test_a_test_that_an_input_breaks_within_a_scan(self):
        """The scan that follows an input has begun, and its first rung comes after it."""
        told = self.play("at 20: Button = 1", "run 40", "require", "always: Button = 1 -> Lamp = 1").out.splitlines()[2:4]
        self.assertEqual(told, [
            "        at 20 ms, step 9: Button 1, Lamp 0; by line 2 (in the journal: in In1 0 1)",
            "        that is within a scan; at the end of each scan it holds, so require: always at Main: Button = 1 -> Lamp = 1",
        ])  # fmt: skip

    def test_a_value_that_comes_later(self):
        told = self.play("at 20: Button = 1", "run 40", "require", "at 15: Lamp = 1 or Other = 1").out.splitlines()
        self.assertEqual(told[2:4], ["        Lamp 0, not changed till then", "        Other 0, never changed"])

    def test_a_refused_command(self):
        """Its rung is that of the routine as it was edited before."""
        called = self.play(
            "at 10 engineer 1: accept Main Go i 0 NOP();", "at 10 engineer 1: test Main", "at 30 engineer 1: assemble Main",
            "at 40 engineer 2: accept Main Go r 1 XIC(Button)OTE(Lam);", "at 40 engineer 2: accept Main Go r 0 NOP()",
            "at 50 operator: force In2 0 1 1", "run 60", "require", "at 40 engineer 2: ok",
        )  # fmt: skip
        text, rung = called.out, "rung 1 of the edited routine: there is no tag 'Lam'; is Lamp meant?"
        self.assertIn(f"FAIL  at 40 engineer 2: ok\n        the answer was refused E8 C4 1 1: {rung}\n", text)
        self.assertIn("FAIL  line 6 was refused E7 0 T4 5, which nothing requires: accept Main Go r 0 NOP()\n        the rung has no ; at its end\n", text)
        self.assertIn(f"accept Main Go r 1 XIC(Button)OTE(Lam);\n    {rung}\n        XIC(Button)OTE(Lam);\n                       ^\n  at 40 ms", text)
        self.assertIn("force In2 0 1 1\n    there is no connection 'In2'; is In1 meant?\nfaults: none", text)


class Refused(ScenarioTest):
    def refusal(self, *lines: str) -> str:
        refusal_of.cache_clear()  # (the file may be another one since)
        called = self.play(*lines)
        self.assertEqual((called.status, called.out), (2, ""))
        return called.err.replace(self.room + "/", "")

    def test_names_are_offered(self):
        self.assertEqual(
            self.refusal("at 0: Buton = 1", "run 5"),
            "day.scenario, line 2: there is no tag Buton; nearest: Button\n    at 0: Buton = 1\n          ^\n",
        )
        self.assertIn("there is no program Mian; nearest: Main", self.refusal("run 5", "require", "always at Mian: Lamp = 1"))
        self.assertIn("there is no program Mian; nearest: Main", self.refusal("run 5", "require", "always: Program:Mian.Own = 1"))
        self.assertIn("there is no task Cnt; nearest: Cont", self.refusal("run 5", "require", "faults: 6/1 Cnt"))
        self.assertIn("there is no tag Own; nearest: Program:Main.Own", self.refusal("run 5", "require", "end: Own = 1"))
        self.project(tags=[*LAMP["tags"], {"name": "T", "type": "TIMER"}])
        self.assertIn("T has no member ACCU; nearest: ACC", self.refusal("run 5", "require", "end: T.ACCU = 1"))
        self.assertIn("T is a TIMER: name a BOOL, a bit or an integer of it, as T.ACC", self.refusal("run 5", "require", "end: T = 1"))
        self.assertIn("n.32: a subscript or a bit outside its tag", self.refusal("run 5", "require", "end: n.32 = 1"))

    def test_projects(self):
        self.put("lamp.json", "{}")
        self.assertEqual(
            self.refusal("run 5"),
            "day.scenario, line 1: the project lamp.json is refused: P2 schema\nlamp.json, line 1: the key 'schema' is missing\n    {}\n    ^\n"
            "P2: a field is missing; the path has its key. To do: add it.\n",
        )  # fmt: skip
        self.project(rungs=["NOP();", "XIC(Buton)OTE(Lamp);"])
        place = "lamp.json, line 1: program Main, routine Go, rung 1: there is no tag 'Buton'; is Button meant?\n    XIC(Buton)OTE(Lamp);\n        ^\nC4: "
        self.assertIn(f"the project lamp.json is refused: P10 programs.0.routines.0 C4 1 0\n{place}", self.refusal("run 5"))
        self.put("lamp.json", '{"schema": 2\n "controller": "x"}')
        place = 'lamp.json, line 2, column 2: a comma is missing before this\n     "controller": "x"}\n     ^\nP1: '
        self.assertIn(f"the project lamp.json is refused: P1\n{place}", self.refusal("run 5"))
        called = self.call(self.scenario("run 5", project="none.json"))
        self.assertIn("none.json can't be read: No such file or directory\n    project none.json\n            ^", called.err)
        self.assertEqual(called.status, 2)

    def test_files(self):
        self.assertIn("it can't be read: No such file", self.call(f"{self.room}/none.scenario").err)
        self.put("day.scenario", "")
        with open(f"{self.room}/day.scenario", "wb") as file:
            file.write(b"project a\n\xff\n")
        self.assertIn("line 2: it is no text in UTF-8", self.call(f"{self.room}/day.scenario").err)

    def test_names_with_blanks_and_marks_of_order(self):
        self.put("a folder/my lamp.json", json.dumps(LAMP))
        self.put("a folder/a day.scenario", "\ufeffproject my lamp.json\r\nat 0: Button = 1\r\nrun 10\r\nrequire\r\nend: Lamp = 1\r\n")
        self.assertEqual(self.call(f"{self.room}/a folder/a day.scenario").status, 0)


if __name__ == "__main__":
    unittest.main()
