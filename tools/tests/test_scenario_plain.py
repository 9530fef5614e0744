"""A scenario on the plain interpreter, before the gate has built the programs: held, fallen short, and wrong; and no program at all."""

from __future__ import annotations

import unittest

from scenario_files import Called, ScenarioTest


class Plain(ScenarioTest):
    built = False

    def test_a_scenario(self):
        done = ("at 10: Button = 1 for 20", "at 20 engineer 1: test Main", "run 40", "require")
        called = self.play(*done, "at 10: Lamp = 1", "always at Main: Lamp = Button", "at 20 engineer 1: refused E10", "end: Lamp = 1")
        # Each scan takes four steps. Its begin ends the pace before; so at 30 ms the lamp goes off with the second step, after 5 + 2 * 4.
        self.assertEqual((called.status, called.err), (1, ""))
        self.assertEqual(called.out.splitlines()[1:7], [
            "ok    at 10: Lamp = 1", "ok    always at Main: Lamp = Button", "ok    at 20 engineer 1: refused E10", "FAIL  end: Lamp = 1",
            "        Lamp 0, since 30 ms, step 15: a step of Main in task Cont", "",
        ])  # fmt: skip
        self.assertIn("  Cont         5            4       4         0\n", called.out)

    def test_a_wrong_name(self):
        called = self.play("at 10: Buttn = 1", "run 40")
        self.assertEqual((called.status, called.out), (2, ""))
        self.assertIn("line 2: there is no tag Buttn; nearest: Button\n    at 10: Buttn = 1\n           ^\n", called.err)

    def test_without_a_proved_program(self):
        called = Called([self.scenario("run 5"), "--programs", f"{self.room}/nothing"])
        self.assertEqual((called.status, called.out), (70, ""))
        self.assertIn("there is no program logix_live at ", called.err)
        self.assertIn("run tools/prove", called.err)


if __name__ == "__main__":
    unittest.main()
