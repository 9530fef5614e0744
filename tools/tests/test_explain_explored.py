"""What a terminal shows of an answer of `logix_explore`, and of a question that it refuses."""

from __future__ import annotations

import os
import stat
import unittest

from common import TOOLS, RoomTest, read_bytes
from explore_files import ASKS, NEVER, REFUSED
from lib.places import lines, questions
from lib.places.telling import readable
from terminal import on_terminal

# A program that writes the text of a file, and ends with a status.
PROGRAM = '#!/bin/sh\ncat "$4"\nexit "$5"\n'
QUESTION = "within 9\n# both\nnever Fwd = 9\n  never  Fwd = 1 and Rev = 1\nend\n"
FRAME = "no complete journal of the script shows a line of the question: none with these actions and values, at this pace"


class Answers(RoomTest):
    def ended(self, status: int, text: str, question: str = QUESTION) -> list[str]:
        self.put("q.txt", question)
        self.put("out", text)
        os.chmod(self.put("logix_explore", PROGRAM), stat.S_IRWXU)
        words = [f"{TOOLS}/run_explained", f"{self.room}/logix_explore", f"{NEVER}/edit.json", f"{NEVER}/edit.script.txt", "q.txt", "out", str(status)]
        ended, out, said = on_terminal(words, cwd=self.room)
        self.assertEqual((ended, out.decode()), (status, text))
        return said.splitlines()

    def test_none_holds(self) -> None:
        self.assertEqual(self.ended(0, "never 2\n"), [f"logix_explore: {FRAME}"])

    def test_one_holds(self) -> None:
        first, line, more = self.ended(8, "# line 2 after step 95, tick 4\nmode run\nend\n")
        self.assertEqual(first, "logix_explore: status 8: line 2 of the question holds after 95 steps, at tick 4, and after none with fewer steps")
        self.assertEqual(line, "    never Fwd = 1 and Rev = 1")
        self.assertIn("To do: see it as J: `./logix replay P J | tools/timeline --project P > F.svg`", more)

    def test_too_many_states(self) -> None:
        self.assertEqual(self.ended(9, "unknown 7\n"), ["logix_explore: status 9: a layer has too many states. To do: give `within`, or fewer actions."])

    def test_a_question_is_refused(self) -> None:
        first, line, quote, mark, code = self.ended(3, "question Q2 line 2\n", "within 9\nnever Moter = 1\nend\n")
        self.assertEqual(first, "logix_explore: status 3: the journal, script, trace, link script or question is refused")
        self.assertEqual(line, "q.txt, line 2: there is no watched place 'Moter'; is Motor meant?")
        self.assertEqual((quote, mark), ("    never Moter = 1", "          ^"))
        self.assertRegex(code, "^Q2: no watched place has the name. To do: ")

    def test_a_script_is_refused(self) -> None:
        said = self.ended(3, "script J1 line 2\n")
        self.assertEqual(said[1].split(":")[0], f"{NEVER}/edit.script.txt, line 2")


class Refused(unittest.TestCase):
    def said(self, text: str, cause: str) -> questions.Said:
        code, _, number = cause.split()
        return questions.told(code, int(number), lines.lines_of(text.encode()), readable(read_bytes(f"{NEVER}/edit.json")))

    def test_each_has_a_reason(self) -> None:
        for text, cause in REFUSED:
            with self.subTest(text[:80]):
                self.assertNotEqual(self.said(text, cause).why, "this line")

    def test_where(self) -> None:
        for text, cause, why, at in (
            ("never Motor == 1\nend\n", "Q1 line 1", "'==' is none of = <> < <= > >=; each has a space on both sides", 12),
            ("never Motor=1\nend\n", "Q1 line 1", "a line must be 'never TAG OP VALUE', with 'and TAG OP VALUE' for more, and 'at PROGRAM'", 13),
            (f"{ASKS} or Guard = 1\nend\n", "Q1 line 1", "'and' or 'at PROGRAM' must stand here, not 'or'", 16),
            (f"{ASKS} at Mane\nend\n", "Q3 line 1", "there is no program 'Mane'; is Main meant?", 19),
            (f"{ASKS}\nwithin 2\nend\n", "Q4 line 2", "'within' may stand once, and first", 0),
            (f"{ASKS}\n", "Q1 line 2", "the line 'end' is missing: here the text ends", None),
        ):  # fmt: skip
            said = self.said(text, cause)
            self.assertEqual((said.why, said.quote[1].index("^") - 4 if said.quote else None), (why, at))


if __name__ == "__main__":
    unittest.main()
