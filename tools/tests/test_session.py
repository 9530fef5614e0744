"""A session on a terminal: what goes in and out is as it is, and each line that can't be done is explained, on the plain interpreter."""

from __future__ import annotations

import os
import tempfile
import unittest

from common import TOOLS
from refused_projects import LINE
from terminal import on_terminal

GIVEN = """\
mode run
cpu 2
step 3

@1 in Inn1 0 5
@31 clear
@1 accept Line Main i 0 NOP();
@1 accept Line Main r 2 XIC(Stagger.DN)OTE(Motr1);
# the end
end
"""
ANSWER = """\
0 0 reply 31 ok
line J1 3
0 2 reply 1 refused N1
line J2 6
0 2 reply 1 ok 1
0 2 reply 1 refused E8 C4 3 1
end 0 2 run lost 0
"""
SAID = """\
logix_live: line 3: no line begins with 'step'; it is cpu, tick, in, out, accept, test, untest, assemble, cancel, mode, clear, force or end
    step 3
    ^
J1: a malformed line, or one of over 65,536 bytes. To do: correct the line.
logix_live: refused: there is no connection 'Inn1'; is In1 meant?
    @1 in Inn1 0 5
          ^
N1: no connection has the name. To do: correct the name.
logix_live: line 6: no lane 31: lanes are 0 to 30; the operator, 31, has no @
    @31 clear
    ^
J2: a lane above 30. To do: choose another.
logix_live: refused: rung 3 of the edited routine: there is no tag 'Motr1'; is Motor1 meant?
    @1 accept Line Main r 2 XIC(Stagger.DN)OTE(Motr1);
    XIC(Stagger.DN)OTE(Motr1);
                       ^
C4: neither the program nor the controller declares the tag. To do: declare it, or correct the spelling.
"""


class Sessions(unittest.TestCase):
    def setUp(self) -> None:
        room = tempfile.TemporaryDirectory()
        self.addCleanup(room.cleanup)
        self.program = f"{room.name}/logix_live"
        os.symlink(f"{TOOLS}/tests/plain_live.py", self.program)
        self.project = f"{room.name}/line.json"
        with open(self.project, "w", encoding="utf-8") as file:
            file.write(LINE)
        self.maxDiff = None

    def talk(self, given: str) -> tuple[int, str, str]:
        status, answer, said = on_terminal([f"{TOOLS}/run_explained", self.program, self.project], given.encode())
        return status, answer.decode(), said

    def test_each_refusal_is_explained(self) -> None:
        self.assertEqual(self.talk(GIVEN), (0, ANSWER, SAID))

    def test_a_program_that_gives_bad_lines_is_not_told_of_all(self) -> None:
        status, answer, said = self.talk("step\n" * 30)
        self.assertEqual((status, answer.count("line J1 ")), (0, 30))
        self.assertEqual(said.count("logix_live: line "), 20)
        self.assertTrue(said.endswith("logix_live: more refusals aren't explained here\n"))


if __name__ == "__main__":
    unittest.main()
