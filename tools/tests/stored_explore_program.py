"""logix_explore as a process: what it writes and how it ends. The gate runs this after `rt ci`."""

from __future__ import annotations

import os
import subprocess
import unittest

import stored_runs
from common import TOP, RoomTest, built, read_text
from lib.paths import TOOLS

NAME = "logix_explore"
DATA = f"{TOP}/crates/{NAME}/data"
PROJECT, SCRIPT, QUESTION = (f"{DATA}/{name}" for name in ("project.json", "script.txt", "question.txt"))
USAGE = b"usage: logix_explore P S Q\n"
# Worked out by hand: a scan is four steps; the button is pressed after the second, so its contact is true at the sixth and the lamp lights at the seventh.
WITNESS = read_text(f"{TOP}/crates/{NAME}/stdout")
is_built = unittest.skipUnless(os.access(built(NAME), os.X_OK), f"{NAME} isn't built")


@is_built
class Program(stored_runs.StoredRun):
    def call(self, words, wanted: bytes, status: int, **more) -> None:
        self.runs(words, wanted, status, name=NAME, **more)

    def asks(self, question: str, wanted: str, status: int, script: str = "") -> None:
        """A question on the script of the program's data, or on another."""
        asked = [PROJECT, self.put("script.txt", script) if script else SCRIPT, self.put("question.txt", question)]
        self.call(asked, wanted.encode(), status)

    def test_a_line_holds(self) -> None:
        self.call([PROJECT, SCRIPT, QUESTION], WITNESS.encode(), 8)
        self.assertEqual(WITNESS.splitlines()[0], "# line 2 after step 7, tick 6")

    def test_the_first_line_that_holds(self) -> None:
        self.asks("within 0\nnever Lamp = 1\nnever Lamp = Button and Lamp > 0\nend\n", WITNESS.replace("line 2", "line 1"), 8)

    def test_no_line_ever_holds(self) -> None:
        for lines in range(1, 4):
            self.asks("never Lamp > Button\n" * lines + "end\n", f"never {lines}\n", 0)

    def test_as_many_states_as_a_layer_may_have(self) -> None:
        """Before the first step each of the 12 lanes has made its action or not: 4,096 states."""
        actions = "".join(f"@{lane} 0 in Panel 0 1\n" for lane in range(12))
        self.asks("never Lamp > Button\nend\n", "never 1\n", 0, f"run 1 1 12\n{actions}end\n")

    def test_more_states_than_a_layer_may_have(self) -> None:
        """One more lane: 8,192 states."""
        actions = "".join(f"@{lane} 0 in Panel 0 1\n" for lane in range(13))
        self.asks("never Lamp > Button\nend\n", "unknown 0\n", 9, f"run 1 1 13\n{actions}end\n")

    def test_a_script_without_lanes(self) -> None:
        self.asks("never Lamp = 1\nend\n", "never 1\n", 0, "run 30 7 0\nend\n")
        self.asks("never Lamp = 0\nend\n", "# line 1 after step 0, tick 0\nmode run\nend\n", 8, "run 30 7 0\nend\n")

    def test_a_line_that_holds_comes_before_want_of_room(self) -> None:
        """It holds at the opening."""
        actions = "".join(f"@{lane} 0 in Panel 0 1\n" for lane in range(13))
        self.asks("never Lamp = 0\nend\n", "# line 1 after step 0, tick 0\nmode run\nend\n", 8, f"run 1 1 13\n{actions}end\n")

    def test_the_journal_is_one_for_replay(self) -> None:
        replayed = subprocess.run([built("logix"), "replay", PROJECT, self.put("journal.txt", WITNESS)], capture_output=True, text=True, timeout=60, check=False)
        self.assertEqual((replayed.returncode, replayed.stderr), (0, ""))
        self.assertEqual(replayed.stdout.splitlines()[-2:], ["6 7 set Lamp 1", "end 6 7 run lost 0"])

    def test_other_words(self) -> None:
        for words in ([], [PROJECT], [PROJECT, SCRIPT], [PROJECT, SCRIPT, QUESTION, "x"], [b"\xff", b"\xfe", b"\xfd"]):
            self.call(words, USAGE, 1)

    def test_refusals_in_the_order_of_reading(self) -> None:
        bad = self.put("bad.txt", "x\n")
        for words, said, status in (
            ([bad, bad, bad], "project P1", 2), ([bad, "nothing", "nothing"], "project P1", 2), ([PROJECT, bad, bad], "script J1 line 1", 3),
            ([PROJECT, bad, "nothing"], "script J1 line 1", 3), ([PROJECT, SCRIPT, bad], "question Q1 line 1", 3),
        ):  # fmt: skip
            self.call(words, f"{said}\n".encode(), status)

    def test_a_question_is_refused_by_its_first_cause(self) -> None:
        for question, said in (
            ("never Lamp = 1\n", "Q1 line 2"), ("never Lamp == 1\nend\n", "Q1 line 1"), ("# x\n\nnever Lump = 1 at Q\nend\n", "Q2 line 3"),
            ("never Lamp = 1 at Q\nend\n", "Q3 line 1"), ("end\n", "Q4 line 1"), ("never Lamp = 1\nwithin 0\nend\n", "Q4 line 2"),
        ):  # fmt: skip
            self.asks(question, f"question {said}\n", 3)

    def test_files_that_do_not_come(self) -> None:
        for at in range(3):
            words = [PROJECT, SCRIPT, QUESTION]
            words[at] = "nothing"
            self.call(words, b"", 4)
        long = self.put("long.json", b"")
        os.truncate(long, stored_runs.MOST_BYTES + 1)
        self.call([long, SCRIPT, QUESTION], b"", 7)
        self.call([PROJECT, SCRIPT, long], b"", 7)

    def test_a_full_device_ends_with_5(self) -> None:
        with open("/dev/full", "wb") as full:
            self.call([PROJECT, SCRIPT, QUESTION], b"", 5, out=full)

    def test_want_of_memory_ends_with_6(self) -> None:
        self.put("long.json", b" " * stored_runs.MOST_BYTES)
        self.call(["long.json", SCRIPT, QUESTION], b"", 6, most_memory=24_000_000)


@is_built
class Enough(RoomTest):
    """The stack that FORMATS.md says is enough."""

    ENOUGH, ends_well = stored_runs.Stack.ENOUGH, stored_runs.Stack.ends_well

    def test_it_is_enough(self) -> None:
        self.put("question.txt", "never Lamp > Button\nend\n")
        self.ends_well(NAME, [PROJECT, SCRIPT, f"{self.room}/question.txt"])


@is_built
class Tool(RoomTest):
    def test_it_is_the_program(self) -> None:
        ran = subprocess.run([f"{TOOLS}/explore", PROJECT, SCRIPT, QUESTION], capture_output=True, text=True, timeout=60, check=False)
        self.assertEqual((ran.returncode, ran.stdout, ran.stderr), (8, WITNESS, ""))


if __name__ == "__main__":
    unittest.main()
