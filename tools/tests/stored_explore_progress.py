"""How far an exploration is, told on a terminal and nowhere else. The gate runs this after `rt ci`; it takes some three seconds."""

from __future__ import annotations

import os
import pty
import re
import select
import subprocess
import time
import unittest
from typing import IO

import stored_explore_program
from common import RoomTest, built

# Five lanes have an action each that may come at any of a million steps: no machine is through with it within minutes.
SCRIPT = "run 1000000 1 5\n" + "".join(f"@{lane} 0 in Panel 0 1\n" for lane in range(5)) + "end\n"
QUESTION = "never Lamp > Button\nend\n"
LINE = re.compile(rb"step (\d+), tick (\d+): (\d+) states\r\n")
FIRST, EACH = 2, 1  # seconds: until the first line, and between two
PATIENCE = 60  # seconds, on a machine that has much to do


class Exploring:
    """An exploration that is ended when it was seen enough."""

    def __init__(self, program: list[str], words: list[str], errors: int | IO, output: IO) -> None:
        self.began = time.monotonic()
        self.process = subprocess.Popen([*program, *words], stdin=subprocess.DEVNULL, stdout=output, stderr=errors)

    def end(self) -> None:
        self.process.kill()
        self.process.wait()

    def seconds(self) -> float:
        return time.monotonic() - self.began


@stored_explore_program.is_built
class Progress(RoomTest):
    program = [built(stored_explore_program.NAME)]

    def explored(self, errors: int | IO) -> Exploring:
        words = [stored_explore_program.PROJECT, self.put("script.txt", SCRIPT), self.put("question.txt", QUESTION)]
        exploring = Exploring(self.program, words, errors, self.output)
        self.addCleanup(exploring.end)
        return exploring

    def setUp(self) -> None:
        super().setUp()
        self.output = open(f"{self.room}/output", "wb")
        self.addCleanup(self.output.close)

    def line(self, ours: int, told: bytes) -> bytes:
        """What was told with one more line."""
        lines = told.count(b"\n") + 1
        while told.count(b"\n") < lines:
            self.assertTrue(select.select([ours], [], [], PATIENCE)[0], f"no line {lines} within {PATIENCE} s")
            told += os.read(ours, 65_536)
        return told

    def test_a_line_a_second_on_a_terminal_and_none_in_a_file(self) -> None:
        ours, theirs = pty.openpty()
        self.addCleanup(os.close, ours)
        with open(f"{self.room}/errors", "wb") as errors:
            silent = self.explored(errors)
        told_of = self.explored(theirs)
        os.close(theirs)
        told = b""
        for _ in range(2):
            told = self.line(ours, told)
            # A line is read after it was written, so one that is read too early was written too early.
            self.assertLessEqual(FIRST + EACH * (told.count(b"\n") - 1), told_of.seconds())
        self.assertTrue(re.fullmatch(rb"(" + LINE.pattern + rb")+", told), told)
        steps = [int(step) for step, tick, states in LINE.findall(told)]
        self.assertEqual(steps, sorted(set(steps)), "each line is further than the last")
        for step, tick, states in LINE.findall(told):
            self.assertIn(int(step) - int(tick), (0, 1), "a tick follows each step")
            self.assertIn(int(states), range(1, 4_097))
        self.assertIsNone(silent.process.poll(), "it is still under way")
        silent.end()
        self.assertEqual(os.path.getsize(f"{self.room}/errors"), 0)
        self.assertEqual(os.path.getsize(f"{self.room}/output"), 0)


if __name__ == "__main__":
    unittest.main()
