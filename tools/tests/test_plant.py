"""The plant of examples/plant on the plain interpreter: its talk is the stored one; and on programs that don't answer it."""

import os
import stat
import tempfile
import unittest

from common import TOP
from plant_files import plant, stored, talk


class Plant(unittest.TestCase):
    def test_the_stored_talk_is_that_of_the_rules(self):
        self.assertEqual(talk(f"{TOP}/tools/tests/plain_live.py"), stored())

    def told(self, script):
        """What it says of a program that isn't as it should be; it ends with 1."""
        with tempfile.TemporaryDirectory() as room:
            path = f"{room}/program"
            with open(path, "w", encoding="ascii") as file:
                file.write(f"#!/bin/sh\n{script}\n")
            os.chmod(path, stat.S_IRWXU)
            ran = plant(path)
        self.assertEqual(ran.returncode, 1)
        return ran.stderr.decode()

    def test_a_program_that_ends(self):
        self.assertEqual(self.told("exit 70"), "plant: the controller has ended, and a line of the report was awaited\n")

    def test_a_refused_project(self):
        self.assertEqual(self.told("echo project P2 schema; exit 2"), "plant: the controller answers 'project P2 schema'\n")

    def test_a_refused_line(self):
        self.assertEqual(self.told("echo line J1 1; cat >/dev/null"), "plant: the controller answers 'line J1 1'\n")

    def test_a_program_that_is_not_there(self):
        ran = plant("/nonexistent")
        self.assertEqual((ran.returncode, ran.stdout, ran.stderr[:7]), (1, b"", b"plant: "))


if __name__ == "__main__":
    unittest.main()
