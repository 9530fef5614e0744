"""Scenarios whose coverage is asked for, on the plain interpreter or on the built programs."""

from __future__ import annotations

import os
import stat

from scenario_files import ScenarioTest

RUNGS = ["XIC(Button)OTE(Lamp);", "XIC(Other)MOV(1,n);"]
# Three scans, the button pressed in two of them; two scans by an edited first rung; one that isn't run.
PRESSED = ("at 10: Button = 1", "run 20", "require", "end: Lamp = 1")
EDITED = ("at 0: Other = 1", "at 0 engineer 0: accept Main Go r 0 XIO(Button)OTE(Lamp);", "at 0 engineer 0: test Main", "run 10")
WRONG = ("rum 20",)


class CoverageTest(ScenarioTest):
    def setUp(self) -> None:
        super().setUp()
        self.project(rungs=RUNGS)
        self.file = f"{self.room}/coverage.txt"

    def suite(self) -> str:
        for name, lines in (("a", PRESSED), ("b", EDITED), ("c", WRONG)):
            self.scenario(*lines, name=f"suite/{name}.scenario", project="../lamp.json")
        return f"{self.room}/suite"

    def counts_by(self, script: str) -> None:
        """The program that counts is a script, in place of the one that the link leads to."""
        path = f"{self.programs}/logix_cover"
        os.remove(path)
        self.put("programs/logix_cover", f"#!/bin/sh\n{script}\n")
        os.chmod(path, stat.S_IRWXU)

    def written(self) -> str:
        return self.text("coverage.txt").replace(self.room, "")
