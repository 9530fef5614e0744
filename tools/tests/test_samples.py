"""The samples of examples/l5x: what comes out of each, and what is said of it."""

import json
import os
import re
import unittest

from common import TOP
from l5x_files import SAMPLES, call
from lib.hammer.plain.judge import answer

# The words of each sample and its status.
WORDS = {
    "line": (["--watch", "Stats.Running,Horn,Motor,Stats.Count"], 0),
    "station": (["--watch", "Total,Program:Station.Done"], 0),
    "seal": (["--watch", "Program:PressProg.Heat.DN", "--watch", "Program:PressProg.Seals.ACC"], 0),
    "cells": (["--watch-all-bools"], 0),
    "tasks": (["--tick-ms", "10", "--watch-all-bools"], 0),
    "packer": (["--leave-out", "--watch", "Boxes,Weight", "--watch-all-bools"], 0),
    "drives": (["--leave-out"], 1),
    "works": (["--leave-out", "rungs", "--watch", "ToBoxer.Count,Boxes", "--watch-all-bools"], 0),
    "tally": (["--watch", "T1.EnableIn,T1.EnableOut,T1.Part,Parts,Run"], 0),
    "valve": (["--watch", "V101.EnableIn,V101.EnableOut,V101.Cmd,V101_Coil,V101_Cycles,V101_Ready"], 0),
    "recipe": (["--watch", "Now,Later,T_Sweet.PRE,T_Sweet.DN,T_Sour.DN,Done[0],Done[1],Done[2],Done[3],Steps[1].EnableIn"], 0),
    "twice": (["--watch", "A1.EnableIn,A1.By,A1.Sum"], 0),
    "many": (["--watch", "Totals[0],Totals[1],Totals[49],Totals[50],Totals[199],Lanes[199].EnableIn"], 0),
    "newer": (["--watch", "Level,Copy", "--watch-all-bools"], 0),
}


def sample(name: str) -> str:
    path = os.path.join(SAMPLES, name)
    if not os.path.exists(path):
        return ""
    with open(path, encoding="utf-8") as file:
        return file.read()


class Samples(unittest.TestCase):
    def test_each_gives_its_project_and_its_list(self) -> None:
        for name, (words, status) in WORDS.items():
            with self.subTest(name):
                ended = call([os.path.join(SAMPLES, name + ".L5X"), *words])
                self.assertEqual(ended.lines, sample(name + ".list.txt").splitlines())
                self.assertEqual(ended.project, sample(name + ".project.json"))
                self.assertEqual(ended.status, status)

    def test_the_document_shows_a_sample(self) -> None:
        """The rungs of a call and of its routine, in lines of their own, are those that the tool makes of the sample."""
        with open(os.path.join(TOP, "docs", "L5X.md"), encoding="utf-8") as file:
            example = file.read().partition("**An example**")[2].partition("**Listed**")[0]
        shown = "".join(re.findall(r"^ {4}(.*)$", example, re.M))
        routines = json.loads(sample("tally.project.json"))["programs"][0]["routines"]
        self.assertEqual(shown, "".join(rung for routine in routines for rung in routine["rungs"]))

    def test_runs_are_those_of_the_rules(self) -> None:
        for name in WORDS:
            if sample(name + ".journal.txt"):
                with self.subTest(name):
                    files = [sample(f"{name}.{kind}").encode() for kind in ("project.json", "journal.txt")]
                    self.assertEqual(answer(["replay"], files), (0, sample(name + ".report.txt")))

    def test_all_files_are_samples(self) -> None:
        found = {name.removesuffix(".L5X") for name in os.listdir(SAMPLES) if name.endswith(".L5X")}
        self.assertEqual(found, set(WORDS))

    def test_without_leave_out_nothing_is_written(self) -> None:
        ended = call([os.path.join(SAMPLES, "packer.L5X")])
        self.assertEqual((ended.status, ended.project), (1, ""))
        self.assertEqual(ended.lines[-1], "no project: 15 places can't be taken; --leave-out takes the rest")

    def test_rungs_are_as_they_were_exported(self) -> None:
        with open(os.path.join(SAMPLES, "line.L5X"), encoding="utf-8") as file:
            text = file.read()
        project = json.loads(sample("line.project.json"))
        for program in project["programs"]:
            for routine in program["routines"]:
                for rung in routine["rungs"]:
                    self.assertIn(f"<![CDATA[{rung}]]>", text)

    def test_cut_anywhere_it_is_no_file(self) -> None:
        from l5x_files import convert

        for name in WORDS:
            with open(os.path.join(SAMPLES, name + ".L5X"), "rb") as file:
                data = file.read()
            for length in range(0, len(data.rstrip()), 100):
                ended = convert(data[:length], "--leave-out")
                self.assertEqual((ended.status, ended.project, len(ended.lines)), (2, "", 1), (name, length))


if __name__ == "__main__":
    unittest.main()
