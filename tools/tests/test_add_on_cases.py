"""Made calls of Add-On Instructions: the project, run by the plain interpreter of the hammer, has after each scan the tags that a plain
interpreter of the calls themselves has. Run with a number, it tries so many cases."""

from __future__ import annotations

import json
import random
import re
import sys
import unittest
from collections.abc import Callable
from unittest import mock

from add_on_made import INPUT, Maker
from add_on_plain import Cell, Plain
from l5x_files import convert
from lib.hammer.plain.journal import Action
from lib.hammer.plain.machine import Machine
from lib.hammer.plain.project import Project, read
from lib.l5x import expanding
from lib.l5x.calls import Call

CASES = 60
SCANS = 6
MOST_STEPS = 20_000


def leaves(place: str, cells: object) -> list[tuple[str, int]]:
    """The numbers of a tag, each with its place; a timer's tick has none."""
    if isinstance(cells, Cell):
        return [(place, cells.value)]
    pairs = ((f"[{k}]", c) for k, c in enumerate(cells)) if isinstance(cells, list) else ((f".{k}", c) for k, c in cells.items())
    return [leaf for behind, inner in pairs if behind != ".tick" for leaf in leaves(place + behind, inner)]


class Both:
    """The two runs of a case, side by side."""

    def __init__(self, seed: int) -> None:
        self.maker = Maker(seed)
        ended = convert(self.maker.file())
        if ended.status != 0:
            raise AssertionError("\n".join([f"case {seed} isn't taken", *ended.lines]))
        self.described = json.loads(ended.project)
        self.project = Project(ended.project.encode())
        self.machine = Machine(self.project)
        self.plain = Plain(self.maker.definitions, self.maker.tags, self.maker.routines)
        self.draw = random.Random(seed + 1)
        self.seed = seed
        self.machine.event("act", 31, Action("mode run"))
        # What was done, as lines of a journal.
        self.journal = ["mode run"]
        self.places = {}
        for tag, cells in self.plain.tags.items():
            for place, _ in leaves(tag, cells):
                self.places[place] = self.project.scoped(place, ())

    def tell_inputs(self) -> None:
        for word in range(2):
            number = self.draw.randrange(1 << 8)
            self.machine.event("act", 0, Action("in", ("Local_1_I",), (word, number)))
            self.journal.append(f"@0 in Local_1_I {word} {number}")
            self.plain.tags[INPUT][word].value = number
        for _ in range(self.draw.choice((0, 1, 4))):
            self.machine.event("tick")
            self.journal.append("tick 1")
            self.plain.now += 1

    def scan(self) -> None:
        for steps in range(1, MOST_STEPS + 1):
            said = self.machine.event("cpu")
            if any(fault[0] == "major" for fault in said.faults):
                raise AssertionError(f"case {self.seed}: {said.faults}")
            if said.left == "ended":
                self.journal.append(f"cpu {steps}")
                break
        else:
            raise AssertionError(f"case {self.seed}: the scan doesn't end")
        self.plain.scan()

    def judge(self, when: str) -> None:
        for tag, cells in self.plain.tags.items():
            for place, wanted in leaves(tag, cells):
                found = read(self.machine.image, *self.places[place])
                if found != wanted:
                    raise AssertionError(f"case {self.seed} {when}: {place} is {found}, not {wanted}\n{json.dumps(self.maker.routines)}")

    def run(self) -> None:
        self.judge("after prescan")
        for number in range(SCANS):
            self.tell_inputs()
            self.scan()
            self.judge(f"after scan {number}")


def _bent(bend: Callable[[str], str]) -> Callable[[Call, str], list[str]]:
    """An expansion whose text is changed."""
    sound = expanding._parts
    return lambda call, name: [bend("".join(sound(call, name)))]


# Expansions that are wrong, each in one way.
BENDS = {
    "EnableOut keeps what it was": lambda text: re.sub(r"OTE\(([^()]*EnableOut)\)", "NOP()", text),
    "EnableIn keeps what it was": lambda text: re.sub(r"OTE\(([^()]*EnableIn)\)", "NOP()", text),
    "the condition goes on as it came": lambda text: text[: text.rindex("XIC(")],
    "bits are never cleared": lambda text: re.sub(r"OTU\([^()]*\)", "NOP()", text),
    "outputs stay": lambda text: re.sub(r"(?<=,0\)).*(?=XIC\([^()]*EnableOut)", "", text),
    "inputs come after the routine": lambda text: re.sub(r"(OTE.*EnableOut\))(.*)(JSR\([^()]*\))", r"\1\3\2", text),
    "the routine isn't called": lambda text: re.sub(r"JSR\([^()]*\)", "NOP()", text),
}


class Cases(unittest.TestCase):
    def test_made_cases(self) -> None:
        for seed in range(CASES):
            Both(seed).run()

    def test_wrong_expansions_are_seen(self) -> None:
        for what, bend in BENDS.items():
            with self.subTest(what), mock.patch.object(expanding, "_parts", _bent(bend)):
                self.assertTrue(any(map(self.differs, range(CASES))))

    @staticmethod
    def differs(seed: int) -> bool:
        try:
            Both(seed).run()
        except AssertionError:
            return True
        return False


if __name__ == "__main__":
    if len(sys.argv) > 1 and sys.argv[1].isdigit():
        for seed in range(int(sys.argv[1])):
            Both(seed).run()
        print(f"{sys.argv[1]} cases")
    else:
        unittest.main()
