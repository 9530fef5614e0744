"""The cross reference for people, over the list that the rules give: what it answers is in the list, and all of the list is in it."""

from __future__ import annotations

import json
import random
import unittest

import common  # noqa: F401 (where the tools are)
from lib.hammer.made import Maker
from lib.hammer.plain.project import Project
from lib.hammer.plain.reader import Fault
from lib.hammer.plain.xref import xref
from lib.places.uses import NoTag, Uses
from refused_projects import LINE

PACKED = LINE.replace('"JSR(Count,0);"', '"JSR(Count,0);",\n "MOV(Lots[LineNo],Local:2:O);"').replace(
    '{"name": "LineRun"', '{"name": "LineNo", "type": "DINT"}, {"name": "LineRun"'
)


def listed(text: str) -> dict[str, set[str]]:
    """The lines of each tag of the program's list."""
    blocks = [block.splitlines() for block in text.split("tag ")[1:]]
    return {name: set(lines) for name, *lines in blocks}


def answered(lines: list[str]) -> set[str]:
    """The lines of an answer, as the list has them."""
    return {"  " + " ".join(line.split()[:6]) for line in lines if line.startswith("  ") and not line.startswith("  no ")}


def uses_of(contents: bytes) -> tuple[Uses, dict[str, set[str]]]:
    text = xref(Project(contents))
    return Uses(contents, text), listed(text)


class Xref(unittest.TestCase):
    def told(self, tag: str) -> str:
        return "\n".join(uses_of(PACKED.encode())[0].told(tag))

    def test_who_writes_a_bit_of_a_word(self) -> None:
        self.assertEqual(self.told("Motor1"), """\
Local:2:O.0 = Motor1 (output Out2)
  write Line Main 2 1 OTE  XIC(Stagger.DN)OTE(Motor1);
  write Line Main 4 0 MOV  MOV(Lots[LineNo],Local:2:O);  as Local:2:O
  read Line Count 0 0 XIC  XIC(Motor1)CTU(Parts,?,?);""")

    def test_a_bit_that_no_instruction_names(self) -> None:
        self.assertEqual(self.told("local:1:i[1].3"), "Local:1:I[1].3 (input In1)\n  no instruction names it")

    def test_a_part_of_a_timer(self) -> None:
        beside = "Line Main 1 1 TON  XIC(LineRun)TON(Stagger,?,?);  as Stagger"
        self.assertEqual(self.told("Stagger.PRE").splitlines()[1:], [f"  write {beside}", f"  read {beside}"])

    def test_elements(self) -> None:
        self.assertEqual(self.told("Lots[3]").splitlines()[1:], ["  read Line Main 4 0 MOV  MOV(Lots[LineNo],Local:2:O);  as Lots[LineNo]"])
        self.assertIn("  read Line Main 4 0 MOV", self.told("LineNo"))

    def test_a_tag_that_is_not_there(self) -> None:
        wrong = {
            "Mtor1": "there is no tag 'Mtor1'; is Motor1 meant?",
            "Lots[4]": "'Lots' is an array of 4 DINTs: its elements are 0 to 3",
        }
        for tag, why in wrong.items():
            with self.assertRaises(NoTag) as raised:
                self.told(tag)
            self.assertEqual(str(raised.exception), why)

    def test_the_answers_are_in_the_list_and_the_list_in_the_answers(self) -> None:
        for seed in range(60):
            contents = json.dumps(Maker(random.Random(seed), 0.0).project()).encode()
            try:
                uses, proved = uses_of(contents)
            except Fault:
                continue
            with self.subTest(seed=seed):
                self.assertEqual(answered(uses.told(None)), set().union(*proved.values()))
                for tag, lines in proved.items():
                    self.assertEqual(answered(uses.told(tag)), lines)
                for use in uses.uses:
                    if "[" not in use.place.replace("Local:", ""):
                        answer = answered(uses.told(use.place))
                        self.assertLessEqual(answer, proved[uses.names.full[use.tag]])
                        self.assertIn(use.line, answer)


if __name__ == "__main__":
    unittest.main()
