"""The tool's own tables, held against the definitions that the proved program goes by."""

import os
import re
import unittest

from common import TOP, read_text
from lib import neutral
from lib.l5x import profile


def text(*path: str) -> str:
    return read_text(os.path.join(TOP, *path))


class Profile(unittest.TestCase):
    def test_operands_are_those_of_the_table(self) -> None:
        table = text("crates", "lgx_rung", "specs", "OperandTable.antt")
        rows = re.findall(r"^fixed_kinds (\w+) = (.*)$", table, re.M)
        found = {op.upper(): tuple(re.findall(r"\w+", kinds)) for op, kinds in rows}
        self.assertEqual(found, profile.OPERANDS)
        self.assertEqual(len(found), 51)

    def test_limits_are_those_of_the_definitions(self) -> None:
        limits = text("crates", "spec_base", "src", "limits.rt")
        found = {name: int(number) for name, number in re.findall(r"pub const (\w+): \w+ = (\d+);", limits)}
        ours = {name: number for name, number in {**vars(profile), **vars(neutral)}.items() if name.startswith("MAX_")}
        for name in sorted(found.keys() & ours.keys()):
            self.assertEqual(ours[name], found[name], name)
        self.assertGreater(len(found.keys() & ours.keys()), 10)
        self.assertEqual(profile.MAX_CONNECTION_BYTES, 4 * found["MAX_CONNECTION_WORDS"])

    def test_limits_are_those_of_the_schema(self) -> None:
        schema = text("docs", "project.schema.json")
        for number in (
            profile.MAX_TYPES, profile.MAX_MEMBERS, profile.MAX_TAGS, profile.MAX_PROGRAMS,
            profile.MAX_ROUTINES, profile.MAX_RUNGS, profile.MAX_TASKS, profile.MAX_CONNECTIONS,
            profile.MAX_VALUES, profile.MAX_WATCHES,
        ):  # fmt: skip
            self.assertRegex(schema, rf'"maxItems": {number}\b')

    def test_names(self) -> None:
        for name in ("a", "_a", "Motor_1", "x" * 40, "A_b_C9"):
            self.assertTrue(profile.is_name(name), name)
        for name in ("", "_", "__a", "a__b", "a_", "1st", "a b", "x" * 41, "é", "a\n", "Local:1:I"):
            self.assertFalse(profile.is_name(name), name)
        for name in ("Local:1:I", "Rack:12:I1", "a:_:b:c", "Local:" + "x" * 40):
            self.assertTrue(profile.is_tag_name(name), name)
        for name in ("S:x", "Program:x", "a::b", "a:b:c:d:e", ":a", "a:", "a:" + "x" * 41, "a:b.c"):
            self.assertFalse(profile.is_tag_name(name), name)

    def test_numbers(self) -> None:
        rows = {
            "-1_000": -1000, "16#FFFF_FFFF": -1, "2#1010": 10, "8#17": 15, "-0": 0, "2147483647": 2147483647,
            "2147483648": "outside", "-2147483648": -2147483648, "16#1_0000_0000": "outside",
            "9" * 9000: "outside", "1__0": None, "-16#1": None, "2#2": None, "": None, "16#": None, "1.0": None,
        }  # fmt: skip
        for written, number in rows.items():
            self.assertEqual(profile.number(written), number, written[:20])


if __name__ == "__main__":
    unittest.main()
