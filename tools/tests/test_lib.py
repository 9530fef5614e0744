"""What several tools use: rungs' texts, read as the hammer's plain interpreter reads them, and names without aliases."""

import random
import unittest

import common  # noqa: F401 (where the tools are)
from lib import neutral
from lib.hammer.plain import rungs as plain
from lib.hammer.plain.words import operand_form
from lib.tags import Names, spelled
from test_online_places import KINDS

PIECES = ["XIC(", "OTE(a)", "XIC(b.c)", "TON(T,?,?)", "foo(a)", "_x(", "XIC", " ", "\t", "\n", "[", "]", ",", ";", ")", "(", "a", "b[0]", "?", "-5", "é", "S:FS", ".", "#"]
PLACES = {(None, "toString"): "Local:1:I.0", (None, "Count1.3"): "cells[1].Counts[2].3", (0, "Mine"): "Program:P.n", (0, "arr[i].3"): "arr[Program:P.i].3",
          (1, "bits[One.Counts[n]]"): "bits[cells[1].Counts[n]]"}  # fmt: skip


def read_plainly(text):
    try:
        return plain.spelled(plain.read_rung(text))
    except plain.TextFault as fault:
        return f"{fault.code} {fault.at}"


def read(text):
    try:
        return neutral.canonical(neutral.elements(text, plain.MNEMONICS))
    except neutral.NoRung as fault:
        return str(fault).rpartition("(")[2].rstrip(")")


class Rungs(unittest.TestCase):
    def test_two_readers_agree(self):
        draw, spelled_out = random.Random(64), 0
        for _ in range(20_000):
            text = "".join(draw.choice(PIECES) for _ in range(draw.randrange(1, 9))) + draw.choice(";; ")
            self.assertEqual(read(text), read_plainly(text), text)
            spelled_out += read(text).endswith(";")
        self.assertGreater(spelled_out, 200)

    def test_a_branch_has_its_legs(self):
        first, branch, last = neutral.tree(neutral.elements("XIC(a)[XIC(b),[,NOP()]]OTE(c);"))
        self.assertEqual((first.op, last.operands, [len(leg) for leg in branch.legs]), ("XIC", ["c"], [1, 1]))
        self.assertEqual([[one.op for one in leg] for leg in branch.legs[1][0].legs], [[], ["NOP"]])

    def test_calls_have_names_as_compared_and_places(self):
        (call,) = neutral.elements("  Valve_1( a ,b);", plain.MNEMONICS, {"valve_1"})
        self.assertEqual((call.op, call.is_call, call.leads, call.operands, call.places, call.at, call.end), ("valve_1", True, True, ["a", "b"], [11, 14], 2, 16))


class Tags(unittest.TestCase):
    def test_names_without_aliases(self):
        names = Names(KINDS)
        for (scope, text), wanted in PLACES.items():
            self.assertEqual(names.expanded(scope, operand_form(text)), wanted, text)
            self.assertEqual(spelled(operand_form(text)), text)
        self.assertEqual([name for scope, name, _ in names.aliases()], ["One", "Count1", "constructor", "toString", "Mine"])
        self.assertEqual(names.full[-2:], ["Program:P.n", "Program:P.i"])


if __name__ == "__main__":
    unittest.main()
