"""tools/ladder: neutral text as trees, and the drawing of routines."""

import contextlib
import io
import random
import unittest
import xml.etree.ElementTree as trees
from unittest import mock

from common import read_text
from plain_programs import LOGIX, PROJECTS
from lib.hammer.plain.judge import answer
from lib import neutral
from lib.ladder import drawing, forms, main
from lib.ladder.elements import Look, Mark

SVG = "{http://www.w3.org/2000/svg}"
NO_RUNGS = {  # with the place where each stops being one
    "XIC(a)": 6, "": 0, "XIC(b));": 6, "[XIC(b)": 7, "XIC": 3, "XIC(b;": 5, "XIC(b,);": 6, "XIC(a) ]": 7, ";;": 1, "5;": 0, "XIC(a b);": 6,
    "[" * 17 + "]" * 17 + ";": 16,
}


def drawn(texts, marks=None, **more):
    return trees.fromstring(drawing.routine(texts, marks, **more))


def boxes(svg):
    """Of each rung where its instructions stand: left, top, right, bottom of what glows."""
    for rung in svg.findall(f"{SVG}svg"):
        found = []
        for group in rung.iter(f"{SVG}g"):
            if group.get("class", "").startswith("instruction"):
                glow = group.find(f"{SVG}rect")
                x, y, w, h = (float(glow.get(name)) for name in ("x", "y", "width", "height"))
                found.append((x, y, x + w, y + h))
        yield float(rung.get("width")), float(rung.get("height")), found


def overlap(a, b):
    return a[0] < b[2] and b[0] < a[2] and a[1] < b[3] and b[1] < a[3]


def made(draw, depth=0):
    """A random series of elements."""
    found = ""
    for _ in range(draw.randrange(1, 7)):
        if depth < 4 and draw.random() < 0.25:
            found += "[" + ",".join(made(draw, depth + 1) if draw.random() < 0.9 else "" for _ in range(draw.randrange(1, 4))) + "]"
        else:
            op = draw.choice(["XIC", "XIO", "OTE", "ONS", "TON", "ADD", "LIM", "NOP", "JSR"])
            operands = {"NOP": "", "TON": "Timer,?,?", "ADD": "A_long_name_of_a_tag,B,C", "LIM": "0,x,100", "JSR": "Sub,2,a,b,c"}.get(op, "Tag" + "g" * draw.randrange(20))
            found += f"{op}({operands})"
    return found


class Neutral(unittest.TestCase):
    def test_each_rung_of_each_example_is_read_and_spelled(self):
        count = 0
        for path in PROJECTS:
            for _, _, texts in neutral.routines(answer(["text"], [read_text(path).encode()])[1]):
                for text in texts:
                    self.assertEqual(neutral.canonical(neutral.elements(text)), text)
                    count += 1
        self.assertGreater(count, 50)

    def test_blanks_and_case(self):
        self.assertEqual(neutral.canonical(neutral.elements(" xic( a ) [ XIO(b)\t,\r\n] ote(C) ; ")), "XIC(a)[XIO(b),]OTE(C);")

    def test_what_is_no_rung(self):
        for text, at in NO_RUNGS.items():
            with self.subTest(text), self.assertRaises(neutral.NoRung) as fault:
                neutral.elements(text)
            self.assertEqual(fault.exception.at, at, text)

    def test_instructions_in_the_order_of_the_text(self):
        found = neutral.instructions(neutral.elements("[XIC(a),[XIC(b),]XIC(c)]OTE(d);"))
        self.assertEqual([each.operands[0] for each in found], list("abcd"))

    def test_what_text_writes_as_routines(self):
        listing = "program P routine M\nprogram(x);\nprogram P routine S\nprogram Q routine M\n;\n"
        self.assertEqual(neutral.routines(listing), [("P", "M", ["program(x);"]), ("P", "S", []), ("Q", "M", [";"])])


class Drawing(unittest.TestCase):
    def check(self, texts, width):
        for text, (whole, height, found) in zip(texts, boxes(drawn(texts, width=width)), strict=True):
            self.assertEqual(len(found), len(neutral.instructions(neutral.elements(text))))
            for at, one in enumerate(found):
                self.assertTrue(drawing.LEFT <= one[0] and one[2] <= whole - drawing.RIGHT and 0 <= one[1] and one[3] <= height, (text, one))
                for other in found[at + 1:]:
                    self.assertFalse(overlap(one, other), text)

    def test_nothing_overlaps_or_leaves_the_rails(self):
        draw = random.Random(1)
        for width in (300, 620, 900):
            self.check([made(draw) + ";" for _ in range(20)], width)

    def test_examples(self):
        for path in PROJECTS:
            for _, _, texts in neutral.routines(answer(["text"], [read_text(path).encode()])[1]):
                self.check(texts, 900)

    def test_long_rungs_are_wrapped(self):
        text = "".join(f"XIC(Input{at})" for at in range(40)) + "OTE(Out);"
        for width in (300, 900):
            (whole, _, found), = boxes(drawn([text], width=width))
            self.assertEqual(whole, width)
            self.assertEqual([one[1] for one in found], sorted(one[1] for one in found))  # line by line

    def test_outputs_end_at_the_rail(self):
        texts = ["XIC(a)OTE(b);", "MOV(1,x);", "XIC(a)[OTE(b),XIC(c)OTL(d)];", "XIC(a)TON(t,?,?);"]
        for whole, _, found in boxes(drawn(texts)):
            self.assertLess(whole - drawing.RIGHT - found[-1][2], 80)

    def test_all_texts_are_there(self):
        svg = drawn(["XIC(a)[XIO(b),ONS(c)]LIM(0,x,100)TON(Dwell,?,?);"], heading="<P & Q>")
        told = [text.text for text in svg.iter(f"{SVG}text")]
        for wanted in ("<P & Q>", "0", "a", "b", "c", "ONS", "LIM", "Limit Test", "Low Limit", "100", "Test", "x", "Dwell", "Preset", "?", "EN", "TT", "DN"):
            self.assertIn(wanted, told)

    def test_notes_and_looks(self):
        svg = drawn(["XIC(a)OTE(b);", "[XIC(c),XIC(d)]ADD(x,1,x);"], {(0, 1): Mark("never", Look.MISSED), (1, 2): Mark("12 times", Look.ON), (1, 1): Mark("3")})
        looks = [[group.get("class") for group in rung.iter(f"{SVG}g") if group.get("data-at")] for rung in svg.findall(f"{SVG}svg")]
        self.assertEqual(looks, [["instruction", "instruction missed"], ["instruction", "instruction", "instruction on"]])
        self.assertEqual([text.text for text in svg.iter(f"{SVG}text") if text.get("class") == "note"], ["never", "3", "12 times"])

    def test_each_mnemonic_has_a_form(self):
        from lib.hammer.plain.rungs import MNEMONICS
        self.assertEqual(set(forms.CONTACTS) | set(forms.COILS) | set(forms.TITLES), MNEMONICS)

    def test_parameters_of_calls(self):
        self.assertEqual(forms.labels("JSR", ("Sub", "2", "a", "b", "c")), ["Routine", "Inputs", "Input Par", "Input Par", "Return Par"])
        self.assertEqual(forms.labels("JSR", ("Sub",)), ["Routine"])


class Words(unittest.TestCase):
    def call(self, *words):
        out, err = io.StringIO(), io.StringIO()
        with mock.patch.object(main, "find", lambda *_: [LOGIX]), contextlib.redirect_stdout(out), contextlib.redirect_stderr(err):
            status = main.main(list(words))
        return status, out.getvalue(), err.getvalue()

    def headings(self, *words):
        status, out, err = self.call(*words)
        self.assertEqual((status, err), (0, ""))
        return [text.text for text in trees.fromstring(out).iter(f"{SVG}text") if text.get("class") == "heading"]

    def test_all_of_a_program_or_one(self):
        conveyor = next(path for path in PROJECTS if "/conveyor/" in path)
        self.assertEqual(self.headings(conveyor), ["Conveyor / Main", "Conveyor / Count", "Rates / Main", "EyeProg / Main"])
        self.assertEqual(self.headings(conveyor, "conveyor"), ["Conveyor / Main", "Conveyor / Count"])
        self.assertEqual(self.headings(conveyor, "Conveyor", "count"), ["Conveyor / Count"])

    def test_refusals(self):
        blink = next(path for path in PROJECTS if "/blink/" in path)
        self.assertEqual(self.call(), (1, "", main.USAGE + "\n"))
        self.assertEqual(self.call(blink, "a", "b", "c")[0], 1)
        self.assertEqual(self.call(blink, "Nobody"), (1, "", "ladder: the project has no program Nobody\n"))
        self.assertEqual(self.call(blink, "Main", "Nobody"), (1, "", "ladder: the project has no routine Main/Nobody\n"))
        self.assertEqual(self.call(__file__), (2, "", "project P1\n"))


if __name__ == "__main__":
    unittest.main()
