"""Newer mnemonics, rungs left out one by one, what only stands there, and the words for texts and edits."""

import json
import os
import tempfile
import unittest

from add_on_files import add_on, given_out, taken_in, with_add_ons
from l5x_files import alias, call, content, convert, file, program, routine, tag, task
from lib.hammer.plain.judge import answer

NEWER = ["LIMIT(1,n,5)NOP();", "NE(n,1)LT(n,2)[GT(n,3),xic(b)]le( n , 4 )GE(n,5)EQ(n,6)NOP();", "MOVE(1,n);"]
OLDER = ["LIM(1,n,5)NOP();", "NEQ(n,1)LES(n,2)[GRT(n,3),xic(b)]LEQ( n , 4 )GEQ(n,5)EQU(n,6)NOP();", "MOV(1,n);"]
TAGS = tag("n", "DINT") + tag("b", "BOOL")


def plain(rung: str) -> str:
    return rung.replace("xic", "XIC").replace("le(", "LE(").replace(" ", "")


def of_routines(routines: str, tags: str = TAGS, more: str = "") -> str:
    return file(tags=tags, tasks=more).replace(routine("Go", "NOP();"), routines)


class Mnemonics(unittest.TestCase):
    def test_newer_ones(self) -> None:
        ended = convert(of_routines(routine("Go", *NEWER)))
        self.assertEqual(ended.status, 0, ended.lines)
        self.assertEqual(json.loads(ended.project)["programs"][0]["routines"][0]["rungs"], OLDER)
        told = "EQ as EQU, NE as NEQ, LT as LES, LE as LEQ, GT as GRT, GE as GEQ, LIMIT as LIM, MOVE as MOV"
        self.assertEqual(ended.lines[0], f"note: the mnemonics of a newer release are taken as what they were: {told}")
        self.assertEqual(len(ended.lines), 2)

    def test_texts_of_both_kinds(self) -> None:
        for rungs in (NEWER, OLDER):
            text = of_routines(routine("Go", *rungs))
            old, new = (convert(text, "--text", which).project for which in ("old", "new"))
            head = "program P routine Go\n"
            self.assertEqual(old, head + "".join(f"{rung}\n" for rung in map(plain, OLDER)))
            self.assertEqual(new, head + "".join(f"{rung}\n" for rung in map(plain, NEWER)))
            self.assertEqual(convert(of_routines(routine("Go", *new.splitlines()[1:])), "--text", "old").project, old)

    def test_wrong_words(self) -> None:
        self.assertEqual(call(["--text", "newest", "x.L5X"]).status, 3)


class LeftOut(unittest.TestCase):
    def left(self, text: str, *lines: str) -> dict:
        ended = convert(text, "--leave-out", "rungs")
        self.assertEqual(ended.status, 0, ended.lines)
        for line in lines:
            self.assertIn(line, ended.lines)
        self.lines = ended.lines
        return {r["name"]: r["rungs"] for p in json.loads(ended.project)["programs"] for r in p["routines"]}

    def test_only_the_rung_goes(self) -> None:
        rungs = ["XIC(b)NOP();", "GSV(a,b,c,d)OTE(b);", "CLR(n)CLR(gone);", "XIC(b", "JSR(Sub,0);", "OTE(b);"]
        text = of_routines(routine("Go", *rungs) + routine("Sub", "MSG(m);"))
        found = self.left(
            text,
            "program P routine Go rung 1: GSV isn't in the table of instructions",
            "program P routine Go rung 2: CLR: the file has no tag gone (C4)",
            "program P routine Go rung 3: the text ends too early (T3 5)",
            "summary: 3 of 7 rungs, 2 of 2 routines and 2 of 2 tags are taken",
            "left out: the 4 places above",
        )
        self.assertEqual(found, {"Go": ["XIC(b)NOP();", "NOP();", "NOP();", "NOP();", "JSR(Sub,0);", "OTE(b);"], "Sub": ["NOP();"]})
        self.assertEqual(convert(text, "--leave-out").status, 1)
        self.assertEqual(convert(text).status, 1)

    def test_the_words(self) -> None:
        text = of_routines(routine("Go", "GSV(a,b,c,d);")).encode()
        with tempfile.TemporaryDirectory() as folder:
            path = os.path.join(folder, "file.L5X")
            with open(path, "wb") as export:
                export.write(text)
            for words in (["--leave-out", "rungs", path], [path, "--leave-out", "rungs"], ["--leave-out=rungs", path]):
                self.assertEqual(call(words).status, 0, words)
            for words in (["--leave-out", path], [path, "--leave-out"], [path]):
                self.assertEqual(call(words).status, 1, words)
            self.assertEqual(call(["rungs", "--leave-out", path]).status, 3)

    def test_what_names_what_is_gone(self) -> None:
        other = program("Q", routine("Go", "NOP();").replace('"RLL"', '"ST"'))
        event = '<EventInfo EventTrigger="EVENT Instruction Only"/>'
        routines = routine("Go", "JSR(Sub,0)OTE(b);", "EVENT(E);", "JSR(Other,0);") + routine("Sub", "NOP();").replace('"RLL"', '"FBD"')
        text = of_routines(routines + routine("Other", "NOP();"), more=task("E", "Q", 'Type="EVENT" Priority="1"', event))
        text = text.replace("</Programs>", other + "</Programs>")
        found = self.left(
            text,
            "program P routine Go rung 0: JSR: routine Sub isn't taken (C11)",
            "program P routine Go rung 1: EVENT: E is no event task that is taken (C15)",
        )
        self.assertEqual(found, {"Go": ["NOP();", "NOP();", "JSR(Other,0);"], "Other": ["NOP();"]})

    def test_labels(self) -> None:
        found = self.left(
            of_routines(routine("Go", "LBL(Here)GSV(a,b,c,d);", "JMP(Here);", "LBL(There)NOP();", "JMP(There);", "LBL(there)NOP();")),
            "program P routine Go rung 1: JMP to Here, and no such label (C12)",
            "program P routine Go rung 4: label there stands twice (C13)",
            "note: program P routine Go rung 0: LBL goes with it, on which other rungs hang",
        )
        self.assertEqual(found, {"Go": ["NOP();", "NOP();", "LBL(There)NOP();", "JMP(There);", "NOP();"]})
        found = self.left(of_routines(routine("Go", "LBL(Here)JSR(Gone,0);", "JMP(Here);", "GSV(a)MCR();", "MCR();")),
                          "note: program P routine Go rung 2: MCR goes with it, on which other rungs hang")  # fmt: skip
        self.assertEqual(found, {"Go": ["NOP();", "NOP();", "NOP();", "MCR();"]})

    def test_calls_of_add_ons(self) -> None:
        sound = add_on("Flip", taken_in("Go") + given_out("Done"), ["XIC(Go)OTE(Done);"])
        odd = add_on("Odd", more='ExecutePrescan="true"')
        tags = tag("F", "Flip") + tag("O", "Odd") + TAGS
        text = with_add_ons(sound + odd, tags=tags)
        text = text.replace(routine("Go", "NOP();"), routine("Go", "Odd(O);", "Flip(F,b,b);", "Flip(F,b,b)Odd(O);", "Flip(F,b,b)CLR(gone);"))
        found = self.left(text, "program P routine Go rung 0: Odd: an Add-On Instruction that isn't taken")
        self.assertEqual(len(found), 2)
        self.assertEqual([rung == "NOP();" for rung in found["Go"]], [True, False, True, True])
        self.assertIn("summary: Odd isn't taken, 2 times; first program P routine Go rung 0", self.lines)


class OnlyThere(unittest.TestCase):
    def test_folders(self) -> None:
        folder = '<Program Name="Area" UseAsFolder="true"><ChildPrograms><ChildProgram Name="P"/></ChildPrograms></Program>'
        ended = convert(file(programs=folder))
        self.assertEqual((ended.status, ended.lines[0]), (0, "note: passed over: program Area is only a folder"))
        self.assertEqual([p["name"] for p in json.loads(ended.project)["programs"]], ["P"])

    def test_what_no_rung_names(self) -> None:
        kinds = ("MESSAGE", "AXIS_CIP_DRIVE", "MOTION_GROUP", "ALARM_ANALOG", "REAL", "STRING")
        tags = "".join(tag(f"t{k}", of) for k, of in enumerate(kinds))
        ended = convert(file(tags=tags).replace("</Controller>", '<Trends><Trend Name="a"/><Trend Name="b"/></Trends></Controller>'))
        self.assertEqual(ended.status, 0)
        self.assertIn("note: passed over: 2 Trends, which no run needs", ended.lines)
        self.assertIn("note: passed over: tag t0: type MESSAGE isn't in the profile", ended.lines)
        ended = convert(file(tags=tags), "--watch", "t4")
        self.assertEqual(ended.status, 1)
        self.assertIn("tag t4: type REAL isn't in the profile", ended.lines)
        self.assertIn("note: passed over: tag t3: type ALARM_ANALOG isn't in the profile", ended.lines)

    def test_limits_are_for_what_is_named(self) -> None:
        member = '<DataType Name="T{0}" Class="User"><Members><Member Name="m" DataType="DINT" Dimension="0"/></Members></DataType>'
        types = "".join(member.format(k) for k in range(70))
        tags = "".join(tag(f"t{k}", f"T{k}") for k in range(70))
        last = tag("last", "DINT") + tag("big", "DINT", more='Dimensions="60000"')
        ended = convert(file("CLR(t69.m)CLR(last)CLR(big[0]);", tags + last, types))
        self.assertEqual(ended.status, 0, ended.lines)
        self.assertEqual(sum(" types without it (P11)" in line for line in ended.lines), 6)
        many = "".join(tag(f"u{k}", "DINT", more='Dimensions="60000"' if k == 1 else "") for k in range(4200))
        ended = convert(file("XIC(first)CLR(big[0]);", many + alias("first", "last.0") + last))
        self.assertEqual(ended.status, 0, ended.lines)
        self.assertIn("note: passed over: tag u1: all tags have over 262,144 bytes with it (G8)", ended.lines)
        self.assertEqual(len(json.loads(ended.project)["tags"]), 4096)

    def test_bits_whose_word_is_not_told(self) -> None:
        data = (
            '<InputTag><Data Format="Decorated"><Structure DataType="AB:5000_DI:I:0"><DataValueMember Name="Run" DataType="BOOL" Value="0"/>'
            '<DataValueMember Name="Count" DataType="INT" Value="0"/><StructureMember Name="Pt00" DataType="AB:5000_Ch:I:0">'
            '<DataValueMember Name="Data" DataType="BOOL" Value="0"/><DataValueMember Name="Fault" DataType="BOOL" Value="0"/>'
            "</StructureMember></Structure></Data></InputTag>"
        )
        module = (
            '<Module Name="In" ParentModule="Local"><Ports><Port Address="1" Type="5069" Upstream="true"/></Ports>'
            f"<Communications><Connections><Connection>{data}</Connection></Connections></Communications></Module>"
        )
        ended = convert(file("XIC(Local:1:I.Pt00.Data)NOP();", modules=module))
        self.assertEqual(ended.status, 0, ended.lines)
        # The bytes by docs/FORMATS.md: Run 0, Count 2 and 3, Pt00 from 4 on.
        told = "the file tells no words for its BOOLs, so they are ours, as word.bit: Run 0.0, Pt00.Data 1.0, Pt00.Fault 1.8"
        self.assertIn(f"note: module In tag Local:1:I: {told}", ended.lines)

    def test_produced_and_consumed_tags(self) -> None:
        made = '<Tag Name="{}" TagType="{}" DataType="{}"><{}Info/></Tag>'
        tags = made.format("Out", "Produced", "DINT", "Produce") + made.format("In", "Consumed", "DINT", "Consume") + made.format(
            "Odd", "Consumed", "SINT", "Consume")  # fmt: skip
        ended = convert(file("MOV(In,Out);", tags))
        self.assertEqual(ended.status, 0, ended.lines)
        self.assertEqual(json.loads(ended.project)["connections"], [{"name": "Out", "tag": "Out", "direction": "out"},
                                                                   {"name": "In", "tag": "In", "direction": "in"}])  # fmt: skip
        self.assertIn("note: tag In: a consumed tag becomes the tag of an input for `link`", ended.lines)
        self.assertIn("note: tag Out: a produced tag becomes the tag of an output for `link`", ended.lines)
        self.assertIn("note: passed over: tag Odd: no DINTs and no structure of at most 512 bytes", ended.lines)
        both = '<Tag Name="Two" TagType="Produced" AliasFor="Out"/>'
        ended = convert(file("MOV(In,Out);", tags + both))
        self.assertEqual([c["name"] for c in json.loads(ended.project)["connections"]], ["Out", "In"])
        inner = program("P", routine("Go"), made.format("Own", "Produced", "DINT", "Produce"))
        ended = convert(content(f"<Programs>{inner}</Programs><Tasks>{task('T', 'P')}</Tasks>"))
        self.assertIn("note: passed over: program P tag Own: a produced tag of a program", ended.lines)


    def test_a_link_of_two_files(self) -> None:
        one = '<Tag Name="{0}" TagType="{1}" DataType="DINT"><{2}Info/></Tag>'
        ours = convert(file("MOV(7,ToB);", one.format("ToB", "Produced", "Produce")))
        theirs = convert(file("MOV(FromA,n);", one.format("FromA", "Consumed", "Consume") + TAGS), "--watch", "n")
        script = b"link ToB FromA\na mode run\na cpu 2\nsend\nb mode run\ndeliver 0\nb cpu 2\nend\n"
        status, text = answer(["link"], [ours.project.encode(), theirs.project.encode(), script])
        self.assertEqual(status, 0, text)
        self.assertIn("send 0\n", text)
        self.assertIn("deliver 0 new\n", text)
        self.assertIn("b 0 2 set n 7\n", text)


class Edits(unittest.TestCase):
    def test_edits_of_expansions(self) -> None:
        sound = add_on("Flip", taken_in("Go") + given_out("Done"), ["XIC(Go)OTE(Done);", "NOP();"])
        text = with_add_ons(sound, "Flip(F,b,b);", tag("F", "Flip") + TAGS)
        name = next(r["name"] for r in json.loads(convert(text).project)["programs"][0]["routines"] if r["name"] != "Go")
        lines = [f"accept P {name.upper()} r 1 NOP(); | i 0 CLR(n);", "@3 accept P Go i 0 NOP(); | d 0", "@0 accept P Gone d 0", "cpu 3", "end"]
        with tempfile.NamedTemporaryFile("w", suffix=".txt") as journal:
            journal.write("\n".join(["mode run", *lines, ""]))
            journal.flush()
            ended = convert(text, "--journal", journal.name)
        why = "is of an expansion, of Flip(F): the edit changes this call alone; Studio takes none on line"
        told = [line for line in ended.lines if "journal line" in line]
        self.assertEqual(told, [f"note: journal line 2: rung 1 of {name} {why}", f"note: journal line 2: a rung of {name} {why}",
                                "note: journal line 3: rung 0 of Go has an expansion, which the edit replaces or deletes"])  # fmt: skip
        self.assertEqual(convert(text, "--journal", "/nonexistent").status, 2)


if __name__ == "__main__":
    unittest.main()
