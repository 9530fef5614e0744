"""Add-On Instructions: what calls become, and which aren't taken."""

import json
import unittest

from add_on_files import add_on, given_out, in_out, local, parameter, taken_in, timer_data, with_add_ons
from l5x_files import alias, content, convert, file, program, routine, tag, task, value

FLIP = add_on("Flip", taken_in("Go") + given_out("Done"), ["XIC(Go)OTE(Done);"])
FLIP_TAGS = tag("F", "Flip") + tag("a", "BOOL") + tag("b", "BOOL")
CALL = "Flip(F,a,b);"
RECORD = '<DataType Name="Rec" Class="User"><Members><Member Name={} Hidden="false"/></Members></DataType>'
FRONT = "OTE(F.EnableIn)OTE(F.EnableOut)[XIC(a)OTL(F.Go),XIO(a)OTU(F.Go),NOP()]JSR({},0)"
BACK = "[XIC(F.Done)OTL(b),XIO(F.Done)OTU(b),NOP()]XIC(F.EnableOut)"


class AddOns(unittest.TestCase):
    def taken(self, text: str, *words: str) -> dict:
        ended = convert(text, *words)
        self.assertEqual(ended.status, 0, ended.lines)
        self.lines = ended.lines
        return json.loads(ended.project)

    def routines(self, text: str, *words: str) -> dict[str, list[str]]:
        project = self.taken(text, *words)
        return {r["name"]: r["rungs"] for p in project["programs"] for r in p["routines"]}

    def listed(self, text: str, *lines: str) -> None:
        ended = convert(text)
        self.assertEqual((ended.status, ended.project), (1, ""), ended.lines)
        for line in lines:
            self.assertIn(line, ended.lines)

    def call_listed(self, definition: str, call: str, why: str, tags: str) -> None:
        self.listed(with_add_ons(definition, call, tags), f"program P routine Go rung 0: {why}")

    def definition_listed(self, definition: str, why: str, call: str = "Odd(O);") -> None:
        self.listed(
            with_add_ons(definition, call, tag("O", "Odd") + tag("a", "BOOL") + tag("n", "DINT")),
            f"Add-On Instruction Odd{why}",
            "program P routine Go rung 0: Odd: an Add-On Instruction that isn't taken",
        )

    # ---- what a call becomes

    def test_bits(self) -> None:
        found = self.routines(with_add_ons(FLIP, "XIC(a)" + CALL, FLIP_TAGS))
        name = next(name for name in found if name != "Go")
        self.assertRegex(name, r"Flip_F_[0-9a-f]{4}\Z")
        self.assertEqual(found, {"Go": ["XIC(a)" + FRONT.format(name) + BACK + ";"], name: ["XIC(F.Go)OTE(F.Done);"]})
        self.assertIn(f"note: program P routine Go rung 0: Flip(F) is made into routine {name}", self.lines)
        self.assertEqual(self.lines[-1], "summary: 1 of 1 rungs, 1 of 1 routines and 3 of 3 tags are taken; a routine is made of a call")

    def test_the_structure(self) -> None:
        definition = add_on(
            "Box", taken_in("In1", "INT") + in_out("Arr", "DINT", 4) + given_out("Out1", "SINT", required=False),
            locals_=local("T1", "TIMER") + local("Buf", "DINT", 3) + local("R", "REAL"),
        )  # fmt: skip
        project = self.taken(with_add_ons(definition, tags=tag("x", "Box")))
        names = [(m["name"], m["type"], m.get("dim")) for m in project["types"][0]["members"]]
        wanted = [("EnableIn", "BOOL"), ("EnableOut", "BOOL"), ("In1", "INT"), ("Out1", "SINT"), ("T1", "TIMER")]
        self.assertEqual(names, [(*pair, None) for pair in wanted] + [("Buf", "DINT", 3)])
        self.assertIn("note: passed over: Add-On Instruction Box: R: type REAL isn't in the profile", self.lines)

    def test_numbers_and_constants(self) -> None:
        definition = add_on("Sum", taken_in("A", "DINT") + taken_in("On") + given_out("R", "INT"), ["XIC(On)ADD(A,1,R);"])
        tags = tag("s", "Sum") + tag("n", "SINT") + tag("d", "DINT")
        found = self.routines(with_add_ons(definition, "Sum(s,n,1,d);", tags))
        name = next(name for name in found if name != "Go")
        front = f"OTE(s.EnableIn)OTE(s.EnableOut)MOV(n,s.A)OTL(s.On)JSR({name},0)"
        self.assertEqual(found["Go"], [front + "MOV(s.R,d)XIC(s.EnableOut);"])
        self.assertIn("MOV(-5,s.A)OTU(s.On)", self.routines(with_add_ons(definition, "Sum(s,-5,0,d);", tags))["Go"][0])
        self.assertIn("XIC(S:FS)OTL(s.On)", self.routines(with_add_ons(definition, "Sum(s,-5,S:FS,d);", tags))["Go"][0])

    def test_what_a_logic_names(self) -> None:
        definition = add_on(
            "Pick", in_out("Arr", "DINT", 4) + in_out("T", "TIMER") + in_out("Bit", "BOOL"),
            ["XIC(T.DN)OTE(Bit)MOV(Arr[2],N);", "LBL(Here)TON(Own,?,?)XIC(N.3)MOV(N,Arr[Idx])JMP(Here);", "TON(Own,70,0)XIC(S:FS)CLR(N);"],
            local("N", "DINT") + local("Idx", "SINT") + local("Own", "TIMER", data=timer_data(70)),
        )  # fmt: skip
        tags = tag("p", "Pick", more='Dimensions="3"') + tag("a", "DINT", more='Dimensions="4"') + tag("t", "TIMER") + tag("w", "DINT")
        found = self.routines(with_add_ons(definition, "Pick(p[1],a,t,w.5);", tags))
        name = next(name for name in found if name != "Go")
        self.assertRegex(name, r"Pick_p_1_[0-9a-f]{4}\Z")
        self.assertEqual(found[name], [
            "XIC(t.DN)OTE(w.5)MOV(a[2],p[1].N);",
            "LBL(Here)TON(p[1].Own,?,?)XIC(p[1].N.3)MOV(p[1].N,a[p[1].Idx])JMP(Here);",
            "TON(p[1].Own,?,?)XIC(S:FS)CLR(p[1].N);",
        ])  # fmt: skip

    def test_nested(self) -> None:
        outer = add_on("Pair", taken_in("Go") + in_out("Hand", "BOOL"), ["XIC(Go)[Flip(One,Go,Mid),Flip(Two,Mid,Hand)]NOP();"],
                       local("One", "Flip") + local("Two", "Flip") + local("Mid", "BOOL"))  # fmt: skip
        found = self.routines(with_add_ons(FLIP + outer, "Pair(q,a,b);", tag("q", "Pair") + tag("a", "BOOL") + tag("b", "BOOL")))
        self.assertEqual(len(found), 4)
        middle = next(rungs for name, rungs in found.items() if name.startswith("Pair_q_"))
        self.assertIn("[XIC(q.Mid)OTL(q.Two.Go),XIO(q.Mid)OTU(q.Two.Go),NOP()]", middle[0])
        self.assertIn("[XIC(q.Two.Done)OTL(b),XIO(q.Two.Done)OTU(b),NOP()]", middle[0])
        inner = next(rungs for name, rungs in found.items() if name.startswith("Flip_q_One_"))
        self.assertEqual(inner, ["XIC(q.One.Go)OTE(q.One.Done);"])

    def test_names_stay(self) -> None:
        one = self.routines(with_add_ons(FLIP, CALL, FLIP_TAGS))
        moved = with_add_ons(FLIP, "NOP();", FLIP_TAGS, programs=program("Q", routine("Go", "NOP();", CALL, "Flip(F,b,a);")))
        moved = moved.replace('<ScheduledProgram Name="P"/>', '<ScheduledProgram Name="P"/><ScheduledProgram Name="Q"/>')
        two = {r["name"] for p in self.taken(moved)["programs"] for r in p["routines"]}
        self.assertEqual(len(two), 3)
        self.assertLess(set(one), two)

    def test_names_that_are_there(self) -> None:
        name = next(name for name in self.routines(with_add_ons(FLIP, CALL, FLIP_TAGS)) if name != "Go")
        text = with_add_ons(FLIP, CALL, FLIP_TAGS).replace("</Routines></Program>", routine(name, "NOP();") + "</Routines></Program>")
        found = self.routines(text)
        self.assertEqual(found[name], ["NOP();"])
        self.assertEqual(len(found), 3)
        self.assertTrue(all(len(other) == len(name) + 4 for other in set(found) - {"Go", name}))
        long = "L" * 40
        text = with_add_ons(FLIP, f"Flip({long},a,b);", tag(long, "Flip") + FLIP_TAGS)
        self.assertEqual(sorted(map(len, self.routines(text))), [2, 40])

    def test_an_add_on_may_have_a_newer_mnemonic(self) -> None:
        move = FLIP.replace('"Flip"', '"MOVE"')
        found = self.routines(with_add_ons(move, "MOVE(m,a,b)EQ(1,1)NOP();", tag("m", "MOVE") + FLIP_TAGS))
        self.assertIn("JSR(MOVE_m_", found["Go"][0])
        self.assertIn("EQU(1,1)", found["Go"][0])
        self.assertIn("note: the mnemonics of a newer release are taken as what they were: EQ as EQU", self.lines)

    def test_values(self) -> None:
        definition = add_on("Box", taken_in("Limit", "DINT", required=False, data=value("DINT", "7")) + taken_in("Other", "DINT",
                            required=False, data=value("DINT", "8")), locals_=local("T1", "TIMER", data=timer_data(50)))  # fmt: skip
        outer = add_on("Outer", locals_=local("In1", "Box"))
        own = (
            '<Structure DataType="Box"><DataValueMember Name="EnableIn" DataType="BOOL" Value="1"/><DataValueMember Name="Limit" '
            'DataType="DINT" Value="3"/><DataValueMember Name="Other" DataType="DINT" Value="0"/></Structure>'
        )
        tags = tag("x", "Box", own) + tag("y", "Box") + tag("z", "Outer")
        found = {v["tag"]: v["value"] for v in self.taken(with_add_ons(definition + outer, tags=tags))["initial"]}
        self.assertEqual(found, {"x.EnableIn": 1, "x.Limit": 3, "x.T1.PRE": 50, "y.Limit": 7, "y.Other": 8, "y.T1.PRE": 50,
                                 "z.In1.Limit": 7, "z.In1.Other": 8, "z.In1.T1.PRE": 50})  # fmt: skip
        ticks = self.taken(with_add_ons(definition, tags=tag("y", "Box")), "--tick-ms", "10")
        self.assertIn({"tag": "y.T1.PRE", "value": 5}, ticks["initial"])

    # ---- definitions that aren't taken

    def test_definitions_that_are_not_taken(self) -> None:
        for name in ("Prescan", "Postscan", "EnableInFalse"):
            self.definition_listed(add_on("Odd", more=f'Execute{name}="true"'), f": its {name} routine is executed")
            self.taken(with_add_ons(add_on("Odd", more=f'Execute{name}="false"'), "Odd(O);", tag("O", "Odd")))
        text = '<Routine Name="Logic" Type="ST"><STContent><Line Number="0"><![CDATA[x := 1;]]></Line></STContent></Routine>'
        self.definition_listed(add_on("Odd", routines=text), ": its Logic of the type ST isn't ladder that the file has")
        self.definition_listed(add_on("Odd", routines="<Routine/>"), ": its Logic isn't ladder that the file has")
        self.definition_listed(add_on("Odd", more='Class="Safety"'), ": a safety instruction")
        self.definition_listed(add_on("Odd") + add_on("Odd"), ": the file defines it twice")
        self.definition_listed(add_on("Odd").replace("EnableOut", "Enabled"), ": it has no EnableIn and EnableOut")
        encoded = '<EncodedData EncodedType="AddOnInstructionDefinition" Name="Odd">QUJD</EncodedData>'
        self.listed(with_add_ons(encoded, "Odd(O);", tag("O", "Odd")), "Add-On Instruction Odd: its content is encoded")
        part = add_on("Odd", routines='<EncodedData EncodedType="Routine" Name="Logic">QUJD</EncodedData>')
        self.definition_listed(part, ": its Logic isn't ladder that the file has")

    def test_a_logic_that_is_not_taken(self) -> None:
        rows = {
            "CPT(n,n+1);": "CPT isn't in the table of instructions",
            "MOV(Speed,n);": "MOV: it has no parameter or local tag Speed (C4)",
            "ADD(n,1,R);": "ADD: tag R isn't taken (C4)",
            "JSR(Sub,0);": "JSR: isn't one of an Add-On Instruction",
            "SBR(n);": "SBR: isn't one of an Add-On Instruction",
            "EVENT(E);": "EVENT: isn't one of an Add-On Instruction",
            "TND();": "TND: what it ends there isn't told by 1756-PM010",
            "MCR();": "MCR: what its zones are there isn't told by 1756-PM010",
            "XIC(S:V)OTE(b);": "XIC: what the flag is at the call isn't told by 1756-PM010",
            "[ADD(n,1,n),XIC(S:V)OTE(b)];": "XIC: what the flag is at the call isn't told by 1756-PM010",
            "COP(Buf[0],n,n);": "COP: it may pass the end of Buf[0], and what lies behind it isn't told",
            "FLL(0,Buf[1],3);": "FLL: it may pass the end of Buf[1], and what lies behind it isn't told",
            "JMP(On);": "JMP to On, and no such label (C12)",
            "TON(T1,8,0);": "TON: PRE 8 isn't the value of the tag; `?` is taken",
            "XIC(b": "the text ends too early (T3 5)",
            "Odd(O);": "Odd: an Add-On Instruction that isn't taken",
        }
        names = local("n", "DINT") + local("b", "BOOL") + local("R", "REAL") + local("Buf", "DINT", 3) + local("T1", "TIMER")
        for rung, why in rows.items():
            with self.subTest(rung):
                self.definition_listed(add_on("Odd", logic=["NOP();", rung], locals_=names), f" rung 1: {why}")
        self.definition_listed(add_on("Odd", logic=["CLR(R);"], locals_=names), ": R: type REAL isn't in the profile")
        for rung in ("ADD(n,1,n)XIC(S:V)OTE(b);", "ADD(n,1,n)[XIC(S:Z)OTE(b),NOP()];", "COP(Buf[0],Buf[1],2);", "XIC(S:FS)OTE(b);"):
            self.taken(with_add_ons(add_on("Odd", logic=[rung], locals_=names), "Odd(O);", tag("O", "Odd")))

    def test_instructions_that_call_themselves(self) -> None:
        inside = add_on("Odd", logic=["Odd(I);"], locals_=local("I", "Odd"))
        why = "it has itself inside, or a type that has (Y3)"
        self.listed(with_add_ons(inside, "Odd(O);", tag("O", "Odd")), f"Add-On Instruction Odd: {why}")
        circle = add_on("Odd", in_out("I", "Even"), ["Even(I,I);"]) + add_on("Even", in_out("I", "Even"), ["Odd(O,I);"], local("O", "Odd"))
        ended = convert(with_add_ons(circle, "Odd(O,E);", tag("O", "Odd") + tag("E", "Even")))
        self.assertEqual(ended.status, 1)
        self.assertIn("Add-On Instruction Odd: it calls itself, or one that does", ended.lines)

    def test_parameters_that_are_not_taken(self) -> None:
        rows = {
            taken_in("Speed", "REAL"): "Speed: type REAL isn't in the profile",
            taken_in("Speed", "DINT", dim=3): "Speed: an array or a structure that isn't InOut",
            in_out("Grid", "DINT").replace("Usage", 'Dimensions="2 2" Usage'): "Grid: an array of several dimensions, 2 2",
            in_out("Text", "STRING"): "Text: type STRING isn't in the profile",
            parameter("A", "BOOL", "Public"): "parameter A has the Usage Public",
            taken_in("A", more='AliasFor="T1.DN"'): "A: an alias",
        }
        for parameters, why in rows.items():
            with self.subTest(why):
                self.definition_listed(add_on("Odd", parameters, locals_=local("T1", "TIMER")), f": {why}", "Odd(O,a);")
        spare = add_on("Odd", taken_in("Speed", "REAL", required=False) + taken_in("A", more='AliasFor="T1.DN"', required=False))
        self.taken(with_add_ons(spare, "Odd(O);", tag("O", "Odd")))

    # ---- calls that aren't taken

    def test_arguments_that_do_not_fit(self) -> None:
        definition = add_on("Fit", taken_in("B") + taken_in("N", "INT") + given_out("R", "INT") + in_out("Arr", "DINT", 4),
                            ["MOV(Arr[N],R);"])  # fmt: skip
        tags = (
            tag("f", "Fit") + tag("b", "BOOL") + tag("i", "INT") + tag("d", "DINT") + tag("s", "SINT") + tag("x", "REAL")
            + tag("a", "DINT", more='Dimensions="4"') + tag("long", "DINT", more='Dimensions="5"') + tag("t", "TIMER")
        )  # fmt: skip
        rows = {
            "Fit(f,b,i,i);": "Fit: 4 operands, where 5 are wanted",
            "Fit(b,b,i,i,a);": "Fit: b is no instance of it",
            "Fit(g,b,i,i,a);": "Fit: the file has no tag g (C4)",
            "Fit(f,i,i,i,a);": "Fit: parameter B is BOOL, which i of the type INT doesn't fit",
            "Fit(f,b,d,i,a);": "Fit: parameter N is INT, which d of the type DINT doesn't fit",
            "Fit(f,b,b,i,a);": "Fit: parameter N is INT, which b of the type BOOL doesn't fit",
            "Fit(f,b,a,i,a);": "Fit: parameter N is INT, which a of the type DINT[4] doesn't fit",
            "Fit(f,b,40000,i,a);": "Fit: 40000 is none of the numbers of INT",
            "Fit(f,2,i,i,a);": "Fit: 2 is none of the numbers of BOOL",
            "Fit(f,b,i,s,a);": "Fit: parameter R is INT, which s of the type SINT doesn't fit",
            "Fit(f,b,i,5,a);": "Fit: 5 is no argument for R",
            "Fit(f,b,i,i,d);": "Fit: parameter Arr is DINT[4], and d DINT",
            "Fit(f,b,i,i,7);": "Fit: 7 is no argument for Arr",
            "Fit(f,b,i,i,long);": "Fit: long is longer than Arr, of which not only elements by their numbers are used",
            "Fit(f,b,x,i,a);": "Fit: tag x isn't taken (C4)",
            "Fit(f,S:V,i,i,a);": "Fit: S:V is no argument for B",
            "Fit(f,b,i+1,i,a);": "an expression in place of an operand (T1 9)",
            "Fit(f,b,i,i,a[0,1]);": "Fit: 6 operands, where 5 are wanted",
        }
        for call, why in rows.items():
            with self.subTest(call):
                self.call_listed(definition, call, why, tags)
        self.taken(with_add_ons(definition, "Fit(f,b,s,d,a);", tags.replace('"REAL"', '"DINT"')))
        by_number = definition.replace("Arr[N]", "Arr[3]")
        self.taken(with_add_ons(by_number, "Fit(f,b,s,d,long);", tags.replace('"REAL"', '"DINT"')))

    def test_what_may_change_within_the_call(self) -> None:
        definition = add_on("Fit", taken_in("N", "DINT") + given_out("R", "DINT") + given_out("Q", "DINT") + in_out("X", "DINT"),
                            ["ADD(X,N,X)MOV(X,R)MOV(X,Q);"])  # fmt: skip
        many = 'Dimensions="4"'
        own = tag("f", "Fit", more=many) + tag("n", "DINT") + tag("m", "DINT") + tag("a", "DINT", more=many) + tag("i", "DINT")
        why = "has a part of what the call itself changes"
        rows = {
            "Fit(f[0],f[0].R,n,m,a[0]);": f"argument f[0].R {why}",
            "Fit(f[0],a[f[0].N],n,m,a[0]);": f"argument a[f[0].N] {why}",
            "Fit(f[0],1,f[0].N,m,a[0]);": f"argument f[0].N {why}",
            "Fit(f[0],1,n,m,f[0].N);": f"an InOut argument {why}",
            "Fit(f[0],1,n,n,a[0]);": f"output argument n {why}",
            "Fit(f[0],1,a[1],a[i],n);": f"output argument a[1] {why}",
            "Fit(f[i],1,n,i,a[0]);": f"the subscript of f[i] {why}",
            "Fit(f[0],1,n,m,a[n]);": f"the subscript of a[n] {why}",
            "Fit(f[0],1,n,a[n],m);": f"the subscript of a[n] {why}",
        }
        for call, told in rows.items():
            with self.subTest(call):
                self.call_listed(definition, call, f"Fit: {told}", own)
        for call in ("Fit(f[0],n,n,m,a[0]);", "Fit(f[i],a[i],n,m,a[i]);", "Fit(f[0],1,n,m,n);", "Fit(f[1],f[2].N,f[2].R,m,a[i]);"):
            with self.subTest(call):
                self.taken(with_add_ons(definition, call, own))
        other = program("Q", routine("Go", "MOV(1,j);"))
        kind = task("U", "Q", 'Type="PERIODIC" Rate="10" Priority="9"')
        text = with_add_ons(definition, "Fit(f[i],1,n,m,a[0]);", own + alias("j", "i.0").replace("i.0", "i"), programs=other, tasks=kind)
        why = "the subscript of f[i] may change while it runs: program Q of another task names i"
        self.listed(text, f"program P routine Go rung 0: Fit: {why}")

    def test_a_copy_in_an_argument(self) -> None:
        definition = add_on("Fill", in_out("Arr", "DINT", 4) + taken_in("N", "DINT"), ["FLL(0,Arr[0],N);"])
        types = RECORD.format('"L" DataType="DINT" Dimension="4"')
        tags = tag("f", "Fill") + tag("a", "DINT", more='Dimensions="4"') + tag("r", "Rec")
        self.taken(with_add_ons(definition, "Fill(f,a,2);", tags, types=types))
        self.listed(with_add_ons(definition, "Fill(f,r.L,2);", tags, types=types),
                    "program P routine Go rung 0: Fill: r.L is a part of a tag, and a copy may pass the end of Arr")  # fmt: skip

    def test_places_where_no_call_can_stand(self) -> None:
        deep = "[" * 16 + CALL[:-1] + "]" * 16 + ";"
        self.call_listed(FLIP, deep, "a branch would be the 17th open one (T5 47)", FLIP_TAGS)
        many = "".join("Flip(F,a,b)" for _ in range(40)) + ";"
        self.call_listed(FLIP, many, "with its calls expanded the rung has more than 4,096 bytes (P5)", FLIP_TAGS)
        inner = add_on("Inner", logic=["MOV(A[I],N);"], locals_=local("A", "DINT", 4) + local("I", "DINT") + local("N", "DINT"))
        why = "Inner: rung 0 of its Logic: MOV: x[n].A[x[n].I]: a variable subscript where none may stand (C7)"
        self.call_listed(inner, "Inner(x[n]);", why, tag("x", "Inner", more='Dimensions="2"') + tag("n", "DINT"))

    def test_instances_that_are_not_there(self) -> None:
        self.call_listed(FLIP, CALL, "Flip: the file has no tag F (C4)", tag("a", "BOOL") + tag("b", "BOOL"))
        self.call_listed(FLIP, CALL, "Flip: an Add-On Instruction that isn't taken", FLIP_TAGS.replace('"Flip"', '"DINT"'))
        self.call_listed(FLIP, "Flip();", "Flip:  is no operand form (C9)", tag("a", "BOOL"))
        wide = add_on("Wide", locals_=local("A", "DINT", 2000))
        text = with_add_ons(wide, "Wide(w);", tag("w", "Wide"))
        self.listed(text, "Add-On Instruction Wide: it has 8,004 bytes; it may have 4,096 (Y5)", "tag w: its type Wide isn't taken",
                    "program P routine Go rung 0: Wide: tag w isn't taken (C4)")  # fmt: skip
        types = RECORD.format('"R" DataType="REAL" Dimension="0"')
        odd = add_on("Odd", in_out("X", "Rec"))
        text = with_add_ons(odd, "Odd(O,r);", tag("O", "Odd") + tag("r", "Rec"), types=types)
        self.listed(text, "Add-On Instruction Odd: X: its type Rec isn't taken", "type Rec: member R: type REAL isn't in the profile")

    def test_flags_of_who_calls(self) -> None:
        other = program("Q", routine("Go", "XIC(S:Z)OTE(b);"))
        text = with_add_ons(FLIP, CALL, FLIP_TAGS, programs=other)
        both = text.replace('<ScheduledProgram Name="P"/>', '<ScheduledProgram Name="P"/><ScheduledProgram Name="Q"/>')
        self.listed(both, "program Q routine Go rung 0: XIC: what an Add-On Instruction leaves in the flag isn't told")
        kind = task("U", "Q", 'Type="PERIODIC" Rate="10" Priority="9"')
        self.taken(text.replace("</Tasks>", kind + "</Tasks>"))
        after = f"ADD(n,1,n){CALL[:-1]}XIC(S:Z)OTE(b);"
        self.call_listed(FLIP, after, "XIC: what an Add-On Instruction leaves in the flag isn't told", FLIP_TAGS + tag("n", "DINT"))
        self.taken(with_add_ons(FLIP, f"{CALL[:-1]}ADD(n,1,n)XIC(S:Z)OTE(b);", FLIP_TAGS + tag("n", "DINT")))
        calls = routine("Go", "ADD(n,1,n)JSR(Sub,0)XIC(S:Z)OTE(b);") + routine("Sub", CALL)
        text = with_add_ons(FLIP, tags=FLIP_TAGS + tag("n", "DINT")).replace(routine("Go", "NOP();"), calls)
        self.listed(text, "program P routine Go rung 0: XIC: what an Add-On Instruction leaves in the flag isn't told")
        sound = program("Q", routine("Go", "ADD(n,1,n)XIC(S:Z)OTE(b);"))
        text = with_add_ons(FLIP, CALL, FLIP_TAGS + tag("n", "DINT"), programs=sound)
        self.taken(text.replace('<ScheduledProgram Name="P"/>', '<ScheduledProgram Name="P"/><ScheduledProgram Name="Q"/>'))

    # ---- limits

    def nest(self, levels: int, front: int) -> str:
        """A call of this many levels, in a routine that is called with so many frames before it."""
        definitions = add_on("A1") + "".join(
            add_on(f"A{k}", logic=[f"A{k - 1}(I);"], locals_=local("I", f"A{k - 1}")) for k in range(2, levels + 1)
        )
        names = [f"R{k}" for k in range(front)]
        routines = routine("Go", f"JSR({names[0]},0);" if names else f"A{levels}(x);")
        routines += "".join(routine(n, f"JSR({m},0);") for n, m in zip(names, names[1:]))
        routines += routine(names[-1], f"A{levels}(x);") if names else ""
        text = with_add_ons(definitions, tags=tag("x", f"A{levels}"))
        return text.replace(program("P", routine("Go", "NOP();")), program("P", routines))

    def test_frames(self) -> None:
        self.taken(self.nest(24, 0))
        self.taken(self.nest(20, 4))
        why = "its calls may open more than 25 frames inside one another, or nobody knows how many"
        self.listed(self.nest(21, 4), f"program P routine R3 rung 0: {why}")
        self.listed(self.nest(25, 0), "Add-On Instruction A25 rung 0: A24: its calls open more than 25 frames")
        loop = routine("Go", "JSR(Sub,0);") + routine("Sub", CALL, "JSR(Sub,0);")
        text = with_add_ons(FLIP, tags=FLIP_TAGS).replace(routine("Go", "NOP();"), loop)
        self.listed(text, f"program P routine Sub rung 0: {why}")

    def test_routines(self) -> None:
        def calls(count: int) -> str:
            rungs = [f"Flip(v[{k}],a,b);" for k in range(count)]
            text = with_add_ons(FLIP, tags=tag("v", "Flip", more='Dimensions="70"') + FLIP_TAGS)
            return text.replace(routine("Go", "NOP();"), routine("Go", *rungs))

        self.assertEqual(len(self.routines(calls(63))), 64)
        why = "Flip: its program would have too many routines with those of the call (P11)"
        self.listed(calls(64), f"program P routine Go rung 63: {why}")
        ended = convert(calls(70), "--leave-out", "rungs")
        self.assertEqual((ended.status, sum(why in line for line in ended.lines)), (0, 7))
        self.assertIn("summary: Flip isn't taken, 7 times; first program P routine Go rung 63", ended.lines)
        many = add_on("A1") + "".join(add_on(f"A{k}", logic=[f"A{k - 1}(I)A{k - 1}(J);"], locals_=local("I", f"A{k - 1}")
                                             + local("J", f"A{k - 1}")) for k in range(2, 9))  # fmt: skip
        self.listed(with_add_ons(many, "A8(x);", tag("x", "A8")), f"program P routine Go rung 0: {why.replace('Flip', 'A8')}")

    def test_200_calls(self) -> None:
        programs = "".join(
            program(f"P{p}", routine("Go", *(f"Flip(v[{50 * p + k}],a,b);" for k in range(50)))) for p in range(4)
        )
        text = with_add_ons(FLIP, tags=tag("v", "Flip", more='Dimensions="200"') + FLIP_TAGS, programs=programs)
        listed = "".join(f'<ScheduledProgram Name="P{p}"/>' for p in range(4))
        found = self.taken(text.replace("<ScheduledPrograms>", "<ScheduledPrograms>" + listed))
        self.assertEqual(sum(len(p["routines"]) for p in found["programs"]), 1 + 4 * 51)
        self.assertIn("200 routines are made of calls", self.lines[-1])

    def test_hostile_definitions(self) -> None:
        chain = "".join(add_on(f"A{k}", logic=[f"A{k + 1}(I);"], locals_=local("I", f"A{k + 1}")) for k in range(3000))
        ended = convert(with_add_ons(chain + add_on("A3000"), "A0(x);", tag("x", "A0")))
        self.assertEqual(ended.status, 1)
        wide = add_on("Wide", locals_=local("B", "DINT", 1000, '<Array DataType="DINT" Dimensions="1000">' + "".join(
            f'<Element Index="[{k}]" Value="1"/>' for k in range(1000)) + "</Array>"))  # fmt: skip
        ended = convert(with_add_ons(wide, "CLR(w[0].B[0]);", tag("w", "Wide", more='Dimensions="60"')))
        self.assertIn("tag w: there are over 10,000 initial values with its own (P11)", ended.lines)
        odd = '<AddOnInstructionDefinition/><AddOnInstructionDefinition Name="a b"/><Parameters><Parameter/></Parameters>'
        self.assertEqual(convert(with_add_ons(odd)).status, 0)


class OtherForms(unittest.TestCase):
    def test_content_of_a_program(self) -> None:
        used = program("P", routine("Go", CALL), more='Use="Target"')
        listed = f"<AddOnInstructionDefinitions>{FLIP}</AddOnInstructionDefinitions>"
        ended = convert(content(f"{listed}<Tags>{FLIP_TAGS}</Tags><Programs>{used}</Programs>", "Program"))
        self.assertEqual(ended.status, 0, ended.lines)
        self.assertEqual(len(json.loads(ended.project)["programs"][0]["routines"]), 2)

    def test_nothing_calls_it(self) -> None:
        ended = convert(with_add_ons(add_on("Odd", more='ExecutePrescan="true"')))
        self.assertEqual((ended.status, ended.lines[0]), (0, "note: passed over: Add-On Instruction Odd: its Prescan routine is executed"))
        self.assertEqual(convert(file()).status, 0)


if __name__ == "__main__":
    unittest.main()
