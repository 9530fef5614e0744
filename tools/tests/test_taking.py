"""What is taken of small files, and what is listed."""

import json
import os
import stat
import tempfile
import unittest

from l5x_files import alias, call, content, convert, file, program, routine, rungs, tag, task, value

TIMER = (
    '<Structure DataType="TIMER"><DataValueMember Name="PRE" DataType="DINT" Value="{0}"/>'
    '<DataValueMember Name="ACC" DataType="DINT" Value="{1}"/></Structure>'
)


def bits(name: str, host_hidden: str = "true") -> str:
    return (
        f'<DataType Name="{name}" Class="User"><Members><Member Name="Host" DataType="SINT" Hidden="{host_hidden}"/>'
        '<Member Name="On" DataType="BIT" Target="Host" BitNumber="0" Hidden="false"/></Members></DataType>'
    )


def member_type(name: str, *members: tuple[str, str]) -> str:
    listed = "".join(f'<Member Name="{m}" DataType="{of}" Dimension="0" Hidden="false"/>' for m, of in members)
    return f'<DataType Name="{name}" Class="User"><Members>{listed}</Members></DataType>'


def module(name: str, slot: str, data: str, more: str = "") -> str:
    return (
        f'<Module Name="{name}" ParentModule="Local"><Ports><Port Address="{slot}" Type="ICP" Upstream="true"/></Ports>'
        f"<Communications><ConfigTag/><Connections><Connection {more}>{data}</Connection></Connections>"
        "</Communications></Module>"
    )


INPUT = (
    '<InputTag><Data Format="Decorated"><Structure DataType="AB:W:I:0">'
    '<DataValueMember Name="Data" DataType="DINT" Value="0"/></Structure></Data></InputTag>'
)


class Taking(unittest.TestCase):
    def taken(self, text: str, *words: str) -> dict:
        ended = convert(text, *words)
        self.assertEqual(ended.status, 0, ended.lines)
        return json.loads(ended.project)

    def listed(self, text: str, *lines: str) -> None:
        """Each line is listed; nothing is written without --leave-out."""
        ended = convert(text)
        self.assertEqual((ended.status, ended.project), (1, ""), ended.lines)
        for line in lines:
            self.assertIn(line, ended.lines)

    def passed_over(self, text: str, *lines: str) -> None:
        """Nothing that is taken names what these lines are about, so the rest is."""
        ended = convert(text)
        self.assertEqual(ended.status, 0, ended.lines)
        for line in lines:
            self.assertIn(f"note: passed over: {line}", ended.lines)

    def rung_listed(self, rung: str, why: str, **more: str) -> None:
        self.listed(file(rung, **more), f"program P routine Go rung 0: {why}")

    # ---- types and tags

    def test_bits_of_a_hidden_host(self) -> None:
        project = self.taken(file("XIC(a.On)NOP();", tag("a", "B"), bits("B")))
        self.assertEqual(project["types"], [{"name": "B", "members": [{"name": "On", "type": "BOOL"}]}])
        self.passed_over(file(types=bits("B", "false")), "type B: member On is a bit of Host, which isn't hidden")

    def test_a_value_of_a_hidden_host_is_passed_over(self) -> None:
        data = (
            '<Structure DataType="B"><DataValueMember Name="Host" DataType="SINT" Value="1"/>'
            '<DataValueMember Name="On" DataType="BOOL" Value="1"/></Structure>'
        )
        project = self.taken(file(tags=tag("a", "B", data), types=bits("B")))
        self.assertEqual(project["initial"], [{"tag": "a.On", "value": 1}])

    def test_types_that_are_not_taken_and_what_has_them(self) -> None:
        types = member_type("A", ("x", "B")) + member_type("B", ("y", "REAL")) + member_type("Round", ("r", "round"))
        self.listed(
            file("CLR(a.x.y);", tag("a", "A") + tag("q", "Round"), types),
            "type B: member y: type REAL isn't in the profile",
            "type A: member x: its type B isn't taken",
            "tag a: its type A isn't taken",
            "program P routine Go rung 0: CLR: tag a isn't taken (C4)",
            "note: passed over: type Round: it has itself inside, or a type that has (Y3)",
            "note: passed over: tag q: its type Round isn't taken",
        )
        self.passed_over(file("NOP();", tag("a", "A"), types), "type B: member y: type REAL isn't in the profile")

    def test_aliases(self) -> None:
        tags = tag("d", "DINT", more='Dimensions="4"') + alias("e", "d[2]") + alias("bit", "E.31") + alias("whole", "d")
        project = self.taken(file("XIC(bit)MOV(whole[1],e);", tags))
        self.assertEqual(project["tags"][2], {"name": "bit", "alias": "E.31"})
        wrong = alias("x", "y") + alias("y", "x") + alias("gone", "nothing.0") + alias("i", "d[k]") + tag("k", "DINT")
        self.passed_over(
            file(tags=tags + wrong + alias("over", "d[4]") + alias("odd", "Program:P.x") + alias("after", "gone")),
            "tag x: the aliases of y never end (G7)",
            "tag gone: the file has no tag nothing (C4)",
            "tag i: d[k]: a variable subscript where none may stand (C7)",
            "tag over: d[4]: a subscript out of range (C6)",
            "tag odd: Program:P.x is no operand form (C9)",
        )
        chain = tag("r", "REAL") + alias("s", "r") + alias("t", "s")
        self.listed(
            file("XIC(t)NOP();", chain),
            "tag r: type REAL isn't in the profile", "tag s: tag r isn't taken (C4)", "tag t: tag r isn't taken (C4)",
        )  # fmt: skip

    def test_long_chains(self) -> None:
        chain = "".join(alias(f"a{k}", f"a{k + 1}") for k in range(4000))
        self.taken(file("XIC(a0)NOP();", chain + tag("a4000", "BOOL")))
        types = "".join(member_type(f"T{k}", ("x", f"T{k + 1}")) for k in range(4000))
        ended = convert(file(types=types))
        self.assertEqual((ended.status, len(ended.lines)), (0, 4001))
        routines = "".join(routine(f"R{k}", f"JSR(R{k + 1},0);") for k in range(63))
        whole = program("P", routine("Go", "JSR(R0,0);") + routines)
        text = content(f"<Programs>{whole}</Programs><Tasks>{task('T', 'P')}</Tasks>")
        self.assertEqual(len(convert(text).lines), 64 + 4)

    def test_a_programs_own_tag_hides_the_controllers(self) -> None:
        own = program("Q", routine("Go", "MOV(300,n);"), tag("N", "SINT", value("SINT", "16#ff")))
        periodic = task("U", "Q", 'Type="PERIODIC" Rate="5" Priority="9"')
        project = self.taken(file("NOP();", tag("n", "DINT"), programs=own, tasks=periodic))
        self.assertEqual(project["initial"], [{"tag": "Program:Q.N", "value": -1}])
        own = program("Q", routine("Go", "CLR(n);"), tag("N", "REAL"))
        self.listed(
            file("NOP();", tag("n", "DINT"), programs=own),
            "program Q tag N: type REAL isn't in the profile",
            "program Q routine Go rung 0: CLR: tag n isn't taken (C4)",
            "program Q: its main routine Go isn't taken",
        )

    def test_two_tags_of_one_name(self) -> None:
        self.listed(
            file("CLR(n);", tag("n", "DINT") + tag("N", "INT")),
            "tag N: its scope has the name twice (G2)",
            "program P routine Go rung 0: CLR: tag n isn't taken (C4)",
        )

    def test_tags_that_are_not_taken(self) -> None:
        tags = (
            tag("x" * 41, "DINT") + tag("g", "DINT", more='Dimensions="2 2"') + tag("b", "BOOL", more='Dimensions="33"')
            + tag("z", "DINT", more='Dimensions="65537"') + tag("h", "DINT", more=f'Dimensions="{"9" * 5000}"')
            + tag("v", "SINT", value("SINT", "130"))
            + '<Tag Name="l" TagType="Base" DataType="DINT"><Data Format="L5K">[1]</Data></Tag><Tag/>'
        )  # fmt: skip
        self.passed_over(
            file(tags=tags),
            f"tag {'x' * 41}: its name is none of the profile (G1)",
            "tag g: an array of several dimensions, 2 2",
            "tag b: an array of BOOLs whose length is no multiple of 32 (Y4)",
            "tag z: an array of 65537 elements; it may have 1 to 65,536",
            "tag h: an array of 9999999999999999999999999999.. elements; it may have 1 to 65,536",
            "tag v: its value 130 is none of a SINT, at v",
            "tag l: its values aren't there as decorated data",
            "tag : its name is none of the profile (G1)",
        )

    def test_values_of_every_radix(self) -> None:
        rows = [
            ("DINT", "2#1111_0000", 240), ("INT", "16#ffff", -1), ("DINT", "8#17", 15), ("SINT", "-128", -128),
            ("DINT", "'$00$00$00A'", 65), ("INT", "'$$$R'", 0x240D), ("BOOL", "1", 1),
            ("DINT", "-2147483648", -(2**31)),
        ]  # fmt: skip
        tags = "".join(tag(f"t{k}", of, value(of, text)) for k, (of, text, _) in enumerate(rows))
        project = self.taken(file(tags=tags))
        self.assertEqual([v["value"] for v in project["initial"]], [number for _, _, number in rows])

    def test_limits_of_tags(self) -> None:
        many = "".join(tag(f"t{k}", "DINT") for k in range(4097))
        self.passed_over(file(tags=many), "tag t4096: its scope has 4,096 tags without it (P11)")
        large = "".join(tag(f"t{k}", "DINT", more='Dimensions="60000"') for k in range(2))
        self.listed(file("CLR(t0[0])CLR(t1[0]);", tags=large), "tag t1: all tags have over 262,144 bytes with it (G8)")
        elements = "".join(f'<Element Index="[{k}]" Value="1"/>' for k in range(10_001))
        array = f'<Array DataType="SINT" Dimensions="10001">{elements}</Array>'
        values = tag("a", "SINT", array, 'Dimensions="10001"')
        self.passed_over(file(tags=values), "tag a: there are over 10,000 initial values with its own (P11)")

    # ---- modules

    def test_modules(self) -> None:
        project = self.taken(file("XIC(Local:3:I.Data.4)MOV(1,Local:4:O[1]);", modules=module("In", "3", INPUT)
                                  + module("Out", "4", "<OutputTag/>", 'OutputSize="6"')))  # fmt: skip
        self.assertEqual(project["types"], [{"name": "AB_W_I_0", "members": [{"name": "Data", "type": "DINT"}]}])
        self.assertEqual(project["tags"][1], {"name": "Local:4:O", "type": "DINT", "dim": 2})
        self.assertEqual([c["name"] for c in project["connections"]], ["Local_3_I", "Local_4_O"])
        with_input = module("In", "3", INPUT)
        self.rung_listed("XIC(Local:3:C.On)NOP();", "XIC: tag Local:3:C isn't taken (C4)", modules=with_input)
        real = INPUT.replace("DINT", "REAL")
        where = "module In tag Local:3:I: its type AB:W:I:0: member Data: type REAL isn't in the profile"
        self.passed_over(file(modules=module("In", "3", real)), where)
        self.listed(file("XIC(Local:3:I.Data.0)NOP();", modules=module("In", "3", real)), where)
        self.passed_over(file(modules=module("In", "3", "<InputTag/>")),
                         "module In tag Local:3:I: the file tells neither its structure nor its size")  # fmt: skip
        odd = INPUT.replace("AB:W:I:0", "BOOL")
        self.passed_over(file("XIC(b)NOP();", tag("b", "BOOL"), modules=module("In", "3", odd)),
                         "module In tag Local:3:I: no DINTs and no structure of at most 512 bytes")  # fmt: skip
        rack = module("In", "3", "").replace("<Connection >", "<RackConnection>").replace("</Connection>", "</RackConnection>")
        where = "module In: a rack-optimized connection, whose words are those of its rack"
        self.passed_over(file(modules=rack), where)
        self.listed(file("XIC(Local:3:I.0)NOP();", modules=rack), where)

    def test_triggers(self) -> None:
        event = '<EventInfo EventTrigger="{0}" EventTag="{1}" EnableTimeout="{2}"/>'
        state = "Module Input Data State Change"
        kind = 'Type="EVENT" Priority="1"'

        def with_event(*told: str) -> str:
            return file(modules=module("In", "3", INPUT), programs=program("Q", routine("Go")),
                        tasks=task("E", "Q", kind, event.format(*told)))  # fmt: skip

        project = self.taken(with_event(state, "local:3:i", "false"))
        self.assertEqual(project["connections"][0]["trigger"], "E")
        self.listed(with_event(state, "Local:5:I", "false"), "task E: its trigger: the file has no tag Local:5:I (C4)")
        self.listed(with_event("Consumed Tag", "x", "false"),
                    "task E: its trigger is Consumed Tag; taken are EVENT and a module's input")  # fmt: skip
        self.listed(with_event(state, "Local:3:I", "true"), "task E: an event task that a timeout releases too")

    # ---- programs and tasks

    def test_what_refers_to_what_is_not_taken(self) -> None:
        routines = routine("Go", "JSR(One,0);") + routine("One", "JSR(Two,0);") + routine("Two", "GSV(a,b,c,d);")
        event = '<EventInfo EventTrigger="EVENT Instruction Only"/>'
        tasks = task("E", "Q", 'Type="EVENT" Priority="1"', event)
        text = file("EVENT(E);", programs=program("Q", routines), tasks=tasks)
        self.listed(
            text,
            "program Q routine Two rung 0: GSV isn't in the table of instructions",
            "program Q routine One rung 0: JSR: routine Two isn't taken (C11)",
            "program Q routine Go rung 0: JSR: routine One isn't taken (C11)",
            "program Q: its main routine Go isn't taken",
            "task E: no program that is taken is scheduled in it",
            "program P routine Go rung 0: EVENT: E is no event task that is taken (C15)",
        )
        self.assertEqual(convert(text, "--leave-out").lines[-1], "no project: nothing is left that runs")

    def test_times(self) -> None:
        def periodic(rate: str, watchdog: str = "500") -> str:
            told = f'Type="PERIODIC" Rate="{rate}" Priority="2" Watchdog="{watchdog}"'
            timer = tag("t", "TIMER", TIMER.format(50, 0))
            return file(tags=timer, programs=program("Q", routine("Go")), tasks=task("U", "Q", told))

        self.assertEqual(self.taken(periodic("20.0"), "--tick-ms", "10")["tasks"][1]["period"], 2)
        self.assertEqual(self.taken(periodic("20"), "--tick-ms", "10")["initial"], [{"tag": "t.PRE", "value": 5}])
        self.listed(periodic("2.5"), "task U: its Rate is 2.5 ms, no whole number of ticks of 1 ms")
        self.listed(periodic("0.1"), "task U: its Rate is 0.1 ms; it may be 1 to 2,000,000")
        self.listed(periodic("NaN"), "task U: its Rate is NaN ms; it may be 1 to 2,000,000")
        self.listed(periodic("10", "x"), "task U: its Watchdog is x, no number of milliseconds")
        nines = "9" * 28
        self.listed(periodic("9" * 5000), f"task U: its Rate is {nines}.. ms; it may be 1 to 2,000,000")
        ended = convert(file("MOV(t.PRE,n);", tag("t", "TIMER") + tag("n", "DINT")), "--tick-ms", "4")
        self.assertIn("program P routine Go rung 0: t.PRE is in milliseconds, and a tick has 4", ended.lines)
        ended = convert(periodic("20"), "--tick-ms", "20")
        self.assertIn("note: passed over: tag t: t.PRE is 50 ms, no whole number of ticks of 20 ms", ended.lines)

    def test_programs_and_tasks_that_are_not_taken(self) -> None:
        programs = program("Idle", routine("Go")) + program("Off", routine("Go"), more='Disabled="true"')
        self.listed(
            file(programs=programs, tasks=task("T2", "Nowhere") + task("Odd", "P", 'Type="SAFETY"')),
            "program Idle: no task that is taken schedules it (P7)",
            "program Off: an inhibited program",
            "task T2: a second continuous task (P8)",
            "task Odd: a task of the type SAFETY",
        )

    def test_one_program_and_one_routine(self) -> None:
        other = program("Other", routine("Go", "GSV(a,b,c,d);"), more='Use="Context"')
        target = program("Mine", routine("Go"), more='Use="Target"')
        project = self.taken(content(f"<Programs>{other}{target}</Programs>", "Program"))
        self.assertEqual([p["name"] for p in project["programs"]], ["Mine"])
        self.assertEqual(project["tasks"][0]["programs"], ["Mine"])
        far = '<Routine Use="Context" Name="Far" Type="RLL"/>'
        used = program("Mine", routine("Sub").replace("<Routine", '<Routine Use="Target"') + far)
        ended = convert(content(f"<Programs>{used}</Programs>", "Routine"), "--leave-out")
        self.assertEqual(json.loads(ended.project)["programs"][0]["main"], "Sub")
        self.assertIn("program Mine routine Far: its rungs aren't in the file", ended.lines)
        ended = convert(content(f"<Programs>{other}</Programs>", "Program"))
        self.assertEqual((ended.status, ended.lines[0]), (1, "file: it has no program whose Use is Target"))

    # ---- rungs

    def test_rungs_that_are_not_taken(self) -> None:
        tags = tag("b", "BOOL") + tag("n", "DINT") + tag("a", "DINT", more='Dimensions="3"') + tag("t", "TIMER")
        rows = {
            "XIC(b)OTE(b)": "the text ends too early (T4 12)",
            "XIC(b": "the text ends too early (T3 5)",
            "": "the text ends too early (T4 0)",
            "ADD(n,n+1,n);": "an expression in place of an operand (T1 7)",
            "XIC(\\Q.b);": "a parameter of another program (T1 4)",
            "MOV(a[1,2],n);": "MOV: a subscript of several dimensions (C1)",
            "XIC(n);": "XIC: n is a DINT, where a bit or a flag is wanted (C2)",
            "MOV(1,5);": "MOV: 5 where an integer's place is wanted (C3)",
            "XIC(n.32)NOP();": "XIC: n.32: no such bit (C6)",
            "CLR(a[a[n]]);": "CLR: a[a[n]]: a variable subscript where none may stand (C7)",
            "JSR(Other,0);": "JSR: routine Other isn't taken (C11)",
            "JMP(On);": "JMP to On, and no such label (C12)",
            "XIC(b)LBL(On);": "LBL On isn't the first element of its rung (C14)",
            "NOP()SBR(n);": "SBR isn't the first element of its routine (C17)",
            "I: NOP();": "it begins with I:, as a rung of an edit that isn't finished",
            "My_AOI1(x)NOP();": "My_AOI1 isn't in the table of instructions",
            "TON(t,7,0);": "TON: PRE 7 isn't the value of the tag; `?` is taken",
            "NOP(); NOP();": "something follows the ; (T1 7)",
            "[" * 17 + "]" * 17 + ";": "a branch would be the 17th open one (T5 16)",
            "NOP()" * 820 + ";": "its text has more than 4,096 bytes (P5)",
        }
        for rung, why in rows.items():
            with self.subTest(rung):
                self.rung_listed(rung, why, tags=tags)

    def test_rungs_that_are_taken(self) -> None:
        tags = tag("b", "BOOL") + tag("t", "TIMER", TIMER.format(7, 0))
        rows = {
            "N: XIC(b)OTE(b);": "XIC(b)OTE(b);",
            'RC: "a $" b"; N: NOP();': "NOP();",
            "TON(t,7,0);": "TON(t,?,?);",
            "xic( b ) [ , XIO(b)]ote(b) ;": "xic( b ) [ , XIO(b)]ote(b) ;",
        }
        for rung, text in rows.items():
            project = self.taken(file(rung, tags))
            self.assertEqual(project["programs"][0]["routines"][0]["rungs"], [text])

    def test_kinds_of_rungs(self) -> None:
        rung = rungs("NOP();")
        self.listed(file().replace(rung, rung.replace('"N"', '"rR"')),
                    "program P routine Go rung 0: a rung of the type rR, of an edit that isn't finished")  # fmt: skip
        self.listed(file().replace(rung, rung.replace("Type", 'Disabled="true" Type')),
                    "program P routine Go rung 0: a disabled rung")  # fmt: skip
        self.listed(file().replace(rung, '<Rung Number="0"/>'), "program P routine Go rung 0: it has no text")
        self.listed(file().replace('Type="RLL"', 'Type="ST"'),
                    "program P routine Go: a routine of the type ST; only ladder (RLL) is taken")  # fmt: skip
        encoded = '<EncodedData EncodedType="Routine" Name="Go">QUJD</EncodedData>'
        self.listed(content(f"<Programs>{program('P', encoded)}</Programs><Tasks>{task('T', 'P')}</Tasks>"),
                    "program P routine Go: its content is encoded")  # fmt: skip

    # ---- words

    def test_watched_places(self) -> None:
        tags = "".join(tag(f"b{k}", "BOOL") for k in range(300)) + tag("n", "DINT")
        ended = convert(file(tags=tags), "--watch", "n, n.3", "--watch-all-bools")
        self.assertEqual(json.loads(ended.project)["watch"][:3], ["n", "n.3", "b0"])
        self.assertEqual(len(json.loads(ended.project)["watch"]), 256)
        self.assertEqual(ended.lines[:-1], ["note: of 302 watched places the first 256 are taken"])
        ended = convert(file(tags=tags), "--watch", "m,Program:Q.x")
        self.assertIn("watch m: the file has no tag m (C4)", ended.lines)
        self.assertIn("watch Program:Q.x: program Q isn't taken", ended.lines)

    def test_wrong_words(self) -> None:
        for words in ([], ["a", "b"], ["--tick-ms", "0", "a"], ["--no"]):
            self.assertEqual(call(words).status, 3)

    def test_the_verdict_of_check(self) -> None:
        with tempfile.TemporaryDirectory() as folder:
            logix = os.path.join(folder, "logix")
            for status, line in ((0, "ok tasks 1"), (2, "project P1 ")):
                with open(logix, "w", encoding="ascii") as script:
                    script.write(f'#!/bin/sh\n[ "$1" = check ] && grep -q Go "$2" && echo "{line}" && exit {status}\n')
                os.chmod(logix, stat.S_IRWXU)
                ended = convert(file(), logix=logix)
                self.assertEqual((ended.status, ended.lines[1]), (1 if status else 0, f"check: {line.strip()}"))
                self.assertEqual(ended.project == "", status != 0)

    def test_a_list_has_a_line_for_each_place(self) -> None:
        ended = convert(file(tags=tag("a&#10;b&#9;é", "DINT")))
        self.assertEqual(ended.lines[0], "note: passed over: tag a?b?\\xe9: its name is none of the profile (G1)")


if __name__ == "__main__":
    unittest.main()
