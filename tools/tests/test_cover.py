"""tools/cover: how often instructions were executed, by the plain interpreter in place of the program; and the mapping to rungs of each version."""

from __future__ import annotations

import contextlib
import io
import json
import os
import random
import unittest
import xml.etree.ElementTree as trees
from unittest import mock

from common import TOP, RoomTest, read_bytes
from scenario_files import programs
from lib.cover import main
from lib.cover.counts import Count, counted, total
from lib.cover.drawn import drawn
from lib.cover.reading import read
from lib.cover.rungs import code, rung_of
from lib.cover.telling import told
from lib.cover.versions import Versions
from lib.hammer import begins, covers
from lib.hammer.cases import file_text, journal_text
from lib.hammer.made import Maker
from lib.hammer.plain.cover import left_of
from lib.hammer.plain.edits import Book
from lib.hammer.plain.journal import read_journal
from lib.hammer.plain.judge import answer
from lib.hammer.plain.project import Project
from lib.hammer.plain.rungs import instructions, read_rung, spelled
from lib.hammer.program import Ran
from lib.programs import Astray

CONVEYOR = f"{TOP}/examples/conveyor"


def project(rungs: list[str], more: dict[str, list[str]] | None = None) -> bytes:
    """One continuous task with one program, whose routine M has these rungs; more routines by name."""
    routines = [{"name": name, "rungs": its} for name, its in {"M": rungs, **(more or {})}.items()]
    return file_text({
        "schema": 2, "controller": "C",
        "tags": [*({"name": name, "type": "BOOL"} for name in "ab"), {"name": "n", "type": "DINT"}, {"name": "d", "type": "DINT", "dim": 4}],
        "programs": [{"name": "P", "main": "M", "routines": routines}], "tasks": [{"name": "T", "kind": "continuous", "programs": ["P"]}],
    })  # fmt: skip


def lines(contents: bytes, *journal: str) -> list[str]:
    status, text = answer(["cover"], [contents, journal_text([*journal, "end"])])
    assert status == 0, text
    return text.splitlines()


class Plain(unittest.TestCase):
    """The plain interpreter's counts, each by hand."""

    def test_a_branch_and_what_has_no_code(self) -> None:
        """Start, branch, XIC, leg ends, branch ends, OTE: the leg, the fork and the rung without instructions have no code; then the last
        rung's start."""
        contents = project(["[XIC(a),]OTE(b)[,];", ";", ";"])
        self.assertEqual(lines(contents, "mode run", "cpu 8"), ["0 0 0 5 2 0", "0 0 0 2 2 0", "end"])

    def test_a_false_condition(self) -> None:
        self.assertEqual(lines(project(["XIC(a)OTE(b)[XIC(b),XIO(b)]OTL(a);"]), "mode run", "cpu 6"), [
            "0 0 0 9 1 0", "0 0 0 8 0 1", "0 0 0 6 0 1", "0 0 0 4 0 1", "0 0 0 1 0 1", "end"])  # fmt: skip

    def test_a_jump_and_a_call(self) -> None:
        """Of M, with eight pieces, rung 1 is passed over; S stands in line behind M."""
        contents = project(["JMP(x);", "OTE(a);", "LBL(x)JSR(S,0);", ";"], {"S": ["XIC(a)NOP();"]})
        self.assertEqual(lines(contents, "mode run", "cpu 8"), ["0 0 0 7 1 0", "0 0 0 3 1 0", "0 0 0 2 1 0", "0 0 1 2 1 0", "0 0 1 1 0 1", "end"])

    def test_a_copy_is_executed_once(self) -> None:
        self.assertEqual(lines(project(["COP(d[0],d[1],3);"]), "mode run", "cpu 6"), ["0 0 0 1 1 0", "end"])

    def test_an_instruction_at_fault(self) -> None:
        self.assertEqual(lines(project(["MOV(9,n);", "MOV(1,d[n]);", "NOP();"]), "mode run", "cpu 9"), ["0 0 0 5 1 0", "0 0 0 3 1 0", "end"])

    def test_a_disabled_zone(self) -> None:
        self.assertEqual(lines(project(["XIC(a)MCR();", "NOP();", "MCR();"]), "mode run", "cpu 5"), [
            "0 0 0 6 1 0", "0 0 0 5 0 1", "0 0 0 3 0 1", "0 0 0 1 0 1", "end"])  # fmt: skip

    def test_a_scan_keeps_its_version(self) -> None:
        edit = ["@0 accept P M r 0 XIO(a)NOP();", "@0 test P"]
        journal = ["mode run", "cpu 2", *edit, "cpu 6", "@0 untest P", "cpu 4"]
        self.assertEqual(lines(project(["XIC(a)OTE(b);"]), *journal), ["0 0 0 2 2 0", "0 0 0 1 0 2", "0 1 0 2 1 0", "0 1 0 1 1 0", "end"])

    def test_nothing_ran(self) -> None:
        self.assertEqual(lines(project(["NOP();"]), "cpu 5", "mode run", "cpu 1"), ["end"])


def made(seed: int) -> list[bytes]:
    draw = random.Random(seed)
    maker = Maker(draw)
    return begins.files(draw) if seed % 2 else [file_text(maker.project()), journal_text(maker.journal(15))]


class Mapping(unittest.TestCase):
    """What the tool reads a routine's code from is another reading than the plain interpreter's."""

    def test_the_code_is_the_plain_interpreter_s(self) -> None:
        texts = ["[,]XIC(a)[[,],[XIO(b),]OTE(c)][];", ";", "[OTE(a)];", "[[]];", "XIC(a);", ";"]
        for count in range(1, len(texts) + 1):
            self.same(texts[:count])
        for seed in range(40):
            for program in json.loads(made(seed)[0])["programs"]:
                for routine in program["routines"]:
                    with contextlib.suppress(Exception):
                        self.same(routine["rungs"])

    def same(self, texts: list[str]) -> None:
        plain = [read_rung(text) for text in texts]
        left = left_of(plain)
        pieces = code([rung_of(text) for text in texts])
        found = {place: len(pieces) - at for at, place in enumerate(pieces) if place}
        wanted = {(number, at): left[id(one)] for number, rung in enumerate(plain) for at, one in enumerate(instructions(rung))}
        self.assertEqual(found, wanted)

    def test_versions_are_the_plain_book_s(self) -> None:
        count = 0
        for seed in range(40):
            contents, journal = made(seed)
            if answer(["replay"], [contents, journal])[0]:
                continue
            wanted = self.by_books(Project(contents), read_journal(journal))
            found = Versions(contents, journal).of(set(wanted))
            for key, routines in wanted.items():
                self.assertEqual([[rung.text() for rung in rungs] for rungs in found[key]], routines)
            count += len(wanted)
        self.assertGreater(count, 80)

    @staticmethod
    def by_books(plain: Project, events) -> dict[tuple[int, int], list[list[str]]]:
        names = [program["name"].lower() for program in plain.programs]
        books = [Book(plain, at) for at in range(len(names))]
        found = {(at, 0): [[spelled(rung) for rung in rungs] for rungs in book.base] for at, book in enumerate(books)}
        for event in events:
            action = event.action
            if action is None or action.verb not in ("accept", "test", "untest", "assemble", "cancel") or action.names[0].lower() not in names:
                continue
            at = names.index(action.names[0].lower())
            with contextlib.suppress(Exception):
                if action.verb == "accept":
                    books[at].accept(event.lane, action.names[1], action.edits)
                    found[at, books[at].last] = [[spelled(rung) for rung in rungs] for rungs in books[at].merged]
                else:
                    books[at].change(event.lane, action.verb)
        return found

    def test_where_rungs_come_from(self) -> None:
        contents = project(["OTE(a);", "OTE(b);", "OTL(a);"])
        journal = journal_text([
            "@0 accept P M i 1 NOP(); | d 0", "@0 accept P M r 2 OTU(b);", "@0 assemble P", "@0 accept P M i 3 AFI();", "@1 accept P M d 0", "end"
        ])  # fmt: skip
        found = Versions(contents, journal).of({(0, 1), (0, 2), (0, 3), (0, 4)})
        origins = {version: [(rung.text(), rung.own, rung.accept) for rung in found[0, version][0]] for version in (1, 2, 3)}
        inserted, kept = ("NOP();", None, 1), ("OTE(b);", 1, None)
        self.assertEqual(origins[1], [inserted, kept, ("OTL(a);", 2, None)])
        self.assertEqual(origins[2], [inserted, kept, ("OTU(b);", None, 2)])
        self.assertEqual(origins[3], [inserted, kept, ("OTU(b);", None, 2), ("AFI();", None, 3)])
        self.assertNotIn((0, 4), found)

    def test_all_instructions_are_counted(self) -> None:
        """Each step of a made run that the trace has, but for those that copy an element or leave a routine."""
        for seed in range(20):
            files = made(seed)
            status, trace = answer(["trace"], files)
            text = answer(["cover"], files)[1]
            if status or "copy" in trace or "sync" in trace:
                continue
            steps = sum(line.startswith("step ") for line in trace.splitlines())
            routines = counted(Versions(*files), read(text))
            self.assertEqual(sum(sum(count) for one in routines for count in one.counts.values()), steps)


EDITED = ("mode run", "cpu 3", "@0 accept P M i 0 XIC(b)NOP(); | r 1 JSR(S,0)AFI()OTL(b);", "@0 test P", "cpu 12")


class Told(unittest.TestCase):
    CONTENTS = project(["XIC(a)OTE(b);", "XIC(b)[OTL(a),];"], {"S": ["TND()NOP();"], "Empty": []})

    def routines(self, *journal: str):
        text = journal_text([*journal, "end"])
        return counted(Versions(self.CONTENTS, text), read(answer(["cover"], [self.CONTENTS, text])[1]))

    def test_two_versions(self) -> None:
        """Version 0: begin, XIC, OTE, XIC, OTL, end; version 1: begin, XIC, NOP, XIC, OTE, JSR, TND, end of S, .."""
        self.assertEqual("\n".join(told(self.routines(*EDITED))), """\
P / M, version 0
      true     false
                      rung 0  XIC(a)OTE(b);
         1         0      XIC(a)
         0         1      OTE(b)  (never true)
                      rung 1  XIC(b)[OTL(a),];
         1         0      XIC(b)
         0         1      OTL(a)  (never true)

P / S, version 0
      true     false
                      rung 0  TND()NOP();
      never executed      TND()
      never executed      NOP()

P / M, version 1
      true     false
                      rung 0 (accept 1)  XIC(b)NOP();
         1         0      XIC(b)
         0         1      NOP()  (never true)
                      rung 1 (in the project 0)  XIC(a)OTE(b);
         1         0      XIC(a)
         0         1      OTE(b)  (never true)
                      rung 2 (accept 1)  JSR(S,0)AFI()OTL(b);
         1         0      JSR(S,0)
         1         0      AFI()
      never executed      OTL(b)

P / S, version 1
      true     false
                      rung 0  TND()NOP();
         1         0      TND()
      never executed      NOP()

                         instructions   never executed   never true
P / M, version 0                    4                0            2
P / S, version 0                    2                2            0
P / M, version 1                    7                1            2
P / S, version 1                    2                1            0
in all, each rung once             11                2            3""")

    def test_nothing_ran(self) -> None:
        routines = self.routines("mode run")
        self.assertEqual(total(routines), (6, 6, 0))
        self.assertIn("      never executed      NOP()", told(routines))
        self.assertEqual(told(routines)[-1].split(), ["in", "all", "6", "6", "0"])

    def test_what_is_no_text_of_the_program(self) -> None:
        wrong = ["", "end", "end\nend\n", "0 0 0 1 1\nend\n", "0 0 0 1 1 0\n", "-1 0 0 1 1 0\nend\n", "project P1\n"]
        for text in wrong:
            with self.subTest(text), self.assertRaises(Astray):
                read(text)
        for text in ("0 0 0 9 1 0\nend\n", "0 0 0 10 1 0\nend\n", "0 0 0 0 1 0\nend\n", "0 0 3 1 1 0\nend\n", "0 1 0 1 1 0\nend\n", "1 0 0 1 1 0\nend\n", "0 0 0 1 1 0\nend\n"):
            with self.subTest(text), self.assertRaises(Astray):
                counted(Versions(self.CONTENTS, b"end\n"), read(text))

    def test_a_drawing(self) -> None:
        svg = trees.fromstring(drawn(self.routines(*EDITED)))
        notes = [text.text for text in svg.iter("{http://www.w3.org/2000/svg}text") if text.get("class") == "note"]
        self.assertEqual(notes[:6], ["1 / 0", "0 / 1", "1 / 0", "0 / 1", "never", "never"])

    def test_counts_are_added(self) -> None:
        self.assertEqual(Count(1, 2).plus(Count(3, 4)), Count(4, 6))


class Called(RoomTest):
    def setUp(self) -> None:
        super().setUp()
        self.programs = programs(f"{self.room}/programs", False)

    def call(self, *words: str, has_programs: bool = True) -> tuple[int, str, str]:
        out, err = io.StringIO(), io.StringIO()
        with contextlib.redirect_stdout(out), contextlib.redirect_stderr(err):
            status = main.main([*words, *(["--programs", self.programs] if has_programs else [])])
        return status, out.getvalue(), err.getvalue()

    def test_an_example(self) -> None:
        status, out, err = self.call(f"{CONVEYOR}/project.json", f"{CONVEYOR}/journal.txt", "--ladder", f"{self.room}/c.svg")
        self.assertEqual((status, err), (0, ""))
        self.assertIn("                      rung 3 (accept 1)  XIC(HornT.DN)XIO(Local:1:I.Fault.0)OTE(Motor);\n", out)
        self.assertTrue(read_bytes(f"{self.room}/c.svg").startswith(b"<svg"))

    def test_the_program_s_lines(self) -> None:
        files = [f"{CONVEYOR}/project.json", f"{CONVEYOR}/journal.txt"]
        self.assertEqual(self.call(*files, "--lines"), (0, answer(["cover"], [read_bytes(path) for path in files])[1], ""))

    def test_a_pipe(self) -> None:
        ours, theirs = os.pipe()
        os.write(theirs, b"mode run\ncpu 9\nend\n")
        os.close(theirs)
        status, out, err = self.call(f"{CONVEYOR}/project.json", f"/dev/fd/{ours}")
        os.close(ours)
        self.assertEqual((status, err), (0, ""))
        self.assertIn("Conveyor / Main, version 0", out)

    def test_what_is_wrong_is_named(self) -> None:
        project_file, journal = f"{CONVEYOR}/project.json", self.put("j.txt", "mode run\ncpu x\nend\n")
        for words, status, out, err in (
            ((), 1, "", "the following arguments are required: P, J"),
            ((project_file,), 1, "", "the following arguments are required: J"),
            ((project_file, journal, "--lader", "x"), 1, "", "unrecognized arguments: --lader x"),
            ((project_file, f"{self.room}/k.txt"), 4, "", f"'{self.room}/k.txt', the journal, isn't there; is j.txt meant?"),
            ((self.room, journal), 4, "", f"'{self.room}', the project, is a folder"),
            ((project_file, journal), 3, "journal J1 line 2\n", "j.txt, line 2: "),
            ((journal, journal), 2, "project P1\n", "j.txt, line 1, column 1: "),
        ):
            with self.subTest(words):
                called = self.call(*words)
                self.assertEqual(called[:2], (status, out))
                self.assertIn(err, called[2])

    def test_no_program(self) -> None:
        os.remove(f"{self.programs}/logix_cover")
        status, out, err = self.call(f"{CONVEYOR}/project.json", f"{CONVEYOR}/journal.txt")
        self.assertEqual((status, out), (70, ""))
        self.assertRegex(err, "^cover: there is no program logix_cover at .*: run tools/prove, ")

    def test_another_program(self) -> None:
        for script, status in (("echo ok", 70), ("exit 6", 6), ("kill -9 $$", 137)):
            self.put("programs/logix_cover", f"#!/bin/sh\n{script}\n")
            called = self.call(f"{CONVEYOR}/project.json", f"{CONVEYOR}/journal.txt")
            self.assertEqual((called[0], called[1], called[2][:7]), (status, "", "cover: "))


class Bent:
    """The plain interpreter as the program of the hammer; `bend` changes what it answers."""

    def __init__(self, bend=lambda out: out):
        self.bend, self.files = bend, {}

    def put(self, name: str, contents: bytes) -> str:
        self.files[name] = contents
        return name

    @staticmethod
    def beside(name: str) -> str:
        return name

    def run(self, words, path):
        status, out = answer(["cover"], [self.files[word] for word in words])
        return Ran(status, self.bend(out.encode("latin-1")), b"", 0.0, 0)


class Hammer(unittest.TestCase):
    def test_counts_are_judged(self) -> None:
        cases = [covers.covers(random.Random(seed), None) for seed in range(12)]
        self.assertEqual([judge(Bent(), files) for judge, files in cases], [None] * 12)
        wrong = [judge(Bent(lambda out: out.replace(b" 0\n", b" 1\n", 1)), files) for judge, files in cases]
        self.assertGreater(sum(one is not None for one in wrong), 6)

    def test_most_cases_are_sound(self) -> None:
        with mock.patch.object(covers, "Bender", None):
            statuses = []
            for seed in range(12):
                with contextlib.suppress(TypeError):  # one that is bent
                    statuses.append(answer(["cover"], covers.covers(random.Random(seed), None)[1])[0])
        self.assertGreater(statuses.count(0), 8)


if __name__ == "__main__":
    unittest.main()
