"""The hammer's later kinds, on the plain interpreter in place of the program: they hold there, and see a program that goes wrong."""

import json
import os
import random
import subprocess
import sys
import tempfile
import unittest
from unittest import mock

from scenario_files import programs
from lib.hammer import begins, books, corpus, coverage, covers, marks, pieces, scenarios, sessions, splits, tool_faults
from lib.hammer.cases import EVERY, OF_PROJECT, PROJECT, file_text
from lib.hammer.main import ON_ONE, Hammer
from lib.hammer.plain.judge import answer, kept_project
from lib.hammer.plain.required import Requirement, Test
from lib.hammer.program import Ran


class Plain:
    """The plain interpreter as a program of the hammer; `bend` changes what it answers to files."""

    commands = corpus.Commands.commands

    def __init__(self, bend=lambda verb, files, out: out, folder=None):
        self.bend, self.room, self.runs, self.told, self.path = bend, folder, 0, {}, f"{folder}/programs/logix"

    def answer(self, verb, *files, more=()):
        status, out = answer([verb], list(files))
        return Ran(status, self.bend(verb, files, out.encode("latin-1")), b"", 0.0, 0)

    def beside(self, name):
        return f"{self.room}/programs/{name}" if self.room else None

    def tally(self, fault, came):
        self.told[fault] = came


class Made(unittest.TestCase):
    def test_most_runs_are_sound(self):
        for maker, least in ((marks, 28), (begins, 28)):
            answers = [answer(["replay"], maker.files(random.Random(seed))) for seed in range(30)]
            self.assertGreaterEqual([one[0] for one in answers].count(0), least)
            self.assertGreater(sum(one[1].count(" set ") for one in answers), 60)


    def test_a_line_that_is_forgotten_is_seen(self):
        """A watched place whose mark is lost, and a begin that a stretch went on over."""
        for make, word in ((marks.marks, b" set "), (begins.begins, b" begin ")):
            def forgetful(verb, files, out, word=word):
                lines = out.splitlines(keepends=True)
                last = max((at for at, line in enumerate(lines) if word in line), default=None)
                return b"".join(lines[:last] + lines[last + 1:]) if last is not None else out
            seen = []
            for seed in range(6):
                judge, files = make(random.Random(seed), Plain())
                if judge.command == "replay":
                    self.assertIsNone(judge(Plain(), files))
                    seen.append(judge(Plain(forgetful), files))
            self.assertTrue(seen and any("from byte" in (one or "") for one in seen))


class OnOne(unittest.TestCase):
    """Cases that share a made project."""

    def cases(self, runs, numbers):
        hammer = Hammer(Plain(), "s", "nowhere", runs=runs)
        return {(kind, number): hammer.case(kind, number)[1] for kind in ON_ONE for number in numbers}

    def test_some_in_a_row_have_one_project_and_journals_of_their_own(self):
        made = self.cases(4, range(8))
        hammer = Hammer(Plain(), "s", "nowhere", runs=4)
        for kind in ON_ONE:
            for batch in range(2):
                projects = {made[kind, number][0] for number in range(4 * batch, 4 * batch + 4)} - {file_text(PROJECT)}
                if hammer.project(kind, batch)[1]:
                    self.assertGreater(len(projects), 1, kind)
                elif kind != "cover":  # (there some projects are bent)
                    self.assertEqual(len(projects), 1, kind)
            runs = [tuple(files) for (one, _), files in made.items() if one == kind and len(files) > 1]
            self.assertEqual(len(set(runs)), len(runs), kind)

    def test_no_command_reads_a_project_alone_twice(self):
        runs = EVERY * len(OF_PROJECT)
        hammer = Hammer(Plain(), "s", "nowhere", runs=runs)
        met = [hammer.case("whole", number)[0].command for number in range(2 * runs)]
        for command in OF_PROJECT:
            self.assertEqual((met[:runs].count(command), met[runs:].count(command)), (1, 1))

    def test_a_case_is_made_by_its_number_alone(self):
        made = self.cases(4, range(8))
        for number in (6, 1, 4):
            for kind in ON_ONE:
                self.assertEqual(self.cases(4, [number])[kind, number], made[kind, number])

    def test_a_run_leaves_the_project_that_is_kept_as_it_was(self):
        for kind in ("whole", "marks", "begins", "journals", "traces", "links"):
            for number in range(6):
                judge, files = Hammer(Plain(), "s", "nowhere", runs=4).case(kind, number)
                first = answer([judge.command], files)
                self.assertEqual(answer([judge.command], files), first)
                kept_project.cache_clear()
                self.assertEqual(answer([judge.command], files), first)


class Books(unittest.TestCase):
    def test_the_book_is_the_plain_interpreter_s(self):
        told = []
        for seed in range(3):
            judge, files = books.books(random.Random(seed), None)
            self.assertIsNone(judge(Plain(), files))
            told.append(books.wanted(int(files[0]), files[1]))
        self.assertTrue(all(word in b"".join(told) for word in (b" ok ", b" refused E3", b" refused E6", b" refused E10", b" set n ")))

    def test_an_edit_in_a_wrong_place_is_seen(self):
        def late(verb, files, out):
            return out.replace(b" set n 7\n", b" set n 8\n", 1)
        judge, files = books.books(random.Random(1), None)
        self.assertIn("from byte", judge(Plain(late), files))


class Splits(unittest.TestCase):
    def files(self):
        rungs = ["ADD(n,1,n);", "UID()NOP()UIE();"]
        made = json.loads(books.project(1))
        made["programs"][0]["routines"][0]["rungs"] = rungs
        return [file_text(made), b"mode run\ncpu 9\ntick 1\ncpu 5\ncpu 6\nend\n", b"0"]

    def test_a_cut_changes_nothing(self):
        self.assertIsNone(splits.of_cuts(Plain(), self.files()))

    def test_a_program_that_sees_a_cut(self):
        def cut_is_seen(verb, files, out):
            return out.replace(b"set n 2", b"set n 3") if b"cpu 4\n" in files[1] else out
        self.assertIn("cut at", splits.of_cuts(Plain(cut_is_seen), self.files()))

    def test_a_program_that_sees_two_cuts(self):
        def cuts_are_seen(verb, files, out):
            return out.replace(b"set n 2", b"set n 3") if b"cpu 1\ncpu 2\ncpu 1\n" in files[1] else out
        self.assertIn(" as [", splits.of_cuts(Plain(cuts_are_seen), self.files()))

    def test_ways(self):
        self.assertEqual(sorted(splits.ways(3)), [[1, 1, 1], [1, 2], [2, 1], [3]])
        for steps in (1, 4, 5, 6, 40):
            made = splits.around(steps, random.Random(steps))
            self.assertEqual(({sum(way) for way in made}, len({tuple(way) for way in made})), ({steps}, 2 ** (min(steps, 5) - 1)))
        made = splits.by_chance(["mode run", "cpu 30", "end"], random.Random(1))
        self.assertEqual(splits.joined(made), ["mode run", "cpu 30", "end"])
        self.assertGreater(len(made), 3)

    def test_lines_of_steps(self):
        self.assertEqual(splits.single(["mode run", "cpu 2", "end"]), ["mode run", "cpu 1", "cpu 1", "end"])
        self.assertEqual(splits.joined(["cpu 2", "cpu 3", "tick 1", "cpu 4"]), ["cpu 5", "tick 1", "cpu 4"])


class Counting(Plain):
    """The plain counts, or bent ones, as what `logix_cover` writes."""

    def __init__(self, bend):
        super().__init__(bend, folder="room")
        self.files = {}

    def put(self, name, contents):
        self.files[name] = contents
        return name

    def run(self, words, path=None):
        status, out = answer(["cover"], [self.files[word] for word in words])
        return Ran(status, self.bend("cover", None, out.encode("latin-1")), b"", 0.0, 0)


class Covers(unittest.TestCase):
    def judged(self, bend):
        made = [covers.covers(random.Random(seed), None) for seed in range(6)]
        return [judge(Counting(bend), files) for judge, files in made]

    def test_counts(self):
        self.assertEqual(self.judged(lambda verb, files, out: out), [None] * 6)

    def test_a_step_that_is_counted_twice_is_seen(self):
        self.assertTrue(any(self.judged(lambda verb, files, out: out.replace(b" 1 0\n", b" 2 0\n", 1))))


class Told(Plain):
    """The plain controller that is talked to, as a process; where it is bent, it counts its lines from 0."""

    def __init__(self, room, is_bent):
        super().__init__(folder=room)
        programs(f"{room}/programs", False)
        if is_bent:
            os.rename(f"{room}/programs/logix_live", f"{room}/programs/sound")
            with open(f"{room}/programs/logix_live", "w", encoding="utf-8") as file:
                file.write(f"#!/bin/sh\n'{room}/programs/sound' \"$@\" | sed -u 's/^line J1 3$/line J1 2/'\n")
            os.chmod(f"{room}/programs/logix_live", 0o755)

    def put(self, name, contents):
        with open(f"{self.room}/{name}", "wb") as file:
            file.write(contents)
        return f"{self.room}/{name}"

    def run(self, words, given=b"", path=None):
        ran = subprocess.run([path, *words], input=given, capture_output=True, check=False, timeout=20)
        return Ran(ran.returncode, ran.stdout, ran.stderr, 0.0, 0)


class Sessions(unittest.TestCase):
    LINES = b"mode run\ncpu 3\n?\ntick 1\n?\n@0 test P\nend\n"

    def judged(self, is_bent):
        with tempfile.TemporaryDirectory() as room:
            return sessions.of_marks(Told(room, is_bent), [books.project(2), self.LINES])

    def test_marks(self):
        self.assertIsNone(self.judged(False))

    def test_a_mark_with_another_number_is_seen(self):
        self.assertIn("from byte", self.judged(True))


class Met(unittest.TestCase):
    """What a case met."""

    def test_a_run(self):
        files = [books.project(2), b"mode run\nmode run\ncpu 2\n@0 test P\nend\n"]
        met = corpus.met_by("replay", files)
        wanted = {"instruction MOV true", "effect step began", "effect step mark -", "effect act released", "cause M1", "cause E10", "answer ok", "status replay 0",
                  "shown MOV true: goes on true, changes"}
        self.assertLessEqual(wanted, met)

    def test_refusals(self):
        self.assertEqual(corpus.met_by("check", [b"{"]), {"status check 2", "cause P1"})
        self.assertLessEqual({"cause P10", "cause T4", "status check 2"}, corpus.met_by("check", [books.project(1).replace(b"MOV(1,n);", b"MOV(1,n)")]))

    def test_the_table_has_what_nothing_met(self):
        told = "\n".join(coverage.told({"cause M1": 7}, 5))
        self.assertIn("        7 cause M1\n", told)
        self.assertIn("  cause M2: 0", told)
        self.assertNotIn("  cause M1: 7", told)

    def test_each_code_of_the_documents_has_a_row(self):
        from lib.places.codes import table
        rows = {row.split(" ")[-1] for row in coverage.rows()}
        for code in table():
            if not code.isdigit() and code != "G9":
                self.assertIn(code, rows)


class Corpus(unittest.TestCase):
    def test_it_is_small_and_meets_what_it_was_kept_for(self):
        self.assertLess(os.path.getsize(corpus.PATH), 200_000)
        for one in corpus.read():
            met = corpus.met_by(one.command, one.files)
            self.assertLessEqual(set(one.meets), met, one)

    def test_it_is_written_as_it_is_read(self):
        with tempfile.TemporaryDirectory() as room:
            corpus.write(corpus.read(), f"{room}/kept.txt")
            with open(f"{room}/kept.txt", "rb") as written, open(corpus.PATH, "rb") as stored:
                self.assertEqual(written.read(), stored.read())

    def test_files_that_could_not_be_told_apart(self):
        self.assertTrue(corpus.is_writable([b"a\nb"]))
        self.assertFalse(corpus.is_writable([b"a" + corpus.BETWEEN]))
        self.assertFalse(corpus.is_writable([b"== replay"]))

    def test_changes(self):
        known = corpus.read()[:40]
        changed = [corpus.Changes(random.Random(seed), known).files(known[seed]) for seed in range(40)]
        self.assertGreater(sum(files != one.files for files, one in zip(changed, known)), 30)


class Run:
    """A run by hand: at each tick the value of a."""

    def __init__(self, values, faults=()):
        self.moments, self.faults = [(tick, {"a": value, "b": 1}, "p" if ended else None) for tick, value, ended in values], list(faults)


class Required(unittest.TestCase):
    RUN = Run([(0, 0, False), (1, 1, True), (1, 2, False), (4, 0, True), (9, 1, False)], [("minor", "6/2")])
    WANTED = {
        "at 0: a = 0": True, "at 1: a = 2": True, "at 3: a = 2": True, "always: a < 3": True, "always: a > 0": False, "never: a = 2": False,
        "always at P: a < 2": True, "always at P: a = 1": False, "never at P: a = 2": True, "end: A = 1": True, "end: a <> b": False,
        "within 3 of a = 2: a = 0": True, "within 2 of a = 2: a = 0": False, "within 1 of a = 0: a = 1": False, "within 5 of a = 0: a = 1": True,
        "within 6 of b = 1: a = 9": False, "within 99 of b = 1: a = 9": True, "faults: none": False, "faults: 6/2": True, "faults: 6/2, 4/4": False,
    }

    def test_each_kind(self):
        for text, wanted in self.WANTED.items():
            self.assertEqual(Requirement(text).holds(self.RUN), wanted, text)

    def test_what_binds_first(self):
        for text, wanted in {"not a = 1 and a = 1": False, "a = 1 or a = 1 and a = 2": True, "a = 2 -> a = 1 and a = 2": True, "a = 1 -> a = 2 or b = 1": True,
                             "not (a = 1 -> a = 2)": True, "-1 < a": True}.items():
            self.assertEqual(Test(text).holds({"a": 1, "b": 1}), wanted, text)


class Scenarios(unittest.TestCase):
    def judged(self, count):
        with tempfile.TemporaryDirectory() as room:
            programs(f"{room}/programs", False)
            plain = Plain(folder=room)
            return [judge(plain, files) for judge, files in (scenarios.scenarios(random.Random(seed), None) for seed in range(count))]

    def test_they_are_judged_alike(self):
        self.assertEqual(self.judged(2), [None] * 2)

    def test_a_judge_that_lets_all_pass_is_seen(self):
        with mock.patch("lib.scenario.tests.Not.holds", lambda *_: True):
            self.assertTrue(any(self.judged(5)))


class Controllers(unittest.TestCase):
    """bad_live.py goes wrong as it is told to."""

    def told(self, how, count, lines=b"mode run\ncpu 3\nend\n"):
        with tempfile.TemporaryDirectory() as room:
            folder = programs(f"{room}/programs", False)
            with open(f"{room}/p.json", "wb") as file:
                file.write(books.project(2))
            words = [sys.executable, "-B", f"{os.path.dirname(corpus.__file__)}/bad_live.py", how, str(count), f"{folder}/logix_live", f"{room}/p.json"]
            return subprocess.run(words, input=lines, stdout=subprocess.PIPE, check=False, timeout=20)

    def test_ways(self):
        whole = self.told("ends 3", 99)
        lines = whole.stdout.splitlines(keepends=True)
        self.assertEqual((whole.returncode, len(lines)), (0, 5))
        ends = self.told("ends 3", 2)
        self.assertEqual((ends.returncode, ends.stdout), (3, b"".join(lines[:2])))
        half = self.told("half ends", 1)
        self.assertEqual(half.stdout, lines[0] + lines[1][:len(lines[1]) // 2])
        self.assertEqual(self.told("double", 4).stdout, whole.stdout + lines[4])
        self.assertEqual(self.told("signal", 0).returncode, -9)


class Tools(unittest.TestCase):
    def test_what_is_wrong_with_an_answer(self):
        judged = tool_faults.judged
        self.assertIsNone(judged("nothing", 4, b"", b""))
        self.assertIsNone(judged("full device", 5, b"", b""))
        for fault in (("nothing", 0, b"x", b""), ("nothing", 2, b"", b""), ("full device", 0, b"", b""), ("closed pipe", 1, b"", b"Traceback (most recent call last)")):
            self.assertIsNotNone(judged(*fault), fault)

    def test_each_fault_has_its_turn(self):
        count = len(tool_faults.faults())
        self.assertEqual(len({tuple(tool_faults.tool_faults(None, None, number)[1]) for number in range(count)}), count)

    def test_each_call_has_its_files(self):
        for call in tool_faults.CALLS:
            for word in (*call.words[1:], call.given):
                self.assertTrue("/" not in word or os.path.exists(word), word)


class Pieces(unittest.TestCase):
    def test_they_are_added(self):
        with tempfile.TemporaryDirectory() as room:
            with open(f"{room}/{pieces.LINES}", "w", encoding="utf-8") as file:
                for number in (0, 1, 3):
                    file.write(json.dumps(self.line(f"s-{number}", "ab", number // 2)) + "\n")
            made = pieces.Pieces(room, "s", 1, "logix", [])
            self.assertEqual((made.cases(), made.number, made.run(30)), (30, 4, True))
            text = self.told(made.made, 1)
            self.assertIn("       12 cause M1\n", text)
            self.assertIn("\nwhole: 30 cases, 2 s\nx: y, 3\n", text)
            self.assertTrue(text.endswith("\nseeds s-0 to s-3 but 2: 30 cases in 3 pieces, 36 runs of the programs, 3 s of processor time, 1 differences"))
            self.assertEqual(self.told([pieces.added(made.made[:2]), made.made[2]], 1), text)

    @staticmethod
    def line(seed, build, differences):
        return {"seeds": [seed], "cases": {"whole": 10}, "took": {"whole": 0.5}, "met": {"cause M1": 4}, "told": {"x: y": 1}, "builds": {build: 10},
                "seconds": 1, "spent": 1.0, "runs": 12, "differences": differences, "pieces": 1}

    def told(self, lines, status):
        with mock.patch("builtins.print") as told:
            self.assertEqual(pieces.tell(lines, 5), status)
        return told.call_args[0][0]

    def test_other_programs_are_told(self):
        self.assertIn("\nnot all of the same programs: 10 cases of ab, 10 cases of cd\n", self.told([self.line("s-0", "ab", 0), self.line("t-0", "cd", 0)], 0))

    def test_pieces_run_side_by_side_until_there_are_enough(self):
        with tempfile.TemporaryDirectory() as room:
            made = pieces.Pieces(room, "s", 1, "logix", [])
            with mock.patch.object(made, "piece", lambda number: None if number == 1 else self.line(f"s-{number}", "ab", 0)), mock.patch("builtins.print"):
                self.assertTrue(made.run(35, 2))
            self.assertGreaterEqual(made.cases(), 40)
            again = pieces.Pieces(room, "s", 1, "logix", [])
            self.assertEqual((again.cases(), again.number), (made.cases(), made.number))

    def test_where_pieces_break_off_it_ends(self):
        with tempfile.TemporaryDirectory() as room:
            made = pieces.Pieces(room, "s", 1, "logix", [])
            with mock.patch.object(made, "piece", lambda number: None), mock.patch("builtins.print"):
                self.assertFalse(made.run(10, 2))


if __name__ == "__main__":
    unittest.main()
