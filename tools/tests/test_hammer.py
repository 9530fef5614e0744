"""The hammer's own parts: made cases, mutations, the counting of scripts, and how a case becomes smaller."""

import json
import os
import random
import subprocess
import tempfile
import unittest

import common  # noqa: F401 (where the tools are)
from lib.hammer import failing, lanes, limits
from lib.hammer.bent import Bender
from lib.hammer.cases import file_text, journal_text
from lib.hammer.laws import Broken
from lib.hammer.made import Maker
from lib.hammer.plain.journal import Script, read_journal
from lib.hammer.plain.judge import answer
from lib.hammer.program import Ran
from lib.hammer.shrink import Shrinker
from lib.hammer.sound import unsound


class Made(unittest.TestCase):
    def test_most_projects_are_sound(self):
        answers = [answer(["check"], [file_text(Maker(random.Random(seed)).project())])[0] for seed in range(60)]
        self.assertGreater(answers.count(0), 40)

    def test_a_seed_makes_one_case(self):
        def drawn():
            maker = Maker(random.Random(7), 0.01)
            return maker.project(), maker.journal(), maker.script()
        self.assertEqual(drawn(), drawn())

    def test_scripts_are_read(self):
        for seed in range(20):
            maker = Maker(random.Random(seed))
            maker.project()
            Script(journal_text(maker.script(5)))

    def test_mutations_differ(self):
        text = b"mode run\ncpu 10\nend\n"
        self.assertGreater(len({Bender(random.Random(seed)).text(text) for seed in range(50)}), 30)


class Smaller(unittest.TestCase):
    def test_the_line_that_matters_is_left(self):
        lines = b"\n".join(b"tick %d" % at for at in range(1, 40))
        self.assertEqual(Shrinker(lambda files: b"tick 17" in files[0].split(b"\n")).shrink([lines]), [b"tick 17"])

    def test_lists_and_rungs_become_smaller(self):
        made = {"watch": ["a", "b"], "rungs": ["XIC(a)OTE(b);", "XIC(c)[NOP(),TND()]OTE(d);"]}
        smaller = Shrinker(lambda files: b"TND" in files[0]).shrink([json.dumps(made).encode()])
        self.assertEqual(json.loads(smaller[0]), {"rungs": ["[NOP(),TND()];"]})


class Complete(unittest.TestCase):
    """A journal is complete for its script; a doctored one isn't."""

    SCRIPT = b"run 5 2 2\n@0 1 clear\n@0 1 mode program\n@1 0 clear\nend\n"
    JOURNAL = b"mode run\n@1 clear\ncpu 2\ntick 1\n@0 clear\ncpu 2\ntick 1\n@0 mode program\ncpu 1\nend\n"

    def breaks(self, old, new):
        with self.assertRaises(Broken, msg=old):
            lanes.complete(Script(self.SCRIPT), read_journal(self.JOURNAL.replace(old, new, 1)), b"")

    def test_it_is_complete(self):
        lanes.complete(Script(self.SCRIPT), read_journal(self.JOURNAL), b"")

    def test_doctored_journals(self):
        self.breaks(b"mode run\n", b"")
        self.breaks(b"@1 clear\n", b"")
        self.breaks(b"@1 clear\n", b"@1 clear\n@1 clear\n")
        self.breaks(b"cpu 2\ntick 1\n@0 clear\n", b"@0 clear\ncpu 2\ntick 1\n")
        self.breaks(b"tick 1\n@0 clear\n", b"@0 clear\ntick 1\n")
        self.breaks(b"cpu 2", b"cpu 3")
        self.breaks(b"tick 1", b"tick 2")
        self.breaks(b"cpu 1", b"tick 1")
        self.breaks(b"@0 mode program", b"@0 mode run")


class Sound(unittest.TestCase):
    def test_answers(self):
        def wrong(status, out, err=b""):
            return unsound(Ran(status, out, err, 0.0, 0), {0, 1, 2, 3, 4, 5, 7, 8})
        self.assertIsNone(wrong(0, b"ok\n"))
        self.assertIsNone(wrong(2, b"project P10 programs.0.routines.0.rungs.1 T4 12\n"))
        self.assertIsNone(wrong(3, b"journal J4 line 7\n"))
        bad = [(0, b"ok\n", b"x"), (0, b"ok"), (4, b"x\n"), (6, b""), (-11, b""), (None, b""), (2, b"journal J1 line 1\n")]
        for ran in (*bad, (3, b"journal J1\n")):
            self.assertIsNotNone(wrong(*ran), ran)


class Head:
    """`head` as a program of the hammer, and a call of it."""

    def __init__(self, room):
        self.room = room

    def put(self, name, text):
        path = f"{self.room}/{name}"
        with open(path, "wb") as file:
            file.write(text)
        return path

    def run(self, _, variables, seconds):
        with open(self.put("out", b""), "r+b") as out:
            words, variables = ["head", "-c", "99", f"{self.room}/text"], variables | {"PATH": os.environ["PATH"]}
            ran = subprocess.run(words, env=variables, stdout=out, stderr=subprocess.PIPE, timeout=seconds, check=False)
            out.seek(0)
            return Ran(ran.returncode, out.read(), b"", 0.0, 0)


class Failing(unittest.TestCase):
    """The reads of `head` are counted, and fail one by one."""

    TEXT = b"0123456789\n" * 10
    WHOLE = (TEXT[:99], 0)

    def setUp(self):
        folder = tempfile.TemporaryDirectory()
        self.addCleanup(folder.cleanup)
        head = Head(folder.name)
        head.put("text", self.TEXT)
        self.failing, self.call = failing.Failing(head), head
        if not self.failing.library:
            self.skipTest("there is no C compiler")

    def answer(self, *fault):
        """What is written, and the status."""
        ran = self.failing.run(self.call, *fault)
        return ran.out, ran.status

    def test_calls_are_counted(self):
        self.assertEqual(self.answer(), self.WHOLE)
        self.assertIn(self.failing.counts()["read"], (1, 2))

    def test_a_read_fails(self):
        self.assertEqual(self.answer("read", failing.ERRORS["an error"], 1), (b"", 1))

    def test_reads_move_one_byte(self):
        self.assertEqual(self.answer("read", failing.SHORT), self.WHOLE)
        self.assertGreaterEqual(self.failing.counts()["read"], 99)

    def test_a_call_that_never_comes_fails_nothing(self):
        self.assertEqual(self.answer("read", failing.ERRORS["an error"], 1000), self.WHOLE)

    def test_each_read_fails(self):
        last, answers = self.failing.each(self.call, "read", failing.ERRORS["an error"], 1)
        self.assertEqual((last.out, last.status), self.WHOLE)
        self.assertEqual(list(answers), list(range(1, self.failing.counts()["read"] + 1)))
        self.assertEqual((answers[1].out, answers[1].status), (b"", 1))


class Limits(unittest.TestCase):
    """What the cheap rows say agrees with the plain interpreter."""

    def test_rows(self):
        for row in limits.LIMITS:
            files = row.make(row.most + row.by)
            if row.command in ("check", "replay") and sum(map(len, files)) < 20_000 and row.most < 10_000:
                self.assertEqual(answer([row.command], files), (row.status, row.text), row.what)


if __name__ == "__main__":
    unittest.main()
