"""The examples of the documents, and the worked runs beside these tests, each run on the built program.

A block of a document that is marked `project`, `journal` or `script` is a file; `report` is what the last journal gives on the last
project, and `refused` the one line that answers the file right above it; any other project is accepted. The gate runs this after `rt ci`.
"""

import json
import re
import subprocess
import unittest

from common import TOP, RoomTest, built, read_text

LOGIX = built("logix")
BLOCK = re.compile(r"^```(\w+)\n(.*?)^```$", re.MULTILINE | re.DOTALL)
WORDS = {"project": ["check", "project"], "journal": ["replay", "project", "journal"], "script": ["run", "project", "script"]}
REFUSED = {"project": 2, "journal": 3, "script": 3}


class Documents(RoomTest):
    def call(self, words):
        ran = subprocess.run([LOGIX, *words], cwd=self.room, stdout=subprocess.PIPE, stderr=subprocess.STDOUT, timeout=60, check=False)
        return ran.returncode, ran.stdout.decode()

    def judge(self, name):
        """Each answer of a document is the program's; how many there are."""
        last, answers, waiting = None, 0, None
        found = BLOCK.findall(read_text(f"{TOP}/{name}"))
        for (kind, text), (after, _) in zip(found, [*found[1:], ("", "")]):
            with self.subTest(document=name, text=text):
                if kind in WORDS:
                    self.assertIsNone(waiting, "a journal or script without an answer")
                    self.put(kind, text)
                    last, waiting = kind, kind if kind != "project" else None
                    if kind == "project" and after != "refused":
                        self.assertEqual(self.call(WORDS["project"])[0], 0)
                elif kind == "report":
                    answers, waiting = answers + 1, None
                    self.assertEqual((last, self.call(WORDS["journal"])), ("journal", (0, text)))
                elif kind == "refused":
                    answers, waiting = answers + 1, None
                    self.assertEqual(self.call(WORDS[last]), (REFUSED[last], text))
        self.assertIsNone(waiting)
        return answers

    def test_the_readme(self):
        self.assertEqual(self.judge("README.md"), 1)

    def test_the_rules(self):
        self.assertGreaterEqual(self.judge("docs/CONTROLLER.md"), 2)

    def test_the_formats(self):
        self.assertGreaterEqual(self.judge("docs/FORMATS.md"), 3)

    def test_the_worked_runs(self):
        self.assertEqual(self.judge("tools/tests/worked_runs.md"), 11)

    def test_the_readme_shows_the_example_that_it_runs(self):
        shown = dict(BLOCK.findall(read_text(f"{TOP}/README.md")))
        self.assertEqual(json.loads(shown["project"]), json.loads(read_text(f"{TOP}/examples/blink/project.json")))
        self.assertEqual(shown["journal"], read_text(f"{TOP}/examples/blink/edit.txt"))
        self.assertEqual(shown["report"], read_text(f"{TOP}/examples/blink/edited.txt"))

    def test_the_cross_reference_of_the_example(self):
        example = f"{TOP}/examples/parameters"
        self.assertEqual(self.call(["xref", f"{example}/project.json"]), (0, read_text(f"{example}/xref.txt")))

    def test_what_gen_writes(self):
        lines = re.search(r"`gen 1` writes:\n\n((?:    .*\n)+)", read_text(f"{TOP}/docs/FORMATS.md")).group(1)
        self.assertEqual(self.call(["gen", "1"]), (0, re.sub(r"^ {4}", "", lines, flags=re.MULTILINE)))

    def test_the_usage(self):
        shown = re.search(r"^\| 1 \|.*`(usage: .*?)`", read_text(f"{TOP}/docs/FORMATS.md"), re.MULTILINE).group(1)
        self.assertEqual(self.call([]), (1, shown + "\n"))


if __name__ == "__main__":
    unittest.main()
