"""The plain interpreter of the hammer, held against the documents' examples, the example folders and the rows of test_program."""

import json
import os
import re
import unittest

from common import TOP, read_bytes
from lib.hammer.plain.judge import answer
from project_rows import file_of, rows


class Documents(unittest.TestCase):
    """Each journal runs on the last project above it, and a report or a refusal is what comes out; any other project is accepted."""

    def judge(self, name):
        text = read_bytes(f"{TOP}/{name}").decode()
        found = re.findall(r"^```(project|journal|report|refused)\n(.*?)^```", text, re.DOTALL | re.MULTILINE)
        files, judged = {}, 0
        for at, (kind, text) in enumerate(found):
            if kind in ("project", "journal"):
                files[kind] = text.encode()
                if kind == "project" and "refused" not in [after for after, _ in found[at + 1 : at + 2]]:
                    self.assertEqual(answer(["check"], [files["project"]])[0], 0, f"{name}: {text}")
                continue
            before = found[at - 1][0]
            words = ["replay", [files["project"], files["journal"]]] if before == "journal" else ["check", [files["project"]]]
            if before in ("project", "journal"):
                self.assertEqual(answer([words[0]], words[1])[1], text, f"{name}: {files[before].decode()}")
                judged += 1
        return judged

    def test_the_rules(self):
        self.assertGreaterEqual(self.judge("docs/CONTROLLER.md"), 2)

    def test_the_formats(self):
        self.assertGreaterEqual(self.judge("docs/FORMATS.md"), 2)

    def test_the_worked_runs(self):
        self.assertEqual(self.judge("tools/tests/worked_runs.md"), 11)


class Examples(unittest.TestCase):
    def test_reports(self):
        for folder in sorted(os.listdir(f"{TOP}/examples")):
            path = f"{TOP}/examples/{folder}"
            if os.path.exists(f"{path}/report.txt") and os.path.exists(f"{path}/journal.txt"):
                files = [read_bytes(f"{path}/project.json"), read_bytes(f"{path}/journal.txt")]
                self.assertEqual(answer(["replay"], files)[1].encode(), read_bytes(f"{path}/report.txt"), folder)

    def test_traces(self):
        path = f"{TOP}/examples/audit"
        project, trace = read_bytes(f"{path}/project.json"), read_bytes(f"{path}/trace.txt")
        self.assertEqual(answer(["trace"], [project, read_bytes(f"{path}/journal.txt")])[1].encode(), trace)
        self.assertEqual(answer(["audit"], [project, trace])[1].encode(), read_bytes(f"{path}/verdict.txt"))
        self.assertEqual(answer(["audit"], [project, read_bytes(f"{path}/doctored.txt")]), (8, "no L1 4\n"))


MOST_BYTES = 100_000


class Rows(unittest.TestCase):
    """The rows of test_program of project files, `KIND | GIVEN | WANTED`, but for the largest."""

    def test_project(self):
        judged = 0
        for kind, given, wanted, texts in rows("test_program"):
            if kind in ("check", "cuts", "migrate"):
                judged += 1
                self.assertEqual(self.answered(kind, given, wanted, texts), wanted, f"{kind} {given[:300]}")
        self.assertGreater(judged, 300)

    def answered(self, kind, given, wanted, texts):
        if kind == "migrate":
            return answer(["migrate"], [given.encode()])[1].strip().removeprefix("project ")
        if kind == "cuts":
            answers = {self.whole(given.encode()[:at]) for at in range(len(given.encode()))}
            return wanted if answers == {wanted} else str(answers)
        file = file_of(given, texts)
        return self.whole(file) if len(file) < MOST_BYTES else wanted

    @staticmethod
    def whole(text):
        return answer(["check"], [text])[1].strip().removeprefix("project ")


def project(rungs, tags, **more):
    routines = [{"name": name, "rungs": texts} for name, texts in rungs.items()]
    made = {"schema": 1, "controller": "C", "tags": tags, "programs": [{"name": "P", "main": "M", "routines": routines}],
            "tasks": [{"name": "T", "kind": "continuous", "programs": ["P"]}], **more}
    return json.dumps(made).encode()


class Uses(unittest.TestCase):
    """Who writes and who reads, and two controllers: worked rows."""

    def test_a_subscript_is_read(self):
        tags = [{"name": "arr", "type": "DINT", "dim": 4}, {"name": "i", "type": "DINT"}, {"name": "n", "type": "DINT"}]
        self.assertEqual(answer(["xref"], [project({"M": ["MOV(9,n)MOV(1,arr[i]);"]}, tags)])[1],
                         "tag arr\n  write P M 0 1 MOV\ntag i\n  read P M 0 1 MOV\ntag n\n  write P M 0 0 MOV\n")

    def test_a_packet_is_new_once(self):
        a = project({"M": ["ADD(o,1,o);"]}, [{"name": "o", "type": "DINT"}], connections=[{"name": "Out1", "tag": "o", "direction": "out"}])
        b = project({"M": []}, [{"name": "i", "type": "DINT"}], connections=[{"name": "In1", "tag": "i", "direction": "in"}], watch=["i"])
        text = b"link Out1 In1\na mode run\na cpu 2\nsend\ndeliver 0\ndeliver 0\ndeliver 1\nend\n"
        self.assertEqual(answer(["link"], [a, b, text])[1],
                         "a 0 0 reply 31 ok\na 0 1 begin T P 0\na 0 2 reply 31 ok 1\nsend 0\nb 0 0 reply 31 ok\nb 0 0 set i 1\n"
                         "deliver 0 new\ndeliver 0 stale\ndeliver 1 none\na end 0 2 run lost 0\nb end 0 0 program lost 0\n")


if __name__ == "__main__":
    unittest.main()
