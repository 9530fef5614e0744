"""What tools/wave and tools/timeline are told of a project."""

import json
import subprocess
import tempfile
import unittest

from common import TOP

PROJECT = {
    "schema": 1, "controller": "C",
    "types": [{"name": "Cell", "members": [{"name": "Ok", "type": "BOOL"}, {"name": "Count", "type": "INT"}, {"name": "Dwell", "type": "TIMER"}]}],
    "tags": [{"name": "b", "type": "BOOL"}, {"name": "n", "type": "DINT"}, {"name": "cell", "type": "Cell"},
             {"name": "flags", "type": "BOOL", "dim": 32}, {"name": "Motor", "alias": "n.3"}],
    "programs": [{"name": "P", "main": "M", "tags": [{"name": "n", "type": "SINT"}], "routines": [{"name": "M", "rungs": []}]}],
    "tasks": [{"name": "T", "kind": "continuous", "programs": ["P"]}],
    "initial": [{"tag": "b", "value": 1}, {"tag": "n", "value": -8}, {"tag": "Program:P.n", "value": -5}, {"tag": "cell.Dwell.PRE", "value": 300}],
    "watch": ["n", "b", "cell.Ok", "cell.Count", "cell.Dwell.DN", "cell.Dwell.PRE", "flags[7]", "Motor", "n.2", "Program:P.n", "b"],
}


class Told(unittest.TestCase):
    def run_with(self, words, **kind):
        return subprocess.run([f"{TOP}/tools/with_project", *words], capture_output=True, timeout=20, **kind)

    def told(self, project, before=(), after=()):
        with tempfile.NamedTemporaryFile("w", suffix=".json") as file:
            json.dump(project, file)
            file.flush()
            ran = self.run_with(["printf", "%s\\n", *before, "--project", file.name, *after])
        return ran.returncode, ran.stdout.decode().splitlines(), ran.stderr.decode()

    def test_each_place_once_with_its_kind_and_value(self):
        # -8 is 11..1000 in two's complement: bit 3 is set, bit 2 isn't.
        wanted = ["--number", "n=-8", "--bool", "b=1", "--bool", "cell.Ok=0", "--number", "cell.Count=0", "--bool", "cell.Dwell.DN=0",
                  "--number", "cell.Dwell.PRE=300", "--bool", "flags[7]=0", "--bool", "Motor=1", "--bool", "n.2=0", "--number", "Program:P.n=-5"]
        self.assertEqual(self.told(PROJECT), (0, wanted, ""))

    def test_other_words_stay_in_their_places(self):
        project = {**PROJECT, "watch": ["b"]}
        self.assertEqual(self.told(project, ["tick"], ["--to", "9"]), (0, ["tick", "--bool", "b=1", "--to", "9"], ""))

    def test_nothing_is_watched(self):
        self.assertEqual(self.told({**PROJECT, "watch": []}, ["x"]), (0, ["x"], ""))

    def test_a_project_that_is_refused(self):
        status, out, said = self.told({**PROJECT, "watch": ["gone"]})
        self.assertEqual((status, out, said), (2, [], "--project: project P9 watch.0 G3\n"))

    def test_a_file_that_is_not_there(self):
        ran = self.run_with(["true", "--project", "/no/such/file"])
        self.assertEqual((ran.returncode, ran.stderr), (4, b"--project: /no/such/file: No such file or directory\n"))

    def test_a_last_word_is_left_to_the_command(self):
        ran = self.run_with(["printf", "%s\\n", "--project"])
        self.assertEqual((ran.returncode, ran.stdout), (0, b"--project\n"))


if __name__ == "__main__":
    unittest.main()
