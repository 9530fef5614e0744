"""The projects of examples/l5x, and made ones with Add-On Instructions, on the built program.

The gate runs this after `rt ci`. What the tool makes of each file is tested before, in test_samples.py and test_add_on_cases.py.
"""

import json
import os
import subprocess
import unittest

from common import RoomTest, built, read_text
from add_on_files import add_on, given_out, taken_in, with_add_ons
from add_on_made import INPUT
from l5x_files import SAMPLES, convert, program, routine, tag
from lib.hammer.plain.project import read
from test_add_on_cases import SCANS, Both, leaves
from test_samples import WORDS

LOGIX = built("logix")
CASES = 60
MOST_WATCHED = 256


def contents(name):
    return read_text(os.path.join(SAMPLES, name))


class Built(RoomTest):
    def told(self, *words):
        """What the program writes, to its end with 0."""
        ran = subprocess.run([LOGIX, *words], stdout=subprocess.PIPE, stderr=subprocess.STDOUT, timeout=60, check=False)
        self.assertEqual(ran.returncode, 0, ran.stdout[-300:])
        return ran.stdout.decode()

    def test_samples(self):
        for name in WORDS:
            files = [os.path.join(SAMPLES, f"{name}.{kind}") for kind in ("project.json", "journal.txt")]
            with self.subTest(name):
                if os.path.exists(files[0]):
                    self.assertEqual(self.told("check", files[0]), contents(f"{name}.check.txt"))
                if os.path.exists(files[1]):
                    self.assertEqual(self.told("replay", *files), contents(f"{name}.report.txt"))

    def test_texts(self):
        for name in ("newer", "valve", "cells"):
            with open(os.path.join(SAMPLES, f"{name}.L5X"), "rb") as file:
                text = convert(file.read(), "--text", "old").project
            self.assertEqual(self.told("text", os.path.join(SAMPLES, f"{name}.project.json")), text)

    def test_200_calls(self):
        """Each counts its own calls; the report has them all after one scan, and twice as much after two."""
        count = add_on("Count", taken_in("By", "DINT") + given_out("Sum", "DINT"), ["ADD(Sum,By,Sum);"])
        rungs = [f"Count(v[{k}],{k},n[{k}]);" for k in range(200)]
        programs = "".join(program(f"P{p}", routine("Go", *rungs[50 * p : 50 * p + 50])) for p in range(4))
        tags = tag("v", "Count", more='Dimensions="200"') + tag("n", "DINT", more='Dimensions="200"')
        text = with_add_ons(count, tags=tags, programs=programs)
        listed = "".join(f'<ScheduledProgram Name="P{p}"/>' for p in range(4))
        watch = ",".join(f"n[{k}]" for k in range(200))
        ended = convert(text.replace("<ScheduledPrograms>", "<ScheduledPrograms>" + listed), "--watch", watch, logix=LOGIX)
        self.assertEqual(ended.status, 0, ended.lines)
        # A call: two OTE, MOV, JSR, ADD and leaving, MOV, XIC; of each program also a begin and an end; P has a NOP.
        scan = 200 * 8 + 4 * 2 + 3
        journal = self.put("journal.txt", f"mode run\ncpu {2 * scan}\nend\n")
        lines = self.told("replay", self.put("project.json", ended.project), journal).splitlines()
        last = {}
        for line in lines:
            if line.split()[2] == "set":
                last[line.split()[3]] = int(line.split()[4])
        self.assertEqual(last, {f"n[{k}]": 2 * k for k in range(1, 200)})
        self.assertEqual(lines[-1], f"end 0 {2 * scan} run lost 0")

    def test_made_cases(self):
        """After each scan the watched places are what the plain interpreter of the calls says."""
        for seed in range(CASES):
            both = Both(seed)
            places = [place for place in both.places if not place.startswith(INPUT)][:MOST_WATCHED]
            wanted, ends = [], []
            for _ in range(SCANS):
                both.tell_inputs()
                both.scan()
                values = dict(leaf for name, cells in both.plain.tags.items() for leaf in leaves(name, cells))
                wanted.append({place: values[place] for place in places})
                ends.append(both.machine.steps)
            project = self.put("project.json", json.dumps({**both.described, "watch": places}))
            report = self.told("replay", project, self.put("journal.txt", "\n".join([*both.journal, "end", ""])))
            self.judge(seed, both.project, report, wanted, ends)

    def judge(self, seed, project, report, wanted, ends):
        sets = [line.split() for line in report.splitlines() if line.split()[2] == "set"]
        values = {place: read(project.image, *project.scoped(place, ())) for place in wanted[0]}
        for snapshot, end in zip(wanted, ends):
            while sets and int(sets[0][1]) <= end:
                values[sets[0][3]] = int(sets[0][4])
                sets.pop(0)
            self.assertEqual(values, snapshot, seed)


if __name__ == "__main__":
    unittest.main()
