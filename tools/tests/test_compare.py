"""tools/compare: two reports by what happened in time, and a stored report against one that came."""

from __future__ import annotations

import subprocess
import tempfile
import unittest

from common import TOOLS
from lib.scenario.comparing import differences, first_difference, read_report

REPORT = """0 0 reply 31 ok
0 1 begin Cont Main 0
0 3 set Lamp 1
10 5 begin Cont Main 0
10 7 set Lamp 0
10 8 set n 5
20 9 fault minor 6/2 Fast -
end 20 9 run lost 0
"""


def changed(*pairs: tuple[str, str]) -> str:
    text = REPORT
    for old, new in pairs:
        assert old in text
        text = text.replace(old, new)
    return text


class Compared(unittest.TestCase):
    def told(self, *pairs: tuple[str, str]) -> list[str]:
        return differences(read_report(REPORT.encode()), read_report(changed(*pairs).encode()))

    def test_where_steps_alone_moved_nothing_is_told(self):
        self.assertEqual(self.told(("10 7 set", "10 9 set"), ("10 8 set", "10 10 set"), ("20 9", "20 44")), [])

    def test_the_order_of_tags_within_a_tick_is_not_told(self):
        self.assertEqual(self.told(("10 7 set Lamp 0\n10 8 set n 5\n", "10 7 set n 5\n10 8 set Lamp 0\n")), [])

    def test_a_value(self):
        self.assertEqual(self.told(("0 3 set Lamp 1", "0 3 set Lamp 2")), ["tag Lamp: at 0 ms 1 in A, 2 in B"])

    def test_a_time(self):
        self.assertEqual(self.told(("10 8 set n 5", "12 8 set n 5")), ["tag n: the same, 1 of 1 at another time; first 5 at 10 ms in A, 12 in B"])

    def test_what_is_missing(self):
        self.assertEqual(self.told(("20 9 fault minor 6/2 Fast -\n", "")), ["faults of Fast: in A alone, 1 time, first at 20 ms: minor 6/2 Fast -"])
        self.assertEqual(self.told(("10 7 set Lamp 0\n", "")), ["tag Lamp: at 10 ms 0 in A, nothing in B"])

    def test_versions_and_answers(self):
        self.assertEqual(self.told(("10 5 begin Cont Main 0", "10 5 begin Cont Main 1")), ["task Cont: at 10 ms begin Main 0 in A, begin Main 1 in B"])
        self.assertEqual(self.told(("reply 31 ok", "reply 31 refused M1")), ["lane 31: at 0 ms ok in A, refused M1 in B"])

    def test_the_end(self):
        self.assertEqual(self.told(("end 20 9 run lost 0", "end 20 9 faulted lost 3")), [
            "the end: 20 ms, run in A; 20 ms, faulted in B", "lines that were lost, and so not compared: 0 in A, 3 in B",
        ])  # fmt: skip

    def ran(self, first: str, second: str) -> tuple[int, str, str]:
        with tempfile.TemporaryDirectory() as room:
            for name, text in (("A", first), ("B", second)):
                with open(f"{room}/{name}", "w", encoding="utf-8") as file:
                    file.write(text)
            ran = subprocess.run([f"{TOOLS}/compare", "A", "B"], cwd=room, capture_output=True, text=True, timeout=20, check=False)
            return ran.returncode, ran.stdout, ran.stderr

    def test_statuses(self):
        self.assertEqual(self.ran(REPORT, REPORT), (0, "", ""))
        self.assertEqual(self.ran(REPORT, changed(("set n 5", "set n 6"))), (1, "tag n: at 10 ms 5 in A, 6 in B\n", ""))
        self.assertEqual(self.ran(REPORT, "project P1\n"), (2, "", "compare: B: line 1 is no line of a report: 'project P1'\n"))
        self.assertEqual(self.ran("", REPORT), (2, "", "compare: A: line 1 is no line of a report: ''\n"))
        self.assertEqual(self.ran(REPORT + REPORT, REPORT)[0], 2)

    def test_a_stored_report(self):
        moved = changed(("10 7 set", "10 9 set"), ("0 1 begin Cont Main 0\n", "")).encode()
        self.assertIsNone(first_difference(REPORT.encode(), moved, False))
        self.assertEqual(first_difference(REPORT.encode(), moved, True), "line 2 of it is '0 1 begin Cont Main 0', and here '0 3 set Lamp 1'")
        other = changed(("set n 5", "set n 6")).encode()
        self.assertEqual(first_difference(REPORT.encode(), other, False), "line 6 of it is '10 set n 5', and here '10 set n 6'")


if __name__ == "__main__":
    unittest.main()
