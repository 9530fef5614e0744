"""A run of every instruction gives the same report in single steps and in stretches cut at every number of steps from 1 to 40.

The project executes each instruction of the table on a true and on a false condition (an SBR, which begins a routine, on a true one
alone), which the plain interpreter is asked for first; its report is the one wanted.
"""

import json
import subprocess
import unittest

from common import RoomTest, built
from lib.hammer.coverage import INSTRUCTIONS, Coverage, Watching
from lib.hammer.plain.journal import read_journal
from lib.hammer.plain.judge import report
from lib.hammer.plain.project import Project

MOST = 40
LAPS, STEPS, TICKS = 6, 500, 7

TAGS = [
    *((f"b{i}", "BOOL", 0) for i in range(8)), *((f"n{i}", "DINT", 0) for i in range(4)), ("i", "DINT", 0), ("word", "INT", 0), ("byte", "SINT", 0),
    ("on", "TIMER", 0), ("off", "TIMER", 0), ("kept", "TIMER", 0), ("up", "COUNTER", 0), ("down", "COUNTER", 0), ("from", "DINT", 5), ("to", "DINT", 5),
]
TESTS = ["EQU(n0,3)", "NEQ(n1,word)", "LES(n0,n1)", "LEQ(word,4)", "GRT(byte,n0)", "GEQ(n1,3)", "LIM(1,n0,4)", "MEQ(i,6,2)"]
RESULTS = [f"{op}(i,3,n{k % 3})" for k, op in enumerate(["ADD", "SUB", "MUL", "DIV", "MOD", "AND", "OR", "XOR", "MVM"])]
RESULTS += ["NEG(i,n0)", "ABS(n0,n1)", "MOV(i,word)", "NOT(byte,byte)", "CLR(n2)", "MOV(i,to[n3])"]
BLOCKS = ["COP(from,to[1],3)", "CPS(to,from[1],2)", "FLL(i,to,4)"]
TIMED = ["TON(on,?,?)", "TOF(off,?,?)", "RTO(kept,?,?)", "CTU(up,?,?)", "CTD(down,?,?)"]

MAIN = [
    "ADD(i,1,i)AND(i,3,n3);", "MOV(i,byte);",
    *(f"XIC(i.{k % 3}){test}OTE(b{k % 8});" for k, test in enumerate(TESTS)),
    *(f"XIO(i.{k % 4}){result};" for k, result in enumerate(RESULTS)),
    "[XIC(i.0),XIO(i.1)[XIC(b1),XIC(b2)XIO(b3)]]OTL(b4);", "XIC(i.2)XIC(b5)OTU(b4);", "XIC(i.1)ONS(b6)OTE(b7);",
    "XIC(i.0)OSR(b0,b1);", "XIC(i.1)OSF(b2,b3);",
    *(f"XIC(i.{k % 3}){timed};" for k, timed in enumerate(TIMED)), "XIC(kept.DN)XIC(i.2)RES(kept);", "XIC(i.2)RES(up);",
    *(f"XIC(i.{k % 3}){block};" for k, block in enumerate(BLOCKS)),
    "XIC(i.1)UID()MOV(i,n0)UIE();", "XIC(i.0)EVENT(Event);", "XIC(i.1)AFI()OTE(b0);", "XIC(i.2)NOP()OTE(b1);",
    "XIC(i.0)MCR();", "LBL(InZone)XIC(b1)OTE(b2);", "XIC(i.0)MCR();",
    "XIC(i.2)JMP(Over);", "XIO(b3)OTL(b3)ADD(n2,1,n2);", "LBL(Over)OTE(b5);", "XIC(i.1)JSR(Sub,2,i,n0,n1);",
]
SUB = ["SBR(n0,n1)ADD(n0,n1,n2);", "XIC(i.2)TND();", "XIC(i.3)RET(n2);", "XIO(i.0)OTE(b6);", "RET(n0);"]


def project():
    """Its text."""
    programs = [
        {"name": "Main", "main": "Go", "routines": [{"name": "Go", "rungs": MAIN}, {"name": "Sub", "rungs": SUB}]},
        {"name": "Sent", "main": "Go", "routines": [{"name": "Go", "rungs": ["ADD(n1,1,n1);"]}]},
    ]
    tasks = [
        {"name": "Cycle", "kind": "continuous", "programs": ["Main"]},
        {"name": "Event", "kind": "event", "priority": 5, "programs": ["Sent"]},
    ]
    return json.dumps({
        "schema": 1, "controller": "All", "programs": programs, "tasks": tasks,
        "tags": [{"name": name, "type": kind, **({"dim": dim} if dim else {})} for name, kind, dim in TAGS],
        "initial": [{"tag": "on.PRE", "value": 9}, {"tag": "off.PRE", "value": 5}, {"tag": "kept.PRE", "value": 12}, {"tag": "up.PRE", "value": 3}],
        "watch": ["b0", "b1", "b4", "b7", "n0", "n1", "n2", "word", "byte", "on.ACC", "off.ACC", "kept.ACC", "up.ACC", "down.ACC", "to[1]", "from[2]"],
    })


def journal(most):
    """All steps, in stretches of at most so many."""
    stretches = "".join(f"cpu {min(most, STEPS - done)}\n" for done in range(0, STEPS, most))
    return "mode run\n" + (stretches + f"tick {TICKS}\n") * LAPS + "end\n"


class Cuts(RoomTest):
    def setUp(self):
        super().setUp()
        self.coverage = Coverage()
        with Watching(self.coverage):
            self.wanted = report(Project(project().encode()), read_journal(journal(STEPS).encode()))
        self.put("project.json", project())

    def replayed(self, most):
        self.put("journal.txt", journal(most))
        ran = subprocess.run([built("logix"), "replay", "project.json", "journal.txt"], cwd=self.room, capture_output=True, timeout=60)
        self.assertEqual((ran.returncode, ran.stderr), (0, b""))
        return ran.stdout.decode("latin-1")

    def test_every_instruction_is_executed_on_both_conditions(self):
        wanted = {f"instruction {op} {on}" for op in INSTRUCTIONS for on in ("true", "false")} - {"instruction SBR false"}
        self.assertEqual(sorted(wanted - self.coverage.met), [])

    def test_stretches_of_every_length_give_the_report_of_single_steps(self):
        self.assertEqual(self.replayed(STEPS), self.wanted)
        for most in range(1, MOST + 1):
            with self.subTest(most=most):
                self.assertEqual(self.replayed(most), self.wanted)


if __name__ == "__main__":
    unittest.main()
