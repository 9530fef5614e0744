"""What the cases met: instructions on a true and on a false condition, effects of events, answers, causes and statuses.

Two sources: the plain interpreter, which runs the same case beside the program and has to agree with it; and the statuses and first lines
that the program answered. Each thing is counted once for a case.
"""

import collections
import contextlib
import json
import os
import re

from . import turns
from .plain import instructions, machine
from .plain.check import KINDS
from .plain.laws import LAWS

TIMED, COUNTED, COPIED = ("TON", "TOF", "RTO"), ("CTU", "CTD"), ("COP", "CPS", "FLL")
BITS = {31: "EN", 30: "TT", 29: "DN"}
COUNTER_BITS = {31: "CU", 30: "CD", 29: "DN", 28: "OV", 27: "UN"}
INSTRUCTIONS = sorted({*KINDS, "JSR", "SBR", "RET"})
PRESCANNED = sorted(instructions.PRESCANNED)
EFFECTS = (
    "step idle", "step began", "step left ended", "step left on", "step mark -", "step mark up", "step mark down", "step mark trigger", "step mark copy",
    "step mark copyend", "step mark sync", "step mark syncend", "tick released", "tick overlapped", "tick watchdog", "tick", "act released",
    "open task", "turn",
)
STEPS = {what: f"effect step {what}" for what in ("idle", "began")}
STEP_MARKS = {mark: f"effect step mark {mark}" for mark in ("-", "up", "down", "copy", "copyend", "sync", "syncend")}
ROWS = {(op, on): f"instruction {op} {'true' if on else 'false'}" for op in INSTRUCTIONS for on in (True, False)}
CODES = {
    "M": range(1, 4), "N": range(1, 4), "F": range(1, 4), "E": (1, 2, 3, 5, 6, 7, 8, 9, 10, 11, 12), "T": range(1, 6), "C": range(1, 18),
    "P": range(1, 12), "Y": range(1, 7), "G": (1, 2, 3, 4, 5, 6, 7, 8, 10), "J": range(1, 6), "K": (1, 2), "L": (1, 2, 3), "U": (1,), "V": range(1, 6),
    "Q": range(1, 5),
}
FAULTS = ("minor 4/4", "major 4/20", "major 4/31", "major 4/34", "major 4/84", "major 6/1", "minor 6/2", "minor 6/3")
SHORT = 500  # bytes
CODE = re.compile(r"\b([MNFETCPYGJKLQUV])([0-9]{1,2})\b")
STATUSES_OF_COMMANDS = {
    "check": (0, 2, 4, 5, 6, 7), "text": (0, 2, 4, 5, 6), "migrate": (0, 2, 4, 5, 6), "xref": (0, 2, 4, 5, 6), "replay": (0, 2, 3, 4, 5, 6), "gen": (0,),
    "trace": (0, 2, 3, 4, 5, 6), "audit": (0, 2, 3, 4, 5, 6, 8), "run": (0, 2, 3, 4, 5, 6), "stations": (0, 2, 3, 4, 5, 6), "link": (0, 2, 3, 4, 5, 6),
    "logix": (1,), "live": (0, 1, 2, 4, 5, 6), "cover": (0, 1, 2, 3, 4, 5, 6), "explore": (0, 1, 2, 3, 4, 5, 6, 8, 9), "laws": (0, 1, 2, 3, 4, 5, 6, 8),
    "timeline": (0, 1, 2, 4, 5, 6), "wave": (0, 1, 2, 4, 5, 6),
}


def rows():
    """Each thing that the table has a row for, met or not.

    (A routine's first rung, where alone an SBR may stand, begins true. G9 shows as C8: outside rungs G6 comes before it.)
    """
    made = [f"instruction {op} {on}" for op in INSTRUCTIONS for on in ("true", "false") if (op, on) != ("SBR", "false")]
    made += [f"prescan {op}" for op in PRESCANNED] + [f"effect {effect}" for effect in EFFECTS]
    made += [f"cause {letter}{number}" for letter, numbers in CODES.items() for number in numbers] + ["cause held"]
    made += [f"law {law}" for law in LAWS]
    made += [f"fault {fault}" for fault in FAULTS]
    return made + [f"status {command} {status}" for command, statuses in STATUSES_OF_COMMANDS.items() for status in statuses]


class Coverage:
    """Counts of cases by what they met. `watching` puts it behind the plain interpreter while one case is judged.

    What showed of each instruction takes longer to tell than the rows of the table: it is told of every so many cases.
    """

    def __init__(self, counts=(), every=1):
        self.counts, self.met, self.every, self.number = collections.Counter(dict(counts)), set(), every, 0

    def meet(self, what):
        self.met.add(what)

    def case(self):
        """The case is over: what it met is counted, and answered."""
        met, self.met = self.met, set()
        self.number += 1
        self.counts.update(met)
        return met

    # ---- from the answers

    def ran(self, words, path, ran):
        """A run of a program: its status, and the causes in a refusal's line."""
        name = os.path.basename(path) if path else "logix"
        verb = words[0] if name == "logix" and words and ran.status != 1 else name.removeprefix("logix_")
        self.meet(f"status {verb} {ran.status}")
        if (ran.status in (2, 3) or (ran.status, verb) == (8, "audit")) and len(ran.out) < SHORT:
            self.causes(ran.out.decode("latin-1"))
        elif (ran.status, verb) == (8, "laws"):
            self.meet(f"law {ran.out.decode('latin-1').split(' ')[1]}")
        elif verb == "replay" and len(ran.out) < SHORT:
            for line in ran.out.decode("latin-1").splitlines():
                if " reply " in line:
                    self.reply(line.split(" ", 4)[4])

    def causes(self, line):
        words = line.split(" ")
        # (a path of a project is no cause, though a part of it may look like one)
        for word in words[1:] if "project" not in words[:2] else (one for one in words[1:] if "." not in one):
            if CODE.fullmatch(word.strip()):
                self.meet(f"cause {word.strip()}")

    # ---- from the plain interpreter

    def said(self, said, verb):
        if said.what == "step":
            self.meet(STEP_MARKS.get(said.mark, "effect step mark trigger"))
        elif said.what in ("idle", "began", "left"):
            self.meet(f"effect step left {said.left}" if said.left else STEPS[said.what])
        elif said.what == "tick":
            self.meet("effect tick")
            self.masks("tick", said)
        if said.watchdog is not None:
            self.meet("effect tick watchdog")
        if said.reply is not None:
            self.masks("act", said)
            self.reply(said.reply)
        for severity, kind, code, _, _ in said.faults:
            self.meet(f"fault {severity} {kind}/{code}")

    def masks(self, what, said):
        if said.released:
            self.meet(f"effect {what} released")
        if said.overlapped:
            self.meet(f"effect {what} overlapped")

    def reply(self, reply):
        words = reply.split(" ")
        if words[0] == "refused":
            for word in words[1:]:
                if CODE.fullmatch(word):
                    self.meet(f"cause {word}")
        else:
            self.meet("cause held" if words[0] == "held" else f"answer {words[0]}")

    def executed(self, scan, one, on, outcome, before, flags):
        """One instruction: on which condition, and as much of what it did as shows."""
        row = f"{one.op} {'true' if on else 'false'}"
        self.meet(f"shown {row}: {outcome}{', '.join(['', *self.shows(scan, one, before, flags)])}")

    def shows(self, scan, one, before, flags):
        if one.op in TIMED or one.op in COUNTED:
            names = BITS if one.op in TIMED else COUNTER_BITS
            place = instructions.bound(scan.image, one.args[0])
            at = place.at if place else None
            yield "bits " + "".join(name for bit, name in names.items() if at is not None and instructions.read(scan.image, "BOOL", at + bit))
        now = scan.machine.flags[scan.task]
        if now != flags:
            yield "flags " + "".join(name for name, value in now.items() if value)
        if one.op in COPIED:
            yield "starts" if scan.copy else "nothing"
        elif bytes(scan.image) != before:
            yield "changes"


class Watching:
    """While it is entered, what the plain interpreter does is told to a coverage."""

    def __init__(self, coverage):
        self.coverage = coverage

    def __enter__(self):
        self.kept = (instructions.execute, machine.Machine.event, machine.prescan)
        instructions.execute, machine.Machine.event, machine.prescan = self.execute, self.events(), self.prescan
        return self

    def __exit__(self, *_):
        instructions.execute, machine.Machine.event, machine.prescan = self.kept

    def execute(self, scan, frame, one, on):
        self.coverage.meet(ROWS[one.op, bool(on)])
        return self.shown(scan, frame, one, on) if self.coverage.number % self.coverage.every == 0 else self.kept[0](scan, frame, one, on)

    def shown(self, scan, frame, one, on):
        before, flags = bytes(scan.image), dict(scan.machine.flags[scan.task])
        outcome = "over"
        try:
            out = self.kept[0](scan, frame, one, on)
            outcome = "goes on true" if out else "goes on false"
            return out
        except instructions.Major as major:
            outcome = f"fault 4/{major.code}"
            raise
        finally:
            self.coverage.executed(scan, one, on, outcome, before, flags)

    def events(self):
        real, coverage = self.kept[1], self.coverage

        def event(controller, verb, lane=None, action=None):
            chosen, runs = controller.chosen() if verb == "tick" else None, controller.mode == "run"
            if verb == "cpu" and any(task.up and task.is_open() for task in controller.tasks):
                coverage.meet("effect open task")
            said = real(controller, verb, lane, action)
            coverage.said(said, verb)
            if runs and chosen and not chosen.is_open():
                if any(task.up and task is not chosen and task.priority == chosen.priority for task in controller.tasks):
                    coverage.meet("effect turn")
            return said
        return event

    def prescan(self, image, one):
        before = bytes(image)
        self.kept[2](image, one)
        if one.op in instructions.PRESCANNED:
            self.coverage.meet(f"prescan {one.op}")
            self.coverage.meet(f"shown prescan {one.op}: {'changes' if bytes(image) != before else 'nothing changes'}")


@contextlib.contextmanager
def watching(coverage, program):
    """Counts what the plain interpreter does and what the program answers; nothing without a coverage."""
    if coverage is None:
        yield
        return
    real, judge = program.run, turns.Turns.judge

    def judged(self, tried, turn, ran, came):
        call = self.calls[turn.call]
        coverage.ran(call.words, call.path, ran)
        judge(self, tried, turn, ran, came)

    def run(words, **more):
        ran = real(words, **more)
        coverage.ran(words, more.get("path"), ran)
        return ran
    program.run, turns.Turns.judge = run, judged
    try:
        with Watching(coverage):
            yield
    finally:
        program.run, turns.Turns.judge = real, judge


def stored(coverage, path, **more):
    """Writes the counts, for those of several runs to be added, with more that is told of the run."""
    with open(path, "w", encoding="utf-8") as file:
        json.dump({**more, "met": dict(sorted(coverage.counts.items()))}, file)


def told(counts, least):
    """The table: each row with the number of cases that met it; then what showed of the instructions; at last what is rare."""
    lines = [f"{counts.get(row, 0):>9} {row}" for row in rows()]
    known = set(rows())
    others = sorted(row for row in counts if row not in known)
    lines += [f"{counts[row]:>9} {row}" for row in others]
    rare = [row for row in rows() if counts.get(row, 0) < least]
    return [*lines, f"{len(rare)} of {len(known)} rows were met by fewer than {least} cases" + (":" if rare else ""), *(f"  {row}: {counts.get(row, 0)}" for row in rare)]

