"""How often the rungs of a project were executed by all scenarios that were run on it, as text or as a drawing.

A scenario runs on a copy of its project, with the same rungs. Counted are the project's own rungs, also where an edit leaves them as they
are; how often others were executed, which an edit brought, is only said.
"""

from __future__ import annotations

import os
from dataclasses import dataclass, field

from lib.cover.counts import NOTHING, Count, Routine, counted, total
from lib.cover.drawn import LEGEND, part
from lib.cover.reading import Line, read
from lib.cover.telling import told
from lib.cover.versions import Versions
from lib.ladder.drawing import Part, sheet
from lib.paths import read_bytes
from lib.texts import counted as number_of

DRAWING = ".svg"


@dataclass(frozen=True)
class Covered:
    """What a run on this project executed; of a run with edits also the copy and the journal, which tell whose rungs were executed. `why`
    says of one that can't be counted why."""

    project: str
    lines: tuple[Line, ...] = ()
    copy: bytes = b""
    journal: bytes = b""
    why: str = ""


def covered(project: str, text: str, copy: bytes, journal: bytes) -> Covered:
    lines = tuple(read(text))
    edited = any(line.version for line in lines)
    return Covered(project, lines, *((copy, journal) if edited else ()))


@dataclass
class Sum:
    """All runs on one project."""

    path: str
    versions: Versions
    routines: dict[tuple[int, int], Routine]
    runs: int = 0
    edited: int = 0  # steps that executed rungs of edits

    def add(self, run: Covered) -> None:
        self.runs += 1
        versions = Versions(run.copy, run.journal) if run.journal else self.versions
        for one in counted(versions, list(run.lines)):
            sums = self.routines[one.program, one.name].counts
            for (number, at), count in one.counts.items():
                own = one.rungs[number].own
                if own is None:
                    self.edited += sum(count)
                else:
                    sums[own, at] = sums.get((own, at), NOTHING).plus(count)

    def title(self) -> str:
        return f"{self.path}, run by {number_of(self.runs, 'scenario')}"


def sum_of(path: str) -> Sum:
    versions = Versions(read_bytes(path), b"")
    made = Sum(os.path.normpath(path), versions, {})
    for one in counted(versions, []):
        made.routines[one.program, one.name] = Routine(one.program, None, one.name, one.rungs)
    return made


@dataclass
class Suite:
    """The sums of all projects of a suite, and what wasn't counted."""

    sums: dict[str, Sum] = field(default_factory=dict)
    missing: list[str] = field(default_factory=list)

    def add(self, scenario: str, run: Covered | None) -> None:
        if run is None or run.why:
            self.missing.append(f"{scenario}: {run.why if run else 'it was not run'}")
            return
        key = os.path.realpath(run.project)
        if key not in self.sums:
            self.sums[key] = sum_of(run.project)
        self.sums[key].add(run)

    def contents(self, path: str) -> bytes:
        """What stands in the file of this name."""
        return (self.drawing() if path.lower().endswith(DRAWING) else self.text()).encode()

    def text(self) -> str:
        lines = []
        for one in self.sums.values():
            lines += [one.title(), *self.notes(one), "", *told(list(one.routines.values())), ""]
        return "\n".join([*lines, *(f"not counted: {what}" for what in self.missing)]).rstrip("\n") + "\n"

    @staticmethod
    def notes(one: Sum) -> list[str]:
        return [f"  {number_of(one.edited, 'step')} executed rungs that edits brought"] if one.edited else []

    def drawing(self) -> str:
        parts = []
        for one in self.sums.values():
            parts += [Part(f"{one.title()}: {LEGEND}", []), *(part(routine) for routine in one.routines.values() if routine.tally().instructions)]
        return sheet(parts)

    def summary(self) -> list[str]:
        """A line for each project, for who looks at the run."""
        lines = []
        for one in self.sums.values():
            instructions, never, never_true = total(list(one.routines.values()))
            tally = f"{number_of(instructions, 'instruction')}, {never:,} never executed, {never_true:,} never true"
            lines.append(f"coverage of {one.path}: {tally}")
        return [*lines, *(f"coverage: not counted: {what}" for what in self.missing)]
