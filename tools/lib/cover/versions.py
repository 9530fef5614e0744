"""The rungs of each version of a program: the project's own, and those that each accept made, as edit commands are answered.

What an edit command is answered depends on the edit commands before it alone, so the hammer's plain book of edits tells it without a run.
"""

from __future__ import annotations

import json
from typing import NamedTuple

from lib.hammer.plain.edits import Book, Refused
from lib.hammer.plain.journal import Action, read_journal
from lib.hammer.plain.project import Project

from .rungs import Place, Rung, code, rung_of

Routines = list[list[Rung]]
EDITS = ("accept", "test", "untest", "assemble", "cancel")


def own_routines(project: dict) -> list[Routines]:
    """By program and routine, the project's rungs."""
    return [
        [[rung_of(text, own=at) for at, text in enumerate(routine["rungs"])] for routine in program["routines"]]
        for program in project["programs"]
    ]


class Edited(NamedTuple):
    """An accepted edit: of which routine, and its rung (None: one is deleted)."""

    routine: int
    what: str
    index: int
    rung: Rung | None


class History:
    """A program's versions, as its edit commands are done."""

    def __init__(self, book: Book, own: Routines) -> None:
        self.book, self.base = book, own
        self.accepted: list[Edited] = []
        self.versions: dict[int, Routines] = {}

    def take(self, lane: int, action: Action) -> None:
        try:
            if action.verb == "accept":
                self.accept(self.book.accept(lane, action.names[1], action.edits), action)
            else:
                self.book.change(lane, action.verb)
        except Refused:
            return
        if action.verb == "assemble":
            self.base = self.versions[self.book.last]
        if action.verb in ("assemble", "cancel"):
            self.accepted = []

    def accept(self, number: int, action: Action) -> None:
        routine = self.book.project.routine_names(self.book.program).index(action.names[1].lower())
        for what, index, text in action.edits:
            self.accepted.append(Edited(routine, what, index, None if what == "d" else rung_of(text, accept=number)))
        self.versions = {number: [self.merged(at) for at in range(len(self.base))]}

    def merged(self, routine: int) -> list[Rung]:
        """The rungs of a routine with the accepted edits, whose numbers are those of the base."""
        base, made = self.base[routine], []
        mine = [one for one in self.accepted if one.routine == routine]
        for at in range(len(base) + 1):
            made += [one.rung for one in mine if one.what == "i" and one.index == at]
            instead = [one for one in mine if one.what != "i" and one.index == at]
            made += [one.rung for one in instead if one.rung] if instead else base[at : at + 1]
        return made


class Versions:
    """Of a project and a journal that the controller takes."""

    def __init__(self, contents: bytes, journal: bytes) -> None:
        self.contents, self.journal = contents, journal
        self.project = json.loads(contents)
        self.own = own_routines(self.project)
        self.names = [program["name"] for program in self.project["programs"]]
        self.codes: dict[tuple[int, ...], list[Place | None]] = {}

    def routine_names(self, program: int) -> list[str]:
        return [routine["name"] for routine in self.project["programs"][program]["routines"]]

    def code(self, which: tuple[int, ...], rungs: list[Rung]) -> list[Place | None]:
        """The code of a routine, by its program, version and number; made once."""
        if which not in self.codes:
            self.codes[which] = code(rungs)
        return self.codes[which]

    def of(self, wanted: set[tuple[int, int]]) -> dict[tuple[int, int], Routines]:
        """The rungs of these versions, each by its program and number; without those that there aren't."""
        found = {(program, 0): own for program, own in enumerate(self.own)}
        if any(version for _, version in wanted):
            found.update(self.edited(wanted))
        return found

    def edited(self, wanted: set[tuple[int, int]]) -> dict[tuple[int, int], Routines]:
        found: dict[tuple[int, int], Routines] = {}
        project = Project(self.contents)
        histories = {name.lower(): (at, History(Book(project, at), self.own[at])) for at, name in enumerate(self.names)}
        for event in read_journal(self.journal):
            action = event.action
            if action is None or action.verb not in EDITS or action.names[0].lower() not in histories:
                continue
            program, history = histories[action.names[0].lower()]
            history.take(event.lane, action)
            found.update({(program, number): rungs for number, rungs in history.versions.items() if (program, number) in wanted})
        return found
