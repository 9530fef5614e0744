"""A report that goes by: the commands in it that were refused, and the lines that didn't fit."""

from __future__ import annotations

from dataclasses import dataclass, field

from lib.texts import Said, counted

from .codes import sentences
from .project import codes_said
from .refused import Refused
from .replies import Follower, action_in

MOST_LINES = 100_000


@dataclass
class Report:
    """What is kept of the lines: the answers up to the first refusal, and counts."""

    # Whether a journal comes first, as in the output of `run`, and its lines.
    is_run: bool = False
    journal: list[str] = field(default_factory=list)
    answers: list[list[str]] = field(default_factory=list)
    refused: int = 0
    lost: int = 0
    in_journal: bool = field(init=False)

    def __post_init__(self) -> None:
        self.in_journal = self.is_run

    def take(self, line: str) -> None:
        if self.in_journal:
            self.journal.append(line)
            self.in_journal = line != "end"
            return
        if line.startswith("end "):
            self.lost = int(line.rpartition(" ")[2])
            return
        words = line.split()
        if words[2:3] != ["reply"]:
            return
        if not self.refused:
            self.answers.append(words[4:])
        self.refused += words[4] == "refused"

    def said(self, name: str, project: Refused | None, journal: list[str]) -> list[str]:
        """What is said in the end, of the project and of the lines of its journal in this file."""
        lines = []
        if self.refused:
            lines += self.first(name, project, journal)
        if self.lost:
            many = counted(self.lost, "line")
            lines.append(f"the report has lost {many}: it keeps {MOST_LINES:,}. To do: watch less, or take fewer steps.")
        return lines

    def first(self, name: str, project: Refused | None, journal: list[str]) -> list[str]:
        cause = self.answers[-1][1:]
        many = f"{counted(self.refused, 'command')} {'is' if self.refused == 1 else 'are'} refused"
        found = nth_action(journal, len(self.answers)) if journal else None
        if found is None or project is None:
            return [f"{many}, the first by {' '.join(cause)}", *sentences(cause[0])]
        said = followed(project, journal, self.answers)
        which = "the first is" if self.refused > 1 else "it is"
        head = f"{many}; {which} line {found} of {name or 'the journal'}: {said.why}"
        return [head, *said.lines()[1:], *codes_said(last_of(cause), said.applies)]


def last_of(cause: list[str]) -> list[str]:
    """The code that says why: of E7 and E8 the one after it."""
    return cause if cause[0] in ("E7", "E8") else cause[:1]


def nth_action(journal: list[str], count: int) -> int | None:
    """The number of the line with this action."""
    for number, line in enumerate(journal, 1):
        count -= action_in(line) is not None
        if not count:
            return number
    return None


def followed(project: Refused, journal: list[str], answers: list[list[str]]) -> Said:
    """What is said of the last of these answers, which refuses."""
    follower = Follower(project)
    actions = [line for line in journal if action_in(line) is not None]
    for line, answer in zip(actions, answers[:-1]):
        if answer[0] == "ok":
            follower.done(line)
    return follower.refused(actions[len(answers) - 1], answers[-1][1:])
