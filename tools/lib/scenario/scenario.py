"""What a scenario has: the project, the pace, what is done and when, and what is required."""

from __future__ import annotations

from dataclasses import dataclass, field
from enum import Enum

from .line import Line
from .tests import Name, Test

OPERATOR = 31
USUAL_PACE = 10


@dataclass(frozen=True)
class Pace:
    """Each so many ms: scans of the continuous task, or processor steps."""

    ms: int = USUAL_PACE
    scans: int = 1
    steps: int = 0

    def told(self) -> str:
        count, what = (self.steps, "step") if self.steps else (self.scans, "scan")
        return f"{self.ms} ms, {count} {what}{'' if count == 1 else 's'}"


@dataclass(frozen=True)
class Setting:
    """A tag gets a value; `lasts`: for so many ms, and then what it had before."""

    name: Name
    value: int
    lasts: int | None = None


@dataclass(frozen=True)
class Setters:
    """Settings at a time and, if `every` is given, again and again up to `last`."""

    at: int
    settings: tuple[Setting, ...]
    line: Line
    every: int | None = None
    last: int | None = None


@dataclass(frozen=True)
class Command:
    """An action of a lane, as a journal has it."""

    at: int
    lane: int
    action: str
    line: Line


class When(Enum):
    """When a requirement is judged."""

    AT = "at"
    ALWAYS = "always"
    AT_ENDS = "always at"
    WITHIN = "within"
    END = "end"
    REPLY = "reply"
    FAULTS = "faults"
    REPORT = "report"


@dataclass(frozen=True)
class Fault:
    """A fault that is required: what is left out may be anything."""

    code: str
    severity: str | None = None
    task: str | None = None
    program: str | None = None


@dataclass(frozen=True)
class Requirement:
    when: When
    text: str
    line: Line
    test: Test | None = None
    since: Test | None = None
    time: int = 0
    program: Name | None = None
    lane: int = OPERATOR
    answer: str = ""
    faults: tuple[Fault, ...] = ()
    file: str = ""
    exactly: bool = False


@dataclass
class Scenario:
    path: str
    project: str = ""
    project_line: Line | None = None
    pace: Pace | None = None
    end: int | None = None
    setters: list[Setters] = field(default_factory=list)
    commands: list[Command] = field(default_factory=list)
    requirements: list[Requirement] = field(default_factory=list)

    def names(self) -> list[Name]:
        """All tags of settings and tests, as they are written, in their order."""
        found = [setting.name for one in self.setters for setting in one.settings]
        for one in self.requirements:
            for test in (one.since, one.test):
                found += test.names() if test else ()
        return found
