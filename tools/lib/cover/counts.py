"""How often the instructions of each version were executed, by their places in its rungs."""

from __future__ import annotations

from collections.abc import Iterable, Iterator
from dataclasses import dataclass, field
from enum import Enum
from typing import NamedTuple

from lib.programs import Astray

from .reading import NAME, Line
from .rungs import Place, Rung
from .versions import Routines, Versions


class Count(NamedTuple):
    """The steps that executed an instruction with a true and with a false condition."""

    true: int = 0
    false: int = 0

    def plus(self, other: Count) -> Count:
        return Count(self.true + other.true, self.false + other.false)


class State(Enum):
    """How far an instruction was tried."""

    TRUE = ""
    NEVER_TRUE = "never true"
    NEVER = "never executed"


def state_of(count: Count) -> State:
    return State.TRUE if count.true else State.NEVER_TRUE if count.false else State.NEVER


NOTHING = Count()


@dataclass
class Routine:
    """A routine of a version: its rungs, and the counts of those instructions that were executed."""

    program: str
    version: int | None  # None: of the project's own rungs, whichever version has them
    name: str
    rungs: list[Rung]
    counts: dict[Place, Count] = field(default_factory=dict)

    def count(self, place: Place) -> Count:
        return self.counts.get(place, NOTHING)

    def places(self) -> Iterator[Place]:
        for number, rung in enumerate(self.rungs):
            yield from ((number, at) for at in range(rung.count()))

    def tally(self) -> Tally:
        return tally(self.count(place) for place in self.places())


class Tally(NamedTuple):
    """How many instructions there are, and how many of them never came to something."""

    instructions: int = 0
    never: int = 0
    never_true: int = 0


def tally(counts: Iterable[Count]) -> Tally:
    states = [state_of(count) for count in counts]
    return Tally(len(states), states.count(State.NEVER), states.count(State.NEVER_TRUE))


def total(routines: list[Routine]) -> Tally:
    """Over all versions: a rung that several of them have counts once."""
    sums: dict[tuple[int, int], Count] = {}
    for one in routines:
        for number, at in one.places():
            key = (id(one.rungs[number]), at)
            sums[key] = sums.get(key, NOTHING).plus(one.count((number, at)))
    return tally(sums.values())


def counted(versions: Versions, lines: list[Line]) -> list[Routine]:
    """The routines of each version of which something was executed, in the order of programs, then of first begins; of a program of which
    nothing was, those of the project."""
    begun = dict.fromkeys((line.program, line.version) for line in lines)
    found = versions.of(set(begun))
    made: dict[tuple[int, int], list[Routine]] = {}
    for program in range(len(versions.names)):
        for key in [one for one in begun if one[0] == program] or [(program, 0)]:
            made[key] = routines_of(versions, key, found.get(key))
    for line in lines:
        add(made, versions, line)
    return [routine for routines in made.values() for routine in routines]


def routines_of(versions: Versions, key: tuple[int, int], rungs: Routines | None) -> list[Routine]:
    program, version = key
    if rungs is None:
        raise Astray(f"{NAME} counts in version {version} of {versions.names[program]}, which the journal doesn't make")
    names = versions.routine_names(program)
    return [Routine(versions.names[program], version, name, its) for name, its in zip(names, rungs)]


def add(made: dict[tuple[int, int], list[Routine]], versions: Versions, line: Line) -> None:
    """Adds what a line counts, at the place that it names."""
    routines = made.get((line.program, line.version), [])
    place = None
    if line.routine < len(routines):
        routine = routines[line.routine]
        pieces = versions.code(line[:3], routine.rungs)
        place = pieces[len(pieces) - line.left] if 0 < line.left <= len(pieces) else None
    if place is None:
        raise Astray(f"{NAME} counts at no instruction of the project: {' '.join(map(str, line))}")
    routine.counts[place] = Count(line.true, line.false)
