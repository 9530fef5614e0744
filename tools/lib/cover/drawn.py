"""The counts as a drawing: the rungs as tools/ladder draws them, with the counts below each instruction."""

from __future__ import annotations

from lib.ladder.drawing import Part, sheet
from lib.ladder.elements import Look, Mark

from .counts import Count, Routine, State, state_of
from .telling import heading

LOOKS = {State.TRUE: Look.ON, State.NEVER_TRUE: Look.PLAIN, State.NEVER: Look.MISSED}
LEGEND = "steps with a true condition / with a false one"


def drawn(routines: list[Routine]) -> str:
    """The text of an SVG file."""
    made = [part(one) for one in routines if one.tally().instructions]
    return sheet([Part(LEGEND, []), *made])


def part(one: Routine) -> Part:
    marks = {place: mark(one.count(place)) for place in one.places()}
    return Part(heading(one), [rung.text() for rung in one.rungs], marks)


def mark(count: Count) -> Mark:
    state = state_of(count)
    return Mark("never" if state == State.NEVER else f"{count.true} / {count.false}", LOOKS[state])
