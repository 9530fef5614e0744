"""The counts as text: each rung with its instructions below, and at the end how much was never executed, or never with a true condition."""

from __future__ import annotations

from .counts import Count, Routine, State, state_of, total
from .rungs import Rung

WIDTH = 10  # of a count
INDENT = "    "


def told(routines: list[Routine]) -> list[str]:
    lines = []
    for one in routines:
        if one.tally().instructions:
            lines += [*routine_told(one), ""]
    return [*lines, *summary(routines)]


def heading(one: Routine) -> str:
    return f"{one.program} / {one.name}" + ("" if one.version is None else f", version {one.version}")


def routine_told(one: Routine) -> list[str]:
    lines = [heading(one), f"{'true':>{WIDTH}}{'false':>{WIDTH}}"]
    for number, rung in enumerate(one.rungs):
        lines.append(f"{'':{2 * WIDTH}}  rung {number}{origin(number, rung)}  {rung.text()}")
        for at, text in enumerate(rung.instructions()):
            lines.append(instruction_told(one.count((number, at)), text))
    return lines


def origin(number: int, rung: Rung) -> str:
    """Where a rung of an edited program comes from."""
    if rung.accept is not None:
        return f" (accept {rung.accept})"
    return f" (in the project {rung.own})" if rung.own != number else ""


def instruction_told(count: Count, text: str) -> str:
    state = state_of(count)
    if state == State.NEVER:
        return f"{state.value:>{2 * WIDTH}}  {INDENT}{text}"
    note = f"  ({state.value})" if state.value else ""
    return f"{count.true:>{WIDTH}}{count.false:>{WIDTH}}  {INDENT}{text}{note}"


def summary(routines: list[Routine]) -> list[str]:
    """A line for each routine, and one for all."""
    rows = [(heading(one), one.tally()) for one in routines if one.tally().instructions]
    has_versions = any(one.version for one in routines)
    rows.append(("in all, each rung once" if has_versions else "in all", total(routines)))
    width = max(len(name) for name, _ in rows)
    columns = ("instructions", State.NEVER.value, State.NEVER_TRUE.value)
    lines = [" " * width + "".join(f"{name:>{len(name) + 3}}" for name in columns)]
    for name, tally in rows:
        lines.append(name.ljust(width) + "".join(f"{count:>{len(column) + 3}}" for count, column in zip(tally, columns)))
    return lines
