"""Rungs with their instructions, and the code of a routine, by whose pieces `logix_cover` names an instruction (docs/FORMATS.md, section 8.6)."""

from __future__ import annotations

from dataclasses import dataclass

from lib.neutral import Branch, Element, canonical, elements, instructions, tree


@dataclass(frozen=True)
class Rung:
    """`own`: its number in the project; `accept`: of one that an edit brought, that of its accept."""

    found: tuple[Element, ...]
    own: int | None = None
    accept: int | None = None

    def text(self) -> str:
        return canonical(list(self.found))

    def instructions(self) -> list[str]:
        """The texts of its instructions, in order."""
        return [canonical([one])[:-1] for one in instructions(list(self.found))]

    def count(self) -> int:
        return len(instructions(list(self.found)))


def rung_of(text: str, own: int | None = None, accept: int | None = None) -> Rung:
    return Rung(tuple(elements(text)), own, accept)


# An instruction of a routine: the number of its rung, and its own in that, both from 0.
Place = tuple[int, int]


def code(rungs: list[Rung]) -> list[Place | None]:
    """The pieces of a routine's code, in order: of each instruction its place, None for where a rung, branch or leg starts or ends. What
    has no instruction has no code, but for the last rung, which starts anyway."""
    made: list[Place | None] = []
    for number, rung in enumerate(rungs):
        if rung.count() or number == len(rungs) - 1:
            made.append(None)
            Coder(number, made).add(tree(list(rung.found)))
    return made


class Coder:
    """Adds the pieces of one rung."""

    def __init__(self, number: int, made: list[Place | None]) -> None:
        self.number, self.made, self.count = number, made, 0

    def add(self, series: tuple) -> None:
        for each in series:
            if not isinstance(each, Branch):
                self.made.append((self.number, self.count))
                self.count += 1
            elif has_instructions(each):
                self.made.append(None)
                for leg in each.legs:
                    if any(map(has_instructions, leg)):
                        self.add(leg)
                        self.made.append(None)
                self.made.append(None)


def has_instructions(each) -> bool:
    return not isinstance(each, Branch) or any(has_instructions(one) for leg in each.legs for one in leg)
