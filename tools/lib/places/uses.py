"""Who writes and who reads each place: the program's cross reference, which goes by tags, told by bits, members, elements and aliases."""

from __future__ import annotations

import re
from collections.abc import Iterator
from dataclasses import dataclass

from lib.hammer.plain.check import Checked, Number, Path
from lib.hammer.plain.rungs import instructions
from lib.hammer.plain.tags import BITS
from lib.hammer.plain.tags import Refused as NotThere
from lib.hammer.plain.words import operand_form
from lib.hammer.plain.xref import read_too, written
from lib.tags import Names
from lib.texts import listed, meant, quoted, visible

from .refused import Refused, refused_of
from .tags import bytewise, no_place, scope_of, tag_names

BLOCKS = ("COP", "CPS", "FLL")


class NoTag(Exception):
    """No place of this name; says why."""


@dataclass
class Use:
    """A line of the program's list, and the place that its instruction names: as it is spelled without aliases, and its bits."""

    line: str
    is_write: bool
    tag: int
    place: str
    first: int
    end: int
    rung: str


class Uses:
    def __init__(self, contents: bytes, text: str) -> None:
        """Of a project's file, and of what `logix xref` writes of it."""
        self.project: Refused = refused_of(contents, [], [])
        self.half = self.project.half
        self.tags = self.half.tags
        self.numbers = {one["name"]: at for at, one in enumerate(self.half.programs)}
        self.names = Names(self.half.file)
        self.aliases: dict[str, list[str]] = {}
        for scope, alias, place in self.names.aliases():
            self.aliases.setdefault(place.lower(), []).append(self.names.full_name(scope, alias))
        self.uses = [use for tag, lines in self.blocks(text) for line in lines for use in self.of_line(tag, line)]

    def blocks(self, text: str) -> Iterator[tuple[int, list[str]]]:
        """The tags of the list, by number, with their lines."""
        numbers = {name: at for at, name in enumerate(self.names.full)}
        for block in re.split(r"^tag ", text, flags=re.MULTILINE)[1:]:
            name, *lines = block.splitlines()
            yield numbers[name], lines

    # ---- the places of a line

    def of_line(self, tag: int, line: str) -> list[Use]:
        what, program, routine, rung, number, _ = line.split()
        at = self.numbers[program]
        inside = self.half.routine_names(at).index(routine.lower())
        read, checked = (list(instructions(routines[at][inside][int(rung)])) for routines in (self.half.texts, self.half.checked))
        text = self.project.at(["programs", str(at), "routines", str(inside), "rungs", rung])
        number = int(number)
        places = self.written(at, inside, read, checked, number) if what == "write" else self.read(at, read[number], checked[number])
        found = [place for place in places if place[0] == tag] or [(tag, self.names.full[tag], *self.whole(tag))]
        return [Use(line, what == "write", *place, text) for place in dict.fromkeys(found)]

    def whole(self, tag: int) -> tuple[int, int]:
        _, _, start, end = self.tags.spans[tag]
        return start * 8, end * 8

    def written(self, program: int, routine: int, read: list, checked: list[Checked], number: int) -> list[tuple]:
        one = checked[number]
        places = [self.operand(program, read[number].operands[at], one, at) for at in sorted(written(one))]
        return places + (list(self.returns(program, routine)) if one.op == "RET" else [])

    def returns(self, program: int, routine: int) -> Iterator[tuple]:
        """The places that the calls of a routine take what it returns to."""
        for texts, rungs in zip(self.half.texts[program], self.half.checked[program]):
            for text, rung in zip(texts, rungs):
                for read, one in zip(instructions(text), instructions(rung)):
                    if one.op == "JSR" and one.args[0].value == routine:
                        yield from (self.operand(program, read.operands[at], one, at) for at in sorted(written(one)))

    def read(self, program: int, read, one: Checked) -> list[tuple]:
        places = []
        for at, arg in enumerate(one.args):
            if isinstance(arg, Path):
                if at not in written(one) or at in read_too(one):
                    places.append(self.operand(program, read.operands[at], one, at))
                places += self.subscripts(program, read.operands[at], arg)
        return places

    def operand(self, program: int, text: str, one: Checked, at: int) -> tuple:
        """The tag of an operand, its spelling, and its bits: with a variable subscript those of all elements."""
        path = one.args[at]
        size = 1 if path.kind == "BOOL" else path.size * 8
        if one.op in BLOCKS and at < 2:
            length = one.args[2].value * one.args[1].size * 8 if isinstance(one.args[2], Number) else path.stop * 8
            size = max(size, min(length, path.stop * 8 - path.at))
        size += sum(step.stride * (step.length - 1) for step in path.steps)
        return path.tag, self.names.expanded(program, operand_form(text)), path.at, path.at + size

    def subscripts(self, program: int, text: str, path: Path) -> list[tuple]:
        forms = [value for part, value in operand_form(text)[1] if part == "by"]
        found = []
        for form, step in zip(forms, path.steps):
            place = self.tags.follow(program, form, False)
            found.append((place.tag, self.names.expanded(program, form), step.at, step.at + BITS[step.kind]))
        return found

    # ---- the answer

    def told(self, asked: str | None) -> list[str]:
        if asked is None:
            places: dict[str, list[Use]] = {}
            for use in self.uses:
                places.setdefault(use.place.lower(), []).append(use)
            in_order = sorted(places.items(), key=lambda one: natural(one[0]))
            return [line for _, uses in in_order for line in self.block(uses[0].place, uses[0].tag, uses)]
        tag, place, first, end = self.asked(asked)
        return self.block(place, tag, [use for use in self.uses if use.tag == tag and use.first < end and first < use.end])

    def block(self, place: str, tag: int, uses: list[Use]) -> list[str]:
        """A place with its other names and its tag's connections, and its lines, the writers first."""
        names = self.aliases.get(place.lower(), [])
        lines = [place + (f" = {', '.join(names)}" if names else "") + self.connections(tag)]
        for use in sorted(uses, key=lambda one: not one.is_write):
            other = f"  as {use.place}" if use.place.lower() != place.lower() else ""
            lines.append(f"{use.line}  {visible(use.rung.strip())}{other}")
        return lines if uses else [*lines, "  no instruction names it"]

    def connections(self, tag: int) -> str:
        start = self.tags.spans[tag][2]
        every = zip(self.half.file["connections"], self.half.connections)
        found = [f"{one['direction']}put {one['name']}" for one, (_, _, byte, _, _) in every if byte == start]
        return f" ({', '.join(found)})" if found else ""

    def asked(self, text: str) -> tuple[int, str, int, int]:
        """The place that a person names."""
        scope, rest = scope_of(self.project, text)
        form = operand_form(bytewise(rest))
        if scope is None and form and not self.names.entry(None, form[0]):
            scope = self.only_program(form[0])
        try:
            found = self.tags.resolve(scope, bytewise(rest), True)
        except NotThere:
            raise NoTag(no_place(self.project, rest, scope, True)[0]) from None
        size = (found.dim or 1) * (1 if found.base == "BOOL" else self.tags.types.size(found.base, 0) * 8)
        return found.tag, self.names.expanded(scope, form), found.at, found.at + size

    def only_program(self, name: str) -> int | None:
        """The program that has a tag of this name, if one alone has it."""
        having = [at for at in range(len(self.half.programs)) if name.lower() in self.tags.names[at]]
        if len(having) > 1:
            raise NoTag(f"{listed(self.names.full_name(at, name) for at in having)} are meant")
        if not having:
            every = dict.fromkeys(name for scope in range(len(self.half.programs)) for name in tag_names(self.project, scope))
            raise NoTag(f"there is no tag {quoted(name)}{meant(name, every)}")
        return having[0]


def natural(place: str) -> list:
    """A key that puts numbers in order: `[2]` before `[10]`."""
    return [(0, int(part), "") if part.isdigit() else (1, 0, part) for part in re.split(r"(\d+)", place.lower())]
