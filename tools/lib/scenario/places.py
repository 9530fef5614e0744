"""What the names of a scenario stand for in a project: a kind, a place in the image, an opening value.

The project is one that the controller takes (the proved program has said so), so nothing of it is judged here.
"""

from __future__ import annotations

import difflib
from collections.abc import Iterator

from lib.hammer.plain.project import FITS, read, write
from lib.hammer.plain.tags import BITS, MEMBERS, Found, Refused
from lib.hammer.plain.words import operand_form
from lib.tags import SCOPE, Names


class Unknown(Exception):
    """Why a text names no BOOL, bit or integer."""


class Places(Names):
    def __init__(self, project: dict) -> None:
        super().__init__(project)
        self.image = bytearray(self.tags.bytes)
        for one in project.get("initial", []):
            found = self.resolve(one["tag"])
            write(self.image, found.base, found.at, one["value"])

    def resolve(self, text: str) -> Found:
        scope, rest = self.scoped(text)
        return self.tags.resolve(scope, rest, True)

    def scoped(self, text: str) -> tuple[int | None, str]:
        """The scope that a text asks for, and what is looked up there."""
        if not text.startswith(SCOPE):
            return None, text
        name, _, rest = text[len(SCOPE) :].partition(".")
        if name.lower() not in self.programs:
            raise Unknown(f"there is no program {name}{near(name, [one['name'] for one in self.project['programs']])}")
        return self.programs[name.lower()], rest

    def find(self, text: str) -> Found:
        """The BOOL, bit or integer that a text names."""
        try:
            found = self.resolve(text)
        except Refused as refused:
            raise Unknown(self.why(text, refused.code)) from None
        if found.dim or found.base not in BITS:
            raise Unknown(f"{text} is {self.type_told(found)}: name a BOOL, a bit or an integer of it{self.such_as(text, found)}")
        return found

    def value(self, image: bytes, text: str) -> int:
        found = self.resolve(text)
        return read(image, found.base, found.at)

    def why(self, text: str, code: str) -> str:
        scope, rest = self.scoped(text)
        form = operand_form(rest)
        if code == "G3" and form:
            return f"there is no tag {text}{near(form[0], self.names(scope))}"
        if code == "G4":
            return self.why_member(text)
        return {
            "G5": f"{text}: a subscript or a bit outside its tag, or of something that has none",
            "G6": f"{text}: a subscript here is a number",
        }.get(code, f"{text} is no name of a tag ({code})")

    def why_member(self, text: str) -> str:
        """Of a member that isn't there: the nearest ones of what is before it."""
        for end in (at for at, byte in enumerate(text) if byte == "."):
            try:
                found = self.resolve(text[:end])
            except (Refused, Unknown):
                continue
            members = [] if found.dim else self.members(found.base)
            member = text[end + 1 :].partition(".")[0].partition("[")[0]
            if member.lower() not in map(str.lower, members):
                return f"{text[:end]} has no member {member}{near(member, members)}"
        return f"{text} has no such member"

    def names(self, scope: int | None) -> list[str]:
        every = list(self.declared())
        own = [one["name"] for at, one in every if at == scope]
        others = [self.full_name(at, one["name"]) for at, one in every if at is not None] if scope is None else self.names(None)
        return own + others

    def type_told(self, found: Found) -> str:
        return f"an array of {found.base}" if found.dim else f"a {found.base}"

    def such_as(self, text: str, found: Found) -> str:
        if found.dim:
            return f", as {text}[0]"
        members = self.members(found.base)
        return f", as {text}.{members[1 if found.base in MEMBERS else 0]}" if members else ""

    def leaves(self, base: str, dim: int, at: int, text: str) -> Iterator[tuple[str, int, int]]:
        """The BOOLs, bits and integers of a type that lies there: a text, the first bit and how many."""
        if dim:
            stride = 1 if base == "BOOL" else self.tags.types.size(base, 0) * 8
            for element in range(dim):
                yield from self.leaves(base, 0, at + element * stride, f"{text}[{element}]")
        elif base in BITS:
            yield text, at, BITS[base]
        elif base in MEMBERS:
            for name, (kind, place) in MEMBERS[base].items():
                yield f"{text}.{name.upper()}", at + place, BITS[kind]
        else:
            for name, (kind, length, place) in self.tags.types.structure(base)[1].items():
                yield from self.leaves(kind, length, at + place, f"{text}.{name}")


def near(name: str, known: list[str]) -> str:
    """The names that are nearest to one that isn't known, to be told after it."""
    spelled = {}
    for one in known:
        spelled.setdefault(one.lower(), one)
        spelled.setdefault(one.lower().rpartition(".")[2], one)
    found = difflib.get_close_matches(name.lower(), spelled, 3, 0.6)
    return f"; nearest: {', '.join(dict.fromkeys(spelled[one] for one in found))}" if found else ""


def fits(found: Found, value: int) -> str | None:
    """Why a value doesn't fit a place."""
    least, most = FITS[found.base]
    return None if least <= value <= most else f"a {found.base} is from {least} to {most}"
