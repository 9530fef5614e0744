"""What texts name in a project that the controller takes: tags, aliases, members, elements and bits, with their places in the image.

How tags lie and what names what is read as the hammer's plain interpreter reads it, so that no tool has a reading of its own. A scope is
None for the controller, or the number of a program.
"""

from __future__ import annotations

from collections.abc import Iterator

from .hammer.plain.tags import MEMBERS, Tags, Types
from .hammer.plain.words import operand_form

SCOPE = "Program:"


def spelled(form: tuple) -> str:
    """The text of an operand form."""
    return form[0] + "".join(part_text(part, spelled(value) if part == "by" else value) for part, value in form[1])


def part_text(part: str, inside: str) -> str:
    return f"[{inside}]" if part in ("at", "by") else f".{inside}"


def members_of(types: Types, base: str) -> list[str]:
    """The members of a type, as they are spelled."""
    if base in MEMBERS:
        return [name.upper() for name in MEMBERS[base]]
    declared = next((one for one in types.declared if one["name"].lower() == base), None)
    return [one["name"] for one in declared["members"]] if declared else []


class Names:
    def __init__(self, project: dict) -> None:
        self.project = project
        self.programs = {program["name"].lower(): at for at, program in enumerate(project["programs"])}
        self.tags = Tags(Types(project.get("types", [])), len(self.programs))
        for scope, one in self.declared():
            self.tags.declare(scope, one)
        self.full = [self.full_name(scope, name) for scope, name, _, _ in self.tags.spans]  # by tag number

    def declared(self) -> Iterator[tuple[int | None, dict]]:
        """Each tag and alias with its scope."""
        for scope, described in ((None, self.project), *enumerate(self.project["programs"])):
            yield from ((scope, one) for one in described.get("tags", []))

    def full_name(self, scope: int | None, name: str) -> str:
        """The name of a scope's tag or place, as the controller takes it."""
        return name if scope is None else f"{SCOPE}{self.project['programs'][scope]['name']}.{name}"

    def members(self, base: str) -> list[str]:
        return members_of(self.tags.types, base)

    def entry(self, scope: int | None, name: str) -> tuple | None:
        """What a name is in a scope: a program's own tags come first."""
        return self.tags.names[scope].get(name.lower()) or self.tags.names[None].get(name.lower())

    def expanded(self, scope: int | None, form: tuple) -> str:
        """The text of an operand form without aliases, as tags are declared."""
        kind, *rest = self.entry(scope, form[0])
        parts = "".join(part_text(part, self.expanded(scope, value) if part == "by" else value) for part, value in form[1])
        return (self.expanded(rest[0], operand_form(rest[1])) if kind == "alias" else self.full[rest[0].tag]) + parts

    def aliases(self) -> Iterator[tuple[int | None, str, str]]:
        """Each alias: its scope, its name, and what it names, without aliases."""
        for scope, one in self.declared():
            if "alias" in one:
                yield scope, one["name"], self.expanded(scope, operand_form(one["name"]))
