"""A project that was refused: its text with the places of its values, what it says, and what the plain reading made of it."""

from __future__ import annotations

import json
from dataclasses import dataclass, field

from lib.hammer.plain.project import Project
from lib.hammer.plain.reader import Fault
from lib.texts import Said, marked, quoted

from .json_text import Text, decoded, line_of, read

# What an element of each list is.
KINDS = {
    "types": "type", "members": "member", "tags": "tag", "programs": "program", "routines": "routine", "rungs": "rung", "tasks": "task",
    "connections": "connection", "initial": "initial value", "watch": "watched place",
}  # fmt: skip


@dataclass
class Refused:
    """`keys` lead to what is refused, and `inner` are the words after them."""

    text: Text
    value: object
    keys: list[str] = field(default_factory=list)
    inner: list[str] = field(default_factory=list)
    half: Project | None = None
    # The line of its refusal by the plain reading.
    judged: str = ""

    def at(self, keys: list[str]) -> object:
        """The value that the keys lead to, or None."""
        value = self.value
        for key in keys:
            if isinstance(value, list):
                value = value[int(key)] if key.isdigit() and int(key) < len(value) else None
            else:
                value = value.get(key) if isinstance(value, dict) else None
        return value

    def names(self, *keys: str) -> list[str]:
        """The names of a list's elements."""
        listed = self.at(list(keys))
        named = [one.get("name") for one in listed if isinstance(one, dict)] if isinstance(listed, list) else []
        return [name for name in named if isinstance(name, str)]

    def where(self) -> str:
        """The names on the way: `program Line, routine Main, rung 1`."""
        said = []
        for count in range(1, len(self.keys)):
            kind, key = KINDS.get(self.keys[count - 1]), self.keys[count]
            one = self.at(self.keys[: count + 1])
            if kind is None or not key.isdigit() or (isinstance(one, str) and kind != "rung"):
                continue
            name = one.get("name", one.get("tag")) if isinstance(one, dict) else None
            said.append(f"{kind} {quoted(name)[1:-1] if isinstance(name, str) else key}")
        return ", ".join(said)

    def line(self, keys: list[str] | None = None) -> int:
        """The number of the line on which a value stands."""
        return line_of(self.text.text, self.text.node(keys or self.keys).at)[0]

    def say(self, why: str, keys: list[str] | None = None, applies: str = "", of_key: bool = False) -> Said:
        """What is said of a value, or of its key, with its line and a mark under it."""
        node = self.text.node(self.keys if keys is None else keys)
        row, column, line = line_of(self.text.text, node.key if of_key and node.key is not None else node.at)
        return Said(why, marked(line.expandtabs(1), column - 1), [], applies, row)


def refused_of(contents: bytes, keys: list[str], inner: list[str]) -> Refused:
    """The project, read as far as it goes; NoJson if it is no JSON."""
    text = read(decoded(contents))
    half, judged = half_read(contents)
    return Refused(text, json.loads(text.text), keys, inner, half, judged)


def half_read(contents: bytes) -> tuple[Project, str]:
    """The plain reading up to the first refusal, and the line of that."""
    project = Project.__new__(Project)
    try:
        Project.__init__(project, contents)
    except Fault as fault:
        return project, fault.line()
    return project, ""
