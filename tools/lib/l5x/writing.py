"""The project as a text: an element of a list on a line of its own."""

from __future__ import annotations

import json
from collections.abc import Iterator

from .taking import Project


def text_of(project: Project) -> str:
    fields = ",\n ".join(f"{json.dumps(name)}: {_value(value, name)}" for name, value in project.items())
    return "{" + fields + "}\n"


def _value(value: object, name: str) -> str:
    if not isinstance(value, list):
        return json.dumps(value)
    if name == "programs":
        return _lines((_program(program) for program in value), 2)
    return _lines((json.dumps(element) for element in value), 2)


def _lines(elements: Iterator[str], indent: int) -> str:
    front = "\n" + " " * indent
    return "[" + front + ("," + front).join(elements) + "]"


def _program(program: dict[str, object]) -> str:
    parts = []
    for name, value in program.items():
        if name == "tags":
            parts.append(f'"tags": {_lines((json.dumps(tag) for tag in value), 4)}')
        elif name == "routines":
            parts.append(f'"routines": {_lines(map(_routine, value), 4)}')
        else:
            parts.append(f"{json.dumps(name)}: {json.dumps(value)}")
    return "{" + ",\n   ".join(parts) + "}"


def _routine(routine: dict[str, object]) -> str:
    rungs = routine["rungs"]
    listed = _lines((json.dumps(rung) for rung in rungs), 6) if rungs else "[]"
    return f'{{"name": {json.dumps(routine["name"])}, "rungs": {listed}}}'
