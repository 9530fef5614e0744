"""The rows of test crates that give project files, `KIND | GIVEN | WANTED`, with the texts that the rows above name."""

from __future__ import annotations

import re
from collections.abc import Iterator

from common import TOP, read_text

FIELDS = {
    "schema": "1", "controller": '"C"', "types": "[]", "tags": "[]",
    "programs": '[{"name":"P","main":"M","routines":[{"name":"M","rungs":[]}]}]',
    "tasks": '[{"name":"T","kind":"continuous","programs":["P"]}]', "connections": "[]", "initial": "[]", "watch": "[]",
}


def plain(text: str) -> str:
    """What stands in a row for a text."""
    escapes = {"n": "\n", "s": " ", "t": "\t", "\\": "\\"}
    return re.sub(r"\\(.)", lambda found: escapes.get(found[1], found[0]), text)


def rows(crate: str) -> Iterator[tuple[str, str, str, dict[str, str]]]:
    """Each row that names no text: its three parts, and the texts by their names."""
    texts: dict[str, str] = {}
    for line in read_text(f"{TOP}/crates/{crate}/stdin").splitlines():
        kind, given, wanted = (part.strip() for part in (line.split("|", 2) + ["", ""])[:3])
        if kind in ("text", "more"):
            texts[given] = (texts[given] if kind == "more" else "") + plain(wanted)
        else:
            yield kind, given, wanted, texts


def file_of(given: str, texts: dict[str, str]) -> bytes:
    """The file of a `check` row: all of it, or a small project with some keys changed."""
    keys, values = (part.strip() for part in given.split("=", 1))
    values = re.sub(r"\{\{(\d+)\*(.*?)\}\}", lambda found: found[2] * int(found[1]), texts.get(values, values))
    if keys == "file":
        return values.encode()
    fields = {**FIELDS, **dict(zip(keys.split(), values.split(" ~ ")))}
    return ("{" + ",".join(f'"{key}":{value}' for key, value in fields.items() if value != "-") + "}").encode()
