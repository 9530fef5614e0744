"""What `logix_cover` writes: its lines, and how it is run."""

from __future__ import annotations

import re
from typing import NamedTuple

from lib.programs import Astray

NAME = "logix_cover"
LINES = re.compile(r"(?:\d+ \d+ \d+ \d+ \d+ \d+\n)*end\n")


class Line(NamedTuple):
    """An instruction by its program, version and routine and the pieces of code that are left from it on; how many steps executed it."""

    program: int
    version: int
    routine: int
    left: int
    true: int
    false: int


def read(text: str) -> list[Line]:
    if not LINES.fullmatch(text):
        raise Astray(f"{NAME} wrote what is no text of its own")
    return [Line(*map(int, line.split(" "))) for line in text.splitlines()[:-1]]
