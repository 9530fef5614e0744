"""What the tables of docs/FORMATS.md and docs/CONTROLLER.md say of each status and code."""

from __future__ import annotations

import re
from collections.abc import Iterator
from functools import cache
from typing import NamedTuple

from lib.paths import TOP, read_text
from lib.texts import sentence


DOCUMENTS = ("FORMATS.md", "CONTROLLER.md")
CODE = re.compile(r"[A-Z]\d{1,2}|\d/\d{1,2}|\d{1,2}|held|regions|copies|watchdogs|releases|starts|triggers|scans|modes|edits|numbers")
CODED = {"status", "code", "answer", "fault", "law"}
MEANING = ("what is wrong", "when", "cause")
ADVICE = "what to do"


class Row(NamedTuple):
    """A row of a table that says what to do. A code has several rows where it has several causes."""

    meaning: str
    advice: str

    def sentence(self) -> str:
        return f"{self.meaning}. To do: {sentence(self.advice)}"


def cells(line: str) -> list[str]:
    return [cell.strip() for cell in re.split(r"(?<!\\)\|", line.strip().strip("|"))]


def plain(cell: str) -> str:
    """A cell as a sentence's part: without marks of Markdown."""
    return re.sub(r"\[([^]]*)\]\([^)]*\)", r"\1", cell).replace("\\|", "|").replace("**", "").rstrip(".")


def rows(text: str) -> Iterator[tuple[list[str], Row]]:
    """The rows of all tables that say what to do, each with its codes."""
    head = None
    for line in text.splitlines():
        if not line.startswith("|"):
            head = None
        elif head is None:
            head = cells(line)
        elif head[0] in CODED and head[-1] == ADVICE and not line.startswith("|--"):
            row = dict(zip(head, cells(line)))
            codes = [word for word in re.split(r"[ ,;`]+", row[head[0]]) if CODE.fullmatch(word)]
            yield codes, Row(plain(next(row[name] for name in MEANING if name in row)), plain(row[ADVICE]))


@cache
def table() -> dict[str, list[Row]]:
    """All that is said of each code."""
    said: dict[str, list[Row]] = {}
    for name in DOCUMENTS:
        for codes, row in rows(read_text(f"{TOP}/docs/{name}")):
            for code in codes:
                said.setdefault(code, []).append(row)
    return said


def sentences(code: str, applies: str = "") -> list[str]:
    """What a code means and what to do: of several causes those with these words, if there are any."""
    every = table().get(code, [])
    chosen = [row for row in every if applies and applies in row.meaning] or every
    return [f"{code}: {row.sentence()}" for row in chosen]
