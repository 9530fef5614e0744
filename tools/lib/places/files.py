"""The files that a call of a program names, and what is wrong with its words."""

from __future__ import annotations

import os
import re
from dataclasses import dataclass
from functools import cache

from lib.paths import TOP, read_bytes, read_text
from lib.texts import counted, meant, near, quoted


MOST_BYTES = 16_777_216
USAGE = re.compile(r"`usage: logix (.*?)`")
FILES = {"P": "project", "J": "journal", "S": "script", "T": "trace", "A": "project", "B": "project", "L": "link script", "Q": "question"}
# The programs beside `logix` that read files, and which.
OTHERS = {"logix_live": ("P",), "logix_cover": ("P", "J"), "logix_explore": ("P", "S", "Q"), "logix_laws": ("P", "T")}


@cache
def commands() -> dict[str, list[str]]:
    """The commands of `logix` with the words that follow each, as the usage line has them."""
    parts = USAGE.search(read_text(f"{TOP}/docs/FORMATS.md")).group(1).split(", ")
    return {part.split()[0]: part.split()[1:] for part in parts}


@dataclass
class File:
    """A file of a call: what it is, and the word that names it."""

    kind: str
    name: str

    def contents(self) -> bytes | None:
        """Its bytes, if it can be read as often as one wants."""
        if not os.path.isfile(self.name) or os.path.getsize(self.name) > MOST_BYTES:
            return None
        try:
            return read_bytes(self.name)
        except OSError:
            return None

    def fault(self) -> str | None:
        """Why it can't be read."""
        if not self.name:
            return f"the word for the {self.kind} is empty"
        if os.path.isdir(self.name):
            return f"{quoted(self.name)}, the {self.kind}, is a folder"
        if not os.path.exists(self.name):
            return f"{quoted(self.name)}, the {self.kind}, isn't there{meant_file(self.name)}"
        if not os.access(self.name, os.R_OK):
            return f"{quoted(self.name)}, the {self.kind}, may not be read by you"
        return None

    def is_long(self) -> bool:
        return os.path.isfile(self.name) and os.path.getsize(self.name) > MOST_BYTES


def meant_file(name: str) -> str:
    folder, base = os.path.split(name)
    try:
        names = os.listdir(folder or ".")
    except OSError:
        return f"; nor is its folder {quoted(folder)}"
    return meant(base, names) if near(base, names) else ""


def files_of(program: str, words: list[str]) -> list[File]:
    """The files of a call, in the order of their reading."""
    if program == "logix":
        wanted, words = commands().get(words[0], []) if words else [], words[1:]
    else:
        wanted = list(OTHERS.get(program, ()))
    return [File(FILES[letter], word) for letter, word in zip(wanted, words) if letter in FILES]


def wrong_words(program: str, words: list[str]) -> str:
    """Why these are no words of the program."""
    if program != "logix":
        return f"{program} has other words"
    if not words:
        return "a command must follow"
    known = commands()
    if words[0] not in known:
        others = meant(words[0], known) if near(words[0], known) else f"; there are {', '.join(known)}"
        return f"there is no command {quoted(words[0])}{others}"
    command = f"the command is '{' '.join([words[0], *known[words[0]]])}'"
    wanted, given = len(known[words[0]]), len(words) - 1
    return command if given == wanted else f"{command}: {counted(wanted, 'word')} after it, not {given}"
