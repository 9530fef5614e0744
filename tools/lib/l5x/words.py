"""The names that rungs have, wherever they stand in them: what has none of these is needed last."""

from __future__ import annotations

import re
from collections.abc import Iterable

from .model import Export, Program, Tag
from .profile import key

_WORD = re.compile(r"[A-Za-z_][A-Za-z0-9_:]*")


def words_of(program: Program) -> set[str]:
    """All words in the rungs of a program, as compared."""
    return {word for routine in program.routines for rung in routine.rungs for word in _words(rung.text or "")}


def _words(text: str) -> set[str]:
    return set(map(key, _WORD.findall(text)))


class Needed:
    """The tags that rungs, tasks or watched places name, and what aliases of these stand for."""

    def __init__(self, export: Export, programs: list[Program], watch: Iterable[str]) -> None:
        self.words = {key(program.name): words_of(program) for program in programs}
        texts = [*watch, *(task.trigger_tag for task in export.tasks)]
        self._names = set().union(*self.words.values(), *map(_words, texts))
        self._add_targets([*export.tags, *(tag for program in programs for tag in program.tags)])

    def has(self, tag: Tag) -> bool:
        return key(tag.name) in self._names

    def _add_targets(self, tags: list[Tag]) -> None:
        targets: dict[str, set[str]] = {}
        for tag in tags:
            if tag.alias_for is not None:
                targets.setdefault(key(tag.name), set()).update(_words(tag.alias_for))
        rest = [name for name in targets if name in self._names]
        while rest:
            new = targets[rest.pop()] - self._names
            self._names |= new
            rest += new & targets.keys()
