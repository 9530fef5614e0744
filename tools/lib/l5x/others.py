"""Which tags may be changed while a program runs: by programs of other tasks, and by modules."""

from __future__ import annotations

from lib.texts import shown

from .calls import MayChange
from .model import Program, Task
from .profile import key
from .tags import Found, NameFault
from .taking_tags import Tags
from .words import Needed


class Others:
    """Goes by the names that rungs have: whoever names a tag, or an alias of a part of it, may change it."""

    def __init__(self, programs: list[Program], tasks: list[Task], tags: Tags, needed: Needed) -> None:
        self._programs = programs
        self._words = needed.words
        self._task_of = {key(name): key(task.name) for task in tasks for name in task.programs}
        # The names by which a tag of the controller goes.
        self._aliases: dict[str, set[str]] = {}
        self._changing: set[str] = set()
        for taken in tags.taken:
            if taken.of is not None:
                if taken.tag.direction == "in":
                    self._changing.add(key(taken.tag.name))
                continue
            try:
                found = taken.scope.found(taken.tag.name, fixed=True)
            except NameFault:
                continue
            self._aliases.setdefault(found.tag, set()).add(key(taken.tag.name))

    def of(self, program: Program) -> MayChange:
        task = self._task_of.get(key(program.name))
        others = [p for p in self._programs if self._task_of.get(key(p.name)) != task]

        def may_change(found: Found) -> str | None:
            if found.tag.startswith("program:"):
                return None
            if found.tag in self._changing:
                return f"{shown(found.tag)} comes in from outside"
            names = {found.tag} | self._aliases.get(found.tag, set())
            by = next((other for other in others if names & self._words[key(other.name)]), None)
            return None if by is None else f"program {shown(by.name)} of another task names {shown(found.tag)}"

        return may_change
