"""Which online edits of a journal change what calls of Add-On Instructions are expanded into, which Studio takes no such edit of."""

from __future__ import annotations

import re
from collections.abc import Iterator

from lib.texts import shown

from .profile import key
from .settling import TakenProgram
from .taking_ladder import TakenRoutine

_ACCEPT = re.compile(r" *(?:@[0-9]+ +)?accept +([^ ]+) +([^ ]+) +(.*)", re.S)
_EDIT = re.compile(r"[ \t\r]*([rid]) +([0-9]{1,10})")
_MOST_BYTES = 65_536


def edits_told(path: str, programs: list[TakenProgram]) -> Iterator[str]:
    """A line for each edit of a routine that is made of a call, or of a rung that has one; OSError if the journal can't be read."""
    routines = {(key(p.program.name), key(t.routine.name)): t for p in programs for t in p.routines}
    made = {place: t for place, t in routines.items() if t.made_of is not None}
    with open(path, encoding="latin-1", newline="\n") as journal:
        for number, line in enumerate(journal, 1):
            accept = _ACCEPT.match(line) if len(line) <= _MOST_BYTES else None
            routine = routines.get((key(accept[1]), key(accept[2]))) if accept else None
            if accept is None or routine is None:
                continue
            for edit in filter(None, map(_EDIT.match, accept[3].split("|"))):
                told = _told(edit[1], int(edit[2]), routine, {name for program, name in made if program == key(accept[1])})
                if told:
                    yield f"journal line {number}: {told}"


def _told(verb: str, index: int, routine: TakenRoutine, made: set[str]) -> str | None:
    if routine.made_of is not None:
        what = f"rung {index} of {routine.routine.name}" if verb != "i" else f"a rung of {routine.routine.name}"
        of = f"{routine.made_of.definition}({shown(routine.made_of.instance)})"
        return f"{what} is of an expansion, of {of}: the edit changes this call alone; Studio takes none on line"
    rung = routine.rungs[index] if verb != "i" and index < len(routine.rungs) else None
    if rung is not None and rung.called() & made:
        return f"rung {index} of {routine.routine.name} has an expansion, which the edit replaces or deletes"
    return None
