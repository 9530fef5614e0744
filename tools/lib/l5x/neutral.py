"""The rungs of a project as `logix text` writes them, or with the mnemonics of newer releases."""

from __future__ import annotations

from lib.neutral import canonical

from .profile import NEW_NAMES
from .rungs import elements, renamed
from .taking import Project

_BACK = {old: new for new, old in NEW_NAMES.items()}


def neutral_text(project: Project, is_new: bool) -> str:
    lines: list[str] = []
    for program in project["programs"]:
        for routine in program["routines"]:
            lines.append(f"program {program['name']} routine {routine['name']}")
            lines += (_rung(text, is_new) for text in routine["rungs"])
    return "".join(line + "\n" for line in lines)


def _rung(text: str, is_new: bool) -> str:
    plain = canonical(elements(text))
    return renamed(plain, _BACK)[0] if is_new else plain
