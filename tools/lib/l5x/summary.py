"""The end of the list: how much is taken, and which instructions aren't."""

from __future__ import annotations

from lib.texts import shown

from .findings import Findings
from .model import Export, Program
from .settling import TakenProgram
from .taking_tags import Tags


def summary(export: Export, considered: list[Program], taken: list[TakenProgram], tags: Tags, findings: Findings) -> list[str]:
    own = [routine for program in taken for routine in program.routines if routine.made_of is None]
    made = sum(len(program.routines) for program in taken) - len(own)
    rungs = sum(not rung.is_left_out for routine in own for rung in routine.rungs)
    all_rungs = sum(len(routine.rungs) for program in considered for routine in program.routines)
    all_routines = sum(len(program.routines) for program in considered)
    scopes = [export.tags, *(module.tags for module in export.modules), *(program.tags for program in considered)]
    all_tags = sum(map(len, scopes))
    told = (
        f"summary: {rungs:,} of {all_rungs:,} rungs, {len(own):,} of {all_routines:,} routines"
        f" and {len(tags.kept()):,} of {all_tags:,} tags are taken"
    )
    of_calls = "" if not made else "; a routine is made of a call" if made == 1 else f"; {made:,} routines are made of calls"
    lines = [told + of_calls]
    for name, places in sorted(findings.unknown.items(), key=lambda one: (-len(one[1]), one[0])):
        times = "once" if len(places) == 1 else f"{len(places):,} times"
        lines.append(f"summary: {shown(name, 40)} isn't taken, {times}; first {places[0]}")
    return lines
