"""Takes out what refers to what isn't taken, until nothing does."""

from __future__ import annotations

from collections.abc import Iterator
from dataclasses import dataclass

from lib.texts import shown

from .definitions import MAX_FRAMES
from .findings import Findings
from .model import Program
from .profile import MAX_PROJECT_INSTRUCTIONS, MAX_TASKS, key
from .taking_ladder import TakenRoutine, TakenRung, refuse, refuse_labels
from .taking_tags import Connection, Tags
from .taking_tasks import TakenTask


@dataclass(eq=False)
class TakenProgram:
    program: Program
    where: str
    main: str
    routines: list[TakenRoutine]

    def has(self, routine: str) -> bool:
        return any(key(t.routine.name) == key(routine) for t in self.routines)


@dataclass(eq=False)
class Settling:
    programs: list[TakenProgram]
    tasks: list[TakenTask]
    connections: list[Connection]
    tags: Tags
    by_rung: bool
    findings: Findings

    def settle(self) -> None:
        steps = (self._refuse_rungs, self._refuse_programs, self._refuse_tasks, self._refuse_long)
        while any(step() for step in steps):
            pass

    # ---- rungs

    def _refuse_rungs(self) -> bool:
        events = {key(t.task.name) for t in self.tasks if t.kind == "event"}
        flagged = self._programs_with_loose_flags()
        changed = False
        for program in self.programs:
            names = {key(t.routine.name) for t in program.routines}
            deep = set(map(id, self._too_deep(program)))
            for routine in list(program.routines):
                is_met = False
                for rung in routine.rungs:
                    faults = list(_faults(rung, names, events))
                    if program in flagged:
                        faults += [f"{op}: what an Add-On Instruction leaves in the flag isn't told" for op in rung.loose]
                    if id(rung) in deep:
                        faults.append(f"its calls may open more than {MAX_FRAMES} frames inside one another, or nobody knows how many")
                    is_met |= self._refuse(rung, faults)
                if is_met and self.by_rung:
                    refuse_labels(routine, True, self.findings)
                elif is_met:
                    program.routines.remove(routine)
                changed |= is_met
            self._drop_uncalled(program)
        return changed

    def _refuse(self, rung: TakenRung, faults: list[str]) -> bool:
        for why in faults:
            if self.by_rung:
                refuse(rung, why, self.findings)
            else:
                self.findings.fault(rung.place, why)
        return bool(faults)

    def _programs_with_loose_flags(self) -> list[TakenProgram]:
        """Those of tasks in which an Add-On Instruction is called: what its call leaves in the task's flags isn't told."""
        found: list[TakenProgram] = []
        for task in self.tasks:
            names = {key(name) for name in task.programs}
            programs = [p for p in self.programs if key(p.program.name) in names]
            if any(routine.made_of for p in programs for routine in p.routines):
                found += programs
        return found

    def _too_deep(self, program: TakenProgram) -> Iterator[TakenRung]:
        """The rungs with calls of Add-On Instructions that may open too many frames."""
        made = {key(t.routine.name): t for t in program.routines if t.made_of is not None}
        if not made:
            return
        depths = _depths(program)
        for routine in program.routines:
            if routine.made_of is None:
                for rung in routine.rungs:
                    called = rung.called().intersection(made)
                    if any(depths.get(key(routine.routine.name), 0) + _levels(name, made) > MAX_FRAMES for name in called):
                        yield rung

    @staticmethod
    def _drop_uncalled(program: TakenProgram) -> None:
        """Without the routines made for calls that aren't there."""
        made = {key(t.routine.name): t for t in program.routines if t.made_of is not None}
        met: set[str] = set()
        rest = [name for t in program.routines if t.made_of is None for name in t.called()]
        while rest:
            name = rest.pop()
            if name in made and name not in met:
                met.add(name)
                rest += made[name].called()
        program.routines = [t for t in program.routines if t.made_of is None or key(t.routine.name) in met]

    # ---- programs and tasks

    def _refuse_programs(self) -> bool:
        changed = False
        for program in list(self.programs):
            tasks = [t for t in self.tasks for n in t.programs if key(n) == key(program.program.name)]
            why = None
            if not program.main:
                why = "it has no main routine"
            elif not program.has(program.main):
                why = f"its main routine {shown(program.main)} isn't taken"
            elif not tasks:
                why = "no task that is taken schedules it (P7)"
            elif len(tasks) > 1:
                why = "tasks schedule it twice (P7)"
            if why is not None:
                self._drop(program, why)
                changed = True
        return changed

    def _drop(self, program: TakenProgram, why: str) -> None:
        self.findings.fault(program.where, why)
        self.programs.remove(program)
        self.tags.drop_program(program.program.name)

    def _refuse_tasks(self) -> bool:
        names = {key(p.program.name) for p in self.programs}
        changed = False
        for task in list(self.tasks):
            gone = [n for n in task.programs if key(n) not in names]
            task.programs = [n for n in task.programs if key(n) in names]
            for name in gone if task.programs else ():
                self.findings.fault(task.where, f"program {shown(name)} isn't taken")
            changed |= bool(gone)
            why = None if task.programs else "no program that is taken is scheduled in it"
            if why is None and self.tasks.index(task) >= MAX_TASKS:
                why = f"the project has {MAX_TASKS} tasks without it (P11)"
            if why is not None:
                self._drop_task(task, why)
                changed = True
        return changed

    def _drop_task(self, task: TakenTask, why: str) -> None:
        self.findings.fault(task.where, why)
        self.tasks.remove(task)
        for connection in self.connections:
            if connection.trigger is not None and key(connection.trigger) == key(task.task.name):
                connection.trigger = None

    def _refuse_long(self) -> bool:
        count = 0
        for program in self.programs:
            count += sum(routine.count for routine in program.routines)
            if count > MAX_PROJECT_INSTRUCTIONS:
                why = f"the project has over {MAX_PROJECT_INSTRUCTIONS:,} instructions with it (P11)"
                self._drop(program, why)
                return True
        return False


def _faults(rung: TakenRung, routines: set[str], events: set[str]) -> Iterator[str]:
    """What a rung names that isn't there."""
    for op, name in rung.refers:
        if op == "JSR" and key(name) not in routines:
            yield f"JSR: routine {name} isn't taken (C11)"
        if op == "EVENT" and key(name) not in events:
            yield f"EVENT: {name} is no event task that is taken (C15)"


def _depths(program: TakenProgram) -> dict[str, int]:
    """How many frames may be open in each of the program's own routines; of one that may call itself, too many."""
    calls = {key(t.routine.name): t.called() for t in program.routines if t.made_of is None}
    depths = {key(program.main): 1}
    ready = [key(program.main)]
    while ready:
        name = ready.pop()
        for called in calls.get(name, set()):
            depth = depths[name] + 1
            if called in calls and depth > depths.get(called, 0) and depths.get(called, 0) <= MAX_FRAMES:
                depths[called] = depth
                ready.append(called)
    return depths


def _levels(name: str, made: dict[str, TakenRoutine]) -> int:
    """How many frames a made routine and those that it calls open inside one another; they call none twice round."""
    return 1 + max((_levels(inner, made) for inner in made[name].called() if inner in made), default=0)
