"""What of an L5X file a project can have, and the project."""

from __future__ import annotations

from collections.abc import Callable, Iterator
from dataclasses import dataclass, field

from lib.texts import shown

from .definitions import Definitions
from .expanding import Expander
from .findings import Findings
from .model import Export, Program, Tag, Task
from .others import Others
from .profile import INTEGER_BITS, MAX_PROGRAMS, MAX_ROUTINES, MAX_WATCHES, NEW_NAMES, is_name, key
from .settling import Settling, TakenProgram
from .summary import summary
from .tags import Found, NameFault, Scope, Structure, Type
from .taking_ladder import Ladder, take_routines
from .taking_tags import Connection, Tags
from .taking_tasks import TakenTask, take_tasks
from .taking_types import take_types
from .words import Needed

Project = dict[str, object]
MADE_TASK = "MainTask"


@dataclass
class Options:
    tick_ms: int = 1
    watch: list[str] = field(default_factory=list)
    watch_all_bools: bool = False
    # Whether only a rung goes that can't be taken, and not its routine.
    by_rung: bool = False


@dataclass
class Taken:
    """The project without what can't be taken, if anything is left that runs; and what is said of it."""

    project: Project | None
    programs: list[TakenProgram]
    findings: Findings
    summary: list[str]


def take(export: Export, options: Options) -> Taken:
    return _Taking(export, options, Findings()).taken()


class _Taking:
    def __init__(self, export: Export, options: Options, findings: Findings) -> None:
        self._export = export
        self._options = options
        self._findings = findings
        self._programs: list[TakenProgram] = []
        self._tasks: list[TakenTask] = []
        self._connections: list[Connection] = []
        # The mnemonics of newer releases that were met.
        self._met: set[str] = set()

    def taken(self) -> Taken:
        export, findings, options = self._export, self._findings, self._options
        controller = export.controller
        if not is_name(controller):
            findings.fault("controller", f"its name {shown(controller) or '(none)'} is none of the profile (P5)")
            controller = "Controller"
        for part in export.encoded:
            findings.fault(part, "its content is encoded")
        for kind, count in export.passed.items():
            findings.note(f"passed over: {count:,} {kind}{'s' if count > 1 else ''}, which no run needs")
        considered = self._considered()
        needed = Needed(export, considered, options.watch)
        tags = list(self._all_tags(considered))
        self._types = take_types(export, (t.type for t in tags), (t.type for t in tags if needed.has(t)), findings)
        self._definitions = Definitions(export, self._types, options.tick_ms, findings, self._met)
        self._tags = Tags(self._types, findings, options.tick_ms)
        self._tags.take(export, considered, needed)
        scheduled = self._scheduled(considered)
        self._take_programs(considered, Others(considered, scheduled, self._tags, needed))
        self._tasks = take_tasks(scheduled, options.tick_ms, findings)
        self._connections = self._tags.connections()
        self._tie_triggers()
        Settling(self._programs, self._tasks, self._connections, self._tags, options.by_rung, findings).settle()
        self._note_expansions()
        project = self._written(controller) if self._tasks else None
        return Taken(project, self._programs, findings, summary(export, considered, self._programs, self._tags, findings))

    def _considered(self) -> list[Program]:
        """The programs that are the file's target, or have it inside; without those that are only folders."""
        programs, target = self._export.programs, self._export.target
        for folder in (p for p in programs if p.is_folder):
            self._findings.note(f"passed over: program {shown(folder.name)} is only a folder")
        programs = [p for p in programs if not p.is_folder]
        if target == "Controller":
            return programs
        if target == "Program":
            programs = [p for p in programs if p.is_target]
        else:
            programs = [p for p in programs if any(r.is_target for r in p.routines)]
        if not programs:
            self._findings.fault("file", f"it has no {target.lower()} whose Use is Target")
        return programs

    def _all_tags(self, considered: list[Program]) -> Iterator[Tag]:
        for tags in [self._export.tags, *(m.tags for m in self._export.modules), *(p.tags for p in considered)]:
            yield from tags

    # ---- programs

    def _take_programs(self, considered: list[Program], others: Others) -> None:
        names: set[str] = set()
        values = self._tags.first_values()
        for program in considered:
            where = f"program {shown(program.name)}"
            why = self._program_fault(program, names)
            names.add(key(program.name))
            if why is not None:
                self._findings.fault(where, why)
                self._tags.drop_program(program.name)
                self._programs = [p for p in self._programs if key(p.program.name) != key(program.name)]
                continue
            routines = take_routines(program, self._ladder(program, others, values))
            self._programs.append(TakenProgram(program, where, self._main(program), routines))

    def _ladder(self, program: Program, others: Others, values: dict[str, int]) -> Ladder:
        scope, options = self._tags.programs[key(program.name)], self._options
        names = {key(routine.name) for routine in program.routines}
        room = MAX_ROUTINES - len(program.routines)
        expander = Expander(self._definitions, scope, names, room, options.tick_ms, others.of(program))
        add_ons = self._definitions.names
        return Ladder(scope, values, add_ons, expander, options.tick_ms, options.by_rung, self._findings, self._met)

    def _program_fault(self, program: Program, earlier: set[str]) -> str | None:
        if not is_name(program.name):
            return "its name is none of the profile (P5)"
        if key(program.name) in earlier:
            return "the controller has the name twice (P6)"
        if program.fault is not None:
            return program.fault
        if len(self._programs) == MAX_PROGRAMS:
            return f"the project has {MAX_PROGRAMS} programs without it (P11)"
        return None

    def _main(self, program: Program) -> str:
        """Of a routine's export the main routine is its target."""
        if self._export.target != "Routine":
            return program.main
        main = next(r for r in program.routines if r.is_target).name
        if key(main) != key(program.main):
            self._findings.note(f"routine {shown(main)} runs as the main routine of its program")
        return main

    # ---- tasks

    def _scheduled(self, considered: list[Program]) -> list[Task]:
        """The file's tasks; in the export of a program or a routine one is made for what has none."""
        if self._export.target == "Controller":
            return self._export.tasks
        names = {key(p.name) for p in considered}
        tasks = [t for t in self._export.tasks if any(key(n) in names for n in t.programs)]
        for task in tasks:
            task.programs = [n for n in task.programs if key(n) in names]
        listed = {key(n) for t in tasks for n in t.programs}
        others = [p.name for p in considered if key(p.name) not in listed]
        if others:
            self._findings.note(f"the file schedules no {', '.join(map(shown, others))}: a continuous task does")
            continuous = [t for t in tasks if t.kind.upper() == "CONTINUOUS"]
            if continuous:
                continuous[0].programs += others
            else:
                name = MADE_TASK if MADE_TASK.lower() not in {key(t.name) for t in tasks} else "MadeTask"
                tasks.append(Task(name, "CONTINUOUS", programs=others))
        return tasks

    def _tie_triggers(self) -> None:
        """Ties each event task to the connection of its module's input."""
        for task in list(self._tasks):
            if task.trigger is None:
                continue
            why = self._tied(task)
            if why is not None:
                self._findings.fault(task.where, why)
                self._tasks.remove(task)

    def _tied(self, task: TakenTask) -> str | None:
        trigger = task.trigger or ""
        try:
            found = self._tags.controller.found(trigger, fixed=True)
        except NameFault as fault:
            return f"its trigger: {fault}"
        for connection in self._connections:
            if key(connection.tag.name) == found.tag and connection.tag.direction == "in":
                if connection.trigger is not None:
                    return f"its trigger {shown(trigger)} releases task {connection.trigger} too"
                connection.trigger = task.task.name
                return None
        return f"its trigger {shown(trigger)} is no input of a module"

    # ---- notes

    def _note_expansions(self) -> None:
        findings = self._findings
        if self._met:
            told = ", ".join(f"{name} as {NEW_NAMES[name]}" for name in NEW_NAMES if name in self._met)
            findings.note(f"the mnemonics of a newer release are taken as what they were: {told}")
        used: set[str] = set()
        for program in self._programs:
            for routine, made in ((t, t.made_of) for t in program.routines if t.made_of is not None):
                caller = next(rung for t in program.routines for rung in t.rungs if key(routine.routine.name) in rung.called())
                told = f"{made.definition}({shown(made.instance)})"
                findings.note(f"{caller.place}: {told} is made into routine {routine.routine.name}")
                used.add(key(made.definition))
        if used:
            findings.note("each call of an Add-On Instruction takes the processor steps of its expansion (docs/L5X.md, section 4)")
            self._note_defaults(used)

    def _note_defaults(self, used: set[str]) -> None:
        """Whose local tags begin with the definition's values."""
        for name in sorted(used):
            add_on = self._export.add_on_of[name]
            if any(key(tag.name) not in add_on.told for tag in add_on.local_tags):
                why = "the file tells no others in decorated data"
                self._findings.note(f"local tags of {shown(add_on.name)} begin with the values of its definition: {why}")

    # ---- watched places

    def _watched(self) -> list[str]:
        texts: dict[str, str] = {}
        for text in self._options.watch:
            try:
                found = self._place(text)
                if found.of.dim is not None or (found.of.base != "BOOL" and found.of.base not in INTEGER_BITS):
                    raise NameFault(f"{shown(text)} is no BOOL, no bit and no integer (P5)")
                texts.setdefault(key(text), text)
            except NameFault as fault:
                self._findings.fault(f"watch {shown(text)}", str(fault))
        if self._options.watch_all_bools:
            for text in self._bools():
                texts.setdefault(key(text), text)
        if len(texts) > MAX_WATCHES:
            self._findings.note(f"of {len(texts):,} watched places the first {MAX_WATCHES} are taken")
        return list(texts.values())[:MAX_WATCHES]

    def _place(self, text: str) -> Found:
        """What a watched text names; `Program:NAME.` before it tells the program that it is seen from."""
        scope: Scope | None = self._tags.controller
        if text.startswith("Program:") and "." in text:
            name, _, text = text.removeprefix("Program:").partition(".")
            scope = self._tags.programs.get(key(name))
            if scope is None:
                raise NameFault(f"program {shown(name)} isn't taken")
        return scope.found(text, fixed=True)

    def _bools(self) -> Iterator[str]:
        for taken in self._tags.kept():
            if taken.scope.found(taken.tag.name).of == Type("BOOL"):
                yield taken.front + taken.tag.name

    # ---- the project

    def _written(self, controller: str) -> Project:
        watch = self._watched()
        parts: Project = {
            "schema": 2,
            "controller": controller,
            "types": [_type_object(s, self._type_name) for s in self._types.written()],
            "tags": self._tag_objects(self._tags.controller),
            "programs": [self._program_object(p) for p in self._programs],
            "tasks": [_task_object(t) for t in self._tasks],
            "connections": [_connection_object(c) for c in self._connections],
            "initial": [{"tag": text, "value": number} for text, number in self._tags.initial()],
            "watch": watch,
        }
        return {name: part for name, part in parts.items() if part != []}

    def _type_name(self, base: str) -> str:
        structure = self._types.structures.get(key(base))
        return structure.name if structure else base

    def _tag_objects(self, scope: Scope) -> list[dict[str, object]]:
        found = []
        for taken in self._tags.taken:
            if taken.scope is not scope:
                continue
            if taken.of is None:
                found.append({"name": taken.tag.name, "alias": taken.tag.alias_for})
            else:
                found.append({"name": taken.tag.name, **_typed(taken.of, self._type_name)})
        return found

    def _program_object(self, program: TakenProgram) -> dict[str, object]:
        name = program.program.name
        routines = [{"name": t.routine.name, "rungs": [rung.text for rung in t.rungs]} for t in program.routines]
        tags = self._tag_objects(self._tags.programs[key(name)])
        return {"name": name, "main": program.main, **({"tags": tags} if tags else {}), "routines": routines}


def _typed(of: Type, type_name: Callable[[str], str]) -> dict[str, object]:
    return {"type": type_name(of.base), **({} if of.dim is None else {"dim": of.dim})}


def _type_object(structure: Structure, type_name: Callable[[str], str]) -> dict[str, object]:
    members = [{"name": name, **_typed(of, type_name)} for name, of in structure.members]
    return {"name": structure.name, "members": members}


def _task_object(task: TakenTask) -> dict[str, object]:
    found: dict[str, object] = {"name": task.task.name, "kind": task.kind}
    if task.priority is not None:
        found["priority"] = task.priority
    if task.period is not None:
        found["period"] = task.period
    found["watchdog"] = task.watchdog
    if task.task.is_inhibited:
        found["inhibited"] = True
    return {**found, "programs": task.programs}


def _connection_object(connection: Connection) -> dict[str, object]:
    tag = connection.tag
    found: dict[str, object] = {"name": connection.name, "tag": tag.name, "direction": tag.direction}
    return found if connection.trigger is None else {**found, "trigger": connection.trigger}
