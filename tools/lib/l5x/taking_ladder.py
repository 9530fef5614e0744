"""Which routines a project can have: each whole, or without the rungs that it can't have."""

from __future__ import annotations

from collections.abc import Iterable
from dataclasses import dataclass, field

from lib.neutral import Element, Instruction, instructions
from lib.texts import shown

from .calls import CallFault
from .checking import layout_note, operand_faults, times_named
from .expanding import Expander, Made
from .findings import Findings
from .flags import loose_flags
from .ladder_text import Unknown, label_faults, text_of, with_blanks
from .model import Program, Routine, Rung
from .profile import MAX_ROUTINE_INSTRUCTIONS, MAX_ROUTINES, MAX_RUNGS, key
from .profile import is_name
from .rungs import RungFault, elements, names_called, unknown_told
from .tags import Scope
from .taking_types import type_key

EMPTY_RUNG = "NOP();"
# What other rungs hang on.
_BINDING = ("MCR", "UID", "UIE", "SBR", "RET", "JMP", "LBL", "TND")


@dataclass(eq=False)
class TakenRung:
    place: str
    text: str
    found: list[Element]
    # The instructions that read a flag which the rung, as the file has it, hasn't set before.
    loose: list[str] = field(default_factory=list)
    is_left_out: bool = False
    # The routines and the event tasks that it names, each with the instruction that does.
    refers: list[tuple[str, str]] = field(init=False)

    def __post_init__(self) -> None:
        self.refers = [(i.op, i.operands[0]) for i in self.instructions if i.op in ("JSR", "EVENT") and i.operands]

    @property
    def instructions(self) -> list[Instruction]:
        return instructions(self.found)

    def called(self) -> set[str]:
        return {key(name) for op, name in self.refers if op == "JSR"}

    def empty(self) -> None:
        """Leaves an empty rung in its place."""
        self.text, self.found, self.loose, self.refers, self.is_left_out = EMPTY_RUNG, elements(EMPTY_RUNG), [], [], True


@dataclass(eq=False)
class TakenRoutine:
    routine: Routine
    where: str
    rungs: list[TakenRung] = field(default_factory=list)
    # Of a routine that a call of an Add-On Instruction is expanded into, what it was.
    made_of: Made | None = None

    @property
    def count(self) -> int:
        return sum(len(rung.instructions) for rung in self.rungs)

    def called(self) -> set[str]:
        return {name for rung in self.rungs for name in rung.called()}


@dataclass(eq=False)
class Ladder:
    """What the rungs of a program are judged against."""

    scope: Scope
    values: dict[str, int]
    # The names of Add-On Instructions as they are spelled, by these as compared.
    add_ons: dict[str, str]
    expander: Expander
    tick_ms: int
    # Whether only a rung goes that can't be taken.
    by_rung: bool
    findings: Findings
    # The mnemonics of newer releases that were met.
    met: set[str]
    # What is wrong with the operands of an instruction, by its text.
    judged: dict[tuple[str, ...], list[str]] = field(default_factory=dict)

    def faults(self, instruction: Instruction) -> list[str]:
        text = (instruction.op, *instruction.operands)
        if text not in self.judged:
            self.judged[text] = operand_faults(instruction, self.scope)
        return self.judged[text]


def take_routines(program: Program, ladder: Ladder) -> list[TakenRoutine]:
    """The routines without a fault of their own, and then those that calls are expanded into; whom they call is judged later."""
    taken: list[TakenRoutine] = []
    names: set[str] = set()
    for routine in program.routines:
        where = f"program {shown(program.name)} routine {shown(routine.name)}"
        why = _routine_fault(routine, program, names)
        names.add(key(routine.name))
        if why is None and len(taken) == MAX_ROUTINES:
            why = f"its program has {MAX_ROUTINES} routines without it (P11)"
        if why is not None:
            ladder.findings.fault(where, why)
            taken = [t for t in taken if key(t.routine.name) != key(routine.name)]
            continue
        found = _Routine(routine, where, ladder).taken()
        if found is not None:
            taken.append(found)
    return taken + [_of_made(made, program) for made in ladder.expander.made.values()]


def _of_made(made: Made, program: Program) -> TakenRoutine:
    where = f"program {shown(program.name)} routine {made.routine.name}"
    rungs = [TakenRung(f"{where} rung {k}", text, found) for k, (text, found) in enumerate(made.rungs)]
    return TakenRoutine(made.routine, where, rungs, made)


def _routine_fault(routine: Routine, program: Program, earlier: set[str]) -> str | None:
    if not is_name(routine.name):
        return "its name is none of the profile (P5)"
    if key(routine.name) in earlier:
        return "its program has the name twice (P6)"
    if routine.is_encoded:
        return "its content is encoded"
    if routine.kind != "RLL":
        return f"a routine of the type {shown(routine.kind, 30) or 'none'}; only ladder (RLL) is taken"
    if key(routine.name) == key(program.fault_routine):
        return "a fault routine"
    if not routine.has_ladder:
        return "its rungs aren't in the file"
    if len(routine.rungs) > MAX_RUNGS:
        return f"it has {len(routine.rungs):,} rungs; it may have {MAX_RUNGS:,} (P11)"
    return None


def refuse(rung: TakenRung, why: str, findings: Findings) -> None:
    """Lists the rung, and leaves an empty one in its place."""
    findings.fault(rung.place, why)
    _note_bound(rung.place, (i.op for i in rung.instructions), findings)
    rung.empty()


def _note_bound(place: str, names: Iterable[str], findings: Findings) -> None:
    bound = dict.fromkeys(name.upper() for name in names if name.upper() in _BINDING)
    if bound:
        findings.note(f"{place}: {', '.join(bound)} goes with it, on which other rungs hang")


def refuse_labels(routine: TakenRoutine, by_rung: bool, findings: Findings) -> bool:
    """Lists what is wrong with labels; whether something was. Without a rung others may lack a label."""
    met = False
    while True:
        faults = label_faults([rung.instructions for rung in routine.rungs])
        for number, why in faults:
            if by_rung:
                refuse(routine.rungs[number], why, findings)
            else:
                findings.fault(routine.rungs[number].place, why)
        met |= bool(faults)
        if not (faults and by_rung):
            return met


class _Routine:
    def __init__(self, routine: Routine, where: str, ladder: Ladder) -> None:
        self._ladder = ladder
        self._findings = ladder.findings
        self._found = TakenRoutine(routine, where)
        self._is_whole = True

    def taken(self) -> TakenRoutine | None:
        ladder, before = self._ladder, dict(self._ladder.expander.made)
        for rung in self._found.routine.rungs:
            self._take(rung, f"{self._found.where} rung {shown(rung.number, 12)}")
        if self._is_whole:
            self._is_whole = not refuse_labels(self._found, ladder.by_rung, ladder.findings) or ladder.by_rung
        if self._is_whole:
            self._judge_length()
        if not self._is_whole:
            ladder.expander.made = before
        return self._found if self._is_whole else None

    def _take(self, rung: Rung, place: str) -> None:
        faults: list[str] = []
        before = dict(self._ladder.expander.made)
        try:
            taken = self._read(rung, place)
            faults = self._faults(taken.found, place)
            if not faults:
                self._found.rungs.append(taken)
                return
        except Unknown as unknown:
            for name in unknown.args[0]:
                self._findings.unknown_at(place, name, unknown_told(name))
        except (RungFault, CallFault) as fault:
            faults = [str(fault)]
        for why in faults:
            self._findings.fault(place, why)
        self._ladder.expander.made = before
        if self._ladder.by_rung:
            _note_bound(place, names_called(rung.text or ""), self._findings)
            self._found.rungs.append(TakenRung(place, EMPTY_RUNG, elements(EMPTY_RUNG), is_left_out=True))
        else:
            self._is_whole = False

    def _read(self, rung: Rung, place: str) -> TakenRung:
        """The rung as the project has it, with its calls expanded."""
        ladder = self._ladder
        text = text_of(rung, ladder.add_ons, ladder.met)
        text, found = with_blanks(text, ladder.add_ons, ladder.scope, ladder.values)
        loose = [i.op for i in loose_flags(found)]
        calls = [i for i in instructions(found) if i.is_call]
        if calls:
            try:
                text = ladder.expander.expanded(text, found, self._found.routine.name)
            except CallFault:
                for call in calls:
                    ladder.findings.named(type_key(call.op))
                    ladder.findings.count_unknown(place, ladder.add_ons[call.op])
                raise
            found = elements(text)
        return TakenRung(place, text, found, loose)

    def _faults(self, found: list[Element], place: str) -> list[str]:
        faults: list[str] = []
        for instruction in instructions(found):
            faults += (mine := self._ladder.faults(instruction))
            note = None if mine else layout_note(instruction, self._ladder.scope)
            if note is not None:
                self._findings.note(f"{place}: {note}")
            if self._ladder.tick_ms != 1:
                for text in times_named(instruction, self._ladder.scope):
                    faults.append(f"{shown(text)} is in milliseconds, and a tick has {self._ladder.tick_ms}")
        return faults

    def _judge_length(self) -> None:
        if self._found.count > MAX_ROUTINE_INSTRUCTIONS:
            why = f"it has {self._found.count:,} instructions; it may have {MAX_ROUTINE_INSTRUCTIONS:,} (C16)"
            self._findings.fault(self._found.where, why)
            self._is_whole = False
