"""The definitions of Add-On Instructions: which of them calls can be taken of."""

from __future__ import annotations

from collections.abc import Iterator

from lib.neutral import Instruction, instructions
from lib.texts import shown

from .calls import ENABLE_IN, ENABLE_OUT, CallFault, Definition, judged
from .checking import layout_note, operand_faults, times_named
from .copies import copy_fault, passed_ends
from .findings import Findings
from .flags import loose_flags
from .ladder_text import Unknown, label_faults, text_of, with_blanks
from .model import AddOn, Export, Rung, Tag
from .profile import MAX_RUNGS, OPERANDS, key
from .rungs import RungFault, names_called, unknown_told
from .tags import Entry, NameFault, Scope, Type, form
from .taking_types import TypeFault, Types, type_key

# With the main routine's a project opens so many frames inside one another.
MAX_FRAMES = 25
_LOGIC = "logic"
_BARRED = {
    "JSR": "isn't one of an Add-On Instruction", "SBR": "isn't one of an Add-On Instruction",
    "RET": "isn't one of an Add-On Instruction", "EVENT": "isn't one of an Add-On Instruction",
    "TND": "what it ends there isn't told by 1756-PM010", "MCR": "what its zones are there isn't told by 1756-PM010",
}  # fmt: skip


class Definitions:
    """Each is judged once, the innermost first; its faults are told if something calls it."""

    def __init__(self, export: Export, types: Types, tick_ms: int, findings: Findings, met: set[str]) -> None:
        # By the names as compared, as they are spelled.
        self.names = {name: add_on.name for name, add_on in export.add_on_of.items()}
        self.found: dict[str, Definition] = {}
        self._types = types
        self._tick_ms = tick_ms
        self._findings = findings
        self._met = met
        for add_on in export.add_ons:
            if add_on.name.upper() in OPERANDS:
                add_on.faults.append("an instruction of the table has its name")
            if export.add_on_of[key(add_on.name)] is not add_on:
                export.add_on_of[key(add_on.name)].faults.append("the file defines it twice")
        calls = {name: _called_in(add_on) & set(self.names) for name, add_on in export.add_on_of.items()}
        order = list(_inner_first(calls))
        for name in order:
            self._take(name, export.add_on_of[name])
        for name in set(self.names).difference(order):
            export.add_on_of[name].faults.append("it calls itself, or one that does")
            self._take(name, export.add_on_of[name])

    def _take(self, name: str, add_on: AddOn) -> None:
        if name in self._types.structures:
            definition = Definition(add_on, Scope(self._types.structures, lacks="it has no parameter or local tag"))
            self.found[name] = definition
            _Judge(definition, self).judge()
        else:
            for why in add_on.faults:
                self._findings.spare(type_key(name), f"Add-On Instruction {shown(add_on.name)}", why)


def _called_in(add_on: AddOn) -> set[str]:
    texts = (rung.text or "" for routine in add_on.routines for rung in routine.rungs)
    return {key(name) for text in texts for name in names_called(text)}


def _inner_first(calls: dict[str, set[str]]) -> Iterator[str]:
    """The names, each after those that it calls; without those of a circle, and what calls these."""
    missing = {name: set(inner) for name, inner in calls.items()}
    callers: dict[str, list[str]] = {}
    for name, inner in missing.items():
        for called in inner:
            callers.setdefault(called, []).append(name)
    ready = [name for name, inner in missing.items() if not inner]
    for name in ready:
        yield name
        for caller in callers.get(name, ()):
            missing[caller].discard(name)
            if not missing[caller]:
                ready.append(caller)


class _Judge:
    def __init__(self, definition: Definition, all_of_them: Definitions) -> None:
        self._definition = definition
        self._all = all_of_them
        self._add_on = definition.add_on
        self._where = f"Add-On Instruction {shown(self._add_on.name)}"
        self._values: dict[str, int] = {}
        # Parameters and local tags that aren't taken, and are named.
        self._missed: set[str] = set()

    def judge(self) -> None:
        for why in self._add_on.faults:
            self._fault(self._where, why)
        self._declare()
        logic = [routine for routine in self._add_on.routines if key(routine.name) == _LOGIC]
        if len(logic) != 1 or logic[0].is_encoded or logic[0].kind != "RLL" or not logic[0].has_ladder:
            if self._definition.is_sound:
                kind = logic[0].kind if len(logic) == 1 else ""
                told = f" of the type {shown(kind, 30)}" if kind not in ("", "RLL") else ""
                self._fault(self._where, f"its Logic{told} isn't ladder that the file has")
            return
        if len(logic[0].rungs) > MAX_RUNGS:
            self._fault(self._where, f"its Logic has {len(logic[0].rungs):,} rungs; it may have {MAX_RUNGS:,} (P11)")
            return
        for rung in logic[0].rungs:
            place = f"{self._where} rung {shown(rung.number, 12)}"
            try:
                self._read(rung, place)
            except (RungFault, CallFault) as fault:
                self._fault(place, str(fault))
        for number, why in label_faults([instructions(found) for _, found in self._definition.rungs]):
            self._fault(f"{self._where} rung {number}", why)
        left_out = self._definition.scope.left_out
        for tag in [*self._add_on.parameters, *self._add_on.local_tags]:
            if key(tag.name) in self._missed:
                self._fault(self._where, f"{shown(tag.name)}: {left_out[key(tag.name)]}", tag.type)
            elif key(tag.name) in left_out:
                self._all._findings.note(f"passed over: {self._where}: {shown(tag.name)}: {left_out[key(tag.name)]}")

    def _fault(self, place: str, why: str, because: str | None = None) -> None:
        self._definition.is_sound = False
        of = type_key(self._add_on.name)
        self._all._findings.spare(of, place, why, [type_key(because)] if because else [])

    # ---- parameters and local tags

    def _declare(self) -> None:
        definition, scope = self._definition, self._definition.scope
        enabling = {ENABLE_IN: "Input", ENABLE_OUT: "Output"}
        for k, tag in enumerate([*self._add_on.parameters, *self._add_on.local_tags]):
            is_parameter = k < len(self._add_on.parameters)
            if is_parameter and tag.usage not in ("Input", "Output", "InOut"):
                self._fault(self._where, f"parameter {shown(tag.name)} has the Usage {shown(tag.usage, 30) or 'none'}")
            is_wanted = is_parameter and (tag.usage == "InOut" or tag.is_required)
            try:
                of = self._type(tag)
                scope.declare(Entry(tag.name, of))
                self._values |= {key(tag.name + value.place): value.number for value in tag.values}
                if enabling.get(key(tag.name)) == tag.usage and of == Type("BOOL"):
                    del enabling[key(tag.name)]
                if is_wanted and tag.usage != "InOut" and (of.dim is not None or key(of.base) in self._all._types.structures):
                    raise TypeFault("an array or a structure that isn't InOut")
            except TypeFault as fault:
                scope.left_out[key(tag.name)] = str(fault)
                if is_wanted:
                    self._missed.add(key(tag.name))
                continue
            definition.types[key(tag.name)] = of
            if tag.usage == "InOut":
                definition.in_outs.add(key(tag.name))
        named = (t for t in self._add_on.parameters if key(t.name) not in (ENABLE_IN, ENABLE_OUT))
        definition.wanted = [t for t in named if t.usage == "InOut" or t.is_required]
        scope.told = lambda of: self._missed.add(of.partition(":")[2])
        if enabling:
            self._fault(self._where, "it has no EnableIn and EnableOut")

    def _type(self, tag: Tag) -> Type:
        left_out = self._all._types.add_ons.get(key(self._add_on.name), {})
        if tag.usage != "InOut" and key(tag.name) in left_out:
            raise TypeFault(left_out[key(tag.name)].partition(": ")[2])
        if tag.alias_for is not None:
            raise TypeFault("an alias")
        return self._all._types.of(tag.type, tag.dimensions)

    # ---- rungs

    def _read(self, rung: Rung, place: str) -> None:
        definition = self._definition
        try:
            text = text_of(rung, self._all.names, self._all._met)
        except Unknown as unknown:
            for name in unknown.args[0]:
                self._fault(place, unknown_told(name))
            return
        text, found = with_blanks(text, self._all.names, definition.scope, self._values)
        for instruction in instructions(found):
            if instruction.is_call:
                self._judge_call(instruction, place)
            else:
                self._judge(instruction, place)
        for instruction in loose_flags(found):
            self._fault(place, f"{instruction.op}: what the flag is at the call isn't told by 1756-PM010")
        definition.rungs.append((text, found))

    def _judge(self, instruction: Instruction, place: str) -> None:
        op, definition = instruction.op, self._definition
        if op in _BARRED:
            self._fault(place, f"{op}: {_BARRED[op]}")
            return
        faults = operand_faults(instruction, definition.scope)
        for text in times_named(instruction, definition.scope) if self._all._tick_ms != 1 else ():
            faults.append(f"{shown(text)} is in milliseconds, and a tick has {self._all._tick_ms}")
        if not faults:
            self._note_arrays(instruction)
            why = copy_fault(instruction, definition, self._all._types.structures)
            faults += [] if why is None else [why]
            definition.to_end |= passed_ends(instruction, definition, self._all._types.structures)
        for why in dict.fromkeys(faults):
            self._fault(place, why)
        note = None if faults else layout_note(instruction, definition.scope)
        if note is not None:
            self._all._findings.note(f"{place}: {note}")

    def _note_arrays(self, instruction: Instruction) -> None:
        """Which InOut arrays have a variable subscript, or are meant as a whole."""
        for text in instruction.operands if OPERANDS[instruction.op] else ():
            try:
                found = self._definition.scope.found(text)
            except NameFault:
                continue
            if "[]" in found.place or found.of.dim is not None:
                self._definition.indexed.add(key(form(text).tag))

    def _judge_call(self, instruction: Instruction, place: str) -> None:
        inner = self._all.found.get(instruction.op)
        definition = self._definition
        if inner is None or not inner.is_sound:
            self._fault(place, f"{shown(self._all.names[instruction.op], 40)}: an Add-On Instruction that isn't taken", instruction.op)
            return
        call = judged(instruction, inner, definition.scope, lambda _: None)
        definition.levels = max(definition.levels, 1 + inner.levels)
        definition.routines += inner.routines
        if definition.levels > MAX_FRAMES - 1:
            self._fault(place, f"{shown(inner.add_on.name)}: its calls open more than {MAX_FRAMES} frames")
        for tag, text in call.arguments:
            if tag.usage == "InOut":
                self._pass_on(form(text).tag, tag, inner)

    def _pass_on(self, name: str, tag: Tag, inner: Definition) -> None:
        """What matters of the inner InOut parameter matters of what is given for it."""
        for ours, theirs in ((self._definition.to_end, inner.to_end), (self._definition.indexed, inner.indexed)):
            if key(tag.name) in theirs:
                ours.add(key(name))
