"""The expansion of Add-On Instructions: each place that calls one gets a routine, and the call becomes rung text (docs/L5X.md, section 4).

Names of made routines hang on the definition, the instance, and the place among the calls of both in the calling routine, by a sum of
these; so they stay as long as these do.
"""

from __future__ import annotations

import hashlib
import re
from collections.abc import Iterator
from dataclasses import dataclass

from lib.neutral import Element, Instruction, instructions
from lib.texts import shown

from .calls import ENABLE_IN, ENABLE_OUT, Call, CallFault, MayChange, judged
from .checking import operand_faults, times_named
from .definitions import Definitions
from .model import Routine
from .profile import BLANK, COUNT, FLAGS, LABEL, MAX_NAME_BYTES, MAX_ROUTINE_INSTRUCTIONS, MAX_RUNG_BYTES, OWN_LABEL, ROUTINE, TASK
from .profile import is_name, key, number, operand_kinds
from .rungs import RungFault, elements
from .tags import NameFault, Scope, Type, form, spelled

_NO_DATA = (BLANK, COUNT, LABEL, OWN_LABEL, ROUTINE, TASK)
_SUM_DIGITS = (4, 8, 16)


@dataclass(eq=False)
class Made:
    """A routine that a call is expanded into."""

    routine: Routine
    definition: str
    instance: str
    rungs: list[tuple[str, list[Element]]]


class Expander:
    """Of one program; it knows the names that its routines have."""

    def __init__(self, definitions: Definitions, scope: Scope, names: set[str], room: int, tick_ms: int, may_change: MayChange) -> None:
        self._definitions = definitions
        self._scope = scope
        self._names = names
        self._room = room
        self._tick_ms = tick_ms
        self._may_change = may_change
        self.made: dict[str, Made] = {}
        self._is_met: dict[str, int] = {}

    def expanded(self, text: str, found: list[Element], caller: str) -> str:
        """The rung's text without calls; CallFault if one can't be taken, and then no routine is made for any of them."""
        before = dict(self.made)
        try:
            return self._expanded(text, found, caller)
        except (CallFault, RungFault):
            self.made = before
            raise

    def _expanded(self, text: str, found: list[Element], caller: str) -> str:
        parts, at = [], 0
        for instruction in instructions(found):
            if instruction.is_call:
                parts += [text[at : instruction.at], self._call(instruction, caller)]
                at = instruction.end
        text = "".join([*parts, text[at:]])
        if len(text) > MAX_RUNG_BYTES:
            raise CallFault(f"with its calls expanded the rung has more than {MAX_RUNG_BYTES:,} bytes (P5)")
        return text

    def _call(self, instruction: Instruction, caller: str) -> str:
        definition = self._definitions.found.get(instruction.op)
        if definition is None:
            raise CallFault(f"{shown(self._definitions.names[instruction.op], 40)}: {self._why(instruction)}")
        call = judged(instruction, definition, self._scope, self._may_change)
        if len(self.made) + definition.routines > self._room:
            raise CallFault(f"{shown(definition.add_on.name)}: its program would have too many routines with those of the call (P11)")
        name = self._name(call, caller)
        self.made[key(name)] = made = Made(Routine(name, "RLL"), definition.add_on.name, call.instance, [])
        try:
            self._make(call, made)
        except CallFault as fault:
            raise CallFault(f"{shown(definition.add_on.name)}: {fault}") from None
        return "".join(_parts(call, name))

    def _why(self, instruction: Instruction) -> str:
        """Why no tag that is taken is an instance of what is called."""
        try:
            self._scope.found(instruction.operands[0] if instruction.operands else "")
        except NameFault as fault:
            return str(fault)
        return "an Add-On Instruction that isn't taken"

    # ---- names

    def _name(self, call: Call, caller: str) -> str:
        """One that no routine of the program has."""
        front = f"{call.definition.add_on.name}_{re.sub(r'[^A-Za-z0-9]', '_', call.instance)}"
        what = f"{key(caller)}/{key(call.definition.add_on.name)}/{key(call.instance)}"
        count = self._is_met[what] = self._is_met.get(what, 0) + 1
        total = hashlib.sha256(f"{what}/{count}".encode()).hexdigest()
        for digits in _SUM_DIGITS:
            plain = re.sub(r"_+", "_", front)[: MAX_NAME_BYTES - digits - 1].rstrip("_")
            name = f"{plain}_{total[:digits]}"
            if key(name) not in self._names and key(name) not in self.made and is_name(name):
                return name
        raise CallFault("no name is free for its routine")

    # ---- the routine

    def _make(self, call: Call, made: Made) -> None:
        count = 0
        for k, (text, found) in enumerate(call.definition.rungs):
            text = _substituted(text, found, call)
            try:
                if any(i.is_call for i in instructions(found)):
                    text = self._expanded(text, elements(text, self._definitions.names), made.routine.name)
                rung = elements(text)
            except RungFault as fault:
                raise CallFault(f"rung {k} of its Logic: {fault}") from None
            self._judge(text, rung, k)
            made.rungs.append((text, rung))
            count += len(instructions(rung))
        if count > MAX_ROUTINE_INSTRUCTIONS:
            raise CallFault(f"its Logic has {count:,} instructions; it may have {MAX_ROUTINE_INSTRUCTIONS:,} (C16)")

    def _judge(self, text: str, rung: list[Element], k: int) -> None:
        """What is wrong only with this instance and these arguments."""
        if len(text) > MAX_RUNG_BYTES:
            raise CallFault(f"rung {k} of its Logic has more than {MAX_RUNG_BYTES:,} bytes with this instance (P5)")
        for instruction in instructions(rung):
            faults = operand_faults(instruction, self._scope)
            faults += times_named(instruction, self._scope) if self._tick_ms != 1 else []
            if faults:
                raise CallFault(f"rung {k} of its Logic: {faults[0]}")


def _parts(call: Call, name: str) -> Iterator[str]:
    """What a call becomes: the condition in, inputs, the routine, outputs, and the condition out."""
    enable_in, enable_out = (f"{call.instance}.{call.definition.spelled(end)}" for end in (ENABLE_IN, ENABLE_OUT))
    yield f"OTE({enable_in})OTE({enable_out})"
    for tag, text in call.arguments:
        if tag.usage == "Input":
            yield _moved(text, f"{call.instance}.{tag.name}", call.definition.types[key(tag.name)])
    yield f"JSR({name},0)"
    for tag, text in call.arguments:
        if tag.usage == "Output":
            yield _moved(f"{call.instance}.{tag.name}", text, call.definition.types[key(tag.name)])
    yield f"XIC({enable_out})"


def _moved(source: str, target: str, of: Type) -> str:
    if of.base != "BOOL":
        return f"MOV({source},{target})"
    constant = number(source)
    if constant is not None:
        return f"{'OTL' if constant else 'OTU'}({target})"
    return f"[XIC({source})OTL({target}),XIO({source})OTU({target}),NOP()]"


def _substituted(text: str, found: list[Element], call: Call) -> str:
    """The text with members of the instance for parameters and local tags, and with the arguments for InOut parameters."""
    given = {key(tag.name): argument for tag, argument in call.arguments if tag.usage == "InOut"}

    def named(name: str) -> str:
        return given.get(key(name)) or f"{call.instance}.{name}"

    parts, at = [], 0
    for instruction in instructions(found):
        kinds = None if instruction.is_call else operand_kinds(instruction.op, instruction.operands)
        for k, (operand, place) in enumerate(zip(instruction.operands, instruction.places)):
            if kinds is not None and kinds[k] in _NO_DATA or operand in FLAGS or operand == "?" or number(operand) is not None:
                continue
            parts += [text[at:place], spelled(form(operand), named)]
            at = place + len(operand)
    return "".join([*parts, text[at:]])


