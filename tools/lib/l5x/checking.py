"""Whether the operands of an instruction are what it takes (docs/FORMATS.md, section 9)."""

from __future__ import annotations

from lib.neutral import Instruction
from lib.texts import shown

from .profile import BIT, BIT_OR_FLAG, BLANK, COUNT, COUNTER, FILLED, FLAGS, INTEGER, INTEGER_BITS
from .profile import LABEL, NUMBER, OWN_LABEL, ROUTINE, SOURCE, TARGET, TASK, TIMER, TIMER_OR_COUNTER
from .profile import is_name, number, operand_kinds, parameter_count
from .tags import Found, NameFault, Scope, Type

_WANTED = {
    BIT: "a bit", BIT_OR_FLAG: "a bit or a flag", INTEGER: "an integer's place",
    NUMBER: "an integer or a number", TIMER: "a timer", COUNTER: "a counter",
    TIMER_OR_COUNTER: "a timer or a counter", SOURCE: "a place to copy from",
    TARGET: "a place to copy to", FILLED: "integers to fill", BLANK: "?",
}  # fmt: skip


def operand_faults(instruction: Instruction, scope: Scope) -> list[str]:
    """What is wrong with the operands that are data, and with the form of those that are names."""
    kinds = operand_kinds(instruction.op, instruction.operands)
    if kinds is None and any(text.count("[") > text.count("]") for text in instruction.operands):
        return [f"{instruction.op}: a subscript of several dimensions (C1)"]
    if kinds is None:
        return [f"{instruction.op} has {len(instruction.operands)} operands (C1)"]
    faults = (_fault(kind, text, scope) for kind, text in zip(kinds, instruction.operands))
    return [f"{instruction.op}: {fault}" for fault in faults if fault is not None]


def times_named(instruction: Instruction, scope: Scope) -> list[str]:
    """The operands that are a timer's PRE or ACC."""
    found = []
    for text in instruction.operands:
        try:
            if scope.found(text).is_time:
                found.append(text)
        except NameFault:
            pass
    return found


def layout_note(instruction: Instruction, scope: Scope) -> str | None:
    """What to know of a copy between types, where a structure or a timer lies otherwise than in the real controller."""
    if instruction.op not in ("COP", "CPS"):
        return None
    source, target = (scope.found(text).of.base for text in instruction.operands[:2])
    if source == target or all(base in INTEGER_BITS or base == "COUNTER" for base in (source, target)):
        return None
    return f"{instruction.op} from {shown(source, 40)} to {shown(target, 40)} goes by the layout of docs/FORMATS.md"


def _fault(kind: str, text: str, scope: Scope) -> str | None:
    if kind in (ROUTINE, LABEL, OWN_LABEL, TASK):
        return None if is_name(text) else f"{shown(text)} is no name (C2)"
    if kind == COUNT:
        return None if parameter_count(text) is not None else f"{shown(text)} is no count (C2)"
    if kind == BLANK and text == "?":
        return None
    if text in FLAGS:
        return None if kind == BIT_OR_FLAG else _no_place(kind, text)
    value = number(text)
    if value is not None:
        return _number_fault(kind, text, value)
    try:
        found = scope.found(text)
    except NameFault as fault:
        return str(fault)
    if _is_wanted(kind, found):
        return None
    return f"{shown(text)} is {_told(found.of)}, where {_WANTED[kind]} is wanted (C2)"


def _number_fault(kind: str, text: str, value: int | str) -> str | None:
    if kind != NUMBER:
        return _no_place(kind, text)
    return f"{shown(text)} needs more than 32 bits (C10)" if value == "outside" else None


def _no_place(kind: str, text: str) -> str:
    code = "C3" if kind in (BIT, INTEGER, TARGET, FILLED) else "C2"
    return f"{shown(text)} where {_WANTED[kind]} is wanted ({code})"


def _is_wanted(kind: str, found: Found) -> bool:
    base, is_array = found.of.base, found.of.dim is not None
    if kind in (SOURCE, TARGET):
        return base != "BOOL"
    if kind == FILLED:
        return base in INTEGER_BITS
    if is_array:
        return False
    if kind in (BIT, BIT_OR_FLAG):
        return base == "BOOL"
    if kind in (INTEGER, NUMBER):
        return base in INTEGER_BITS
    return {TIMER: base == "TIMER", COUNTER: base == "COUNTER"}.get(
        kind, kind == TIMER_OR_COUNTER and base in ("TIMER", "COUNTER")
    )


def _told(of: Type) -> str:
    return f"a {shown(of.base, 40)}" if of.dim is None else f"an array of {shown(of.base, 40)}"
