"""Copies in an Add-On Instruction's Logic: what lies behind its tags isn't told, so a copy must stay in what it names."""

from __future__ import annotations

from lib.neutral import Instruction
from lib.texts import shown

from .calls import Definition
from .profile import decimal, key
from .tags import Form, Scope, Structure, Type, form, size_of, spelled

_COPIES = ("COP", "CPS", "FLL")


def copy_fault(instruction: Instruction, definition: Definition, structures: dict[str, Structure]) -> str | None:
    """Why a copy may pass the end of a parameter or local tag of the instance."""
    for text in _passing(instruction, definition, structures):
        if key(form(text).tag) not in definition.in_outs:
            return f"{instruction.op}: it may pass the end of {shown(text)}, and what lies behind it isn't told"
    return None


def passed_ends(instruction: Instruction, definition: Definition, structures: dict[str, Structure]) -> set[str]:
    """The InOut parameters whose end a copy may pass."""
    passed = (key(form(text).tag) for text in _passing(instruction, definition, structures))
    return {name for name in passed if name in definition.in_outs}


def _passing(instruction: Instruction, definition: Definition, structures: dict[str, Structure]) -> list[str]:
    if instruction.op not in _COPIES:
        return []
    source, target, count = instruction.operands
    length = decimal(count)
    one = size_of(Type(definition.scope.found(target).of.base), structures)
    texts = [target] if instruction.op == "FLL" else [source, target]
    return [text for text in texts if length is None or max(0, length) * one > _left(text, definition.scope, structures)]


def _left(text: str, scope: Scope, structures: dict[str, Structure]) -> int:
    """How many bytes there are at least from a place to the end of the array or the tag that it is in."""
    of = scope.found(text).of
    one = size_of(of, structures)
    here = form(text)
    if of.dim is not None or not here.steps or here.steps[-1][0] != "element":
        return one
    array = scope.found(spelled(Form(here.tag, here.steps[:-1]))).of
    return one * ((array.dim or 1) - here.steps[-1][1])
