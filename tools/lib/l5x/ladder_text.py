"""What routines and the Logic of Add-On Instructions have in common: the texts of their rungs."""

from __future__ import annotations

from collections.abc import Collection

from lib.neutral import Element, Instruction, instructions
from lib.texts import shown

from .model import Rung
from .profile import BLANK, MAX_RUNG_BYTES, NEW_NAMES, OPERANDS, decimal, key
from .rungs import RungFault, elements, renamed, unknown_instructions, without_leftovers
from .tags import NameFault, Scope


class Unknown(Exception):
    """A rung has instructions that aren't in the table; their names."""


def text_of(rung: Rung, add_ons: Collection[str], met: set[str]) -> str:
    """The text of a rung with the mnemonics of the table; those of newer releases are added to what was met."""
    if rung.kind != "N":
        raise RungFault(f"a rung of the type {shown(rung.kind, 12)}, of an edit that isn't finished")
    if rung.is_disabled:
        raise RungFault("a disabled rung")
    if rung.text is None:
        raise RungFault("it has no text")
    text = without_leftovers(rung.text)
    unknown = unknown_instructions(text, add_ons)
    if unknown:
        text, newer = renamed(text, NEW_NAMES, add_ons)
        met.update(newer)
        unknown = [name for name in unknown if name.upper() not in NEW_NAMES]
    if len(text) > MAX_RUNG_BYTES:
        raise RungFault(f"its text has more than {MAX_RUNG_BYTES:,} bytes (P5)")
    if unknown:
        raise Unknown(unknown)
    return text


def with_blanks(text: str, add_ons: Collection[str], scope: Scope, values: dict[str, int]) -> tuple[str, list[Element]]:
    """The text with `?` for PRE and ACC where their numbers stand, if the tag has the same; and what it spells."""
    found, plain = elements(text, add_ons), text
    for instruction in reversed(instructions(found)):
        if instruction.is_call or BLANK not in OPERANDS[instruction.op] or len(instruction.operands) != 3:
            continue
        for k, member in ((2, "ACC"), (1, "PRE")):
            number = decimal(instruction.operands[k])
            if number is None:
                continue
            if number != _value_of(instruction.operands[0], member, scope, values):
                raise RungFault(f"{instruction.op}: {member} {number} isn't the value of the tag; `?` is taken")
            at = instruction.places[k]
            text = text[:at] + "?" + text[at + len(instruction.operands[k]) :]
    return text, found if text is plain else elements(text, add_ons)


def _value_of(tag: str, member: str, scope: Scope, values: dict[str, int]) -> int | None:
    """The first value of a timer's or a counter's PRE or ACC, in milliseconds."""
    try:
        found = scope.found(f"{tag}.{member}", fixed=True)
    except NameFault:
        return None
    return values.get(found.place, 0)


def label_faults(rungs: list[list[Instruction]]) -> list[tuple[int, str]]:
    """What is wrong with labels, jumps and SBR, each with the number of the rung in the list."""
    faults: list[tuple[int, str]] = []
    labels: set[str] = set()
    for number, found in enumerate(rungs):
        for instruction in found:
            if instruction.op == "SBR" and not (number == 0 and instruction.leads):
                faults.append((number, "SBR isn't the first element of its routine (C17)"))
            if instruction.op == "LBL":
                name = instruction.operands[0]
                if not instruction.leads:
                    faults.append((number, f"LBL {name} isn't the first element of its rung (C14)"))
                if key(name) in labels:
                    faults.append((number, f"label {name} stands twice (C13)"))
                labels.add(key(name))
    for number, found in enumerate(rungs):
        for instruction in found:
            if instruction.op == "JMP" and key(instruction.operands[0]) not in labels:
                faults.append((number, f"JMP to {instruction.operands[0]}, and no such label (C12)"))
    return faults
