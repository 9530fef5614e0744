"""The rungs of an export: their texts, with the mnemonics of newer releases and calls of Add-On Instructions, and what they spell."""

from __future__ import annotations

import re
from collections.abc import Collection, Iterator

from lib import neutral
from lib.neutral import CALL, Element, NoRung, name_of
from lib.texts import shown

from .profile import OPERANDS, key

# What an L5K file writes before a rung: a comment, and that it is a normal one.
_LEFTOVERS = re.compile(r'[ \t\r\n]*(?:RC:[ \t\r\n]*"(?:[^"$]|\$.)*"[ \t\r\n]*;?[ \t\r\n]*)*(?:N:[ \t\r\n]*)?', re.S)
_EDIT_MARK = re.compile(r"[A-Za-z]{1,2}:")
# A name before parentheses, another word, or a parenthesis.
_PIECE = re.compile(rf"{CALL.pattern}|\w+|[()]")


class RungFault(Exception):
    """The text spells no rung that can be taken; says why."""


def without_leftovers(text: str) -> str:
    """The rung without `N:` and comments before it, and without blanks at its ends."""
    rest = text[_LEFTOVERS.match(text).end() :].strip(" \t\r\n")
    if _EDIT_MARK.match(rest):
        raise RungFault(f"it begins with {rest.split(':')[0]}:, as a rung of an edit that isn't finished")
    return rest


def _named(text: str) -> Iterator[re.Match[str]]:
    """The names before parentheses, even if what stands in them is no operand."""
    depth = 0
    for found in _PIECE.finditer(text):
        piece = found[0]
        if piece[-1] == "(":
            if depth == 0 and len(piece) > 1:
                yield found
            depth += 1
        elif piece == ")":
            depth -= 1


def names_called(text: str) -> Iterator[str]:
    return map(name_of, _named(text))


def unknown_instructions(text: str, add_ons: Collection[str] = ()) -> list[str]:
    """The mnemonics outside the table that are no Add-On Instructions, each once."""
    names = dict.fromkeys(names_called(text))
    return [name for name in names if name not in OPERANDS and name.upper() not in OPERANDS and key(name) not in add_ons]


def renamed(text: str, names: dict[str, str], add_ons: Collection[str] = ()) -> tuple[str, list[str]]:
    """The text with other mnemonics for some, and those that were found; an Add-On Instruction may have any of these names."""
    found, parts, at = [], [], 0
    for call in _named(text):
        name = name_of(call)
        if name.upper() in names and key(name) not in add_ons:
            found.append(name.upper())
            parts += [text[at : call.start()], names[name.upper()]]
            at = call.start() + len(name)
    return "".join([*parts, text[at:]]), found


def unknown_told(name: str) -> str:
    return f"{shown(name, 40)} isn't in the table of instructions"


def elements(text: str, add_ons: Collection[str] = ()) -> list[Element]:
    """What a rung's text spells, in order; RungFault with the text fault if it spells none."""
    try:
        return neutral.elements(text, OPERANDS, add_ons)
    except NoRung as fault:
        raise RungFault(str(fault)) from None
