"""Neutral text (docs/FORMATS.md, section 2): the elements that a rung's text spells, in order or as a tree, and back to canonical text.

Whether instructions have the right operands, and whether names name something, is for others to say. The hammer's plain interpreter has
a reader of its own, on purpose: what judges the programs shares nothing with the tools.
"""

from __future__ import annotations

import re
from collections.abc import Collection, Iterator
from dataclasses import dataclass
from typing import NamedTuple

from .texts import shown

MAX_FORKS = 16
_OUTSIDE = re.compile(r"[ \t\r\n]*([A-Za-z]+|.|\Z)", re.S)
_INSIDE = re.compile(r"[ \t\r\n]*([A-Za-z0-9:_.#\-?\[\]]+|.|\Z)", re.S)
CALL = re.compile(r"[A-Za-z_][A-Za-z0-9_]*[ \t\r\n]*\(")
# An instruction as Studio writes it, without blanks between its operands.
_PLAIN = re.compile(r"[ \t\r\n]*([A-Za-z_][A-Za-z0-9_]*)\(((?:[A-Za-z0-9:_.#\-?\[\]]+(?:,[A-Za-z0-9:_.#\-?\[\]]+)*)?)\)")


class NoRung(Exception):
    """A text that spells no rung: the place, from 0, where it stops being one, a T code, and why."""

    def __init__(self, code: str, at: int, why: str) -> None:
        super().__init__(f"{why} ({code} {at})")
        self.at = at


@dataclass(slots=True)
class Instruction:
    # In upper case; of a call of an Add-On Instruction its name, as compared.
    op: str
    operands: list[str]
    # Where each operand begins in the text.
    places: list[int]
    # Whether it is its rung's first element.
    leads: bool
    # Where it begins and ends in the text.
    at: int = 0
    end: int = 0
    is_call: bool = False


# An instruction, or a branch's `[`, `,` or `]`.
Element = Instruction | str


class Branch(NamedTuple):
    legs: tuple


def elements(text: str, mnemonics: Collection[str] | None = None, calls: Collection[str] = ()) -> list[Element]:
    """What a rung's text spells, in order, with these mnemonics, or any, and calls of Add-On Instructions of these names."""
    return _Text(text, mnemonics, calls).rung()


def instructions(found: list[Element]) -> list[Instruction]:
    return [element for element in found if isinstance(element, Instruction)]


def canonical(found: list[Element]) -> str:
    """The rung as `logix text` writes it."""
    parts = (e if isinstance(e, str) else f"{e.op}({','.join(e.operands)})" for e in found)
    return "".join(parts) + ";"


def tree(found: list[Element]) -> tuple[Instruction | Branch, ...]:
    """The elements with each branch as its legs."""
    open_branches: list[list[list]] = [[[]]]
    for element in found:
        if element == "[":
            open_branches.append([[]])
        elif element == ",":
            open_branches[-1].append([])
        else:
            one = Branch(tuple(map(tuple, open_branches.pop()))) if element == "]" else element
            open_branches[-1][-1].append(one)
    return tuple(open_branches[0][0])


def routines(listing: str) -> list[tuple[str, str, list[str]]]:
    """From what `logix text` writes: of each routine, in order, its program, its name, and its rungs' texts."""
    found: list[tuple[str, str, list[str]]] = []
    for line in listing.splitlines():
        words = line.split(" ")
        if words[0] == "program" and not line.endswith(";"):
            found.append((words[1], words[3], []))
        else:
            found[-1][2].append(line)
    return found


def name_of(call: re.Match[str]) -> str:
    return call[0][:-1].rstrip()


class _Text:
    def __init__(self, text: str, mnemonics: Collection[str] | None, calls: Collection[str]) -> None:
        self._text = text
        self._is_mnemonic = str.isalpha if mnemonics is None else mnemonics.__contains__
        self._calls = calls
        self._at = 0
        self._found: list[Element] = []
        # Whether the next element is the rung's first.
        self._leads = True

    def rung(self) -> list[Element]:
        forks = 0
        while True:
            if self._plain():
                continue
            token, at = self._next(_OUTSIDE)
            if token in ("[", "]", ","):
                self._found.append(token)
            if self._call(at):
                pass
            elif token == "[":
                if forks == MAX_FORKS:
                    raise NoRung("T5", at, f"a branch would be the {MAX_FORKS + 1}th open one")
                forks += 1
                self._leads = False
            elif token == "]" and forks:
                forks -= 1
            elif token == "," and forks:
                pass
            elif token == ";" and not forks:
                break
            elif token == "":
                raise _end(at, bool(forks))
            elif not token.isascii() or not token.isalpha():
                raise NoRung("T1", at, f"no rung goes on with {shown(token)}")
            else:
                self._instruction(token, at)
        token, at = self._next(_OUTSIDE)
        if token:
            raise NoRung("T1", at, "something follows the ;")
        return self._found

    def _plain(self) -> bool:
        """Takes an instruction or a call that has the usual form, if one comes next."""
        found = _PLAIN.match(self._text, self._at)
        if found is None:
            return False
        op, place = found[1].upper(), found.start(2)
        is_call = bool(self._calls) and op.lower() in self._calls
        if not is_call and not self._is_mnemonic(op):
            return False
        operands, places = found[2].split(",") if found[2] else [], []
        for operand in operands:
            places.append(place)
            place += len(operand) + 1
        self._at = found.end()
        self._add(op, operands, places, found.start(1), is_call)
        return True

    def _add(self, op: str, operands: list[str], places: list[int], at: int, is_call: bool) -> None:
        self._found.append(Instruction(op.lower() if is_call else op, operands, places, self._leads, at, self._at, is_call))
        self._leads = False

    def _instruction(self, token: str, at: int) -> None:
        op = token.upper()
        if not self._is_mnemonic(op):
            raise NoRung("T2", at, f"{shown(token)} isn't in the table of instructions")
        mark, after = self._next(_OUTSIDE)
        if mark != "(":
            raise NoRung("T1", after, f"no ( follows {op}") if mark else _end(after, True)
        self._take(op, at, False)

    def _call(self, at: int) -> bool:
        """Takes a call of an Add-On Instruction, if one begins there."""
        call = CALL.match(self._text, at) if self._calls else None
        if call is None or name_of(call).lower() not in self._calls:
            return False
        self._at = call.end()
        self._take(name_of(call), at, True)
        return True

    def _take(self, op: str, at: int, is_call: bool) -> None:
        operands = list(self._operands())
        self._add(op, [text for text, _ in operands], [place for _, place in operands], at, is_call)

    def _operands(self) -> Iterator[tuple[str, int]]:
        token, at = self._next(_INSIDE)
        if token == ")":
            return
        while True:
            if token in ("", ",", ")", "(", ";") or not _is_operand(token):
                raise _end(at, True) if not token else NoRung("T1", at, _operand_told(token))
            yield token, at
            mark, at = self._next(_INSIDE)
            if mark == ")":
                return
            if mark != ",":
                raise _end(at, True) if not mark else NoRung("T1", at, _operand_told(mark))
            token, at = self._next(_INSIDE)

    def _next(self, pattern: re.Pattern[str]) -> tuple[str, int]:
        found = pattern.match(self._text, self._at)
        self._at = found.end()
        return found[1], found.start(1)


def _is_operand(token: str) -> bool:
    return len(token) > 1 or (token.isascii() and (token.isalnum() or token in ":_.#-?[]"))


def _operand_told(token: str) -> str:
    if token in "+*/&|<>=(":
        return "an expression in place of an operand"
    if token in "\"'$":
        return "a text in place of an operand"
    if token == "\\":
        return "a parameter of another program"
    return f"{shown(token)} stands in an operand's place"


def _end(at: int, is_open: bool) -> NoRung:
    return NoRung("T3" if is_open else "T4", at, "the text ends too early")
