"""Where a rung reads an arithmetic flag that something outside of it may have left."""

from __future__ import annotations

from lib.neutral import Element, Instruction


ARITHMETIC_FLAGS = ("S:V", "S:Z", "S:N")
# What stores a number, and with it the flags.
_SETTERS = frozenset("ADD SUB MUL DIV MOD NEG ABS MOV AND OR XOR NOT MVM CLR".split())


def loose_flags(found: list[Element]) -> list[Instruction]:
    """The instructions that read a flag which no instruction before them in their rung, on whose condition theirs hangs, has set.

    What a routine or an Add-On Instruction leaves isn't known.
    """
    loose: list[Instruction] = []
    is_set = False
    # Of each open branch, what was so where it began.
    outer: list[bool] = []
    for element in found:
        if element == "[":
            outer.append(is_set)
        elif element == ",":
            is_set = outer[-1]
        elif element == "]":
            is_set = outer.pop()
        elif element.is_call or element.op == "JSR":
            is_set = False
            outer = [False] * len(outer)
        else:
            if not is_set and any(text in ARITHMETIC_FLAGS for text in element.operands):
                loose.append(element)
            is_set = is_set or element.op in _SETTERS
    return loose
