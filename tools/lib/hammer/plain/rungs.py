"""Neutral text (FORMATS.md, section 2): a rung is a list of instructions and branches."""

import re
from functools import lru_cache
from typing import NamedTuple

from .words import KEPT

MNEMONICS = frozenset(
    "XIC XIO OTE OTL OTU ONS OSR OSF TON RTO TOF CTU CTD RES EQU NEQ LES LEQ GRT GEQ LIM MEQ ADD SUB MUL DIV MOD NEG ABS MOV AND OR "
    "XOR NOT MVM CLR COP CPS FLL JSR SBR RET TND JMP LBL MCR AFI NOP UID UIE EVENT".split()
)
BLANKS = re.compile(r"[ \t\r\n]*")
LETTERS = re.compile(r"[A-Za-z]*")
OPERAND = re.compile(r"[A-Za-z0-9_:.#\-?\[\]]*")
DEEPEST = 16


class TextFault(Exception):
    """No rung: a code and a place."""

    def __init__(self, code, at):
        super().__init__(code, at)
        self.code, self.at = code, at

    def __str__(self):
        return f"{self.code} {self.at}"


class Instruction(NamedTuple):
    op: str
    operands: tuple


class Branch(NamedTuple):
    legs: tuple


@lru_cache(KEPT)
def read_rung(text):
    """The rung that a text spells; else its first fault from the left."""
    return Reader(text).rung()


class Reader:
    def __init__(self, text):
        self.text, self.at = text, 0

    def peek(self):
        """The next byte that is no blank; nothing at the end."""
        self.at = BLANKS.match(self.text, self.at).end()
        return self.text[self.at:self.at + 1]

    def rung(self):
        rung = self.series(0)
        if self.peek() != ";":
            raise TextFault("T1" if self.peek() else "T4", self.at)
        self.at += 1
        if self.peek():
            raise TextFault("T1", self.at)
        return rung

    def series(self, depth):
        """Elements, up to a byte that begins none."""
        elements = []
        while True:
            byte = self.peek()
            if byte == "[":
                elements.append(self.branch(depth))
            elif byte.isascii() and byte.isalpha():
                elements.append(self.instruction())
            else:
                return tuple(elements)

    def branch(self, depth):
        if depth == DEEPEST:
            raise TextFault("T5", self.at)
        legs = []
        while not legs or self.peek() == ",":
            self.at += 1
            legs.append(self.series(depth + 1))
        if self.peek() != "]":
            raise TextFault("T1" if self.peek() else "T3", self.at)
        self.at += 1
        return Branch(tuple(legs))

    def instruction(self):
        start = self.at
        self.at = LETTERS.match(self.text, start).end()
        op = self.text[start:self.at].upper()
        if op not in MNEMONICS:
            raise TextFault("T2", start)
        self.expect("(")
        operands = []
        if self.peek() == ")":
            self.at += 1
            return Instruction(op, ())
        while True:
            operands.append(self.operand())
            if self.peek() != ",":
                self.expect(")")
                return Instruction(op, tuple(operands))
            self.at += 1

    def operand(self):
        self.peek()
        start = self.at
        self.at = OPERAND.match(self.text, start).end()
        if self.at == start:
            raise TextFault("T1" if self.peek() else "T3", self.at)
        return self.text[start:self.at]

    def expect(self, byte):
        if self.peek() != byte:
            raise TextFault("T1" if self.peek() else "T3", self.at)
        self.at += 1


def spelled(rung):
    """The canonical spelling."""
    return series_text(rung) + ";"


def series_text(elements):
    return "".join(element_text(element) for element in elements)


def element_text(element):
    if isinstance(element, Branch):
        return "[" + ",".join(series_text(leg) for leg in element.legs) + "]"
    return f"{element.op}({','.join(element.operands)})"


def instructions(elements):
    """All instructions in the order of the text."""
    for element in elements:
        if isinstance(element, Branch):
            for leg in element.legs:
                yield from instructions(leg)
        else:
            yield element
