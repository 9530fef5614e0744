"""Check faults (FORMATS.md, section 9), and the operands of checked instructions."""

from typing import NamedTuple

from .rungs import Branch, instructions
from .tags import BITS, INTEGERS, Refused
from .words import DECIMAL, FLAGS, immediate, is_name, number_of

MOST_INSTRUCTIONS = 65_536
OF_TAG = {"G3": 4, "G4": 5, "G5": 6, "G6": 7, "G9": 8, "G10": 9}
# b a bit; f a bit or a flag; i an integer; v an integer or a number; T, C a timer, a counter; R either; k a block; s a block that is
# read; F a block of integers; q the text `?`. r, l, L, e name a routine, a label, a label here, an event task.
KINDS = {
    **dict.fromkeys(("XIC", "XIO"), "f"), **dict.fromkeys(("OTE", "OTL", "OTU", "ONS"), "b"), **dict.fromkeys(("OSR", "OSF"), "bb"),
    **dict.fromkeys(("TON", "TOF", "RTO"), "Tqq"), **dict.fromkeys(("CTU", "CTD"), "Cqq"), "RES": "R",
    **dict.fromkeys(("EQU", "NEQ", "LES", "LEQ", "GRT", "GEQ"), "vv"), **dict.fromkeys(("LIM", "MEQ"), "vvv"),
    **dict.fromkeys(("ADD", "SUB", "MUL", "DIV", "MOD", "AND", "OR", "XOR", "MVM"), "vvi"),
    **dict.fromkeys(("NEG", "ABS", "MOV", "NOT"), "vi"), "CLR": "i", "COP": "skv", "CPS": "skv", "FLL": "vFv",
    **dict.fromkeys(("TND", "MCR", "AFI", "NOP", "UID", "UIE"), ""), "JMP": "l", "LBL": "L", "EVENT": "e",
}


class CheckFault(Exception):
    """The first instruction at fault and its least code."""

    def __init__(self, code, rung, instruction):
        super().__init__(code, rung, instruction)
        self.code, self.rung, self.instruction = code, rung, instruction

    def __str__(self):
        return f"C{self.code} {self.rung} {self.instruction}"


class Number(NamedTuple):
    value: int


class Flag(NamedTuple):
    name: str


class Path(NamedTuple):
    """A place as it is written; size and stop are in bytes, and of use in a block."""

    kind: str
    at: int
    steps: tuple
    size: int
    stop: int
    tag: int


class Checked(NamedTuple):
    op: str
    args: tuple


class Scope(NamedTuple):
    tags: object
    program: int
    routines: tuple
    tasks: tuple
    known: object = None  # what operands stand for that were read before, by kind and text


def kinds_of(op, operands):
    """The kinds of an instruction's operands; None if their number is wrong."""
    if op == "SBR":
        return "i" * len(operands) if len(operands) <= 8 else None
    if op == "RET":
        return "v" * len(operands) if len(operands) <= 8 else None
    if op == "JSR":
        return kinds_of_call(operands)
    return KINDS[op] if len(operands) == len(KINDS[op]) else None


def kinds_of_call(operands):
    """A routine; perhaps a count, so many inputs, and returns."""
    if len(operands) < 2:
        return "r" if operands else None
    count = count_of(operands[1])
    if count is None:
        return "rn" + "?" * (len(operands) - 2) if len(operands) <= 18 else None
    returns = len(operands) - 2 - count
    return "rn" + "v" * count + "i" * returns if 0 <= returns <= 8 else None


def count_of(text):
    number = number_of(text)
    return int(number) if DECIMAL.fullmatch(text) and 0 <= number <= 8 else None


class Checker:
    """Checks the rungs of one routine."""

    def __init__(self, rungs, scope):
        self.rungs, self.scope = rungs, scope
        self.known = {} if scope.known is None else scope.known
        self.labels = [self.label_of(one) for rung in rungs for one in instructions(rung)]
        self.places, self.count = {}, 0
        for at, rung in enumerate(rungs):
            for one in instructions(rung):
                self.places.setdefault(self.label_of(one), at)

    @staticmethod
    def label_of(one):
        return one.operands[0].lower() if one.op == "LBL" and len(one.operands) == 1 and is_name(one.operands[0]) else None

    def checked(self):
        return tuple(self.checked_rung(at, rung) for at, rung in enumerate(self.rungs))

    def checked_rung(self, at, rung):
        self.rung, self.number = at, 0
        return self.series(rung, True)

    def series(self, elements, outermost):
        made = []
        for place, element in enumerate(elements):
            if isinstance(element, Branch):
                made.append(Branch(tuple(self.series(leg, False) for leg in element.legs)))
            else:
                made.append(self.instruction(element, outermost and place == 0))
        return tuple(made)

    def instruction(self, one, first):
        codes, args = [], []
        kinds = kinds_of(one.op, one.operands)
        if kinds is None:
            codes.append(1)
        for kind, text in zip(kinds or "", one.operands):
            read = self.named(kind, text) if kind in "lL" else self.known_operand(kind, text)
            (codes if isinstance(read, int) else args).append(read)
        if one.op == "LBL":
            if self.label_of(one) in self.labels[:self.count] and self.label_of(one) is not None:
                codes.append(13)
            if not first:
                codes.append(14)
        if self.count >= MOST_INSTRUCTIONS:
            codes.append(16)
        if one.op == "SBR" and not (first and self.rung == 0):
            codes.append(17)
        if codes:
            raise CheckFault(min(codes), self.rung, self.number)
        self.number, self.count = self.number + 1, self.count + 1
        return Checked(one.op, tuple(args))

    def known_operand(self, kind, text):
        """What an operand stands for; of a label the rungs say it, of all else the project."""
        if (kind, text) not in self.known:
            self.known[kind, text] = self.operand(kind, text)
        return self.known[kind, text]

    def operand(self, kind, text):
        """What an operand stands for, or the least code of what is wrong with it."""
        if kind == "n":
            return 2 if count_of(text) is None else Number(count_of(text))
        if kind in "rlLe":
            return self.named(kind, text)
        if kind == "q" and text == "?":
            return Flag("?")
        if text in FLAGS:
            return self.flag(kind, text)
        number = number_of(text)
        if number is not None:
            return self.number_at(kind, number)
        try:
            found = self.scope.tags.resolve(self.scope.program, text, False)
        except Refused as refused:
            return OF_TAG[refused.code]
        return self.place(kind, found)

    def named(self, kind, text):
        if not is_name(text):
            return 2
        name = text.lower()
        if kind == "r":
            return Number(self.scope.routines.index(name)) if name in self.scope.routines else 11
        if kind == "l":
            return Number(self.places[name]) if name in self.places else 12
        if kind == "L":
            return Flag(name)
        events = [at for at, (task, event) in enumerate(self.scope.tasks) if task == name and event]
        return Number(events[0]) if events else 15

    @staticmethod
    def flag(kind, text):
        if kind == "f":
            return Flag(text)
        return 3 if kind in "bikF" else 2

    @staticmethod
    def number_at(kind, number):
        if kind != "v":
            return 3 if kind in "bikF" else 2
        value = immediate(number)
        return 10 if value is None else Number(value)

    def place(self, kind, found):
        types = self.scope.tags.types
        base, single = found.base, not found.dim
        fits = {
            "b": single and base == "BOOL", "f": single and base == "BOOL",
            "i": single and base in INTEGERS, "v": single and base in INTEGERS,
            "T": single and base == "TIMER", "C": single and base == "COUNTER", "R": single and base in ("TIMER", "COUNTER"),
            "k": base != "BOOL", "s": base != "BOOL", "F": base in INTEGERS,
        }.get(kind, False)
        if not fits:
            return 2
        shown = base if base in BITS or base in ("TIMER", "COUNTER") else "structure"
        size = 1 if base == "BOOL" else types.size(base, 0)
        return Path(shown, found.at, found.steps, size, found.stop, found.tag)
