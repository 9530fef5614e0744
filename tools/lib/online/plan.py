"""A project's file: what it declares, and which place of the image an operand names.

The controller has accepted the file before this is read, so nothing is checked again. Names are compared without case.
"""

import json
import re
from dataclasses import dataclass, field

from lib.hammer.plain.tags import BITS, MEMBERS, Refused
from lib.hammer.plain.words import immediate, operand_form
from lib.hammer.plain.words import number_of as number_read
from lib.ladder.elements import Live
from lib.tags import Names, part_text, spelled

NO_TAG_FIRST = frozenset(("JSR", "JMP", "LBL", "EVENT"))  # whose first operand names no tag
LIT = {"XIC": "bit", "OTE": "bit", "OTL": "bit", "OTU": "bit", "XIO": "not", **{op: op for op in "EQU NEQ LES LEQ GRT GEQ LIM MEQ".split()}}
ALL_ELEMENTS = 16  # of an array with a variable subscript so many elements are watched
PROGRAM = re.compile(r"Program:(\w+)\.(.*)", re.I)


def program_of(name):
    """The program that a watched place's name has, or none, and the rest."""
    found = PROGRAM.fullmatch(name)
    return found.groups() if found else (None, name)


def words_of(name, dim):
    """The names of DINTs in a row."""
    return [f"{name}[{at}]" for at in range(dim)] if dim else [name]


@dataclass
class Place:
    """A place as a watch names it, and its kind. With a variable subscript it has no name but pieces to spell one by, texts and names
    of subscripts ({"p": NAME}), and the names that these may give."""

    name: str | None
    kind: str
    pieces: list = field(default_factory=list)
    spread: list = field(default_factory=list)

    def told(self):
        return self.name or self.pieces

    def watched(self):
        """All names that are to be watched for it."""
        return [self.name] if self.name else [*self.spread, *(piece["p"] for piece in self.pieces if isinstance(piece, dict))]


def number_of(text):
    """What a number in a rung stands for; None of another text."""
    number = number_read(text)
    return None if number is None else immediate(number)


class Plan:
    def __init__(self, source):
        self.source, self.names = source, Names(source)
        self.connections = source.get("connections", [])
        aliases = [(place.lower(), name) for scope, name, place in self.names.aliases() if scope is None]
        self.bits = dict(reversed(aliases))

    # Operands

    def found(self, program, text):
        """The scope that a program's name asks for, or none, the parts of a text, and what it names there: None where it names nothing."""
        scope, form = self.names.programs.get((program or "").lower()), operand_form(text)
        try:
            return scope, form, self.names.tags.resolve(scope, text, False)
        except Refused:
            return scope, form, None

    def place(self, program, text):
        """The place that an operand of a program names; None of a number, a flag, a structure, a whole array."""
        scope, form, found = self.found(program, text)
        if not found or found.base not in BITS or found.dim:
            return None
        prefix = f"Program:{program}." if form[0].lower() in self.names.tags.names[scope] and scope is not None else ""
        return self.variable(program, prefix, form, found) if found.steps else Place(prefix + text, found.base)

    def variable(self, program, prefix, form, found):
        made = Place(None, found.base, [prefix + form[0]])
        for part, value in form[1]:
            if part == "by":
                subscript = self.place(program, spelled(value))
                made.pieces += ["[", {"p": subscript.name} if subscript and subscript.name else "?", "]"]
            else:
                made.pieces.append(part_text(part, value))
        if len(found.steps) == 1:
            made.spread = ["".join(piece if isinstance(piece, str) else str(at) for piece in made.pieces).replace("?", str(at))
                           for at in range(min(found.steps[0].length, ALL_ELEMENTS))]
        return made

    def timed(self, program, text):
        """The places of a timer's or counter's members; none of another operand."""
        _, _, found = self.found(program, text)
        if not found or found.base not in MEMBERS or found.dim:
            return {}
        return {name: self.place(program, f"{text}.{name}") for name in self.names.members(found.base)}

    def live(self, program, instruction):
        """An instruction's places, for the drawing, and all names that are to be watched for it."""
        op, operands = instruction.op, instruction.operands
        places = [None if at == 0 and op in NO_TAG_FIRST else self.place(program, text) for at, text in enumerate(operands)]
        members = self.timed(program, operands[0]) if operands and op not in NO_TAG_FIRST else {}
        told = [place and place.told() for place in places]
        lit = {"kind": LIT[op], "places": [place or number_of(text) for place, text in zip(told, operands)]} if op in LIT else {}
        names = [name for place in [*places, *members.values()] if place for name in place.watched()]
        return Live(told, {name: place.told() for name, place in members.items()}, lit), names

    def kind_of_watch(self, name):
        place = self.place(*program_of(name))
        return place.kind if place else "?"

    def tag_of(self, name):
        """The tag that a watched place is part of, as xref names it, in lower case."""
        program, text = program_of(name)
        _, _, found = self.found(program, re.match(r"[^.\[]*", text)[0])
        return self.names.full[found.tag].lower() if found else text.lower()

    # I/O

    def words(self, connection):
        """The names of a connection's words; None of a word that no one name has."""
        tag = self.names.tags.resolve(None, connection["tag"], True)
        name, types = self.names.full[tag.tag], self.names.tags.types
        if tag.base == "DINT":
            return words_of(name, tag.dim)
        found = [None] * (types.size(tag.base, tag.dim) // 4)
        if not tag.dim and tag.base in types.members_of:
            for member, (kind, dim, start) in zip(self.names.members(tag.base), types.structure(tag.base)[1].values()):
                if kind == "DINT":
                    found[start // 32:start // 32 + (dim or 1)] = words_of(f"{name}.{member}", dim)
        return found

    def bit_names(self, word):
        """The aliases of a word's bits."""
        return {bit: self.bits[f"{word}.{bit}".lower()] for bit in range(32) if word and f"{word}.{bit}".lower() in self.bits}

    def copy(self, watch, rungs_of=None):
        """The project's text with these watched places and, by (program, routine), other rungs."""
        made = {**self.source, "watch": list(watch)}
        if rungs_of:
            made["programs"] = [{**each, "routines": [{**one, "rungs": rungs_of(each["name"], one["name"])} for one in each["routines"]]}
                                for each in self.source["programs"]]
        return json.dumps(made)
