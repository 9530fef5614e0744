"""Questions: what is never to hold of the watched places, and how late actions may come (FORMATS.md, section 8.7)."""

import operator
from typing import NamedTuple

from .journal import LONGEST, Bad, count_of, lines_of, value_of, words_of
from .project import read

MOST_LINES, MOST_TESTS = 64, 16
SIGNS = {"=": operator.eq, "<>": operator.ne, "<": operator.lt, "<=": operator.le, ">": operator.gt, ">=": operator.ge}


class Test(NamedTuple):
    """A watched place by its number, and what it is compared with: a number, or a watched place too."""

    watched: int
    sign: str
    is_number: bool
    other: int

    def passes(self, values):
        return SIGNS[self.sign](values[self.watched], self.other if self.is_number else values[self.other])


class Never(NamedTuple):
    """Tests that are never to hold together; with a program right after the end of a scan of it alone."""

    tests: tuple
    program: object

    def holds(self, values, ended):
        return self.program in (None, ended) and all(test.passes(values) for test in self.tests)


class Question:
    """A question; Bad with its first line that is refused and the line's first cause."""

    def __init__(self, project, contents):
        self.watches = [text.lower() for text, _, _ in project.watches]
        self.programs = [program["name"].lower() for program in project.programs]
        self.within, self.lines = None, []
        count, lines = lines_of(contents)
        for number, line in lines:
            try:
                if self.take(line):
                    return
            except Bad as bad:
                raise Bad(bad.code.replace("J", "Q"), number) from None
        raise Bad("Q1", count + 1)

    def take(self, line):
        """Whether the line is the end."""
        if len(line) > LONGEST:
            raise Bad("Q1")
        words = words_of(line)
        if words == ["end"]:
            if not self.lines:
                raise Bad("Q4")
            return True
        if words and words[0] == "within" and len(words) == 2:
            self.take_within(count_of(words[1]))
        elif words and words[0] == "never":
            self.take_never(words[1:])
        else:
            raise Bad("Q1")
        return False

    def take_within(self, ticks):
        if self.within is not None or self.lines:
            raise Bad("Q4")
        self.within = ticks

    def take_never(self, words):
        program = None
        if len(words) > 2 and len(words) % 4 == 1 and words[-2] == "at":
            *words, _, program = words
        if len(words) % 4 != 3 or any(word != "and" for word in words[3::4]):
            raise Bad("Q1")
        said = [self.said(*words[at:at + 3]) for at in range(0, len(words), 4)]
        tests = [Test(self.number(tag), sign, is_number, value if is_number else self.number(value)) for tag, sign, is_number, value in said]
        if program is not None:
            program = index_of(self.programs, program, "Q3")
        if len(self.lines) == MOST_LINES or len(tests) > MOST_TESTS:
            raise Bad("Q4")
        self.lines.append(Never(tuple(tests), program))

    @staticmethod
    def said(tag, sign, value):
        if sign not in SIGNS:
            raise Bad("Q1")
        is_number = value[0] in "-0123456789"
        return tag, sign, is_number, value_of(value) if is_number else value

    def number(self, tag):
        return index_of(self.watches, tag, "Q2")

    def line_of(self, machine, said):
        """The number of the first line that holds after what was said, from 0, or None."""
        values = [read(machine.image, kind, at) for _, kind, at in machine.project.watches]
        ended = said.program if said.what == "left" and said.left == "ended" else None
        return next((at for at, line in enumerate(self.lines) if line.holds(values, ended)), None)


def index_of(names, name, code):
    if name.lower() not in names:
        raise Bad(code)
    return names.index(name.lower())
