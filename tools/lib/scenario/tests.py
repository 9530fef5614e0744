"""Tests of tags' values: `TAG OP VALUE`, joined by and, or, ->, not, brackets; how they are read, and when they hold.

The words are those of a question of `tools/explore`, which joins tests by `and` alone.
"""

from __future__ import annotations

import re
from collections.abc import Iterator, Mapping
from dataclasses import dataclass

from lib.tags import SCOPE

from .line import NUMBER, TAG, WORD, Line

OPERATORS = {
    "=": int.__eq__, "<>": int.__ne__, "<=": int.__le__, ">=": int.__ge__, "<": int.__lt__, ">": int.__gt__,
}  # fmt: skip
OPERATOR = re.compile(r"<>|<=|>=|=|<|>")
DEEPEST = 50


@dataclass(frozen=True)
class Name:
    """A tag as it is written, where it stands; `key` is what values are kept under."""

    text: str
    line: Line
    at: int

    @property
    def key(self) -> str:
        return self.text.lower()


@dataclass(frozen=True)
class Comparison:
    left: Name
    operator: str
    right: Name | int

    def holds(self, values: Mapping[str, int]) -> bool:
        right = self.right if isinstance(self.right, int) else values[self.right.key]
        return OPERATORS[self.operator](values[self.left.key], right)

    def names(self) -> Iterator[Name]:
        yield self.left
        if isinstance(self.right, Name):
            yield self.right


@dataclass(frozen=True)
class Not:
    test: Test

    def holds(self, values: Mapping[str, int]) -> bool:
        return not self.test.holds(values)

    def names(self) -> Iterator[Name]:
        return self.test.names()


@dataclass(frozen=True)
class Joined:
    """Two tests with `and`, `or` or `->` between them."""

    left: Test
    word: str
    right: Test

    def holds(self, values: Mapping[str, int]) -> bool:
        left = self.left.holds(values)
        if self.word == "and":
            return left and self.right.holds(values)
        return (left if self.word == "or" else not left) or self.right.holds(values)

    def names(self) -> Iterator[Name]:
        yield from self.left.names()
        yield from self.right.names()


Test = Comparison | Not | Joined


def read_test(line: Line, depth: int = 0) -> Test:
    """A test, as far as it goes: `->` binds least, and to the right; then `or`, then `and`."""
    if depth > DEEPEST:
        raise line.wrong(f"more than {DEEPEST} tests within one another")
    left = _joined(line, "or", lambda: _joined(line, "and", lambda: _one(line, depth)))
    return Joined(left, "->", read_test(line, depth + 1)) if line.has("->") else left


def _joined(line: Line, word: str, read) -> Test:
    test = read()
    while line.has(word):
        test = Joined(test, word, read())
    return test


def _one(line: Line, depth: int) -> Test:
    if depth > DEEPEST:
        raise line.wrong(f"more than {DEEPEST} tests within one another")
    if line.has("("):
        test = read_test(line, depth + 1)
        if not line.has(")"):
            raise line.expected("'and', 'or', '->' or ')'")
        return test
    if _is_not(line):
        line.take("not")
        return Not(_one(line, depth + 1))
    left = read_name(line, "a tag, 'not' or '('")
    operator = line.match(OPERATOR)
    if not operator:
        raise line.expected("one of = <> < <= > >=")
    if NUMBER.match(line.text, line.at):
        return Comparison(left, operator[0], line.value())
    return Comparison(left, operator[0], read_name(line, "a number or a tag"))


def _is_not(line: Line) -> bool:
    """Whether `not` comes next, and no tag of this name."""
    found = WORD.match(line.text, line.at)
    return bool(found) and found[0] == "not" and not OPERATOR.match(line.text[found.end() :].lstrip(" \t"))


def read_name(line: Line, what: str) -> Name:
    start, found = line.at, line.match(TAG)
    if not found:
        raise line.expected(what)
    text = found[0]
    # (the project's reader takes this word in one spelling alone)
    return Name(SCOPE + text[len(SCOPE) :] if text.lower().startswith(SCOPE.lower()) else text, line, start)


def whole_test(line: Line) -> Test:
    """A test that is all of the rest of the line."""
    test = read_test(line)
    line.end("'and', 'or', '->' or ")
    return test
