"""A project's text as JSON: where it stops being JSON, and the place of each key and value."""

from __future__ import annotations

import json
import re
from dataclasses import dataclass, field

DEEPEST = 127
BLANKS = re.compile(r"[ \t\r\n]*")
NUMBER = re.compile(r"-?(?:0|[1-9]\d*)(?:\.\d+)?(?:[eE][+-]?\d+)?", re.ASCII)
LOOSE = re.compile(r"[^\s,:\[\]{}\"]+")
PART = re.compile(r'[^"\\\x00-\x1f]+')
ESCAPE = re.compile(r'\\(?:["\\/bfnrt]|u[dD][89abAB][0-9a-fA-F]{2}\\u[dD][c-fC-F][0-9a-fA-F]{2}|u(?![dD][89a-fA-F])[0-9a-fA-F]{4})')
WORDS = ("true", "false", "null")
MARK = "\ufeff"


class NoJson(Exception):
    """No JSON: the character at fault, why, and words of the sentence that applies."""

    def __init__(self, at: int, why: str, applies: str = "isn't JSON") -> None:
        super().__init__(at, why)
        self.at, self.why, self.applies = at, why, applies


@dataclass
class Node:
    """A value: where it begins, where the key before it begins, and what is in it."""

    at: int
    key: int | None = None
    inside: dict[str, Node] = field(default_factory=dict)


@dataclass
class Text:
    """A project's text and the places of its values."""

    text: str
    top: Node

    def node(self, keys: list[str]) -> Node | None:
        """The value that these keys lead to, or the last one on the way."""
        node = self.top
        for key in keys:
            if key not in node.inside:
                break
            node = node.inside[key]
        return node


def line_of(text: str, at: int) -> tuple[int, int, str]:
    """Line and column from 1, and the line's own text."""
    start = text.rfind("\n", 0, at) + 1
    end = text.find("\n", at)
    return text.count("\n", 0, at) + 1, at - start + 1, text[start : len(text) if end < 0 else end].rstrip("\r")


def decoded(contents: bytes) -> str:
    """The text of a file, or NoJson."""
    try:
        text = contents.decode("utf-8")
    except UnicodeDecodeError as fault:
        before = contents[: fault.start].decode("utf-8")
        raise NoJson(len(before), f"the byte {contents[fault.start]:#04x} isn't UTF-8", "UTF-8") from None
    if text.startswith(MARK):
        raise NoJson(0, "the file begins with a byte order mark (EF BB BF): an editor put it there", "UTF-8")
    return text


def read(text: str) -> Text:
    """The places of a text's values; NoJson where it stops being JSON."""
    return Text(text, _Reader(text).all())


class _Reader:
    def __init__(self, text: str) -> None:
        self._text, self._at = text, 0
        self._open: list[int] = []

    def all(self) -> Node:
        node = self._value(None)
        if self._peek():
            raise NoJson(self._at, "something follows the end of the project")
        return node

    def _peek(self) -> str:
        """The next character that is no blank; nothing at the end."""
        self._at = BLANKS.match(self._text, self._at).end()
        return self._text[self._at : self._at + 1]

    def _value(self, key: int | None) -> Node:
        first = self._peek()
        node = Node(self._at, key)
        if first == "{":
            self._inside(node, "}", self._member)
        elif first == "[":
            self._inside(node, "]", self._element)
        elif first == '"':
            self._string()
        else:
            self._word()
        return node

    def _inside(self, node: Node, close: str, part) -> None:
        """What stands between the brackets."""
        if len(self._open) == DEEPEST:
            raise NoJson(self._at, f"this is the {DEEPEST + 1}th open bracket", "nests")
        self._open.append(self._at)
        self._at += 1
        while self._peek() != close or node.inside:
            part(node)
            found = self._peek()
            if found == close:
                break
            if found != ",":
                raise self._no_comma(found, close)
            self._at += 1
            if self._peek() == close:
                raise NoJson(self._at, f"a comma stands before this {close}")
        self._at += 1
        self._open.pop()

    def _no_comma(self, found: str, close: str) -> NoJson:
        if not found:
            return self._ended()
        if found in "/#":
            return NoJson(self._at, "JSON has no comments")
        if found in "}]":
            return NoJson(self._at, f"a {close} closes what was opened last")
        return NoJson(self._at, "a comma is missing before this")

    def _ended(self) -> NoJson:
        if not self._open:
            return NoJson(len(self._text), "there is no project")
        line, _, _ = line_of(self._text, self._open[-1])
        return NoJson(len(self._text), f"the text ends, and the bracket of line {line} is still open")

    def _member(self, node: Node) -> None:
        found, key = self._peek(), self._at
        if found != '"':
            raise self._no_key(found)
        name = self._string()
        found = self._peek()
        if found != ":":
            raise NoJson(self._at, f"a colon must follow the key {name}") if found else self._ended()
        self._at += 1
        node.inside[json.loads(name)] = self._value(key)

    def _no_key(self, found: str) -> NoJson:
        if not found:
            return self._ended()
        if found in "/#":
            return NoJson(self._at, "JSON has no comments")
        return NoJson(self._at, "a key must stand here, in double quotes")

    def _element(self, node: Node) -> None:
        node.inside[str(len(node.inside))] = self._value(None)

    def _string(self) -> str:
        """A text with its quotes, as it is written."""
        start, at = self._at, self._at + 1
        while self._text[at : at + 1] != '"':
            found = PART.match(self._text, at) or ESCAPE.match(self._text, at)
            if not found:
                raise self._no_text(start, at)
            at = found.end()
        self._at = at + 1
        return self._text[start : self._at]

    def _no_text(self, start: int, at: int) -> NoJson:
        found = self._text[at : at + 1]
        if not found:
            return NoJson(start, "the text that begins here has no closing quote")
        if found == "\\":
            return NoJson(at, "no such escape: a backslash itself is written \\\\")
        return NoJson(at, "a line ends inside a text" if found in "\r\n" else "a tab or control character stands inside a text")

    def _word(self) -> None:
        """A number, or true, false or null."""
        found = LOOSE.match(self._text, self._at)
        if not found:
            raise self._ended() if not self._peek() else NoJson(self._at, "a value must stand here")
        word = found.group()
        if word not in WORDS and not NUMBER.fullmatch(word):
            raise NoJson(self._at, self._no_word(word))
        if word not in WORDS and abs(float(word)) == float("inf"):
            raise NoJson(self._at, "the number is too large")
        self._at = found.end()

    @staticmethod
    def _no_word(word: str) -> str:
        if word[0] in "/#":
            return "JSON has no comments"
        if word[0] == "'":
            return "a text must stand in double quotes"
        if word.lower() in WORDS:
            return f"{word.lower()} is written in small letters"
        if word[0].isdigit() or word[0] in "+-.":
            return "no number of JSON: digits, no zero first, perhaps after a -"
        return "no value of JSON: a text stands in double quotes"
