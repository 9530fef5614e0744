"""The file's elements, one after another, with no tree of them kept and no DTD or entity followed."""

from __future__ import annotations

import io
import xml.etree.ElementTree as ElementTree
import xml.parsers.expat as expat
from collections.abc import Iterator
from typing import BinaryIO

from lib.texts import shown


ROOT = "RSLogix5000Content"
MAX_PROLOG_BYTES = 65_536
MAX_DEPTH = 200
# Expat looks at an unfinished tag anew with each piece, so pieces are large.
PIECE_BYTES = 1 << 20

Event = tuple[str, ElementTree.Element]


class NoExport(Exception):
    """The file is no L5X file; says why."""

    def __str__(self) -> str:
        return f"no L5X file: {self.args[0]}"


class Unreadable(NoExport):
    """The file can't be read; says why."""

    def __str__(self) -> str:
        return f"it can't be read: {self.args[0]}"


class _Pieces(io.RawIOBase):
    """A file that is read in large pieces, whatever is asked for."""

    def __init__(self, file: BinaryIO) -> None:
        super().__init__()
        self._file = file

    def readable(self) -> bool:
        return True

    def read(self, size: int = -1) -> bytes:
        return self._file.read(PIECE_BYTES)


def events(path: str) -> Iterator[Event]:
    """The start and end of each element. An element has no children when it ends: what ended before is dropped."""
    try:
        with open(path, "rb") as file:
            _judge_prolog(file.read(MAX_PROLOG_BYTES))
            file.seek(0)
            yield from _elements(file)
    except OSError as fault:
        raise Unreadable(fault.strerror or fault) from None


def _elements(file: BinaryIO) -> Iterator[Event]:
    open_elements: list[ElementTree.Element] = []
    try:
        for kind, element in ElementTree.iterparse(_Pieces(file), events=("start", "end")):
            if kind == "start":
                if len(open_elements) == MAX_DEPTH:
                    raise NoExport(f"elements stand more than {MAX_DEPTH} deep in one another")
                open_elements.append(element)
                yield kind, element
            else:
                yield kind, element
                open_elements.pop()
                if open_elements:
                    open_elements[-1].remove(element)
    except ElementTree.ParseError as fault:
        raise NoExport(_told(fault.code, fault.position)) from None
    except (ValueError, LookupError) as fault:
        raise NoExport(shown(str(fault))) from None


def _told(code: int, position: tuple[int, int]) -> str:
    line, column = position
    return f"line {line}, column {column + 1}: {expat.ErrorString(code)}; the file is cut off or damaged"


class _Rooted(Exception):
    """The first element has been met."""


def _judge_prolog(head: bytes) -> None:
    """Refuses a file whose first element isn't an L5X file's, and any DTD, before its entities are looked at."""
    if not head.strip():
        raise NoExport("the file is empty")
    parser = expat.ParserCreate()

    def doctype(name: str, system: str | None, public: str | None, internal: bool) -> None:
        raise NoExport("it has a DTD, which an L5X file has not; no entity of it was followed")

    def first(name: str, attributes: dict[str, str]) -> None:
        if name != ROOT:
            raise NoExport(f"its first element is {shown(name)}, not {ROOT}")
        raise _Rooted

    parser.StartDoctypeDeclHandler = doctype
    parser.StartElementHandler = first
    try:
        parser.Parse(head, False)
    except _Rooted:
        return
    except expat.ExpatError as fault:
        hint = _hint(head)
        why = f"line {fault.lineno}, column {fault.offset + 1}: {expat.ErrorString(fault.code)}"
        raise NoExport(f"it is no XML: {why}{hint}") from None
    except (ValueError, LookupError) as fault:
        raise NoExport(f"its encoding can't be read: {shown(str(fault))}") from None
    if len(head) < MAX_PROLOG_BYTES:
        raise NoExport("it ends before its first element; the file is cut off")
    raise NoExport(f"no element begins in its first {MAX_PROLOG_BYTES:,} bytes")


def _hint(head: bytes) -> str:
    """What the file may be in place of an L5X file."""
    if head.startswith(b"PK\x03\x04"):
        return " (a ZIP archive: unpack it first)"
    if b"CONTROLLER" in head and b"IE_VER" in head:
        return " (an L5K file: save it as L5X)"
    return ""
