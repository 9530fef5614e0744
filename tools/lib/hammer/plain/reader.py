"""JSON as it is read, and the shape of a project file (FORMATS.md, section 10, its table and P1 to P5, P11)."""

import json
import re
from itertools import accumulate
from typing import NamedTuple

from .words import is_name

DEEPEST, MOST_RUNG = 127, 4_096
STRINGS = re.compile(r'"[^"\\]*(?:\\.[^"\\]*)*"', re.DOTALL)
BRACKET = re.compile(r"[\[\]{}]")


class Fault(Exception):
    """A refusal: its code, where, and what is refused there."""

    def __init__(self, code, path=(), inner=""):
        super().__init__(code, path, inner)
        self.code, self.path, self.inner = code, path, inner

    def line(self):
        where = ".".join(str(part) for part in self.path)
        return " ".join(part for part in ("project", self.code, where, str(self.inner)) if part)


class Float:
    """A number that isn't whole."""


def value_of(text):
    """The value of a JSON text; P1 if it is none."""
    try:
        value = json.loads(text.decode("utf-8"), parse_int=whole, parse_float=broken, parse_constant=no_constant)
        if b"\\u" in text:  # (half of a pair may stand there, and is no character)
            json.dumps(value, ensure_ascii=False, default=lambda _: 0).encode("utf-8")
    except (ValueError, RecursionError):
        raise Fault("P1") from None
    if depth_of(text.decode("utf-8")) > DEEPEST:
        raise Fault("P1")
    return value


def whole(text):
    number = int(text)
    if text != "-0" and -(1 << 63) <= number < 1 << 64:
        return number
    return broken(text)


def broken(text):
    if float(text) in (float("inf"), float("-inf")):
        raise ValueError
    return Float()


def no_constant(text):
    raise ValueError(text)


def depth_of(text):
    brackets = BRACKET.findall(STRINGS.sub("", text))
    return max(accumulate(1 if bracket in "[{" else -1 for bracket in brackets), default=0)


class Field(NamedTuple):
    """A field: how its value is judged, and whether it may be left out."""

    judge: object
    needed: bool


def is_whole(value):
    return isinstance(value, int) and not isinstance(value, bool)


def number(least, most):
    def judge(value, path):
        if not is_whole(value):
            raise Fault("P4", path)
        if not least <= value <= most:
            raise Fault("P5", path)
    return judge


def text(value, path):
    if not isinstance(value, str):
        raise Fault("P4", path)


def name(value, path):
    text(value, path)
    if not is_name(value):
        raise Fault("P5", path)


def rung(value, path):
    text(value, path)
    if len(value.encode("utf-8")) > MOST_RUNG:
        raise Fault("P5", path)


def word(*words):
    def judge(value, path):
        text(value, path)
        if value not in words:
            raise Fault("P5", path)
    return judge


def truth(value, path):
    if not isinstance(value, bool):
        raise Fault("P4", path)


def items(judge, most, least=0):
    def judge_all(value, path):
        if not isinstance(value, list):
            raise Fault("P4", path)
        if len(value) < least:
            raise Fault("P5", path)
        if len(value) > most:
            raise Fault("P11", path)
        for at, item in enumerate(value):
            judge(item, (*path, at))
    return judge_all


def record(fields_of):
    """An object; its fields depend on what is in it."""
    def judge(value, path):
        if not isinstance(value, dict):
            raise Fault("P4", path)
        fields = fields_of(value, path) if callable(fields_of) else fields_of
        if not set(value) <= set(fields):
            raise Fault("P3", path)
        for key, field in fields.items():
            if key in value:
                field.judge(value[key], (*path, key))
            elif field.needed:
                raise Fault("P2", (*path, key))
    return judge


NEEDED = {"name": Field(name, True)}
DIM = {"dim": Field(number(1, 65_536), False)}
MEMBER = record({**NEEDED, "type": Field(name, True), **DIM})
STRUCTURE_TYPE = record({**NEEDED, "members": Field(items(MEMBER, 128, 1), True)})


def tag_fields(value, _):
    if "alias" in value:
        return {"name": Field(text, True), "alias": Field(text, True)}
    return {"name": Field(text, True), "type": Field(name, True), **DIM}


TAGS = {"tags": Field(items(record(tag_fields), 4_096), False)}
ROUTINE = record({**NEEDED, "rungs": Field(items(rung, 10_000), True)})
PROGRAM = record({**NEEDED, "main": Field(name, True), **TAGS, "routines": Field(items(ROUTINE, 64, 1), True)})


def task_fields(newest):
    def fields(value, path):
        if "kind" not in value:
            raise Fault("P2", (*path, "kind"))
        kind = Field(word("continuous", "periodic", "event"), True)
        kind.judge(value["kind"], (*path, "kind"))
        made = {**NEEDED, "kind": kind}
        if value["kind"] != "continuous":
            made["priority"] = Field(number(1, 15), True)
        if value["kind"] == "periodic":
            made["period"] = Field(number(1, 2_000_000), True)
        made["watchdog"] = Field(number(1, 2_000_000), False)
        if newest:
            made["inhibited"] = Field(truth, False)
        return {**made, "programs": Field(items(name, 100, 1), True)}
    return fields


CONNECTION = record({**NEEDED, "tag": Field(text, True), "direction": Field(word("in", "out"), True), "trigger": Field(name, False)})
INITIAL = record({"tag": Field(text, True), "value": Field(number(-(1 << 31), (1 << 31) - 1), True)})


def top_fields(value, _):
    newest = value.get("schema") == 2
    return {
        "schema": Field(number(1, 2), True), "controller": Field(name, True), "types": Field(items(STRUCTURE_TYPE, 64), False), **TAGS,
        "programs": Field(items(PROGRAM, 100, 1), True), "tasks": Field(items(record(task_fields(newest)), 32, 1), True),
        "connections": Field(items(CONNECTION, 64), False), "initial": Field(items(INITIAL, 10_000), False),
        "watch": Field(items(text, 256), False),
    }


FILE = record(top_fields)


def described(contents):
    """What a file describes, if its text and its shape are right; its texts with one character a byte."""
    value = value_of(contents)
    FILE(value, ())
    return value if contents.isascii() and b"\\u" not in contents else bytewise(value)


def bytewise(value):
    if isinstance(value, str):
        return value if value.isascii() else value.encode("utf-8").decode("latin-1")
    if isinstance(value, list):
        return [bytewise(item) for item in value]
    if isinstance(value, dict):
        return {key: bytewise(item) for key, item in value.items()}
    return value
