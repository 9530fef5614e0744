"""Refusals of a project's shape: a key that is missing or not known, a value of another kind or out of range, a list too long."""

from __future__ import annotations

import json
from functools import cache

from lib.hammer.plain.project import MOST_ALL
from lib.hammer.plain.reader import MOST_RUNG
from lib.hammer.plain.words import is_name
from lib.paths import TOP, read_text
from lib.texts import Said, counted, listed, meant, near, quoted

from .refused import KINDS, Refused

NUMBERS = ("one", "two", "three")
# What to do about keys that editors and people like to add.
NOT_TAKEN = {
    "$schema": "name the schema in your editor's settings, not in the file (docs/FORMATS.md, section 10)",
    "description": "a project has no comments: keep them in a file beside it",
    "comment": "a project has no comments: keep them in a file beside it",
}


@cache
def schema() -> dict:
    return json.loads(read_text(f"{TOP}/docs/project.schema.json"))


def form(refused: Refused, keys: list[str]) -> dict:
    """What the schema says of the value that these keys lead to; nothing of a key that isn't known."""
    found = schema()
    for count in range(len(keys) + 1):
        if count:
            found = found.get("items", {}) if keys[count - 1].isdigit() else found.get("properties", {}).get(keys[count - 1], {})
        if "$ref" in found:
            found = schema()["$defs"][found["$ref"].rpartition("/")[2]]
        if "oneOf" in found:
            found = variant(found["oneOf"], refused.at(keys[:count]))
    if "inhibited" in found.get("properties", {}) and refused.at(["schema"]) == 1:
        found = {**found, "properties": {key: one for key, one in found["properties"].items() if key != "inhibited"}}
    return found


def variant(forms: list[dict], value: object) -> dict:
    """Of a task the form of its kind, of a tag that of an alias if it has one."""
    if not isinstance(value, dict):
        return forms[0]
    for one in forms:
        properties = one["properties"]
        if properties.get("kind", {}).get("const", value) == value.get("kind") or ("alias" in properties and "alias" in value):
            return one
    return forms[0]


def kinds_of_tasks() -> list[str]:
    return [one["properties"]["kind"]["const"] for one in schema()["$defs"]["task"]["oneOf"]]


def missing(refused: Refused) -> Said:
    """P2."""
    *keys, key = refused.keys
    wanted = form(refused, keys)
    has = refused.at(keys)
    like = near(key, [one for one in has if one not in wanted.get("properties", {})]) if isinstance(has, dict) else []
    return refused.say(f"the key {quoted(key)} is missing" + (f"; it has {quoted(like[0])}" if like else ""), keys)


def unknown_key(refused: Refused) -> Said:
    """P3."""
    value = refused.at(refused.keys)
    allowed = list(form(refused, refused.keys).get("properties", {}))
    wrong = sorted((key for key in value if key not in allowed), key=lambda one: refused.text.node([*refused.keys, one]).at)
    rest = [key for key in allowed if key not in value]
    why = f"no key {quoted(wrong[0])} may stand here"
    if wrong[0] in NOT_TAKEN:
        why += f"; {NOT_TAKEN[wrong[0]]}"
    elif near(wrong[0], rest):
        why += meant(wrong[0], rest)
    said = refused.say(why, [*refused.keys, wrong[0]], special_of(wrong[0], value), of_key=True)
    said.more = [f"it may have {listed(allowed)}"] + [f"nor may {quoted(key)} stand here" for key in wrong[1:4]]
    return said


def special_of(key: str, value: dict) -> str:
    """Whether the key is one that other objects of this kind may have."""
    others = {"priority", "period", "inhibited"} if "kind" in value else {"type", "dim"} if "alias" in value else set()
    return "this one" if key in others else "no such object"


def kind_of(value: object) -> str:
    if isinstance(value, bool):
        return "true or false"
    if value is None:
        return "null"
    names = {str: "a text", int: "a number", float: "a number with a point or exponent", list: "a list", dict: "an object"}
    return names[type(value)]


WANTED = {"string": "a text", "integer": "a whole number", "array": "a list", "object": "an object", "boolean": "true or false"}


def other_kind(refused: Refused) -> Said:
    """P4."""
    value, wanted = refused.at(refused.keys), form(refused, refused.keys)
    kind = wanted.get("type") or ("integer" if all(isinstance(one, int) for one in wanted.get("enum", [""])) else "string")
    why = f"{subject(refused)} is {kind_of(value)}; {WANTED[kind]} must stand here"
    isnt_whole = kind == "integer" and isinstance(value, (int, float)) and not isinstance(value, bool)
    return refused.say(why, applies="isn't whole" if isnt_whole else "of another kind")


def subject(refused: Refused) -> str:
    """`'priority'`, or of an element of a list nothing but that it is this one."""
    key = refused.keys[-1] if refused.keys else ""
    return quoted(key) if key and not key.isdigit() else "this"


def long_list(refused: Refused) -> Said:
    """P11."""
    value, wanted = refused.at(refused.keys), form(refused, refused.keys)
    if isinstance(value, list) and len(value) > wanted.get("maxItems", len(value)):
        what = KINDS.get(refused.keys[-1], "element")
        return refused.say(f"{counted(len(value), what)}; at most {wanted['maxItems']:,}")
    return Said(f"the project has more than {MOST_ALL:,} instructions")


def out_of_form(refused: Refused) -> Said | None:
    """P5 of the shape; None where the value has the right form, so that it is a name of nothing."""
    value, wanted = refused.at(refused.keys), form(refused, refused.keys)
    if isinstance(value, list):
        return refused.say(f"{subject(refused)} is an empty list; at least one must stand in it", applies="out of range")
    if isinstance(value, int):
        return number_out_of_range(refused, value, wanted)
    if not isinstance(value, str):
        return None
    words = kinds_of_tasks() if "const" in wanted or refused.keys[-1] == "kind" else wanted.get("enum", [])
    if words and value not in words:
        return refused.say(f"{subject(refused)} can't be {quoted(value)}; it is {' or '.join(map(str, words))}", applies="no word")
    if "pattern" in wanted and not is_name(value.encode("utf-8").decode("latin-1")):
        return refused.say(f"{quoted(value)} is no name: {name_fault(value)}", applies="no name")
    if len(value.encode("utf-8")) > MOST_RUNG:
        return refused.say(f"the rung has {len(value.encode('utf-8')):,} bytes; at most {MOST_RUNG:,}", applies="out of range")
    return None


def number_out_of_range(refused: Refused, value: int, wanted: dict) -> Said | None:
    words = wanted.get("enum", [value])
    least, most = wanted.get("minimum", min(words)), wanted.get("maximum", max(words))
    if least <= value <= most:
        return None
    return refused.say(f"{subject(refused)} can't be {value}; it is from {least:,} to {most:,}", applies="out of range")


def name_fault(text: str) -> str:
    """Why a text is no name."""
    if not text:
        return "it is empty"
    other = next((one for one in text if not (one.isascii() and (one.isalnum() or one == "_"))), None)
    if other is not None:
        return f"it has {quoted(other)}, and a name has letters, digits and underscores"
    if text[0].isdigit():
        return "it begins with a digit"
    if "__" in text:
        return "two underscores follow one another"
    if text.endswith("_"):
        return "it ends with an underscore"
    return f"it has {len(text)} letters, and a name at most 40"
