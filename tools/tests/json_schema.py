"""JSON Schema as far as docs/project.schema.json uses it: each keyword as the standard (2020-12) has it; with any other it isn't read."""

from __future__ import annotations

import re
from collections.abc import Callable

NOTES = {"$schema", "title", "description"}
PARTS = {"$defs", "$ref", "properties", "additionalProperties", "items", "oneOf"}
Rule = Callable[[object, object], bool]


def is_number(value: object) -> bool:
    return isinstance(value, (int, float)) and not isinstance(value, bool)


KINDS: dict[str, Callable[[object], bool]] = {
    "object": lambda value: isinstance(value, dict),
    "array": lambda value: isinstance(value, list),
    "string": lambda value: isinstance(value, str),
    "boolean": lambda value: isinstance(value, bool),
    "integer": lambda value: is_number(value) and (isinstance(value, int) or value.is_integer()),  # (1.0 is one)
}


def same(one: object, other: object) -> bool:
    """Whether two values without parts are equal: 1 and 1.0 are, 1 and true aren't."""
    return one == other and isinstance(one, bool) == isinstance(other, bool)


def matches(pattern: str, text: str) -> bool:
    """Whether a text has the pattern, whose last `$` is the text's end alone, as in JavaScript."""
    return re.search(f"{pattern[:-1]}\\Z" if pattern.endswith("$") else pattern, text) is not None


def of(kind: type, rule: Rule) -> Rule:
    """A rule of one kind of values, which takes every other."""
    return lambda wanted, value: not isinstance(value, kind) or rule(wanted, value)


# The keywords that judge a value without its parts.
RULES: dict[str, Rule] = {
    "type": lambda wanted, value: KINDS[wanted](value),
    "const": same,
    "enum": lambda wanted, value: any(same(one, value) for one in wanted),
    "minimum": lambda wanted, value: not is_number(value) or value >= wanted,
    "maximum": lambda wanted, value: not is_number(value) or value <= wanted,
    "minLength": of(str, lambda wanted, value: len(value) >= wanted),
    "maxLength": of(str, lambda wanted, value: len(value) <= wanted),
    "pattern": of(str, matches),
    "minItems": of(list, lambda wanted, value: len(value) >= wanted),
    "maxItems": of(list, lambda wanted, value: len(value) <= wanted),
    "required": of(dict, lambda wanted, value: all(key in value for key in wanted)),
}


class Schema:
    """A schema; ValueError where it says what isn't known here."""

    def __init__(self, whole: dict) -> None:
        self.whole = whole
        self.read(whole)

    def read(self, form: dict) -> None:
        unknown = form.keys() - RULES.keys() - PARTS - NOTES
        if unknown or form.get("type", "object") not in KINDS or form.get("additionalProperties", False) is not False:
            raise ValueError(f"not known here: {sorted(unknown) or form}")
        if "$ref" in form:
            self.named(form["$ref"])
        lists = (form.get("properties", {}).values(), form.get("$defs", {}).values(), form.get("oneOf", ()))
        for part in (*(one for parts in lists for one in parts), *([form["items"]] if "items" in form else [])):
            self.read(part)

    def named(self, reference: str) -> dict:
        start, _, name = reference.rpartition("/")
        if start != "#/$defs" or name not in self.whole["$defs"]:
            raise ValueError(f"not known here: {reference}")
        return self.whole["$defs"][name]

    def fault(self, value: object, form: dict | None = None) -> str:
        """Where a value first isn't what the form takes, and the keyword that refuses it; nothing of a value that is taken."""
        form = self.whole if form is None else form
        for keyword, wanted in form.items():
            if keyword in RULES and not RULES[keyword](wanted, value):
                return f"{keyword} {wanted}"
        if "$ref" in form and (found := self.fault(value, self.named(form["$ref"]))):
            return found
        if "oneOf" in form and (found := [self.fault(value, one) for one in form["oneOf"]]).count("") != 1:
            return f"oneOf {found}"
        if isinstance(value, dict):
            return self.fault_of_keys(value, form)
        return self.fault_of_items(value, form["items"]) if isinstance(value, list) and "items" in form else ""

    def fault_of_keys(self, value: dict, form: dict) -> str:
        known = form.get("properties", {})
        for key, one in value.items():
            found = self.fault(one, known[key]) if key in known else "additionalProperties" if "additionalProperties" in form else ""
            if found:
                return f"{key}: {found}"
        return ""

    def fault_of_items(self, value: list, form: dict) -> str:
        return next((f"{place}: {found}" for place, one in enumerate(value) if (found := self.fault(one, form))), "")
