"""Values of tags as an L5X file writes them, in any radix."""

from __future__ import annotations

import re

from .profile import INTEGER_BITS

_DECIMAL = re.compile(r"[+-]?[0-9][0-9_]{0,19}\Z")
_BASED = re.compile(r"(2|8|16)#([0-9A-Fa-f_]{1,80})\Z")
_ESCAPES = {"L": 10, "N": 10, "P": 12, "R": 13, "T": 9, "$": 36, "'": 39}


def value(text: str, type_name: str) -> int | None:
    """The number that a value's text is, if the type can hold it."""
    bits = 1 if type_name == "BOOL" else INTEGER_BITS[type_name]
    text = text.strip()
    if _DECIMAL.match(text):
        return _fitting(int(text.replace("_", "")), bits)
    unsigned = _based(text) if not text.startswith("'") else _ascii(text)
    if unsigned is None or unsigned >= 1 << bits:
        return None
    return unsigned - (1 << bits) if bits > 1 and unsigned >> (bits - 1) else unsigned


def _fitting(number: int, bits: int) -> int | None:
    low, high = (0, 1) if bits == 1 else (-(1 << (bits - 1)), (1 << (bits - 1)) - 1)
    return number if low <= number <= high else None


def _based(text: str) -> int | None:
    found = _BASED.match(text)
    if found is None:
        return None
    try:
        return int(found[2].replace("_", "") or "x", int(found[1]))
    except ValueError:
        return None


def _ascii(text: str) -> int | None:
    """The number whose bytes, the highest first, are the characters between quotes; `$` begins an escape."""
    if len(text) < 2 or not text.endswith("'") or len(text) > 40:
        return None
    number, rest = 0, text[1:-1]
    while rest:
        code, rest = _character(rest)
        if code is None:
            return None
        number = number * 256 + code
    return number


def _character(rest: str) -> tuple[int | None, str]:
    if rest[0] != "$":
        return (ord(rest[0]) if ord(rest[0]) < 256 else None), rest[1:]
    after = rest[1:2].upper()
    if after in _ESCAPES:
        return _ESCAPES[after], rest[2:]
    if re.match(r"[0-9A-Fa-f]{2}", rest[1:3]):
        return int(rest[1:3], 16), rest[3:]
    return None, rest[1:]
