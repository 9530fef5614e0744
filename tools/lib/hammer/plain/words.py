"""Names, numbers, flags and operand forms (FORMATS.md, section 1)."""

import re
import sys
from functools import lru_cache

sys.set_int_max_str_digits(0)

NAME = re.compile(r"[A-Za-z_](?:[A-Za-z0-9]|_(?!_))*(?<!_)")
PART = re.compile(r"[A-Za-z0-9_]{1,40}")
DECIMAL = re.compile(r"-?[0-9](?:_?[0-9])*")
BASED = {"2": re.compile(r"[01](?:_?[01])*"), "8": re.compile(r"[0-7](?:_?[0-7])*"), "16": re.compile(r"[0-9A-Fa-f](?:_?[0-9A-Fa-f])*")}
FLAGS = ("S:FS", "S:V", "S:Z", "S:N")
TAG_BYTES = re.compile(r"[A-Za-z0-9_:]*")
DIGITS = re.compile(r"[0-9]+")
KEPT = 1 << 14  # readings of texts that come again and again


@lru_cache(KEPT)
def is_name(text):
    return len(text) <= 40 and NAME.fullmatch(text) is not None


def is_tag_name(text, of_controller):
    """A name; of a controller tag also 2 to 4 parts, with a colon between them."""
    if ":" not in text:
        return is_name(text)
    first, *others = text.split(":")
    return (
        of_controller and len(text) <= 80 and len(others) <= 3 and is_name(first)
        and first.lower() not in ("s", "program") and all(PART.fullmatch(part) for part in others)
    )


def number_of(text):
    """The number that a text is, as it is written; None if it is no number."""
    if DECIMAL.fullmatch(text):
        return int(text.replace("_", ""))
    base, sign, digits = text.partition("#")
    if sign and base in BASED and BASED[base].fullmatch(digits):
        return Based(int(digits.replace("_", ""), int(base)))
    return None


class Based(int):
    """A number with a base: 32 bits, taken as a DINT."""


def immediate(number):
    """The DINT of a number, or None if it is out of range."""
    if isinstance(number, Based):
        return signed(number, 32) if number < 1 << 32 else None
    return int(number) if -(1 << 31) <= number < 1 << 31 else None


def signed(number, bits):
    """The signed number of the low bits."""
    low = int(number) & ((1 << bits) - 1)
    return low - (1 << bits) if low >> (bits - 1) else low


@lru_cache(KEPT)
def operand_form(text):
    """A tag's name and the parts after it: ('member', name), ('at', digits), ('by', form) or ('bit', digits). None of no form."""
    read = form_at(text, 0)
    return read[0] if read and read[1] == len(text) else None


def form_at(text, start):
    """The longest form that begins there, and where it ends."""
    end = TAG_BYTES.match(text, start).end()
    if not is_tag_name(text[start:end], True):
        return None
    tag, parts = text[start:end], []
    while end < len(text) and text[end] in ".[":
        read = subscript_at(text, end + 1) if text[end] == "[" else member_at(text, end + 1)
        if not read:
            return None
        parts.append(read[0])
        end = read[1]
        if read[0][0] == "bit":
            break
    return (tag, tuple(parts)), end


def member_at(text, start):
    """A member's name, or a bit's number."""
    digits = DIGITS.match(text, start)
    end = TAG_BYTES.match(text, start).end()
    if digits and digits.end() == end:
        return ("bit", text[start:end]), end
    return (("member", text[start:end]), end) if is_name(text[start:end]) else None


def subscript_at(text, start):
    digits = DIGITS.match(text, start)
    if digits and text[digits.end():digits.end() + 1] == "]":
        return ("at", digits.group()), digits.end() + 1
    read = form_at(text, start)
    if not read or text[read[1]:read[1] + 1] != "]":
        return None
    return ("by", read[0]), read[1] + 1
