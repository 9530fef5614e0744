"""Refusals of structures, tags and what names them: the Y and G codes, and what a text names as far as it goes."""

from __future__ import annotations

from collections.abc import Iterator

from lib.hammer.plain.tags import BITS, INTEGERS, MOST_IMAGE, MOST_STRUCTURE, SIZES, Found, up_to
from lib.hammer.plain.tags import Refused as NoTag
from lib.hammer.plain.words import FLAGS, is_name, is_tag_name, operand_form
from lib.tags import members_of, spelled
from lib.texts import Said, counted, meant, quoted

from .refused import Refused
from .shape import name_fault

# Why something names nothing, and words of the sentence that applies.
Why = tuple[str, str]


def bytewise(text: str) -> str:
    """As the plain reading has texts: a character a byte."""
    return text.encode("utf-8").decode("latin-1")


def scope_of(refused: Refused, text: str) -> tuple[int | None, str]:
    """The program in which a watched place or initial value is looked up, and the rest of the text."""
    head, dot, rest = text.removeprefix("Program:").partition(".")
    names = [one.lower() for one in refused.names("programs")]
    if text.startswith("Program:") and dot and head.lower() in names:
        return names.index(head.lower()), rest
    return None, text


def resolved(refused: Refused, text: str, scope: int | None = None) -> Found:
    return refused.half.tags.resolve(scope, bytewise(text), True)


def scoped(refused: Refused, text: str) -> Found:
    scope, rest = scope_of(refused, text)
    return resolved(refused, rest, scope)


def described(refused: Refused, found: Found) -> str:
    """`a DINT`, `an array of 4 DINTs`, `a TIMER`."""
    names = {one.lower(): one for one in refused.names("types")}
    base = names.get(found.base, found.base)
    return f"an array of {found.dim} {base}s" if found.dim else f"{'an' if base[0] in 'AEIOaeio' else 'a'} {base}"


def tag_names(refused: Refused, scope: int | None) -> list[str]:
    """The tags that a program sees, its own first; of the controller alone without a program."""
    own = refused.names("programs", str(scope), "tags") if scope is not None else []
    return own + refused.names("tags")


def no_place(refused: Refused, text: str, scope: int | None, fixed: bool) -> Why:
    """Why a text names nothing."""
    form = operand_form(bytewise(text))
    return first_fault(refused, form, scope, fixed) or ("", "") if form else (no_form(text), "")


def no_form(text: str) -> str:
    head = text.partition(".")[0].partition("[")[0]
    if any(one in text for one in "+-*/ ") and not text.startswith("Program:"):
        return f"{quoted(text)} is no operand: it may not have blanks or arithmetic"
    if text in FLAGS:
        return f"{quoted(text)} is a flag, and no tag"
    if not is_tag_name(bytewise(head), True):
        return f"{quoted(text)} is no operand: {quoted(head)} is no name of a tag"
    opened, closed = text.count("["), text.count("]")
    if opened != closed:
        return f"{quoted(text)} is no operand: a {'[' if opened < closed else ']'} is missing"
    return f"{quoted(text)} is no operand: see what stands after {quoted(longest(text))}"


def longest(text: str) -> str:
    """The longest beginning that is an operand form."""
    return next((text[:end] for end in range(len(text), 0, -1) if operand_form(bytewise(text[:end]))), "")


def first_fault(refused: Refused, form: tuple, scope: int | None, fixed: bool) -> Why | None:
    """The first part of an operand form, from the left, that names nothing."""
    tags, (name, parts) = refused.half.tags, form
    if not (tags.names[scope].get(name.lower()) or tags.names[None].get(name.lower())):
        return f"there is no tag {quoted(name)}{meant(name, tag_names(refused, scope))}", ""
    try:
        found = tags.follow(scope, (name, []), fixed)
    except NoTag as fault:
        return alias_fault(refused, name, scope, fault.code)
    for count, (part, value) in enumerate(parts, 1):
        if part == "by" and found.dim and not fixed:
            inner = first_fault(refused, value, scope, False)
            if inner:
                return inner
        try:
            found = tags.follow(scope, (name, parts[:count]), fixed)
        except NoTag as fault:
            return part_fault(refused, spelled((name, parts[: count - 1])), found, (part, value), fault.code)
    return None


def alias_fault(refused: Refused, name: str, scope: int | None, code: str) -> Why:
    own = scope if scope is not None and name.lower() in refused.half.tags.names[scope] else None
    _, where, target = refused.half.tags.names[own][name.lower()]
    if code == "G7":
        return f"{quoted(name)} is an alias of {quoted(target)}, and the chain never ends", ""
    why, applies = no_place(refused, target, where, True)
    return f"{quoted(name)} is an alias of {quoted(target)}: {why}", applies


def part_fault(refused: Refused, before: str, found: Found, part: tuple, code: str) -> Why:
    """Why this member, element or bit isn't there."""
    (kind, value), what = part, f"{quoted(before)} is {described(refused, found)}"
    if code == "G9":
        return f"{quoted(before)} has four variable subscripts already", ""
    if code == "G6":
        wanted = "an integer without a variable subscript" if in_rungs(refused) else "a number here"
        return f"the subscript of {quoted(before)} must be {wanted}", "no integer" if in_rungs(refused) else "in an alias"
    if kind == "member":
        if found.dim:
            return f"{what}: name an element first", "whole array"
        names = members_of(refused.half.tags.types, found.base)
        return f"{what} and has no member {quoted(value)}" + (meant(value, names) if names else ""), "such member"
    if kind == "bit":
        bits = BITS[found.base] if found.base in INTEGERS and not found.dim else 0
        return (f"{what}: its bits are 0 to {bits - 1}", "out of range") if bits else (f"{what}: it has no bits", "no integer")
    return (f"{what}: its elements are 0 to {found.dim - 1}", "out of range") if found.dim else (f"{what}: it has no elements", "no array")


def in_rungs(refused: Refused) -> bool:
    return not refused.keys or refused.keys[-1:] == ["rungs"] or "routines" in refused.keys


# ---- structures and declarations


def declaration(refused: Refused) -> Said:
    """P9, with a Y or a G code."""
    code, keys = refused.inner[0], refused.keys
    if keys[0] == "types":
        return structure(refused, code)
    one = refused.at(keys)
    if isinstance(one, dict):
        return declared(refused, code, one)
    text = str(one)
    scope, rest = scope_of(refused, text) if keys[0] != "connections" else (None, text)
    if text.startswith("Program:") and scope is None and keys[0] != "connections":
        name = text.removeprefix("Program:").partition(".")[0]
        if is_name(bytewise(name)) and "." in text:
            return refused.say(f"there is no program {quoted(name)}{meant(name, refused.names('programs'))}", keys)
    why, applies = no_place(refused, rest, scope, True)
    return refused.say(why, applies=applies)


def declared(refused: Refused, code: str, one: dict) -> Said:
    """Of a tag or an alias."""
    keys, name = refused.keys, one["name"]
    scope = int(keys[1]) if keys[0] == "programs" else None
    if code == "G1":
        applies = "has a" if scope is not None and ":" in name else "wrong form"
        return refused.say(f"{quoted(name)} is no name of a tag: {tag_name_fault(name, scope)}", [*keys, "name"], applies)
    if code == "G2":
        return refused.say(f"the name {quoted(name)} is taken: line {earlier_line(refused, name)} has it", [*keys, "name"])
    if code == "Y1":
        return refused.say(f"there is no type {quoted(one['type'])}{meant(one['type'], type_names(refused))}", [*keys, "type"])
    if code == "Y4":
        return refused.say(f"an array of BOOLs has 32 elements, or 64 and so on, not {one['dim']}", [*keys, "dim"])
    if code == "G8":
        size = counted(up_to(size_with(refused, one), 4), "byte")
        return refused.say(f"with this tag they have {size}; at most {MOST_IMAGE:,}", [*keys, "name"])
    if code == "G7":
        return refused.say(f"the chain of aliases from {quoted(name)} never ends", [*keys, "alias"])
    why, applies = no_place(refused, one["alias"], scope, True)
    return refused.say(why, [*keys, "alias"], applies)


def tag_name_fault(name: str, scope: int | None) -> str:
    if ":" not in name:
        return name_fault(name)
    if scope is not None:
        return "a program's tag has no ':'"
    head, *others = name.split(":")
    if head.lower() in ("s", "program"):
        return f"it may not begin with {quoted(head + ':')}"
    if not is_name(bytewise(head)):
        return f"of {quoted(head)}, {name_fault(head)}"
    if len(others) > 3:
        return "it has more than 4 parts"
    return "it has more than 80 letters" if len(name) > 80 else "after a ':' 1 to 40 letters, digits or underscores must stand"


def type_names(refused: Refused) -> list[str]:
    return [*SIZES, *refused.names("types")]


def earlier_line(refused: Refused, name: str) -> int:
    *before, place = refused.keys
    for at in range(int(place)):
        if str(refused.at([*before, str(at), "name"])).lower() == name.lower():
            return refused.line([*before, str(at), "name"])
    return refused.line()


def size_with(refused: Refused, one: dict) -> int:
    types = refused.half.tags.types
    return refused.half.tags.bytes + types.size(types.base(one["type"]), one.get("dim", 0))


def structure(refused: Refused, code: str) -> Said:
    """Y codes of a structure."""
    keys, name = refused.keys, refused.at([*refused.keys, "name"])
    if code == "Y6":
        return refused.say(f"there is a type {quoted(name)} already", [*keys, "name"])
    if code == "Y3":
        return refused.say(f"it contains itself: {' > '.join(circle(refused, name))}", [*keys, "name"])
    if code == "Y5":
        return refused.say(f"it has more than {MOST_STRUCTURE:,} bytes", [*keys, "name"])
    for at, member in enumerate(refused.at([*keys, "members"])):
        why = member_fault(refused, code, member, refused.names(*keys, "members")[:at])
        if why:
            key = {"Y2": "name", "Y1": "type", "Y4": "dim"}[code]
            return refused.say(f"member {member['name']}: {why}", [*keys, "members", str(at), key])
    raise LookupError(code)


def member_fault(refused: Refused, code: str, member: dict, earlier: list[str]) -> str:
    kind = member["type"].lower()
    if code == "Y2" and member["name"].lower() in [one.lower() for one in earlier]:
        return "the name is taken by an earlier member"
    if code == "Y1" and kind not in [one.lower() for one in type_names(refused)]:
        return f"there is no type {quoted(member['type'])}{meant(member['type'], type_names(refused))}"
    if code == "Y4" and kind == "bool" and member.get("dim", 0) % 32:
        return f"an array of BOOLs has 32 elements, or 64 and so on, not {member['dim']}"
    return ""


def circle(refused: Refused, start: str) -> list[str]:
    """The types on the way from one back to itself."""
    inside = {one["name"].lower(): [member["type"] for member in one["members"]] for one in refused.at(["types"])}
    for way in ways(inside, [start]):
        if len(way) > 1 and way[-1].lower() == start.lower():
            return way
    return [start]


def ways(inside: dict[str, list[str]], way: list[str]) -> Iterator[list[str]]:
    """The ways on from a type, shortest first; each type is passed once."""
    rest, seen = [way], set()
    while rest:
        one = rest.pop(0)
        yield one
        for of in inside.get(one[-1].lower(), []) if one[-1].lower() not in seen else []:
            rest.append([*one, of])
        seen.add(one[-1].lower())
