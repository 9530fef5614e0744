"""Declared types and tags, and what an operand's text names (docs/FORMATS.md, sections 1 and 3)."""

from __future__ import annotations

import contextlib
import re
from collections.abc import Callable, Iterator
from dataclasses import dataclass, field

from lib.texts import shown

from .profile import COUNTER_MEMBERS, INTEGER_BITS, MAX_SUBSCRIPTS, TIMER_MEMBERS
from .profile import is_name, is_tag_name, key


class NameFault(Exception):
    """A text names no place; says why."""


@dataclass(frozen=True)
class Type:
    """A type's name, as declared, and its elements; none if it is no array."""

    base: str
    dim: int | None = None


@dataclass
class Structure:
    name: str
    members: list[tuple[str, Type]]
    size: int
    by_name: dict[str, Type] = field(init=False)

    def __post_init__(self) -> None:
        self.by_name = {key(name): of for name, of in self.members}


@dataclass(frozen=True)
class Found:
    """What a text names: its type, where it lies, and how many subscripts are variable."""

    of: Type
    # The tag in which it lies, and that with what stands behind it; as compared, the scope before it.
    tag: str
    place: str
    subscripts: int = 0
    # PRE or ACC of a timer.
    is_time: bool = False


@dataclass
class Entry:
    """A tag, or an alias of what a text names in the same scope."""

    name: str
    of: Type | None
    target: str = ""


_BUILT_IN: dict[str, dict[str, Type]] = {
    "TIMER": {key(m): Type("BOOL") for m in TIMER_MEMBERS},
    "COUNTER": {key(m): Type("BOOL") for m in COUNTER_MEMBERS},
}
for _members in _BUILT_IN.values():
    _members |= {"pre": Type("DINT"), "acc": Type("DINT")}

SIZES = {"BOOL": 1, "SINT": 1, "INT": 2, "DINT": 4, "TIMER": 16, "COUNTER": 12}
_ALIGNMENTS = {"BOOL": 1, "SINT": 1, "INT": 2}


def rounded(number: int, step: int) -> int:
    return -(-number // step) * step


def size_of(of: Type, structures: dict[str, Structure]) -> int:
    structure = structures.get(key(of.base))
    one = structure.size if structure else SIZES[of.base]
    if of.dim is None:
        return one
    return of.dim // 8 if of.base == "BOOL" else of.dim * one


def structure_size(members: list[tuple[str, Type]], structures: dict[str, Structure]) -> int:
    at = 0
    for _, of in members:
        at = rounded(at, alignment(of)) + size_of(of, structures)
    return rounded(at, 4)


def alignment(of: Type) -> int:
    return 4 if of.dim is not None and of.base == "BOOL" else _ALIGNMENTS.get(of.base, 4)


def bits_of(of: Type, structures: dict[str, Structure], place: str = "", at: int = 0) -> Iterator[tuple[str, int]]:
    """The BOOLs in a structure, each with the byte that it is the lowest bit of."""
    structure = structures.get(key(of.base))
    if structure is None:
        if of == Type("BOOL"):
            yield place, at
        return
    if of.dim is not None:
        for k in range(of.dim):
            yield from bits_of(Type(of.base), structures, f"{place}[{k}]", at + k * structure.size)
        return
    for name, inner in structure.members:
        at = rounded(at, alignment(inner))
        yield from bits_of(inner, structures, f"{place}.{name}", at)
        at += size_of(inner, structures)


def overlap(one: str, other: str) -> bool:
    """Whether two places of one tag have something in common, as far as can be told: a variable subscript may be any."""
    for a, b in zip(_PLACE.findall(one), _PLACE.findall(other)):
        if a != b and "[]" not in (a, b):
            return False
    return True


_PLACE = re.compile(r"[.]?[^.\[]+|\[[^\]]*\]")

# ---- operand forms

# A step of a form: a member's name, an element's number, another form as a subscript, or a bit's number.
Step = tuple[str, "str | int | Form"]


@dataclass
class Form:
    tag: str
    steps: list[Step] = field(default_factory=list)


_TOKEN = re.compile(r"\.|\[|\]|[^.\[\]]+")
_DIGITS = re.compile(r"[0-9]+\Z")


def form(text: str) -> Form:
    """The form of an operand's text."""
    tokens = _TOKEN.findall(text)
    if not tokens or not is_tag_name(tokens[0]):
        raise NameFault(f"{shown(text)} is no operand form (C9)")
    outer: list[Form] = []
    here, at = Form(tokens[0]), 1
    while at < len(tokens):
        here, used = _step(here, outer, tokens, at, text)
        at += used
    if outer:
        raise NameFault(f"{shown(text)} is no operand form (C9)")
    return here


def _step(here: Form, outer: list[Form], tokens: list[str], at: int, text: str) -> tuple[Form, int]:
    """The form after one more step, and how many tokens that took."""
    token = tokens[at]
    word = tokens[at + 1] if at + 1 < len(tokens) else ""
    is_bit = bool(here.steps) and here.steps[-1][0] == "bit"
    if token == "]" and outer:
        array = outer.pop()
        array.steps.append(("indexed", here))
        return array, 1
    if not is_bit and token == ".":
        if is_name(word):
            here.steps.append(("member", word))
            return here, 2
        if _DIGITS.match(word):
            here.steps.append(("bit", _small(word)))
            return here, 2
    if not is_bit and token == "[":
        if _DIGITS.match(word) and tokens[at + 2 : at + 3] == ["]"]:
            here.steps.append(("element", _small(word)))
            return here, 3
        if is_tag_name(word):
            outer.append(here)
            return Form(word), 2
    raise NameFault(f"{shown(text)} is no operand form (C9)")


def spelled(of: Form, named: Callable[[str], str] = str) -> str:
    """The text of a form, with other texts for the names of tags."""
    marks = {"member": ".{}", "bit": ".{}", "element": "[{}]"}
    steps = (f"[{spelled(what, named)}]" if kind == "indexed" else marks[kind].format(what) for kind, what in of.steps)
    return named(of.tag) + "".join(steps)


def subscripts(text: str) -> list[str]:
    """The variable subscripts of an operand."""
    return [spelled(what) for kind, what in form(text).steps if kind == "indexed"]


def _small(digits: str) -> int:
    """The number; one of many digits is out of any range."""
    return int(digits.lstrip("0")[:12] or "0")


# ---- names


@dataclass
class _Link:
    """An alias of a chain."""

    scope: Scope
    name: str
    target: str

    def form(self) -> Form:
        return form(self.target)


class Scope:
    """The tags that a program sees, its own before the controller's; or those that the controller sees."""

    def __init__(
        self, structures: dict[str, Structure], outer: Scope | None = None, front: str = "", lacks: str = "the file has no tag"
    ) -> None:
        self._structures = structures
        self._front = front
        self._outer = outer
        # What is said of a name that isn't there.
        self._lacks = lacks
        # What is told of each name that is looked up and isn't taken, if anything is.
        self.told: Callable[[str], None] | None = None
        self._entries: dict[str, Entry] = {}
        # Tags of the file that aren't taken.
        self.left_out: dict[str, str] = {}
        # How names begin that aren't taken, each with what the list has lines about.
        self.left_out_fronts: dict[str, str] = {}
        self._known: dict[str, Found] = {}
        # What aliases stand for, or why for nothing.
        self._aliases: dict[str, Found | str] = {}

    def declare(self, entry: Entry) -> None:
        self._entries[key(entry.name)] = entry

    def forget(self, name: str, why: str) -> None:
        self._entries.pop(key(name), None)
        self.left_out[key(name)] = why
        self.forget_aliases()

    def forget_aliases(self) -> None:
        """What aliases stand for is worked out anew."""
        self._known.clear()
        self._aliases.clear()

    def has(self, name: str) -> bool:
        return key(name) in self._entries

    def place(self, text: str) -> Found:
        """What a text names that has no variable subscript, and isn't asked for again."""
        return self._resolved(form(text), True, text)

    def found(self, text: str, fixed: bool = False) -> Found:
        """What a text names; `fixed` if numbers alone may be subscripts."""
        known = self._known.get(text)
        if known is not None and not (fixed and known.subscripts):
            return known
        found = self._resolved(form(text), fixed, text)
        self._known[text] = found
        return found

    def _resolved(self, of: Form, fixed: bool, text: str, depth: int = 0) -> Found:
        here = self._named(of.tag)
        for kind, what in of.steps:
            if kind == "indexed":
                here = self._indexed(here, what, fixed, text, depth)
            else:
                here = self._stepped(here, kind, what, text)
        return here

    def _named(self, name: str) -> Found:
        """What a name stands for. Aliases are followed one after another, and what each stands for is kept."""
        chain: list[_Link] = []
        try:
            here = self._chained(name, chain)
            while chain:
                here = chain[-1].scope._behind(here, chain[-1])
                link = chain.pop()
                link.scope._aliases[link.name] = here
        except NameFault as fault:
            for link in chain:
                link.scope._aliases[link.name] = str(fault)
            raise
        return here

    def _chained(self, name: str, chain: list[_Link]) -> Found:
        """What stands at the end of a chain of aliases, whose links are added."""
        scope: Scope = self
        met: set[tuple[int, str]] = set()
        while True:
            scope, entry = scope._entry(name)
            if entry.of is not None:
                tag = scope._front + key(entry.name)
                return Found(entry.of, tag, tag)
            known = scope._aliases.get(key(name))
            if isinstance(known, Found):
                return known
            if known is not None:
                raise NameFault(known)
            if (id(scope), key(name)) in met:
                raise NameFault(f"the aliases of {shown(name)} never end (G7)")
            met.add((id(scope), key(name)))
            link = _Link(scope, key(name), entry.target)
            chain.append(link)
            name = link.form().tag

    def _behind(self, here: Found, link: _Link) -> Found:
        """What an alias stands for, by what the name in front of its target stands for."""
        for kind, what in link.form().steps:
            if kind == "indexed":
                raise NameFault(f"{shown(link.target)} has a variable subscript (C7)")
            here = self._stepped(here, kind, what, link.target)
        return here

    def _entry(self, name: str) -> tuple[Scope, Entry]:
        scope: Scope | None = self
        while scope is not None:
            entry = scope._entries.get(key(name))
            if entry is not None:
                return scope, entry
            if key(name) in scope.left_out:
                if scope.told is not None:
                    scope.told(scope.tag_key(name))
                raise NameFault(f"tag {shown(name)} isn't taken (C4)")
            of = next((of for front, of in scope.left_out_fronts.items() if key(name).startswith(front)), None)
            if of is not None and scope.told is not None:
                scope.told(of)
            scope = scope._outer
        raise NameFault(f"{self._lacks} {shown(name)} (C4)")

    def tag_key(self, name: str) -> str:
        """What the list has lines about."""
        return f"tag:{self._front}{key(name)}"

    def key_of_left_out(self, text: str) -> str | None:
        """The key of the tag that a text names, if it is one that isn't taken."""
        with contextlib.suppress(NameFault):
            name, scope = form(text).tag, self
            while scope is not None and key(name) not in scope._entries:
                if key(name) in scope.left_out:
                    return scope.tag_key(name)
                scope = scope._outer
        return None

    def _stepped(self, here: Found, kind: str, what: object, text: str) -> Found:
        of = here.of
        if kind == "member":
            member = self._members(of.base).get(key(str(what))) if of.dim is None else None
            if member is None:
                raise NameFault(f"{shown(text)}: no member {shown(str(what))} (C5)")
            is_time = of.base == "TIMER" and member.base == "DINT"
            place = f"{here.place}.{key(str(what))}"
            return Found(member, here.tag, place, here.subscripts, is_time)
        if kind == "element":
            if of.dim is None:
                raise NameFault(f"{shown(text)}: a subscript at what is no array (C6)")
            if not 0 <= what < of.dim:
                raise NameFault(f"{shown(text)}: a subscript out of range (C6)")
            return Found(Type(of.base), here.tag, f"{here.place}[{what}]", here.subscripts)
        bits = INTEGER_BITS.get(of.base, 0) if of.dim is None else 0
        if not 0 <= what < bits:
            raise NameFault(f"{shown(text)}: no such bit (C6)")
        return Found(Type("BOOL"), here.tag, f"{here.place}.{what}", here.subscripts, here.is_time)

    def _members(self, base: str) -> dict[str, Type]:
        structure = self._structures.get(key(base))
        return structure.by_name if structure else _BUILT_IN.get(base, {})

    def _indexed(self, here: Found, inner: Form, fixed: bool, text: str, depth: int) -> Found:
        if here.of.dim is None:
            raise NameFault(f"{shown(text)}: a subscript at what is no array (C6)")
        if fixed or depth:
            raise NameFault(f"{shown(text)}: a variable subscript where none may stand (C7)")
        index = self._resolved(inner, False, text, depth + 1)
        if index.of.dim is not None or index.of.base not in INTEGER_BITS:
            raise NameFault(f"{shown(text)}: a subscript that is no integer (C7)")
        if here.subscripts == MAX_SUBSCRIPTS:
            raise NameFault(f"{shown(text)}: more than {MAX_SUBSCRIPTS} variable subscripts (C8)")
        return Found(Type(here.of.base), here.tag, f"{here.place}[]", here.subscripts + 1)
