"""Which tags, initial values and connections a project can have."""

from __future__ import annotations

import itertools
import re
from dataclasses import dataclass

from lib.texts import shown

from .add_on_values import default_values
from .findings import Findings
from .model import AddOn, Export, Program, Tag
from .profile import INTEGER_BITS, MAX_CONNECTION_BYTES, MAX_CONNECTIONS, MAX_IMAGE_BYTES, MAX_NAME_BYTES
from .profile import MAX_TAGS, MAX_VALUES, is_name, is_tag_name, key, whole
from .tags import Entry, Found, NameFault, Scope, Type, bits_of, rounded, size_of
from .taking_types import TypeFault, Types, type_key
from .words import Needed

_CONNECTED = {"Produced": "produced", "Consumed": "consumed"}


@dataclass(eq=False)
class TakenTag:
    tag: Tag
    scope: Scope
    where: str
    # None of an alias.
    of: Type | None
    # What stands before the name where it is looked at from the controller.
    front: str = ""


@dataclass(eq=False)
class Connection:
    name: str
    tag: Tag
    trigger: str | None = None


class Tags:
    """The tags of the controller and of its programs that are taken; those of modules come first."""

    def __init__(self, types: Types, findings: Findings, tick_ms: int) -> None:
        self.controller = Scope(types.structures)
        self.programs: dict[str, Scope] = {}
        self.taken: list[TakenTag] = []
        self._types = types
        self._findings = findings
        self._tick_ms = tick_ms
        self._add_ons: dict[str, AddOn] = {}

    def take(self, export: Export, programs: list[Program], needed: Needed) -> None:
        self._add_ons = export.add_on_of
        for module in export.modules:
            of = f"module:{key(module.name)}"
            for fault in module.faults:
                self._findings.spare(of, f"module {shown(module.name)}", fault)
                self.controller.left_out_fronts[key(module.front)] = of
            if module.configuration is not None:
                self.controller.left_out[key(module.configuration)] = "a configuration tag"
            self._declare(module.tags, self.controller, f"module {shown(module.name)} tag", "")
        self._declare(export.tags, self.controller, "tag", "")
        for program in programs:
            front = f"program:{key(program.name)}."
            fresh = Scope(self._types.structures, self.controller, front)
            scope = self.programs.setdefault(key(program.name), fresh)
            where = f"program {shown(program.name)} tag"
            self._declare(program.tags, scope, where, f"Program:{program.name}.")
        self._settle(needed)
        for scope in [self.controller, *self.programs.values()]:
            scope.told = self._findings.named
        self._note_connected()
        self._note_bits()

    def connections(self) -> list[Connection]:
        """One for each module's tag that is taken, named by it."""
        found: list[Connection] = []
        names: set[str] = set()
        for taken in self.taken:
            if taken.tag.direction is not None:
                plain = re.sub(r"[^A-Za-z0-9]+", "_", taken.tag.name).strip("_")
                name, number = plain[:MAX_NAME_BYTES].rstrip("_"), 1
                while key(name) in names:
                    number += 1
                    name = f"{plain[: MAX_NAME_BYTES - 4].rstrip('_')}_{number}"
                names.add(key(name))
                found.append(Connection(name, taken.tag))
        return found

    def first_values(self) -> dict[str, int]:
        """The values that aren't 0 by their places, as the file has them."""
        return {key(t.front + t.tag.name + v.place): v.number for t in self.taken for v in t.tag.values}

    def drop_program(self, name: str) -> None:
        """Without a program that isn't taken; its tags go with it."""
        self.programs.pop(key(name), None)

    def kept(self) -> list[TakenTag]:
        """The tags of the controller and of the programs that are still there."""
        scopes = {id(scope) for scope in [self.controller, *self.programs.values()]}
        return [taken for taken in self.taken if id(taken.scope) in scopes]

    def initial(self) -> list[tuple[str, int]]:
        """The values that aren't 0, with their places as they are seen from the controller."""
        return [pair for taken in self.kept() for pair in self._values(taken)]

    # ---- declaring

    def _declare(self, tags: list[Tag], scope: Scope, where: str, front: str) -> None:
        for tag in tags:
            place = f"{where} {shown(tag.name)}"
            try:
                if scope.has(tag.name) or key(tag.name) in scope.left_out:
                    self._drop_first(scope, tag.name)
                    raise TypeFault("its scope has the name twice (G2)")
                of = self._judged(tag, scope is self.controller)
            except TypeFault as fault:
                self._findings.spare(scope.tag_key(tag.name), place, str(fault), [type_key(tag.type)])
                scope.forget(tag.name, str(fault))
                continue
            scope.declare(Entry(tag.name, of, tag.alias_for or ""))
            self.taken.append(TakenTag(tag, scope, place, of, front))

    def _drop_first(self, scope: Scope, name: str) -> None:
        """Of two tags of one name nobody can tell which is meant."""
        self.taken = [t for t in self.taken if t.scope is not scope or key(t.tag.name) != key(name)]

    def _judged(self, tag: Tag, is_controller: bool) -> Type | None:
        """The type of a tag, or none of an alias; why it can't be taken."""
        if not (is_tag_name(tag.name) if is_controller else is_name(tag.name)):
            raise TypeFault("its name is none of the profile (G1)")
        if tag.kind in _CONNECTED and not is_controller:
            raise TypeFault(f"a {_CONNECTED[tag.kind]} tag of a program")
        if tag.usage in ("Input", "Output", "InOut"):
            raise TypeFault(f"a parameter of its program, {tag.usage}")
        if tag.alias_for is not None:
            return None
        if tag.kind != "Base" and tag.kind not in _CONNECTED:
            raise TypeFault(f"a tag of the kind {shown(tag.kind, 30)}")
        if tag.is_module and not tag.type:
            return _words(tag.size)
        of = self._types.of(tag.type, tag.dimensions)
        if tag.fault is not None:
            raise TypeFault(tag.fault)
        if tag.has_data and not tag.is_decorated:
            raise TypeFault("its values aren't there as decorated data")
        if tag.direction is not None and not self._may_connect(of):
            raise TypeFault(f"no DINTs and no structure of at most {MAX_CONNECTION_BYTES} bytes")
        return of

    def _may_connect(self, of: Type) -> bool:
        is_structure = key(of.base) in self._types.structures and of.dim is None
        return (of.base == "DINT" or is_structure) and size_of(of, self._types.structures) <= MAX_CONNECTION_BYTES

    # ---- settling

    def _settle(self, needed: Needed) -> None:
        """Refuses tags until none is left that names what isn't taken, or passes a limit; those that aren't needed come last."""
        while True:
            refused: list[tuple[TakenTag, str]] = []
            counts: dict[int, int] = {}
            values = connections = at = 0
            for taken in sorted(self.taken, key=lambda one: not needed.has(one.tag)):
                counts[id(taken.scope)] = counts.get(id(taken.scope), 0) + 1
                after = rounded(at + (size_of(taken.of, self._types.structures) if taken.of else 0), 4)
                connected = connections + (taken.tag.direction is not None)
                try:
                    self._judge_alias(taken)
                    found = len(self._values(taken))
                    if counts[id(taken.scope)] > MAX_TAGS:
                        raise NameFault(f"its scope has {MAX_TAGS:,} tags without it (P11)")
                    if after > MAX_IMAGE_BYTES:
                        raise NameFault(f"all tags have over {MAX_IMAGE_BYTES:,} bytes with it (G8)")
                    if values + found > MAX_VALUES:
                        raise NameFault(f"there are over {MAX_VALUES:,} initial values with its own (P11)")
                    if connected > MAX_CONNECTIONS:
                        raise NameFault(f"there are {MAX_CONNECTIONS} connections without it (P11)")
                except NameFault as fault:
                    refused.append((taken, str(fault)))
                    counts[id(taken.scope)] -= 1
                    continue
                values, connections, at = values + found, connected, after
            if not refused:
                return
            self._refuse(refused)

    def _judge_alias(self, taken: TakenTag) -> None:
        if taken.of is None:
            taken.scope.found(taken.tag.alias_for or "", fixed=True)

    def _refuse(self, refused: list[tuple[TakenTag, str]]) -> None:
        for taken, why in refused:
            target = taken.scope.key_of_left_out(taken.tag.alias_for) if taken.tag.alias_for else None
            self._findings.spare(taken.scope.tag_key(taken.tag.name), taken.where, why, [target] if target else [])
            taken.scope.forget(taken.tag.name, why)
        gone = {id(taken) for taken, _ in refused}
        self.taken = [taken for taken in self.taken if id(taken) not in gone]
        for scope in [self.controller, *self.programs.values()]:
            scope.forget_aliases()

    # ---- values

    def _values(self, taken: TakenTag) -> list[tuple[str, int]]:
        """The initial values of a tag; NameFault where one has no place."""
        pairs: list[tuple[str, int]] = []
        if taken.of is None:
            return pairs
        defaults = default_values(taken.tag, taken.of, self._add_ons, self._types)
        for value in [*taken.tag.values, *itertools.islice(defaults, MAX_VALUES + 1)]:
            text = taken.tag.name + value.place
            try:
                found = taken.scope.place(text)
            except NameFault as fault:
                if self._is_hidden(taken, value.place):
                    continue
                raise NameFault(f"a value that has no place: {fault}") from None
            number = self._in_ticks(text, value.number, found)
            _judge_value(text, number, found)
            pairs.append((taken.front + text, number))
        return pairs

    def _in_ticks(self, text: str, number: int, found: Found) -> int:
        if not found.is_time or found.of.base == "BOOL" or self._tick_ms == 1:
            return number
        if number % self._tick_ms:
            raise NameFault(f"{shown(text)} is {number} ms, no whole number of ticks of {self._tick_ms} ms")
        return number // self._tick_ms

    def _is_hidden(self, taken: TakenTag, place: str) -> bool:
        """Whether a value is that of a host of bits, which the structure has no member for, or in a member that isn't taken."""
        parts = re.split(r"(?=\.)", place)
        for count in range(1, len(parts)):
            try:
                found = taken.scope.place(taken.tag.name + "".join(parts[:count]))
            except NameFault:
                return False
            name = re.split(r"[.\[]", parts[count])[1]
            if key(name) in self._types.hidden.get(key(found.of.base), set()):
                return True
        return False

    # ---- notes

    def _note_connected(self) -> None:
        for taken in self.taken:
            if taken.tag.kind in _CONNECTED and taken.tag.direction is not None:
                way = {"out": "an output", "in": "an input"}[taken.tag.direction]
                self._findings.note(f"{taken.where}: a {_CONNECTED[taken.tag.kind]} tag becomes the tag of {way} for `link`")

    def _note_bits(self) -> None:
        """Where BOOLs lie whose place among a module's words the file doesn't tell."""
        for taken in self.taken:
            if taken.of is None or not taken.tag.is_module or key(taken.of.base) not in self._types.shapes:
                continue
            places = bits_of(taken.of, self._types.structures)
            told = ", ".join(f"{place[1:]} {at // 4}.{at % 4 * 8}" for place, at in places)
            if told:
                self._findings.note(f"{taken.where}: the file tells no words for its BOOLs, so they are ours, as word.bit: {told}")


def _judge_value(text: str, number: int, found: Found) -> None:
    bits = 1 if found.of.base == "BOOL" else INTEGER_BITS.get(found.of.base, 0)
    if bits == 0 or found.of.dim is not None:
        raise NameFault(f"{shown(text)} has a value, but is no BOOL and no integer (P5)")
    low, high = (0, 1) if bits == 1 else (-(1 << (bits - 1)), (1 << (bits - 1)) - 1)
    if not low <= number <= high:
        raise NameFault(f"{shown(text)} can't hold its value {number} (P5)")


def _words(size: str | None) -> Type:
    """The DINTs that a module's tag is of which the file tells only how many bytes it has."""
    number = whole(size)
    if not number:
        raise TypeFault("the file tells neither its structure nor its size")
    if number > MAX_CONNECTION_BYTES:
        raise TypeFault(f"it has {number:,} bytes; a connection may have {MAX_CONNECTION_BYTES}")
    return Type("DINT", None if number <= 4 else (number + 3) // 4)
