"""Which data types a project can have."""

from __future__ import annotations

import re
from collections.abc import Iterable
from dataclasses import dataclass, field

from lib.texts import shown

from .findings import Findings
from .model import AddOn, DataType, Export, Member
from .profile import MAX_ELEMENTS, MAX_MEMBERS, MAX_NAME_BYTES, MAX_STRUCTURE_BYTES, MAX_TYPES
from .profile import is_name, key, whole
from .tags import SIZES, Structure, Type, structure_size


class TypeFault(Exception):
    """The profile has no such type; says why."""


@dataclass
class Types:
    """The structures that are taken, by their names as compared, and why the others aren't."""

    structures: dict[str, Structure] = field(default_factory=dict)
    refused: dict[str, str] = field(default_factory=dict)
    # What the values of each have, and the project's structure hasn't.
    hidden: dict[str, set[str]] = field(default_factory=dict)
    # Those that are known by a module's values alone.
    shapes: set[str] = field(default_factory=set)
    # Those of Add-On Instructions, and why some of their members aren't there.
    add_ons: dict[str, dict[str, str]] = field(default_factory=dict)
    # In the order of the file.
    order: list[str] = field(default_factory=list)

    def of(self, base: str, dimensions: str | None) -> Type:
        """The type of a tag or a member."""
        name = base.upper() if base.upper() in SIZES else base
        if name not in SIZES and key(name) not in self.structures:
            raise TypeFault(self.refused.get(key(name)) or f"type {shown(base) or 'none'} isn't in the profile")
        dim = _dimension(dimensions)
        if name == "BOOL" and dim is not None and dim % 32:
            raise TypeFault("an array of BOOLs whose length is no multiple of 32 (Y4)")
        return Type(name, dim)

    def written(self) -> list[Structure]:
        return [self.structures[name] for name in self.order if name in self.structures]


def type_key(name: str) -> str:
    """What the list has lines about."""
    return f"type:{key(name)}"


def data_type_of(add_on: AddOn) -> DataType:
    """The structure that instances of an Add-On Instruction are."""
    data_type = DataType(add_on.name, is_own=False, is_add_on=True)
    for tag in [*add_on.parameters, *add_on.local_tags]:
        if tag.usage != "InOut":
            fault = tag.fault if tag.alias_for is None else "an alias"
            data_type.members.append(Member(tag.name, tag.type, tag.dimensions, fault=fault))
    return data_type


def _dimension(text: str | None) -> int | None:
    if text is None:
        return None
    if len(re.split(r"[ ,]+", text.strip())) > 1:
        raise TypeFault(f"an array of several dimensions, {shown(text, 30)}")
    dim = whole(text.strip())
    if dim is None or not 1 <= dim <= MAX_ELEMENTS:
        raise TypeFault(f"an array of {shown(text, 30)} elements; it may have 1 to {MAX_ELEMENTS:,}")
    return dim


def take_types(export: Export, tag_types: Iterable[str], needed: Iterable[str], findings: Findings) -> Types:
    """The types that tags have are taken before others, and before these the needed ones."""
    types = Types()
    declared: dict[str, DataType] = {}
    for data_type in [*export.types, *map(data_type_of, export.add_on_of.values())]:
        name = key(data_type.name)
        if name in declared or data_type.name.upper() in SIZES:
            why = "an earlier or a built-in type has its name (Y6)"
            findings.spare(type_key(data_type.name), _where(data_type), why)
        else:
            declared[name] = data_type
    for name, shape in export.shapes.items():
        if name.upper() not in SIZES:
            declared.setdefault(name, shape)
    wanted = _closure({key(name) for name in tag_types}, declared)
    types.order = list(declared)
    ordered = _inner_first(declared)
    first = _closure({key(name) for name in needed}, declared)
    used = [name for name in ordered if name in first] + [name for name in ordered if name in wanted - first]
    unused = [name for name in ordered if name not in wanted and declared[name].is_own]
    sound = set(ordered)
    cyclic = [name for name in declared if name not in sound]
    for name in used + unused + cyclic:
        _take(declared[name], name not in sound, types, findings)
    return types


def _closure(names: set[str], declared: dict[str, DataType]) -> set[str]:
    """The types of these names, and of their members, and so on."""
    met: set[str] = set()
    open_names = [name for name in names if name in declared]
    while open_names:
        name = open_names.pop()
        if name not in met:
            met.add(name)
            open_names += [n for n in _parts(declared[name]) if n in declared and n not in met]
    return met


def _parts(data_type: DataType) -> set[str]:
    return {key(member.type) for member in data_type.members if not member.is_hidden}


def _inner_first(declared: dict[str, DataType]) -> list[str]:
    """The types, each after those of its members; without those that have themselves inside, and what has these."""
    missing = {name: {n for n in _parts(t) if n in declared} for name, t in declared.items()}
    holders: dict[str, list[str]] = {}
    for name, parts in missing.items():
        for part in parts:
            holders.setdefault(part, []).append(name)
    ready = [name for name, parts in missing.items() if not parts]
    for name in ready:
        for holder in holders.get(name, ()):
            missing[holder].discard(name)
            if not missing[holder]:
                ready.append(holder)
    return ready


def _where(data_type: DataType) -> str:
    return f"{'Add-On Instruction' if data_type.is_add_on else 'type'} {shown(data_type.name)}"


def _take(data_type: DataType, is_cyclic: bool, types: Types, findings: Findings) -> None:
    name = key(data_type.name)
    try:
        if is_cyclic:
            raise TypeFault("it has itself inside, or a type that has (Y3)")
        structure = _structure(data_type, types)
        if len(types.structures) == MAX_TYPES:
            raise TypeFault(f"the project has {MAX_TYPES} types without it (P11)")
        types.structures[name] = structure
    except TypeFault as fault:
        if data_type.is_own or data_type.is_add_on:
            because = [type_key(member.type) for member in data_type.members]
            findings.spare(type_key(data_type.name), _where(data_type), str(fault), because)
            types.refused[name] = f"its type {shown(data_type.name)} isn't taken"
        else:
            types.refused[name] = f"its type {shown(data_type.name)}: {fault}"


def _structure(data_type: DataType, types: Types) -> Structure:
    if data_type.is_string:
        raise TypeFault("a string type")
    is_named = data_type.is_own or data_type.is_add_on
    if is_named and not is_name(data_type.name):
        raise TypeFault("its name is none of the profile (P5)")
    hosts = {key(member.name) for member in data_type.members if member.is_hidden}
    types.hidden[key(data_type.name)] = hosts
    if data_type.is_shape:
        types.shapes.add(key(data_type.name))
    left_out = types.add_ons.setdefault(key(data_type.name), {}) if data_type.is_add_on else None
    members: list[tuple[str, Type]] = []
    met: set[str] = set()
    for member in data_type.members:
        if member.is_hidden:
            continue
        if not is_name(member.name):
            raise TypeFault(f"member {shown(member.name)}: its name is none of the profile (P5)")
        if key(member.name) in met:
            raise TypeFault(f"member {shown(member.name)} stands twice (Y2)")
        met.add(key(member.name))
        try:
            members.append((member.name, _member_type(member, data_type, hosts, types)))
        except TypeFault as fault:
            if left_out is None:
                raise
            # What a call needs of it is judged where it is called.
            left_out[key(member.name)] = str(fault)
            hosts.add(key(member.name))
    if not 1 <= len(members) <= MAX_MEMBERS:
        raise TypeFault(f"it has {len(members)} members; it may have 1 to {MAX_MEMBERS} (P11)")
    size = structure_size(members, types.structures)
    if size > MAX_STRUCTURE_BYTES:
        raise TypeFault(f"it has {size:,} bytes; it may have {MAX_STRUCTURE_BYTES:,} (Y5)")
    return Structure(_type_name(data_type, types), members, size)


def _member_type(member: Member, data_type: DataType, hosts: set[str], types: Types) -> Type:
    where = f"member {shown(member.name)}"
    if member.fault is not None:
        raise TypeFault(f"{where}: {member.fault}")
    if key(member.type) == "bit":
        if member.host is None or key(member.host) not in hosts:
            raise TypeFault(f"{where} is a bit of {shown(member.host or 'nothing')}, which isn't hidden")
        return Type("BOOL")
    try:
        return types.of(member.type, member.dimensions)
    except TypeFault as fault:
        raise TypeFault(f"{where}: {fault}") from None


def _type_name(data_type: DataType, types: Types) -> str:
    """Its own name, or one made of it, since the names of modules' types have colons."""
    if data_type.is_own or data_type.is_add_on:
        return data_type.name
    plain = re.sub(r"_+", "_", re.sub(r"[^A-Za-z0-9]", "_", data_type.name)).strip("_") or "Type"
    if plain[0].isdigit():
        plain = "T" + plain
    taken = {key(structure.name) for structure in types.structures.values()} | set(types.order)
    name, number = plain[:MAX_NAME_BYTES].rstrip("_"), 1
    while key(name) in taken or name.upper() in SIZES:
        number += 1
        name = f"{plain[: MAX_NAME_BYTES - 4].rstrip('_')}_{number}"
    return name
