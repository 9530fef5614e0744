"""The values that instances of Add-On Instructions begin with, where the file doesn't tell their own."""

from __future__ import annotations

from collections.abc import Iterator

from .model import AddOn, Tag, Value
from .profile import key
from .tags import Type
from .taking_types import Types


def default_values(tag: Tag, of: Type, add_ons: dict[str, AddOn], types: Types) -> Iterator[Value]:
    """Those of the definition, of each member that the file's decorated data hasn't."""
    if key(of.base) in types.add_ons:
        yield from _of_instances("", of, tag.is_decorated, add_ons, types)


def _of_instances(place: str, of: Type, is_told: bool, add_ons: dict[str, AddOn], types: Types) -> Iterator[Value]:
    """Of an instance or an array of them; `is_told` if decorated data has the members that it has of others."""
    if of.dim is not None:
        for k in range(of.dim):
            yield from _of_instances(f"{place}[{k}]", Type(of.base), is_told, add_ons, types)
        return
    add_on = add_ons[key(of.base)]
    members = types.structures[key(of.base)].by_name
    for tag in [*add_on.parameters, *add_on.local_tags]:
        inner = members.get(key(tag.name))
        if inner is None:
            continue
        front = f"{place}.{tag.name}"
        is_here = is_told and key(tag.name) in add_on.told
        for value in () if is_here else tag.values:
            yield Value(front + value.place, value.number)
        if key(inner.base) in types.add_ons:
            yield from _of_instances(front, inner, is_here or tag.is_decorated, add_ons, types)
