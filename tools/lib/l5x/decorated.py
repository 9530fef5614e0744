"""The decorated data of a tag: its values that aren't 0, and of a module's tag its structures."""

from __future__ import annotations

from xml.etree.ElementTree import Element

from lib.texts import shown

from .model import DataType, Export, Member, Tag, Value
from .profile import INTEGER_BITS, MAX_VALUES, key
from .values import value

_PLAIN = ("BOOL", *INTEGER_BITS)
_NAMED = ("DataValueMember", "ArrayMember", "StructureMember")
_NO_DIMENSIONS = ("", "0")
# So many values are kept of a file, since not all of its tags may be taken.
MAX_KEPT_VALUES = 10 * MAX_VALUES


class Decorated:
    """What is met between the start and the end of a `Data` element."""

    def __init__(self, tag: Tag, export: Export) -> None:
        self._tag = tag
        self._export = export
        # Structures are looked for in modules' tags alone.
        self._shapes = export.shapes if tag.is_module else None
        # For each open element its place behind the tag's name, its type, and the structure that it is.
        self._open: list[tuple[str, str, DataType | None]] = [("", tag.type, None)]

    def start(self, element: Element) -> None:
        place, type_name, shape = self._open[-1]
        attributes = element.attrib
        if element.tag in _NAMED:
            name = attributes.get("Name", "?")
            add_on = self._export.add_on_of.get(key(type_name))
            if add_on is not None:
                add_on.told.add(key(name))
            place += "." + name
        elif element.tag == "Element":
            place += attributes.get("Index", "[?]")
        if element.tag != "Element":
            type_name = attributes.get("DataType", "")
        text = attributes.get("Value")
        if text is not None and text != "0" and type_name in _PLAIN:
            self._keep(place, type_name, text)
        self._open.append((place, type_name, self._shape(element, shape) if self._shapes is not None else None))

    def end(self) -> None:
        shape = self._open.pop()[2]
        if shape is not None and self._shapes is not None:
            known = self._shapes.setdefault(key(shape.name), shape)
            if known.members != shape.members:
                self._tag.fault = f"its structure {shown(shape.name)} isn't that of an earlier module"

    def _keep(self, place: str, type_name: str, text: str) -> None:
        number = value(text, type_name)
        if number is None:
            why = f"its value {shown(text, 30)} is none of a {type_name}"
            self._tag.fault = self._tag.fault or f"{why}, at {shown(self._tag.name + place)}"
        elif number != 0:
            self._export.values += 1
            if self._export.values > MAX_KEPT_VALUES:
                self._tag.fault = f"the file has {MAX_KEPT_VALUES:,} values that aren't 0 before the last of its own"
            else:
                self._tag.values.append(Value(place, number))

    def _shape(self, element: Element, outer: DataType | None) -> DataType | None:
        """The structure that an element is of, of a module's tag; it is a member of the one around it."""
        attributes = element.attrib
        type_name = attributes.get("DataType", "")
        dimensions = attributes.get("Dimensions")
        if len(self._open) == 1:
            self._tag.type = type_name
            self._tag.dimensions = dimensions
        if element.tag in _NAMED and outer is not None:
            dimensions = None if dimensions in _NO_DIMENSIONS else dimensions
            outer.members.append(Member(attributes.get("Name", ""), type_name, dimensions))
        if element.tag in ("Structure", "StructureMember"):
            return DataType(type_name, is_own=False, is_shape=True)
        return None
