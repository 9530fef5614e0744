"""Calls of Add-On Instructions: whether what stands in their parentheses is what the definition takes."""

from __future__ import annotations

from collections.abc import Callable
from dataclasses import dataclass, field

from lib.neutral import Element, Instruction
from lib.texts import shown

from .model import AddOn, Tag
from .profile import FLAGS, INTEGER_BITS, key, number
from .tags import Found, NameFault, Scope, Type, overlap, subscripts

ENABLE_IN, ENABLE_OUT = "enablein", "enableout"

# Why a tag may be changed while a call runs, by another task or a module; none if it can't.
MayChange = Callable[[Found], "str | None"]


class CallFault(Exception):
    """A call that can't be taken; says why."""


@dataclass(eq=False)
class Definition:
    """What of a definition calls and their expansions need."""

    add_on: AddOn
    scope: Scope
    # The parameters for which each call has an argument, in order.
    wanted: list[Tag] = field(default_factory=list)
    # Their types, by their names as compared.
    types: dict[str, Type] = field(default_factory=dict)
    in_outs: set[str] = field(default_factory=set)
    # Of these InOut parameters the end of the argument matters.
    to_end: set[str] = field(default_factory=set)
    # Of these arrays any element may be meant.
    indexed: set[str] = field(default_factory=set)
    # The Logic's rungs.
    rungs: list[tuple[str, list[Element]]] = field(default_factory=list)
    # How many frames a call opens inside one another, and how many routines it is made of.
    levels: int = 1
    routines: int = 1
    is_sound: bool = True

    def spelled(self, name: str) -> str:
        return next(tag.name for tag in self.add_on.parameters if key(tag.name) == name)


@dataclass
class Call:
    definition: Definition
    instance: str
    # Each parameter with its argument.
    arguments: list[tuple[Tag, str]]


def judged(instruction: Instruction, definition: Definition, scope: Scope, may_change: MayChange) -> Call:
    """The call, or a CallFault with the first reason why it can't be taken."""
    name = shown(definition.add_on.name, 40)
    try:
        return _Judge(instruction, definition, scope, may_change).call()
    except (CallFault, NameFault) as fault:
        raise CallFault(f"{name}: {fault}") from None


class _Judge:
    def __init__(self, instruction: Instruction, definition: Definition, scope: Scope, may_change: MayChange) -> None:
        self._texts = instruction.operands
        self._definition = definition
        self._scope = scope
        self._may_change = may_change

    def call(self) -> Call:
        definition, wanted = self._definition, self._definition.wanted
        if not definition.is_sound:
            raise CallFault("an Add-On Instruction that isn't taken")
        if len(self._texts) != 1 + len(wanted):
            raise CallFault(f"{len(self._texts)} operands, where {1 + len(wanted)} are wanted")
        instance = self._scope.found(self._texts[0])
        if instance.of.dim is not None or key(instance.of.base) != key(definition.add_on.name):
            raise CallFault(f"{shown(self._texts[0])} is no instance of it")
        self._instance = instance
        call = Call(definition, self._texts[0], list(zip(wanted, self._texts[1:])))
        for tag, text in call.arguments:
            self._judge_argument(tag, text)
        self._judge_places(call)
        return call

    # ---- one argument

    def _judge_argument(self, tag: Tag, text: str) -> None:
        of = self._definition.types[key(tag.name)]
        if tag.usage == "InOut":
            self._judge_in_out(tag, of, text)
        elif tag.usage == "Input" and self._is_constant(of, text):
            return
        else:
            found = self._named(tag, text)
            if not _fits(tag, of, found):
                told = f"{shown(text)} of the type {_told(found.of)}"
                raise CallFault(f"parameter {tag.name} is {_told(of)}, which {told} doesn't fit")
            self._keep_apart(f"argument {shown(text)}", [found, *self._subscripts(text)], [self._instance])

    def _is_constant(self, of: Type, text: str) -> bool:
        value = number(text)
        if value is None:
            return of.base == "BOOL" and text == "S:FS"
        bits = INTEGER_BITS.get(of.base, 1)
        low, high = (0, 1) if bits == 1 else (-(1 << (bits - 1)), (1 << (bits - 1)) - 1)
        if value == "outside" or not low <= value <= high:
            raise CallFault(f"{shown(text)} is none of the numbers of {_told(of)}")
        return True

    def _named(self, tag: Tag, text: str) -> Found:
        if number(text) is not None or text in FLAGS or text == "?":
            raise CallFault(f"{shown(text)} is no argument for {tag.name}")
        return self._scope.found(text)

    def _judge_in_out(self, tag: Tag, of: Type, text: str) -> None:
        found = self._named(tag, text)
        longer = found.of.dim is not None and of.dim is not None and found.of.dim > of.dim
        if key(found.of.base) != key(of.base) or (found.of.dim != of.dim and not longer):
            raise CallFault(f"parameter {tag.name} is {_told(of)}, and {shown(text)} {_told(found.of)}")
        if longer and key(tag.name) in self._definition.indexed | self._definition.to_end:
            raise CallFault(f"{shown(text)} is longer than {tag.name}, of which not only elements by their numbers are used")
        if key(tag.name) in self._definition.to_end and found.place != found.tag:
            raise CallFault(f"{shown(text)} is a part of a tag, and a copy may pass the end of {tag.name}")

    # ---- what may change while the call runs

    def _subscripts(self, text: str) -> list[Found]:
        if number(text) is not None or text in FLAGS:
            return []
        return [self._scope.found(inner) for inner in subscripts(text)]

    def _judge_places(self, call: Call) -> None:
        by_usage = {usage: [text for tag, text in call.arguments if tag.usage == usage] for usage in ("Input", "Output", "InOut")}
        outputs = [self._scope.found(text) for text in by_usage["Output"]]
        references = [self._scope.found(text) for text in by_usage["InOut"]]
        self._keep_apart("an InOut argument", references, [self._instance])
        for k, (text, found) in enumerate(zip(by_usage["Output"], outputs)):
            self._keep_apart(f"output argument {shown(text)}", [found], outputs[:k] + outputs[k + 1 :])
        for text in [call.instance, *by_usage["InOut"], *by_usage["Output"]]:
            inner = self._subscripts(text)
            self._keep_apart(f"the subscript of {shown(text)}", inner, [self._instance, *references, *outputs])
            for found in inner:
                why = self._may_change(found)
                if why is not None:
                    raise CallFault(f"the subscript of {shown(text)} may change while it runs: {why}")

    @staticmethod
    def _keep_apart(what: str, ours: list[Found], others: list[Found]) -> None:
        """What is read or written twice in a call, in an order that the manual leaves open, isn't taken."""
        for found in ours:
            for other in others:
                if overlap(found.place, other.place):
                    raise CallFault(f"{what} has a part of what the call itself changes")


def _fits(tag: Tag, of: Type, found: Found) -> bool:
    if found.of.dim is not None or of.dim is not None:
        return False
    if of.base == "BOOL" or found.of.base == "BOOL":
        return of.base == found.of.base
    source, target = (found.of.base, of.base) if tag.usage == "Input" else (of.base, found.of.base)
    return INTEGER_BITS.get(source, 99) <= INTEGER_BITS.get(target, 0)


def _told(of: Type) -> str:
    return shown(of.base, 40) if of.dim is None else f"{shown(of.base, 40)}[{of.dim}]"
