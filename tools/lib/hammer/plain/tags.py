"""Structures, the layout of tags, and what a text names (FORMATS.md, sections 1 and 3)."""

from typing import NamedTuple

from .words import is_tag_name, operand_form

BITS = {"BOOL": 1, "SINT": 8, "INT": 16, "DINT": 32}
INTEGERS = ("SINT", "INT", "DINT")
SIZES = {"BOOL": 1, "SINT": 1, "INT": 2, "DINT": 4, "TIMER": 16, "COUNTER": 12}
MEMBERS = {
    "TIMER": {"pre": ("DINT", 32), "acc": ("DINT", 64), "en": ("BOOL", 31), "tt": ("BOOL", 30), "dn": ("BOOL", 29)},
    "COUNTER": {
        "pre": ("DINT", 32), "acc": ("DINT", 64), "cu": ("BOOL", 31), "cd": ("BOOL", 30), "dn": ("BOOL", 29), "ov": ("BOOL", 28),
        "un": ("BOOL", 27),
    },
}
MOST_IMAGE, MOST_STRUCTURE, MOST_STEPS = 262_144, 4_096, 4


class Refused(Exception):
    """A Y or a G code."""

    def __init__(self, code, at=None):
        super().__init__(code, at)
        self.code, self.at = code, at


class Step(NamedTuple):
    """A variable subscript: the integer that is read, what it is times, in bits, and the array's length."""

    kind: str
    at: int
    stride: int
    length: int


class Found(NamedTuple):
    """What a text names: a type (its length 0 for no array), its first bit, variable subscripts, its tag and the tag's last byte."""

    base: str
    dim: int
    at: int
    steps: tuple
    tag: int
    stop: int
    whole: bool


def up_to(number, step):
    return -(-number // step) * step


class Types:
    """The table of structures; a structure's name in small letters is its base."""

    def __init__(self, declared):
        self.declared = declared
        self.structures = {}
        self.judge_names()
        order = {declaration["name"].lower(): at for at, declaration in enumerate(declared)}
        self.members_of = {
            name: [(member["name"].lower(), self.base(member["type"]), member.get("dim", 0)) for member in declared[at]["members"]]
            for name, at in order.items()
        }
        self.judge_circles(order)
        for name, at in order.items():
            if self.size(name, 0) > MOST_STRUCTURE:
                raise Refused("Y5", at)

    def judge_names(self):
        earlier = {name.lower() for name in SIZES}
        every = earlier | {declaration["name"].lower() for declaration in self.declared}
        for at, declaration in enumerate(self.declared):
            if declaration["name"].lower() in earlier:
                raise Refused("Y6", at)
            earlier.add(declaration["name"].lower())
            members = set()
            for member in declaration["members"]:
                if member["name"].lower() in members:
                    raise Refused("Y2", at)
                members.add(member["name"].lower())
                if member["type"].lower() not in every:
                    raise Refused("Y1", at)
                if member["type"].upper() == "BOOL" and member.get("dim", 0) % 32:
                    raise Refused("Y4", at)

    def judge_circles(self, order):
        for name, at in order.items():
            inside, rest = set(), [name]
            while rest:
                for _, base, _ in self.members_of.get(rest.pop(), ()):
                    if base == name:
                        raise Refused("Y3", at)
                    if base not in inside:
                        inside.add(base)
                        rest.append(base)

    def base(self, name):
        """The base of a type's name, or None."""
        if name.upper() in SIZES:
            return name.upper()
        return name.lower() if any(name.lower() == one["name"].lower() for one in self.declared) else None

    def size(self, base, dim):
        """In bytes."""
        if base == "BOOL" and dim:
            return dim // 8
        return (SIZES[base] if base in SIZES else self.structure(base)[0]) * (dim or 1)

    def alignment(self, base, dim):
        if base == "BOOL" and dim:
            return 4
        return SIZES[base] if base in ("BOOL", *INTEGERS) else 4

    def structure(self, base):
        """Its size, and each member with its place in bits."""
        if base not in self.structures:
            end, places = 0, {}
            for name, of, dim in self.members_of[base]:
                start = up_to(end, self.alignment(of, dim))
                places[name] = (of, dim, start * 8)
                end = start + self.size(of, dim)
            self.structures[base] = (up_to(end, 4), places)
        return self.structures[base]

    def member(self, base, name):
        """The type and the place of a member, or None."""
        if base in MEMBERS:
            one = MEMBERS[base].get(name.lower())
            return one and (one[0], 0, one[1])
        return None if base in SIZES else self.structure(base)[1].get(name.lower())


class Tags:
    """All tags and aliases; a scope is None for the controller, or the number of a program."""

    def __init__(self, types, programs):
        self.types, self.bytes = types, 0
        self.names = {scope: {} for scope in (None, *range(programs))}
        self.spans, self.aliases = [], []

    def declare(self, scope, declaration):
        name = declaration["name"]
        if not is_tag_name(name, scope is None):
            raise Refused("G1")
        if name.lower() in self.names[scope]:
            raise Refused("G2")
        if "alias" in declaration:
            self.names[scope][name.lower()] = ("alias", scope, declaration["alias"])
            self.aliases.append((scope, declaration["alias"]))
            return
        base, dim = self.types.base(declaration["type"]), declaration.get("dim", 0)
        if base is None:
            raise Refused("Y1")
        if base == "BOOL" and dim % 32:
            raise Refused("Y4")
        end = self.bytes + self.types.size(base, dim)
        if up_to(end, 4) > MOST_IMAGE:
            raise Refused("G8")
        self.names[scope][name.lower()] = ("tag", Found(base, dim, self.bytes * 8, (), len(self.spans), end, True))
        self.spans.append((scope, name, self.bytes, end))
        self.bytes = up_to(end, 4)

    def resolve(self, scope, text, fixed, chain=()):
        """What a text names; else its first cause from the left. `fixed`: numbers alone may be subscripts."""
        form = operand_form(text)
        if not form:
            raise Refused("G10")
        return self.follow(scope, form, fixed, chain)

    def follow(self, scope, form, fixed, chain=()):
        found = self.tag(scope, form[0].lower(), chain)
        for part, value in form[1]:
            if part == "member":
                found = self.member(found, value)
            elif part == "bit":
                found = self.bit(found, int(value))
            else:
                found = self.element(scope, found, part, value, fixed)
        return found

    def tag(self, scope, name, chain):
        """A program's own tags come first; an alias is looked up where it was declared."""
        entry = self.names[scope].get(name) or self.names[None].get(name)
        if not entry:
            raise Refused("G3")
        if entry[0] == "tag":
            return entry[1]
        if entry in chain:
            raise Refused("G7")
        return self.resolve(entry[1], entry[2], True, (*chain, entry))

    def member(self, found, name):
        one = None if found.dim else self.types.member(found.base, name)
        if not one:
            raise Refused("G4")
        return Found(one[0], one[1], found.at + one[2], found.steps, found.tag, found.stop, False)

    def bit(self, found, number):
        if found.dim or found.base not in INTEGERS or number >= BITS[found.base]:
            raise Refused("G5")
        return Found("BOOL", 0, found.at + number, found.steps, found.tag, found.stop, False)

    def element(self, scope, found, part, value, fixed):
        if not found.dim:
            raise Refused("G5")
        stride = 1 if found.base == "BOOL" else self.types.size(found.base, 0) * 8
        if part == "at":
            if int(value) >= found.dim:
                raise Refused("G5")
            return Found(found.base, 0, found.at + int(value) * stride, found.steps, found.tag, found.stop, False)
        if fixed:
            raise Refused("G6")
        inner = self.follow(scope, value, False)
        if inner.dim or inner.base not in INTEGERS or inner.steps:
            raise Refused("G6")
        if len(found.steps) == MOST_STEPS:
            raise Refused("G9")
        steps = (*found.steps, Step(inner.base, inner.at, stride, found.dim))
        return Found(found.base, 0, found.at, steps, found.tag, found.stop, False)

    def judge_aliases(self):
        """The first alias that names nothing, and why."""
        for at, (scope, target) in enumerate(self.aliases):
            try:
                self.resolve(scope, target, True, ())
            except Refused as refused:
                raise Refused(refused.code, at) from None
