"""One instruction as a contact, a coil or a box: how much room it takes, and its shapes."""

from dataclasses import dataclass, field
from enum import Enum

from . import forms
from .shapes import Shape, box, path, short, text, wide, wire

ROW = 15
HEAD = 24  # of a box: its title
BIT_ROOM = 46  # beside a box: for its coils
BIT_STEP = 20


class Look(Enum):
    """How an instruction stands out."""

    PLAIN = ""
    ON = "on"  # green and thick, as what is true
    MISSED = "missed"  # dashed and red


@dataclass(frozen=True)
class Mark:
    """What a drawing says of an instruction besides its text."""

    note: str = ""
    look: Look = Look.PLAIN


@dataclass
class Live:
    """Places for the page: of each operand or None, and of a timer's or counter's members."""

    places: list = field(default_factory=list)
    members: dict = field(default_factory=dict)
    lit: dict = field(default_factory=dict)  # when it is green


class Element:
    """Where it stands on its wire: how wide it is, and how far it goes above and below."""

    def __init__(self, instruction, at, mark, live):
        self.op, self.operands, self.at, self.mark, self.live = instruction.op, instruction.operands, at, mark, live
        self.is_output = self.op not in forms.INPUTS

    def place(self, index):
        return self.live.places[index] if self.live and index < len(self.live.places) else None

    def group(self):
        made = Shape("g", {"class": f"instruction {self.mark.look.value}".strip(), "data-at": str(self.at)})
        if self.live and self.live.lit:
            made.live = {"lit": self.live.lit}
        return made

    def name(self, index, content, x, y, anchor):
        """An operand, with its whole text where it is shortened; for a page the place that it names."""
        made = text(short(content), x, y, "name", anchor)
        if short(content) != content:
            made.add(Shape("title", {}, text=content))
        place = self.place(index) or (self.live.members.get("ACC") if self.live and index == 0 else None)
        made.live = {"name": place} if place else {}
        return made

    @staticmethod
    def value(place, x, y, anchor):
        made = text("", x, y, "value", anchor)
        made.live = {"value": place}
        return made


class Bit(Element):
    """A contact or a coil."""

    def __init__(self, instruction, at, mark, live):
        super().__init__(instruction, at, mark, live)
        self.coil = self.op in forms.COILS
        self.letter = (forms.COILS if self.coil else forms.CONTACTS)[self.op]
        self.below = bool(self.place(0) or mark.note)
        named = short(self.operands[0]) if self.operands else ""
        self.w = max(58, wide(named) + 14, wide(mark.note) + 10)
        self.up, self.down = 30 if self.operands else 14, 30 if self.below else 14

    def draw(self, x, y):
        middle = x + self.w / 2
        half = max(11, wide(self.letter) / 2 + 6) if self.coil else 20 if self.letter == "ONS" else 8
        made = self.group()
        made.add(box("glow", middle - half - 5, y - 12, 2 * half + 10, 24, 3), wire((x, y), (middle - half, y)), wire((middle + half, y), (x + self.w, y)))
        made.add(self.symbol(middle, half, y))
        if self.letter not in ("", "/"):
            made.add(text(self.letter, middle, y + 4, "title", "middle"))
        if self.operands:
            made.add(self.name(0, self.operands[0], middle, y - 17, "middle"))
        if self.place(0):
            made.add(self.value(self.place(0), middle, y + 26, "middle"))
        elif self.mark.note:
            made.add(text(self.mark.note, middle, y + 26, "note", "middle"))
        return made

    def symbol(self, middle, half, y):
        left, right = middle - half, middle + half
        if self.coil:
            return path("symbol", "M", left + 4, y - 10, "q", -8, 10, 0, 20, "M", right - 4, y - 10, "q", 8, 10, 0, 20)
        if self.letter == "ONS":
            return path("symbol", "M", left + 5, y - 9, "h", -5, "v", 18, "h", 5, "M", right - 5, y - 9, "h", 5, "v", 18, "h", -5)
        slash = ("M", left + 2, y + 9, "L", right - 2, y - 9) if self.letter else ()
        return path("symbol", "M", left, y - 10, "v", 20, "M", right, y - 10, "v", 20, *slash)


class Box(Element):
    """A box with a row for each operand, below it the row of its value."""

    def __init__(self, instruction, at, mark, live):
        super().__init__(instruction, at, mark, live)
        self.title = forms.TITLES.get(self.op, "")
        self.bits = forms.DONE.get(self.op, ())
        self.rows = list(self.all_rows())
        inner = [wide(f"{self.op}   {self.title}") * 1.05, wide(mark.note)]
        for label, content, place, _ in self.rows:
            inner += [wide(f"{label}   {short(content)}"), wide(f"{label}   -2147483648") if place and not content else wide("-2147483648") if place else 0]
        self.box_w = max(inner) + 18
        self.box_h = HEAD + ROW * (sum(bool(content) + bool(place) for _, content, place, _ in self.rows) + bool(mark.note))
        self.w = self.box_w + (BIT_ROOM if self.bits else 0)
        self.up, self.down = 14, max(self.box_h - 14 + 4, BIT_STEP * len(self.bits) - 6)

    def all_rows(self):
        """Label, operand, the place of its value, and which operand it is. What Studio shows in place of a `?` is a member's value."""
        for index, (label, content) in enumerate(zip(forms.labels(self.op, self.operands), self.operands)):
            if content == "?" and self.live and self.live.members:
                yield label, "", self.live.members.get("PRE" if index == 1 else "ACC"), index
            else:
                yield label, content, self.place(index), index

    def draw(self, x, y):
        made, top = self.group(), y - 14
        right = x + self.box_w - 8
        made.add(box("glow", x - 3, top - 3, self.box_w + 6, self.box_h + 6, 4), box("box symbol", x, top, self.box_w, self.box_h))
        made.add(text(self.op, x + 8, top + 16, "title"), text(self.title, right, top + 16, "label", "end"))
        at = top + HEAD - 6
        for label, content, place, index in self.rows:
            made.add(text(label, x + 8, at + 13, "label"))
            if content:
                at += ROW
                made.add(self.name(index, content, right, at - 2, "end"))
            if place:
                at += ROW
                made.add(self.value(place, right, at - 2, "end"))
        if self.mark.note:
            made.add(text(self.mark.note, right, at + ROW - 2, "note", "end"))
        for index, member in enumerate(self.bits):
            made.add(self.bit(member, x + self.box_w, y + BIT_STEP * index, index == 0))
        return made

    def bit(self, member, x, y, is_first):
        """A coil beside the box; the wire goes on from the first."""
        middle, made = x + 24, Shape("g", {"class": "bit"})
        made.add(box("glow", middle - 17, y - 9, 34, 18, 3), wire((x, y), (middle - 15, y)))
        made.add(path("symbol", "M", middle - 12, y - 8, "q", -6, 8, 0, 16, "M", middle + 12, y - 8, "q", 6, 8, 0, 16), text(member, middle, y + 4, "", "middle"))
        if is_first:
            made.add(wire((middle + 15, y), (x + BIT_ROOM, y)))
        if self.live and member in self.live.members:
            made.live = {"lit": {"kind": "bit", "places": [self.live.members[member]]}}
        return made


def element(instruction, at, mark, live):
    kind = Bit if instruction.op in forms.CONTACTS or instruction.op in forms.COILS else Box
    return kind(instruction, at, mark, live)
