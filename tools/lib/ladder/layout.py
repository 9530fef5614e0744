"""A rung as it stands on its wire: elements in series, nested branches, and long ones wrapped into several lines."""

from dataclasses import dataclass, field

from lib.neutral import Branch

from .elements import Mark, element
from .shapes import Shape, wire

GAP = 10  # of wire before each element
LEG = 8  # between the legs of a branch
SIDE = 12  # of a branch: from its upright to its legs
TURN = 14  # between the lines of a wrapped series: the way back
INSET = 7  # of the way back, from both ends
SHORTEST = 20


@dataclass
class Line:
    """Elements beside one another."""

    elements: list = field(default_factory=list)
    w: float = SHORTEST
    up: float = 12
    down: float = 10

    def put(self, made):
        self.elements.append(made)
        self.w += made.w + GAP
        self.up, self.down = max(self.up, made.up), max(self.down, made.down)

    def draw(self, x, y, end, into):
        """From x to end: outputs at the end, all else at the beginning."""
        split = len(self.elements)
        while split and self.elements[split - 1].is_output:
            split -= 1
        into.add(*self.row(self.elements[:split], x, y))
        begins = x + sum(each.w + GAP for each in self.elements[:split])
        ends = end - sum(each.w + GAP for each in self.elements[split:]) - GAP if split < len(self.elements) else end
        into.add(wire((begins, y), (max(ends, begins), y)))
        into.add(*self.row(self.elements[split:], max(ends, begins), y))
        if split < len(self.elements):
            into.add(wire((end - GAP, y), (end, y)))

    @staticmethod
    def row(elements, x, y):
        for each in elements:
            yield wire((x, y), (x + GAP, y))
            yield each.draw(x + GAP, y)
            x += each.w + GAP


class Series:
    """Elements one after another, in as many lines as it takes."""

    def __init__(self, elements, room):
        self.lines = [Line()]
        for each in elements:
            # (the way back takes the insets of both ends)
            if self.lines[-1].elements and self.lines[-1].w + each.w + GAP > room - 2 * INSET:
                self.lines.append(Line())
            self.lines[-1].put(each)
        self.w = max(line.w for line in self.lines) + (2 * INSET if len(self.lines) > 1 else 0)
        self.up, self.down = self.lines[0].up, self.lines[0].down
        for line in self.lines[1:]:
            self.down += TURN + line.up + line.down
        self.is_output = bool(elements) and elements[-1].is_output

    def draw(self, x, y, end, into):
        """From x to end; answers the height of the wire at its end."""
        begins = x
        for index, line in enumerate(self.lines):
            if index == len(self.lines) - 1:
                line.draw(begins, y, end, into)
                return y
            line.draw(begins, y, end - INSET, into)
            back, under = y + line.down + TURN / 2, y + line.down + TURN + self.lines[index + 1].up
            into.add(wire((end - INSET, y), (end - INSET, back), (x + INSET, back), (x + INSET, under)))
            y, begins = under, x + INSET
        return y


class Fork:
    """A branch: its legs below one another."""

    def __init__(self, legs):
        self.legs = legs
        self.w = max(leg.w for leg in legs) + 2 * SIDE
        self.up, self.down = legs[0].up, legs[0].down
        for leg in legs[1:]:
            self.down += LEG + leg.up + leg.down
        self.is_output = all(leg.is_output for leg in legs)

    def draw(self, x, y):
        made, at, left, right = Shape("g", {"class": "branch"}), y, y, y
        for index, leg in enumerate(self.legs):
            if index:
                at += LEG + leg.up
            left, right = at, leg.draw(x, at, x + self.w, made)
            at += leg.down
        # The first leg may end below the wire, too; the uprights reach from the wire to the last leg's.
        made.add(wire((x, y), (x, left)), wire((x + self.w, y), (x + self.w, right)))
        return made


class Maker:
    """Makes a rung's series; instructions are counted in the order of the text."""

    def __init__(self, mark_of, live_of):
        self.mark_of, self.live_of, self.count = mark_of, live_of, 0

    def series(self, tree, room):
        return Series([self.made(each, room) for each in tree], room)

    def made(self, each, room):
        if isinstance(each, Branch):
            return Fork([self.series(leg, room - 2 * SIDE - GAP - SHORTEST) for leg in each.legs])
        self.count += 1
        return element(each, self.count - 1, self.mark_of(self.count - 1) or Mark(), self.live_of(each))
