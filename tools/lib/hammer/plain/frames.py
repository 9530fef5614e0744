"""Frames of a scan, and what ends one or leads to another rung (CONTROLLER.md, section 10)."""

import copy
from typing import NamedTuple

MOST_FRAMES = 25


class Jump(Exception):
    """JMP: the rung of its label."""

    def __init__(self, rung):
        super().__init__(rung)
        self.rung = rung


class EndOfFrame(Exception):
    """RET and TND."""


class Series(NamedTuple):
    """Elements of a rung or of a leg in progress: the next one, and the condition before it."""

    elements: tuple
    at: int
    on: bool


class Fork(NamedTuple):
    """A branch in progress: the next leg, the condition before the branch, and whether a leg came out true."""

    legs: tuple
    at: int
    on: bool
    out: bool


class Frame:
    """One routine in progress: its zone, what its call handed over, its rung, and in the rung series and forks, the inmost last."""

    def __init__(self, routine, inputs=(), returns=()):
        self.routine, self.inputs, self.returns, self.zone = routine, inputs, returns, None
        self.rung, self.levels = -1, []

    def copied(self):
        made = copy.copy(self)
        made.levels = list(self.levels)
        return made

    def key(self):
        """Equal where frames of the same rungs go on alike."""
        return self.routine, self.inputs, self.returns, self.zone, self.rung, tuple(level[1:] for level in self.levels)
