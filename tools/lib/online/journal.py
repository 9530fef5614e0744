"""What the controller was told: events in order, and any front part of them as text.

A place in a journal is a number of events. Steps and ticks in a row take one entry, and so do beats (a tick, then some steps) in a row:
an hour of playing is a handful of entries.
"""

from bisect import bisect_right
from typing import NamedTuple

PIECE = 4_000  # beats of a piece of text
MOST_OF_A_LINE = 4_000_000
MOST_EVENTS = 1_000_000_000  # of a session
LONGEST_ACTION = 65_000
OPERATOR = 31
ACTIONS = frozenset("mode clear in out force accept test untest assemble cancel".split())


class Run(NamedTuple):
    """Steps (`cpu`) or ticks (`tick`) in a row."""

    verb: str
    count: int

    def events(self):
        return self.count

    def cut(self, start, end):
        yield Run(self.verb, end - start)

    def text(self):
        for _ in range(self.count // MOST_OF_A_LINE):
            yield f"{self.verb} {MOST_OF_A_LINE}\n"
        if self.count % MOST_OF_A_LINE:
            yield f"{self.verb} {self.count % MOST_OF_A_LINE}\n"


class Beat(NamedTuple):
    """A tick and then some steps, so many times."""

    steps: int
    times: int

    def events(self):
        return (1 + self.steps) * self.times

    def cut(self, start, end):
        """The events from `start` to before `end`: the rest of a beat, whole ones, the front of one."""
        whole = 1 + self.steps
        if start % whole:
            first = min(end, (start // whole + 1) * whole)
            yield Run("cpu", first - start)
            start = first
        if (end - start) // whole:
            yield Beat(self.steps, (end - start) // whole)
        rest = (end - start) % whole
        if rest:
            yield Run("tick", 1)
        if rest > 1:
            yield Run("cpu", rest - 1)

    def text(self):
        one = "".join(text for run in (Run("tick", 1), Run("cpu", self.steps)) for text in run.text())
        for _ in range(self.times // PIECE):
            yield one * PIECE
        yield one * (self.times % PIECE)


class Act(NamedTuple):
    """An action, as its line."""

    line: str

    def events(self):
        return 1

    def cut(self, _start, _end):
        yield self

    def text(self):
        yield self.line + "\n"


class Journal:
    def __init__(self, entries=()):
        self.entries = []
        self.starts = []  # of each entry, how many events come before it
        self.befores = []  # of each entry, how many ticks and steps
        self.length = 0
        self.acts = []  # the lines of all actions
        for entry in entries:
            self.add(entry)

    def add(self, entry):
        last = self.entries[-1] if self.entries else None
        if isinstance(entry, Run) and isinstance(last, Run) and last.verb == entry.verb:
            self.entries[-1] = Run(entry.verb, last.count + entry.count)
        elif isinstance(entry, Beat) and isinstance(last, Beat) and last.steps == entry.steps:
            self.entries[-1] = Beat(entry.steps, last.times + entry.times)
        else:
            self.befores.append(self.counts(self.length))
            self.entries.append(entry)
            self.starts.append(self.length)
        self.length += entry.events()
        if isinstance(entry, Act):
            self.acts.append(entry.line)

    def part(self, start, end):
        """The entries of the events from `start` to before `end`."""
        for at in range(max(bisect_right(self.starts, start) - 1, 0), len(self.entries)):
            begins, entry = self.starts[at], self.entries[at]
            if begins >= end:
                return
            first, last = max(start - begins, 0), min(end - begins, entry.events())
            if first < last:
                yield from entry.cut(first, last)

    def front(self, end):
        """A journal of the first `end` events."""
        return Journal(self.part(0, end))

    def counts(self, end):
        """The ticks and steps among the first `end` events."""
        at = bisect_right(self.starts, end - 1) - 1
        if at < 0:
            return 0, 0
        ticks, steps = self.befores[at]
        for entry in self.entries[at].cut(0, min(end - self.starts[at], self.entries[at].events())):
            if isinstance(entry, Beat):
                ticks, steps = ticks + entry.times, steps + entry.steps * entry.times
            elif isinstance(entry, Run):
                ticks, steps = ticks + (entry.verb == "tick") * entry.count, steps + (entry.verb == "cpu") * entry.count
        return ticks, steps

    def text(self):
        """Pieces of the text, each whole lines."""
        yield from texts(self.entries)
        yield "end\n"


def texts(entries):
    for entry in entries:
        yield from entry.text()


def action(lane, words):
    """The line of an action, or None for a text that is none: what is told to a controller that listens must be one line, and neither
    `end`, steps nor a comment."""
    words = words.strip(" \t")
    if not 0 <= lane <= OPERATOR or any(byte in words for byte in "\n\r\0") or len(words.encode()) > LONGEST_ACTION:
        return None
    if words.split(" ")[0] not in ACTIONS:
        return None
    return words if lane == OPERATOR else f"@{lane} {words}"


def read(text):
    """The journal of a text that a controller has taken, line by line."""
    made = Journal()
    for line in text.split("\n"):
        words = line.removesuffix("\r").split()
        if not words or line.startswith("#"):
            continue
        if words == ["end"]:
            break
        made.add(Run(words[0], int(words[1])) if words[0] in ("cpu", "tick") else Act(line.removesuffix("\r").strip(" ")))
    return made
