"""Of all journals of a script: does a line of the question ever hold? Layer by layer, and for the test of that one journal after another.

A layer has the partial journals with equally many processor steps. Of those that made as many actions of each lane and led to the same
state, one is kept: what may come next, and what holds then, is the same for all. A moment is what an event of a partial journal within the
window left. Between a step and the tick that belongs to it there is no partial journal, but a moment.
"""

import copy
from typing import NamedTuple

from . import states
from .journal import Action, Event, line_of
from .machine import Machine

OPENING = Event("act", 1, 31, Action("mode run"))
STEP, TICK = Event("cpu", 1), Event("tick", 1)
MOST_STATES, MOST_FAULTS = 4_096, 64


class Found(NamedTuple):
    """`never`; `shown` at the last event of the journal, by the line with this number, from 0; or `unknown`: too many states. So many steps."""

    what: str
    steps: int
    line: object = None
    events: tuple = ()
    states: tuple = ()

    def head(self):
        """The first line of an answer with a journal."""
        return f"# line {self.line + 1} after step {self.steps}, tick {sum(event.verb == 'tick' for event in self.events)}"


class Shown(Exception):
    """A line holds after the last event of these."""

    def __init__(self, line, events):
        super().__init__(line)
        self.line, self.events = line, events


class TooMany(Exception):
    """A layer has more states than it may have, or there are more journals than are tried."""


class Node:
    """A controller on its way: how many actions each lane has made, one journal that led here, told by its last event and what was before it,
    and how many journals did."""

    def __init__(self, search):
        self.search, self.machine = search, Machine(search.project)
        self.counts, self.events, self.faults, self.ways = (0,) * len(search.script.lanes), None, (), 1
        self.make(OPENING)

    def make(self, event):
        """Makes an event; what is said. Raises what it shows."""
        said = self.machine.event(event.verb, event.lane, event.action)
        self.events = (event, self.events)
        self.faults = (*self.faults, *((self.machine.now, *fault) for fault in said.faults))[-MOST_FAULTS:]
        if said.reply != "held":
            line = self.search.question.line_of(self.machine, said)
            if line is not None:
                raise Shown(line, in_order(self.events))
        return said

    def key(self):
        return self.counts, self.faults, states.key(self.machine)

    def copied(self):
        made = copy.copy(self)
        made.machine = states.copied(self.machine)
        return made

    def is_late(self, ticks):
        """Whether at this tick the next action of a lane comes too late."""
        within = self.search.question.within
        return within is not None and any(
            lane[count][0] + within < ticks for lane, count in zip(self.search.script.lanes, self.counts) if count < len(lane))

    def is_spent(self):
        return self.machine.steps >= self.search.script.steps and not self.machine.is_syncing()

    def is_complete(self):
        return self.is_spent() and self.counts == tuple(map(len, self.search.script.lanes))

    def acted(self, lane):
        """The node after the next action of the lane; None if none is due or the window closes."""
        listed, count = self.search.script.lanes[lane], self.counts[lane]
        if count == len(listed) or listed[count][0] > self.machine.now:
            return None
        made = self.copied()
        made.counts = (*self.counts[:lane], count + 1, *self.counts[lane + 1:])
        if made.is_late(self.machine.now) or made.make(Event("act", 1, lane, listed[count][1])).reply == "held":
            return None
        return made

    def stepped(self):
        """The node after a step with its tick; None if the steps are spent or the window closes."""
        has_tick = (self.machine.steps + 1) % self.search.script.pace == 0
        if self.is_spent() or self.is_late(self.machine.now + has_tick):
            return None
        made = self.copied()
        made.make(STEP)
        if has_tick:
            made.make(TICK)
        return made


class Search:
    def __init__(self, project, script, question):
        self.project, self.script, self.question = project, script, question

    def layers(self, most=None):
        """Each layer, closed under due actions: nodes by their keys, in the order in which they were found."""
        layer = self.closed([Node(self)], most)
        while layer:
            yield layer
            layer = self.closed(filter(None, (node.stepped() for node in layer.values())), most)

    def closed(self, nodes, most):
        layer, made = {}, []
        for node in nodes:
            keep(layer, node, most)
        rest = list(layer.values())
        for node in rest:
            for acted in filter(None, map(node.acted, range(len(self.script.lanes)))):
                acted.ways = 0
                made.append((node, keep(layer, acted, most)))
                if made[-1][1] is acted:
                    rest.append(acted)
        for node, after in sorted(made, key=lambda pair: sum(pair[0].counts)):
            after.ways += node.ways
        return layer

    def found(self, most=MOST_STATES):
        """The answer, with at most so many states in a layer."""
        counts = []
        try:
            for layer in self.layers(most):
                counts.append(len(layer))
        except Shown as shown:
            return Found("shown", steps_of(shown.events), shown.line, shown.events, tuple(counts))
        except TooMany:
            return Found("unknown", len(counts), states=tuple(counts))
        return Found("never", len(counts) - 1, states=tuple(counts))

    def complete(self):
        """How many complete journals within the window there are."""
        return sum(node.ways for layer in self.layers() for node in layer.values() if node.is_complete())

    def least(self, most):
        """The least number of steps after which a line holds, by journals one after another; None for none. TooMany: over so many journals."""
        steps = []
        for at, one in enumerate(self.journals()):
            if at == most:
                raise TooMany
            if isinstance(one, Shown):
                steps.append(steps_of(one.events))
        return min(steps, default=None)

    def journals(self):
        """One after another, each partial journal within the window that shows nothing; and, of those that show a line, the line and the events."""
        try:
            rest = [Node(self)]
        except Shown as shown:
            yield shown
            return
        while rest:
            node = rest.pop()
            yield node
            for make in (node.stepped, *(lambda lane=lane: node.acted(lane) for lane in range(len(self.script.lanes)))):
                try:
                    made = make()
                except Shown as shown:
                    yield shown
                    continue
                if made:
                    rest.append(made)


def keep(layer, node, most):
    """Adds the node, unless one with its key is there; the one that is there now."""
    kept = layer.setdefault(node.key(), node)
    if kept is not node:
        kept.ways += node.ways
    elif len(layer) - 1 == most:
        raise TooMany
    return kept


def in_order(events):
    made = []
    while events:
        event, events = events
        made.append(event)
    return tuple(reversed(made))


def steps_of(events):
    return sum(event.count for event in events if event.verb == "cpu")


def canonical(events):
    """The lines of a journal: neighbouring steps are one line, and so are neighbouring ticks."""
    joined = []
    for event in events:
        if joined and event.lane is None and joined[-1].verb == event.verb:
            event = event._replace(count=joined.pop().count + event.count)
        joined.append(event)
    return [*map(line_of, joined), "end"]
