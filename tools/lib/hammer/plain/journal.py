"""Journals, scripts and link scripts (FORMATS.md, section 5)."""

import re
from typing import NamedTuple

from .words import is_name

LONGEST, MOST_COUNT, MOST_ACTIONS, MOST_EDITS = 65_536, 4_000_000, 100_000, 16
DIGITS = re.compile(r"[0-9]{1,10}")
VALUE = re.compile(r"-?[0-9]{1,10}")
BLANKS = " \t\r\n"


class Bad(Exception):
    """A cause, and then its line."""

    def __init__(self, code, line=0):
        super().__init__(code, line)
        self.code, self.line = code, line


class Edit(NamedTuple):
    what: str
    index: int
    text: str


class Action(NamedTuple):
    verb: str
    names: tuple = ()
    numbers: tuple = ()
    edits: tuple = ()


class Event(NamedTuple):
    """Processor steps, ticks (lane None), or one action."""

    verb: str
    count: int
    lane: object = None
    action: object = None


def lines_of(contents):
    """The lines with their numbers, from 1: comments and empty ones are passed over."""
    pieces = contents.decode("latin-1").split("\n")
    last = pieces.pop()
    lines = [piece[:-1] if piece.endswith("\r") else piece for piece in pieces] + ([last] if last else [])
    return len(lines), [(at, line) for at, line in enumerate(lines, 1) if line and not line.startswith("#")]


def each_line(contents, take):
    """Gives each line up to `end` to `take`; the first cause with its line."""
    count, lines = lines_of(contents)
    for number, line in lines:
        try:
            if len(line) > LONGEST:
                raise Bad("J1")
            if line.strip(" ") == "end":
                take(None)
                return
            take(line)
        except Bad as bad:
            raise Bad(bad.code, number) from None
    raise Bad("J1", count + 1)


def words_of(line):
    return [word for word in line.split(" ") if word]


def count_of(word):
    if not DIGITS.fullmatch(word) or int(word) >= 1 << 32:
        raise Bad("J1")
    return int(word)


def value_of(word):
    if not VALUE.fullmatch(word) or not -(1 << 31) <= int(word) < 1 << 31:
        raise Bad("J1")
    return int(word)


def name_of(word):
    if not is_name(word):
        raise Bad("J1")
    return word


def need(words, count):
    if len(words) != count:
        raise Bad("J1")


def action_of(line):
    words = words_of(line)
    verb = words[0] if words else ""
    if verb == "accept":
        return accept_of(line)
    if verb == "in":
        need(words, 4)
        return Action("in", (name_of(words[1]),), (count_of(words[2]), value_of(words[3])))
    if verb == "out":
        need(words, 3)
        return Action("out", (name_of(words[1]),), (count_of(words[2]),))
    if verb in ("test", "untest", "assemble", "cancel"):
        need(words, 2)
        return Action(verb, (name_of(words[1]),))
    if verb == "force" and len(words) == 5:
        return Action("force", (name_of(words[1]),), (count_of(words[2]), value_of(words[3]), value_of(words[4])))
    if words in (["force", "enable"], ["force", "disable"], ["force", "remove"], ["mode", "run"], ["mode", "program"], ["clear"]):
        return Action(" ".join(words))
    raise Bad("J1")


def accept_of(line):
    """The names, and then edits with a bar between them."""
    head = re.fullmatch(r" *accept +([^ ]+) +([^ ]+) (.*)", line, re.DOTALL)
    if not head:
        raise Bad("J1")
    parts = head.group(3).split("|")
    if len(parts) > MOST_EDITS:
        raise Bad("J1")
    return Action("accept", (name_of(head.group(1)), name_of(head.group(2))), (), tuple(edit_of(part) for part in parts))


def edit_of(part):
    words = words_of(part)
    if len(words) < 2 or words[0] not in ("r", "i", "d"):
        raise Bad("J1")
    index = count_of(words[1])
    if words[0] == "d":
        need(words, 2)
        return Edit("d", index, "")
    text = re.fullmatch(r" *[ri] +[0-9]+(.*)", part, re.DOTALL).group(1)
    return Edit(words[0], index, text.strip(BLANKS))


class Reader:
    """Reads the lines of one journal into events."""

    def __init__(self):
        self.events, self.spent, self.actions = [], {"cpu": 0, "tick": 0}, 0

    def take(self, line):
        words = words_of(line)
        if words and words[0] in ("cpu", "tick"):
            need(words, 2)
            self.add_count(words[0], count_of(words[1]))
            return
        lane = 31
        if words and words[0].startswith("@"):
            lane = count_of(words[0][1:])
            line = line.lstrip(" ")[len(words[0]):]
        action = action_of(line)
        if lane > 30 and words[0].startswith("@"):
            raise Bad("J2")
        self.actions += 1
        if self.actions > MOST_ACTIONS:
            raise Bad("J4")
        self.events.append(Event("act", 1, lane, action))

    def add_count(self, verb, count):
        self.spent[verb] += count
        if count == 0 or self.spent[verb] > MOST_COUNT:
            raise Bad("J4")
        self.events.append(Event(verb, count))


def read_journal(contents):
    """The events of a journal; Bad with its line."""
    reader = Reader()
    each_line(contents, lambda line: line is not None and reader.take(line))
    return reader.events


class Script:
    """A script: steps, pace, and for each lane its actions with their ticks."""

    def __init__(self, contents):
        self.lanes = None
        self.actions = 0
        each_line(contents, self.take)

    def take(self, line):
        if self.lanes is None:
            self.head(line)
        elif line is not None:
            self.action(words_of(line), line)

    def head(self, line):
        words = words_of(line or "")
        need(words, 4)
        if words[0] != "run":
            raise Bad("J1")
        self.steps, self.pace, lanes = (count_of(word) for word in words[1:])
        if not (1 <= self.steps <= 1_000_000 and 1 <= self.pace <= 1_000_000 and lanes <= 31):
            raise Bad("J4")
        self.lanes = [[] for _ in range(lanes)]

    def action(self, words, line):
        if len(words) < 3 or not words[0].startswith("@"):
            raise Bad("J1")
        lane, at = count_of(words[0][1:]), count_of(words[1])
        action = action_of(line.lstrip(" ")[len(words[0]):].lstrip(" ")[len(words[1]):])
        if lane >= len(self.lanes):
            raise Bad("J2")
        self.actions += 1
        if self.actions > MOST_ACTIONS:
            raise Bad("J4")
        if at > self.steps // self.pace:
            raise Bad("J3")
        if self.lanes[lane] and at < self.lanes[lane][-1][0]:
            raise Bad("J5")
        self.lanes[lane].append((at, action))


def line_of(event):
    """The canonical line of an event."""
    if event.lane is None:
        return f"{event.verb} {event.count}"
    text = " ".join([event.action.verb, *event.action.names, *map(str, event.action.numbers)])
    if event.action.edits:
        text += " " + " | ".join(edit_text(edit) for edit in event.action.edits)
    return text if event.lane == 31 else f"@{event.lane} {text}"


def edit_text(edit):
    return " ".join([edit.what, str(edit.index)] + ([edit.text] if edit.text else []))
