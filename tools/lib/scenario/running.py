"""A scenario's run: ticks, what is done at each time, and at each pace scans or steps; told to a session of the controller."""

from __future__ import annotations

import re
import time
from collections.abc import Callable
from dataclasses import dataclass, field

from lib.hammer.plain.project import read
from lib.hammer.plain.words import signed
from lib.programs import Astray

from .agenda import Item, Set
from .copying import Copy, Word
from .line import Line
from .pacing import Pacer, first_begin
from .refusals import Refusal
from .scenario import OPERATOR, Command, Scenario
from .session import Session

SET = re.compile(rb"^\d+ \d+ set (\S+) (-?\d+)$", re.MULTILINE)
REPLY = re.compile(rb"^(\d+) (\d+) reply \d+ (.*)$", re.MULTILINE)
MAJOR = re.compile(rb"^\d+ \d+ fault major ", re.MULTILINE)
MOST_HELD = 100_000
AT_ONCE = 400  # so many lines are told before the answers are read, where nothing depends on them


@dataclass(frozen=True)
class Done:
    """An action that was told: its event's number from 1, the time, the answer, and the line of the scenario that asked for it.
    `refusal` is told of one that was refused, where it is known."""

    event: int
    time: int
    lane: int
    action: str
    answer: str
    line: Line | None
    refusal: Refusal | None = None

    def is_refused(self) -> bool:
        return self.answer.startswith("refused")

    def told_answer(self) -> str:
        return f"{self.answer}: {self.refusal.why}" if self.refusal else self.answer


@dataclass
class Run:
    """What came of a run."""

    done: list[Done] = field(default_factory=list)
    notes: list[str] = field(default_factory=list)
    paces: list[int] = field(default_factory=list)  # the number of events after each pace
    now: int = 0
    stopped: bool = False  # by the limit of seconds


class Runner:
    def __init__(self, scenario: Scenario, copy: Copy, session: Session, idle_steps: int) -> None:
        self.scenario, self.copy, self.session, self.idle_steps = scenario, copy, session, idle_steps
        self.run = Run()
        self.is_running, self.owed = False, 0
        pace, begin = scenario.pace, first_begin(copy.project)
        self.pacer = Pacer(session, pace.ms, pace.scans, begin, self.look) if begin and not pace.steps else None
        self.words: dict[str, Word] = {}
        self.modules: dict[tuple[str, int], int] = {}
        self.before: dict[tuple[str, int], int] = {}
        self.values: dict[bytes, int] = {}
        self.followed: set[bytes] = set()

    def follow(self, items: list[Item]) -> None:
        """Sees to it that the values are known that settings need: the rest of a word of the tool's, and what a pulse goes back to."""
        for item in items:
            if isinstance(item.what, Set):
                text = item.what.setting.name.text
                if text not in self.words:
                    self.words[text] = self.copy.word(text)
                word = self.words[text]
                self.followed.update(key_of(name) for name, _, _ in word.beside)
                if word.own and item.what.value is None:
                    self.followed.add(key_of(text))

    def go(self, items: list[Item], deadline: float, progress: Callable[[int], None]) -> Run:
        pace, end, run = self.scenario.pace.ms, self.scenario.end, self.run
        self.follow(items)
        self.act("mode run", OPERATOR, None)
        at, now = 0, 0
        while True:
            while at < len(items) and items[at].at == now:
                self.do(items[at])
                at += 1
            following = items[at].at if at < len(items) else end + 1
            if now % pace == 0:
                self.keep_pace()
                run.paces.append(self.events())
                if self.pacer and self.is_running:
                    now += pace * self.pacer.ahead((min(following - 1, end) - now) // pace)
            run.now = now
            if now == end:
                break
            if time.monotonic() > deadline:
                run.stopped = True
                break
            progress(now)
            following = min(now - now % pace + pace, end, following)
            self.session.count("tick", following - now)
            now = following
        self.session.end()
        if self.pacer and self.pacer.given_up:
            run.notes.append("the scan at {} ms isn't over after {} steps: the ticks go on".format(*self.pacer.given_up))
        return run

    def events(self) -> int:
        return self.session.steps + self.session.ticks + self.session.actions

    # ---- what is done

    def do(self, item: Item) -> None:
        if isinstance(item.what, Command):
            command = item.what
            answer = self.act(command.action, command.lane, command.line)
            words = command.action.split()
            if words[0] == "in" and answer == "ok":
                self.modules[self.spelled(words[1]), int(words[2])] = int(words[3]) & 0xFFFF_FFFF
            return
        self.set(item.what)

    def spelled(self, connection: str) -> str:
        return next(one["name"] for one in self.copy.project["connections"] if one["name"].lower() == connection.lower())

    def set(self, what: Set) -> None:
        name = what.setting.name
        word = self.words[name.text]
        if word.own and self.session.waiting:
            # (the program may have changed what is kept of the word)
            self.look(self.session.ask())
        old = self.word_now(word)
        key = (name.text, what.since)
        if what.value is None:
            value = self.before.pop(key)
        else:
            value = what.value
            if what.setting.lasts is not None:
                self.before[key] = self.values.get(key_of(name.text), self.opening(name.text)) if word.own else old >> word.shift
        new = old & ~word.mask() | value << word.shift & word.mask()
        self.send(word, new, name.line)

    def send(self, word: Word, value: int, line: Line) -> None:
        self.act(f"in {word.connection} {word.word} {signed(value, 32)}", OPERATOR, line)
        if word.own:
            return
        self.modules[word.connection, word.word] = value
        last = self.copy.words_of(word.connection) - 1
        if "trigger" in self.copy.connection(word.connection) and word.word != last:
            self.act(f"in {word.connection} {last} {signed(self.module(word.connection, last), 32)}", OPERATOR, line)

    def word_now(self, word: Word) -> int:
        """The word as it is: of an input as its module has it, of a connection of the tool's as the program has it."""
        if not word.own:
            return self.module(word.connection, word.word)
        made = 0
        for name, shift, bits in word.beside:
            value = self.values.get(key_of(name), self.opening(name))
            made |= (value & ((1 << bits) - 1)) << shift
        return made & 0xFFFF_FFFF

    def module(self, connection: str, word: int) -> int:
        if (connection, word) not in self.modules:
            tag = self.copy.places.resolve(self.copy.connection(connection)["tag"])
            self.modules[connection, word] = read(self.copy.places.image, "DINT", tag.at + 32 * word) & 0xFFFF_FFFF
        return self.modules[connection, word]

    def opening(self, text: str) -> int:
        return self.copy.places.value(self.copy.places.image, text)

    def act(self, action: str, lane: int, line: Line | None) -> str:
        """Tells an action; where a copy holds it, again after each step until it is taken."""
        told = action if lane == OPERATOR else f"@{lane} {action}"
        for _ in range(MOST_HELD):
            data = self.session.act(told)
            self.look(data)
            replies = list(REPLY.finditer(data))
            if len(replies) != 1:
                raise Astray(f"it answered {len(replies)} times to {action}")
            reply = replies[0]
            answer = reply[3].decode()
            self.run.done.append(Done(self.events(), int(reply[1]), lane, action, answer, line))
            if answer != "held":
                break
            self.session.count("cpu", 1)
            self.owed += 1
        if action in ("mode run", "mode program") and answer == "ok":
            self.is_running = action == "mode run"
            if self.pacer:
                self.pacer.is_scanning = False
        return answer

    def look(self, data: bytes) -> bool:
        """Takes from the answers what is needed of them; whether the controller is in Run."""
        if MAJOR.search(data):
            self.is_running = False
        if self.followed:
            for found in SET.finditer(data):
                if found[1].lower() in self.followed:
                    self.values[found[1].lower()] = int(found[2])
        return self.is_running

    # ---- the pace

    def keep_pace(self) -> None:
        """Scans or steps at this time."""
        if self.pacer:
            if self.session.waiting:
                self.look(self.session.ask())
            self.pacer.keep(self.is_running)
            return
        steps = self.scenario.pace.steps or self.idle_steps
        self.session.count("cpu", max(0, steps - self.owed))
        self.owed = max(0, self.owed - steps)
        if len(self.session.waiting) > AT_ONCE:
            self.look(self.session.ask())


def key_of(text: str) -> bytes:
    """What a tag's value is kept under: a report spells it as it is watched."""
    return text.lower().encode()
