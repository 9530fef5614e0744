"""A session of `logix_live` on a terminal: each line that can't be done, and each command that is refused, is explained there."""

from __future__ import annotations

import threading
from collections import deque
from dataclasses import dataclass, field

from lib.texts import Said

from .codes import sentences
from .lines import told
from .project import codes_said
from .refused import Refused
from .replies import Follower, action_in
from .report import last_of

KEPT_LINES = 20_000
MOST_EXPLAINED = 20


@dataclass
class Session:
    """Lines that were given, and how far they are answered."""

    project: Refused | None
    # Whether a person types, who is told of everything.
    is_typed: bool
    given: deque[str] = field(default_factory=lambda: deque(maxlen=KEPT_LINES))
    count: int = 0
    answered: int = 0
    explained: int = 0
    pending: bytes = b""
    lock: threading.Lock = field(default_factory=threading.Lock)

    def __post_init__(self) -> None:
        self.follower = Follower(self.project) if self.project else None

    def put(self, chunk: bytes) -> None:
        """What is given to the controller."""
        *whole, self.pending = (self.pending + chunk).split(b"\n")
        with self.lock:
            for line in whole:
                self.given.append(line.decode("utf-8", "replace").removesuffix("\r"))
            self.count += len(whole)

    def line(self, number: int) -> str | None:
        with self.lock:
            at = number - 1 - (self.count - len(self.given))
            if number == self.count + 1 and self.pending:
                return self.pending.decode("utf-8", "replace")
            return self.given[at] if 0 <= at < len(self.given) else None

    def take(self, line: str) -> list[str]:
        """What is said of a line of an answer."""
        words = line.split()
        if words[:1] == ["line"] and len(words) == 3:
            self.answered = int(words[2])
            return self.said(self.of_line(words[1], int(words[2])))
        if words[2:3] != ["reply"]:
            return []
        given = self.next_action()
        if words[4] == "refused":
            return self.said(self.of_reply(given, words[5:]))
        if words[4] == "ok" and given is not None and self.follower:
            self.follower.done(given)
        return []

    def said(self, lines: list[str]) -> list[str]:
        """A program that gives bad lines isn't told of all."""
        self.explained += 1
        if self.is_typed or self.explained <= MOST_EXPLAINED:
            return lines
        return ["more refusals aren't explained here"] if self.explained == MOST_EXPLAINED + 1 else []

    def next_action(self) -> str | None:
        """The line that the next reply answers: lines that weren't done have been told before."""
        while True:
            self.answered += 1
            line = self.line(self.answered)
            if line is None or action_in(line) is not None:
                return line

    def of_line(self, code: str, number: int) -> list[str]:
        line = self.line(number)
        said = told("journal", code, 1, [line]) if line is not None else Said("")
        return [f"line {number}: {said.why}", *said.lines()[1:], *sentences(code, said.applies)]

    def of_reply(self, given: str | None, cause: list[str]) -> list[str]:
        if given is None or self.follower is None:
            return sentences(cause[0])
        said = self.follower.refused(given, cause)
        return [f"refused: {said.why}", *said.lines()[1:], *codes_said(last_of(cause), said.applies)]
