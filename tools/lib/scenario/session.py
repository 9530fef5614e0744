"""A controller that is talked to. What was told is kept: a new process, told the same, is at the same place."""

from __future__ import annotations

import re
from collections.abc import Iterable
from dataclasses import dataclass

from lib.programs import Astray, Ended, Program
from lib.talk import Talk

from .bounded import until


# A line that is none of a report, and a report's last line.
NO_LINE = re.compile(rb"^(?!\d+ \d+ (?:set|begin|reply|fault) )[^\n]*\n", re.MULTILINE)
LAST = re.compile(rb"end \d+ \d+ \w+ lost \d+\n")


def check_lines(answer: bytes) -> None:
    if NO_LINE.search(answer):
        raise Astray("it answered what is no line of a report")


def check_last(line: bytes) -> None:
    if not LAST.fullmatch(line):
        raise Astray("it answered what is no last line of a report")


def checked(report: bytes) -> bytes:
    """A whole report, as one."""
    last = report.rfind(b"\n", 0, -1) + 1
    check_lines(report[:last])
    check_last(report[last:])
    return report


@dataclass(frozen=True)
class Mark:
    """A place in what was told: how many entries, the count of the last one, and the steps and ticks up to there."""

    entries: int
    count: int
    steps: int
    ticks: int

    def length_of(self, answers: bytes) -> int:
        """How many bytes of these answers are of events up to here."""
        length = 0
        for line in answers.splitlines(True):
            tick, step, _ = line.split(b" ", 2)
            if int(tick) > self.ticks or int(step) > self.steps:
                break
            length += len(line)
        return length


class Session:
    def __init__(self, program: str, project: str, deadline: float) -> None:
        self.program, self.project, self.deadline = Program((program,), True), project, deadline
        self.entries: list[list] = []  # what was told: [verb, count] of steps and ticks, [action] of others
        self.answers: list[bytes] = []
        self.steps = self.ticks = self.actions = 0
        self.waiting: list[str] = []
        self.start()

    def start(self) -> None:
        self.talk = Talk(self.program, self.project)

    def close(self) -> None:
        self.talk.close()

    # ---- what is told

    def count(self, verb: str, count: int) -> None:
        """Steps (`cpu`) or ticks (`tick`); they are told with what is asked next."""
        if not count:
            return
        if verb == "cpu":
            self.steps += count
        else:
            self.ticks += count
        last = self.entries[-1] if self.entries else None
        if last and last[0] == verb:
            last[1] += count
        else:
            self.entries.append([verb, count])
        self.waiting.append(f"{verb} {count}\n")

    def act(self, line: str) -> bytes:
        """An action, as a line of a journal; what is answered to it and to all that was told before."""
        self.actions += 1
        self.entries.append([line])
        self.waiting.append(line + "\n")
        return self.ask()

    def ask(self) -> bytes:
        """The answers to what was told since the last time."""
        told, self.waiting = self.waiting, []
        answer = self.tell(told)
        if answer:
            self.answers.append(answer)
        return answer

    def tell(self, lines: Iterable[str]) -> bytes:
        answer = b""
        self.talk.until = until(self.deadline)
        try:
            for piece in self.talk.tell(lines):
                answer += piece
        except Astray:
            raise
        except Ended as ended:
            raise Ended(ended.status, answer.decode(errors="replace") + ended.text) from None
        check_lines(answer)
        return answer

    # ---- what was told

    def lines(self) -> Iterable[str]:
        """All that was told."""
        return (" ".join(map(str, one)) + "\n" for one in self.entries)

    def journal(self) -> bytes:
        return "".join([*self.lines(), "end\n"]).encode()

    def mark(self, steps: int | None = None) -> Mark:
        """Where it is; or where it was at this number of steps, within the last entry, which is one of steps."""
        over = 0 if steps is None else self.steps - steps
        last = self.entries[-1][1] if len(self.entries[-1]) > 1 else 0
        return Mark(len(self.entries), last - over, self.steps - over, self.ticks)

    def back(self, mark: Mark, answered: int) -> None:
        """Goes back to a mark, with no action since, and to so many answers before what was told since."""
        del self.entries[mark.entries :]
        if len(self.entries[-1]) > 1:
            self.entries[-1][1] = mark.count
        self.steps, self.ticks = mark.steps, mark.ticks
        since = b"".join(self.answers[answered:])
        del self.answers[answered:]
        kept = since[: mark.length_of(since)]
        if kept:
            self.answers.append(kept)
        self.close()
        self.start()
        self.tell(self.lines())

    def end(self) -> bytes:
        """Ends the session: the last line of the report."""
        self.ask()
        self.talk.until = until(self.deadline)
        last = self.talk.end()
        check_last(last)
        self.answers.append(last)
        return last

    def report(self) -> bytes:
        return b"".join(self.answers)
