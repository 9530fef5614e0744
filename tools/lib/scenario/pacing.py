"""Paces in scans: steps up to the begin of the continuous task's next scan, which tells that the scan before is over and nothing else up.

Nothing is answered at a scan's end, so how many steps a scan takes is first found out step by step, and then expected: many paces are
told at once where they came as expected before, and where one of them didn't, the session goes back to it.
"""

from __future__ import annotations

import re
from collections import deque
from collections.abc import Callable

from .session import Session

MOST_IN_A_PACE, MOST_AFTER_THAT, SINGLES, LARGEST = 200_000, 1_000, 64, 65_536
MOST_PACES, SURE, LONGEST_PATTERN = 512, 3, 16


def first_begin(project: dict) -> re.Pattern[bytes] | None:
    """The report's line of a begin of the first program of the continuous task, if there is one that may run."""
    for task in project["tasks"]:
        if task["kind"] == "continuous" and not task.get("inhibited", False):
            names = {program["name"].lower(): program["name"] for program in project["programs"]}
            program = names[task["programs"][0].lower()]
            return re.compile(rf"^\d+ (\d+) begin {task['name']} {program} \d+$".encode(), re.MULTILINE)
    return None


class Pacer:
    """Keeps a pace of scans. `look` is shown all answers that stay, and tells whether the controller is in Run."""

    def __init__(self, session: Session, ms: int, scans: int, begin: re.Pattern[bytes], look: Callable[[bytes], bool]) -> None:
        self.session, self.ms, self.scans, self.begin, self.look = session, ms, scans, begin, look
        self.is_scanning = False
        self.lengths: deque[int] = deque(maxlen=8)
        self.paces: deque[int] = deque(maxlen=2 * LONGEST_PATTERN)
        self.right = 0  # so many paces in a row were as expected
        self.at_once = 1
        self.most = MOST_IN_A_PACE
        self.given_up: tuple[int, int] | None = None

    # ---- one pace, step by step

    def keep(self, is_running: bool) -> None:
        if not is_running:
            return
        if not self.is_scanning:
            self.is_scanning = is_running = self.to_begin(False)
        start, expected = self.session.steps, self.expected(1)
        for _ in range(self.scans):
            if not (is_running and self.to_begin(True)):
                self.right = 0
                return
        length = self.session.steps - start
        self.right = self.right + 1 if expected == [length] else 0
        self.paces.append(length)

    def to_begin(self, is_scan: bool) -> bool:
        """Steps up to the next begin, and no further; whether it came."""
        session, start, answered = self.session, self.session.steps, len(self.session.answers)
        count = min(self.lengths) if is_scan and self.lengths else 1
        tried = 0
        while True:
            session.count("cpu", count)
            data = session.ask()
            found = self.begin.search(data)
            if found:
                steps = int(found[1])
                if steps < session.steps:
                    session.back(session.mark(steps), answered)
                    data = data[: found.end() + 1]
                self.look(data)
                if is_scan:
                    self.lengths.append(steps - start)
                return True
            if not self.look(data):
                return False
            tried += 1
            if session.steps - start >= self.most:
                self.given_up = self.given_up or (session.ticks, session.steps - start)
                self.most = MOST_AFTER_THAT
                return False
            count = 1 if tried < SINGLES else min(count * 2, LARGEST, self.most)

    # ---- many paces at once

    def expected(self, count: int) -> list[int] | None:
        """How many steps the next paces take if they go on as the last ones, whose pattern came twice."""
        paces = list(self.paces)
        for length in range(1, min(LONGEST_PATTERN, len(paces) // 2) + 1):
            if paces[-length:] == paces[-2 * length : -length]:
                return [paces[-length + at % length] for at in range(count)]
        return None

    def ahead(self, room: int) -> int:
        """Makes up to so many paces, each after its ticks; how many came as expected. The session is after the last of these."""
        count = min(room, self.at_once)
        lengths = self.expected(count) if count and self.right >= SURE else None
        if not lengths or not self.is_scanning:
            return 0
        session, answered = self.session, len(self.session.answers)
        marks = [session.mark()]
        for length in lengths:
            session.count("tick", self.ms)
            session.count("cpu", length)
            marks.append(session.mark())
        data = session.ask()
        begins = [int(steps) for steps in self.begin.findall(data)]
        made = next((at for at in range(count) if not self.is_at(begins, at, marks[at + 1].steps)), count)
        if made < count:
            session.back(marks[made], answered)
            data = session.answers[-1] if len(session.answers) > answered else b""
            self.right, self.at_once = 0, max(1, made // 2)
        else:
            self.at_once = min(self.at_once * 2, MOST_PACES)
        self.look(data)
        self.paces.extend(lengths[:made])
        return made

    def is_at(self, begins: list[int], at: int, steps: int) -> bool:
        """Whether this pace's last begin came with this step, and the next one after it."""
        last = self.scans * (at + 1) - 1
        return last < len(begins) and begins[last] == steps
