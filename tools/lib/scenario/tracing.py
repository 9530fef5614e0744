"""What a trace tells (docs/FORMATS.md, section 8.1): the scans of each task, the ends of each program's scans, what an event was."""

from __future__ import annotations

import functools
import itertools
from dataclasses import dataclass


@dataclass(frozen=True)
class Place:
    """An event, and the tick and the number of steps after it."""

    event: int
    tick: int
    step: int

    def told(self) -> str:
        return f"{self.tick} ms, step {self.step}"


@dataclass
class Scans:
    """The scans of a task that came to their end: how many, and the steps of the task itself in each, least and most."""

    count: int = 0
    least: int = 0
    most: int = 0
    overlaps: int = 0

    def add(self, steps: int) -> None:
        self.least = min(self.least, steps) if self.count else steps
        self.most = max(self.most, steps)
        self.count += 1


class Trace:
    def __init__(self, data: bytes) -> None:
        self.data = data

    @functools.cached_property
    def lines(self) -> list[bytes]:
        """The line of each event, from number 1 on."""
        return [b"", *self.data.split(b"\n")[:-2]]

    def counted(self, project: dict) -> tuple[dict[str, Scans], dict[str, list[Place]]]:
        """The scans of each task, and the ends of the scans of each program (by its name in small letters)."""
        counter = Counter(project)
        known: dict[bytes, Seen] = {}
        # (most lines are those of the step before)
        for line, same in itertools.groupby(self.lines[1:]):
            if line not in known:
                known[line] = seen_of(line)
            if known[line].ended is None:
                counter.add(known[line], len(list(same)))
            else:
                for _ in same:
                    counter.add(known[line], 1)
        return dict(zip(counter.tasks, counter.scans)), dict(zip(counter.programs, counter.ends))


@dataclass(frozen=True)
class Seen:
    """What is counted of a line: ticks, processor steps, steps of a task, the end of a program's scan, overlaps as a mask of tasks."""

    ticks: int = 0
    steps: int = 0
    task: int | None = None
    ended: int | None = None
    overlaps: int = 0
    # Whether all tasks go down.
    down: bool = False


def seen_of(line: bytes) -> Seen:
    words = line.decode().split(" ")
    if words[0] == "tick":
        return Seen(ticks=1, overlaps=int(words[2]), down=words[3] != "-")
    if words[0] == "act":
        return Seen(down=words[2] in ("run", "program") and words[4] == "ok")
    if words[0] == "idle":
        return Seen(steps=1)
    ended = int(words[2]) if words[0] == "left" and words[3] == "ended" else None
    return Seen(steps=1, task=int(words[1]), ended=ended, down=words[-1] == "major")


class Counter:
    def __init__(self, project: dict) -> None:
        self.tasks = [task["name"] for task in project["tasks"]]
        self.programs = [program["name"].lower() for program in project["programs"]]
        self.last = [self.programs.index(task["programs"][-1].lower()) for task in project["tasks"]]
        self.scans = [Scans() for _ in self.tasks]
        self.ends: list[list[Place]] = [[] for _ in self.programs]
        self.steps = [0] * len(self.tasks)
        self.event = self.tick = self.step = 0

    def add(self, seen: Seen, count: int) -> None:
        """Counts so many events of one kind; of those that end a scan, one."""
        self.event += count
        self.tick += seen.ticks * count
        self.step += seen.steps * count
        if seen.task is not None:
            self.steps[seen.task] += count
        if seen.ended is not None:
            self.end(seen.task, seen.ended)
        if seen.overlaps:
            for task, scans in enumerate(self.scans):
                scans.overlaps += (seen.overlaps >> task & 1) * count
        if seen.down:
            self.steps = [0] * len(self.steps)

    def end(self, task: int, program: int) -> None:
        self.ends[program].append(Place(self.event, self.tick, self.step))
        if program == self.last[task]:
            self.scans[task].add(self.steps[task])
            self.steps[task] = 0
