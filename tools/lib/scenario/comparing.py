"""Two reports, by what happened to each tag, task and reply in time; numbers of steps are left out."""

from __future__ import annotations

import re
from dataclasses import dataclass, field

LINE = re.compile(
    r"(?P<tick>\d+) \d+ (?:begin (?P<task>\S+) (?P<began>\S+ \d+)|reply (?P<lane>\d+) (?P<answer>.+)"
    r"|fault (?P<fault>\S+ \S+ (?P<faulted>\S+) \S+)|set (?P<tag>\S+) (?P<value>-?\d+))"
)
END = re.compile(r"end (\d+) \d+ (\w+) lost (\d+)")
MOST_TOLD = 5


class Unreadable(Exception):
    """Why a text is no report."""


@dataclass
class Report:
    """For each tag, task and lane what happened, as pairs of a tick and a text, in order."""

    streams: dict[tuple[str, str], list[tuple[int, str]]] = field(default_factory=dict)
    end: tuple[int, str] = (0, "")
    lost: int = 0

    def add(self, kind: str, name: str, tick: int, what: str) -> None:
        self.streams.setdefault((kind, name), []).append((tick, what))


def read_report(text: bytes) -> Report:
    report, lines = Report(), text.decode("utf-8", "replace").split("\n")
    for number, line in enumerate(lines, 1):
        found = LINE.fullmatch(line)
        if not found:
            break
        tick = int(found["tick"])
        if found["tag"]:
            report.add("tag", found["tag"], tick, found["value"])
        elif found["task"]:
            report.add("task", found["task"], tick, f"begin {found['began']}")
        elif found["lane"]:
            report.add("lane", found["lane"], tick, found["answer"])
        else:
            report.add("faults of", found["faulted"], tick, found["fault"])
    end = END.fullmatch(line)
    if not end or lines[number:] not in ([""], []):
        raise Unreadable(f"line {number} is no line of a report: {line[:60]!r}")
    report.end, report.lost = (int(end[1]), end[2]), int(end[3])
    return report


def differences(first: Report, second: Report) -> list[str]:
    """What happened otherwise, a line for each tag, task, lane; nothing where nothing but steps moved."""
    told = []
    for kind, name in sorted({*first.streams, *second.streams}, key=lambda one: (ORDER.index(one[0]), one[1].lower())):
        told += stream_told(f"{kind} {name}", first.streams.get((kind, name), []), second.streams.get((kind, name), []))
    if first.end != second.end:
        told.append(f"the end: {first.end[0]} ms, {first.end[1]} in A; {second.end[0]} ms, {second.end[1]} in B")
    if first.lost or second.lost:
        told.append(f"lines that were lost, and so not compared: {first.lost} in A, {second.lost} in B")
    return told


ORDER = ("tag", "lane", "faults of", "task")


def stream_told(name: str, first: list[tuple[int, str]], second: list[tuple[int, str]]) -> list[str]:
    if first == second:
        return []
    if not first or not second:
        count, which = max(len(first), len(second)), "A" if first else "B"
        one = (first or second)[0]
        return [f"{name}: in {which} alone, {count} time{'' if count == 1 else 's'}, first at {one[0]} ms: {one[1]}"]
    if [what for _, what in first] == [what for _, what in second]:
        moved = [(a[0], b[0]) for a, b in zip(first, second) if a[0] != b[0]]
        at = next(at for at, (a, b) in enumerate(zip(first, second)) if a[0] != b[0])
        one = f"first {first[at][1]} at {moved[0][0]} ms in A, {moved[0][1]} in B"
        return [f"{name}: the same, {len(moved)} of {len(first)} at another time; {one}"]
    return [f"{name}: {two_sides(first, second)}"]


def two_sides(first: list[tuple[int, str]], second: list[tuple[int, str]]) -> str:
    """The ticks at which what happened differs, the first of them with both sides."""
    ticks = sorted({tick for tick, _ in {*first, *second}})
    sides = (by_tick(first), by_tick(second))
    apart = [tick for tick in ticks if sides[0].get(tick) != sides[1].get(tick)]
    told = [f"at {tick} ms {side_told(sides[0].get(tick))} in A, {side_told(sides[1].get(tick))} in B" for tick in apart[:MOST_TOLD]]
    return "; ".join(told) + (f"; and at {len(apart) - MOST_TOLD} more ticks" if len(apart) > MOST_TOLD else "")


def by_tick(stream: list[tuple[int, str]]) -> dict[int, list[str]]:
    sides: dict[int, list[str]] = {}
    for tick, what in stream:
        sides.setdefault(tick, []).append(what)
    return sides


def side_told(what: list[str] | None) -> str:
    if not what:
        return "nothing"
    return what[0] if len(what) == 1 else f"{len(what)} times, {what[0]} to {what[-1]}" if len(what) > 4 else ", ".join(what)


def loosely(report: bytes) -> list[tuple[int, str]]:
    """The lines of a report with their numbers, without those that begin scans and without numbers of steps."""
    made = []
    for number, line in enumerate(report.decode("utf-8", "replace").splitlines(), 1):
        words = line.split(" ")
        if words[2:3] != ["begin"]:
            steps = 2 if words[0] == "end" else 1
            made.append((number, " ".join(words[:steps] + words[steps + 1 :])))
    return made


def first_difference(wanted: bytes, came: bytes, exactly: bool) -> str | None:
    """Where a report first differs from one that is stored: exactly, or without steps and begins."""
    if exactly:
        first, second = (list(enumerate(text.decode("utf-8", "replace").splitlines(), 1)) for text in (wanted, came))
        if wanted == came:
            return None
    else:
        read_report(wanted)
        first, second = loosely(wanted), loosely(came)
    for (number, line), (_, other) in zip(first, second):
        if line != other:
            return f"line {number} of it is {line!r}, and here {other!r}"
    if len(first) == len(second):
        return None if not exactly else "they differ in how lines end"
    if len(first) > len(second):
        return f"line {first[len(second)][0]} of it is {first[len(second)][1]!r}, and here nothing"
    return f"it ends, and here {second[len(first)][1]!r} follows"
