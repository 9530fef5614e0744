"""Many scenarios, side by side: a line for each, what another project changes, and what a build server reads."""

from __future__ import annotations

import argparse
import multiprocessing
import os
import shlex
import sys
import time
from dataclasses import dataclass, field

from lib.cover.reading import NAME
from lib.paths import TOOLS

from . import answer, coverage, junit, outputs
from .judge import empty_told, held_told
from .line import Wrong
from .playing import Played, Stopped, play
from .programs import Programs

ENDING = ".scenario"
OK, FAIL, WRONG = 0, 1, 2


@dataclass(frozen=True)
class Case:
    """A requirement, or what wasn't asked for: whether it holds, why not, what is noted of it, and why it held without being tried."""

    text: str
    holds: bool
    why: list[str] = field(default_factory=list)
    note: str = ""
    empty: str = ""


@dataclass
class Outcome:
    """What came of a scenario: a status, a line, and its cases; `tally`: how many of them held."""

    path: str
    status: int
    line: str
    seconds: float = 0.0
    cases: list[Case] = field(default_factory=list)
    tally: str = ""
    values: dict[str, int] = field(default_factory=dict)
    changes: list[str] = field(default_factory=list)
    covered: coverage.Covered | None = None


def found(paths: list[str]) -> list[str]:
    """The scenarios that are named, and those below the folders that are."""
    made = []
    for path in paths:
        if not os.path.isdir(path):
            made.append(path)
            continue
        for folder, folders, files in os.walk(path):
            folders.sort()
            made += [os.path.join(folder, name) for name in sorted(files) if name.endswith(ENDING)]
    return made


def listed(said: argparse.Namespace) -> int:
    for path in found(said.paths):
        print(f"{shlex.quote(os.path.join(TOOLS, 'scenario'))} {shlex.quote(path)}")
    return OK


def run(said: argparse.Namespace, programs: Programs) -> int:
    paths = found(said.paths)
    if not paths:
        print(f"scenario: there is no file NAME{ENDING} below {', '.join(said.paths)}", file=sys.stderr)
        return WRONG
    for name in ("logix_live", "logix", *([NAME] if said.coverage else [])):
        programs.path(name)
    began = time.monotonic()
    outcomes = []
    for outcome in played(paths, said, programs):
        # (nothing is told before it is known that the programs are the proved ones)
        programs.sure()
        outcomes.append(outcome)
        print(outcome.line, flush=True)
        for change in outcome.changes:
            print(f"      {change}")
        counted(len(outcomes), len(paths), began)
    if said.junit:
        outputs.put(said.junit, junit.text(outcomes))
    if said.coverage:
        every = coverage.Suite()
        for outcome in outcomes:
            every.add(outcome.path, outcome.covered)
        outputs.write_coverage(said.coverage, every)
    print(summary(outcomes, time.monotonic() - began))
    return max(one.status for one in outcomes)


def played(paths: list[str], said: argparse.Namespace, programs: Programs):
    """The outcomes in order, of as many at a time as there are processors."""
    jobs = min(said.jobs if said.jobs > 0 else os.cpu_count() or 1, len(paths))
    work = [(path, said.project, said.seconds, said.programs, bool(said.coverage)) for path in paths]
    if jobs == 1:
        yield from map(one, work)
        return
    with multiprocessing.get_context("fork").Pool(jobs) as pool:
        yield from pool.imap(one, work, chunksize=max(1, min(16, len(work) // (jobs * 4))))


def counted(done: int, count: int, began: float) -> None:
    if sys.stderr.isatty() and not sys.stdout.isatty() and time.monotonic() - began > 2:
        sys.stderr.write(f"\r{done} of {count} scenarios ")
        sys.stderr.flush()


def summary(outcomes: list[Outcome], seconds: float) -> str:
    counts = [sum(one.status == status for one in outcomes) for status in (OK, FAIL, WRONG)]
    others = len(outcomes) - sum(counts)
    told = [f"{counts[0]} ok", f"{counts[1]} FAIL", f"{counts[2]} wrong", *([f"{others} stopped"] if others else [])]
    return f"{len(outcomes)} scenario{'' if len(outcomes) == 1 else 's'}: {', '.join(told)}, in {seconds:.1f} s"


# ---- one of them, in a process of its own


def one(work: tuple) -> Outcome:
    path, project, seconds, folder, covers = work
    programs = Unchecked(folder)
    began = time.monotonic()
    try:
        outcome = outcome_of(play(path, None, programs, seconds, covers=covers and project is None))
        if project is not None:
            other = outcome_of(play(path, project, programs, seconds, covers=covers))
            other.changes = changes(outcome, other)
            other.line += f"; {len(other.changes)} changed" if other.changes else "; nothing changed"
            outcome = other
    except Wrong as wrong:
        outcome = Outcome(path, WRONG, f"WRONG {wrong.told()}", cases=[Case("the scenario", False, [wrong.told()])])
    except Stopped as stopped:
        outcome = Outcome(path, stopped.status, f"STOP  {path}: {stopped.why}", cases=[Case("the run", False, [stopped.why])])
    outcome.seconds = time.monotonic() - began
    return outcome


class Unchecked(Programs):
    """Programs in a process beside: that they are the proved ones is found out by the one that began it."""

    def check(self, name: str):
        return Done()


class Done:
    def wait(self) -> int:
        return 0


def outcome_of(played: Played) -> Outcome:
    cases = [Case(one.requirement.text, one.holds, one.why, one.note, one.empty) for one in played.judged.verdicts]
    cases += [
        Case(f"line {one.line.number}: {one.action}", False, [f"{one.told_answer()}, which nothing requires"])
        for one in played.judged.refused
    ]
    cases += [Case(one.told(), False, [f"at {one.place.told()}, which nothing requires"]) for one in played.judged.faulted]
    status, path = answer.status(played), played.scenario.path
    short, empties = [one.text for one in cases if not one.holds], [one.empty for one in cases if one.holds]
    if short or played.run.stopped:
        tally = ", ".join([f"{len(short)} of {len(cases)} fell short", *empty_told(empties)])
    else:
        tally = held_told(empties) if cases else "nothing required"
    line = f"ok    {path}: {tally}"
    if status != OK:
        line = f"FAIL  {path}: {tally}: {'; '.join(short[:2])}{'; ..' if short[2:] else ''}"
    if played.run.stopped:
        line += f" (ended by --seconds at {played.run.now} ms)"
    return Outcome(path, status, line, cases=cases, tally=tally, values=played.values(), covered=played.covered)


def changes(own: Outcome, other: Outcome) -> list[str]:
    """Which requirements and which values at the end another project changes."""
    told = []
    before = {one.text: one.holds for one in own.cases}
    after = {one.text: (one.holds, one.why) for one in other.cases}
    for text in dict.fromkeys([*before, *after]):
        was, (holds, why) = before.get(text, True), after.get(text, (True, []))
        if was != holds:
            told.append(f"{word(was)} -> {word(holds)}  {text}{': ' if why else ''}{'; '.join(why)}")
    names = {name.lower(): name for name in [*own.values, *other.values]}
    values = [{name.lower(): value for name, value in one.values.items()} for one in (own, other)]
    for key, name in names.items():
        if key in values[0] and key in values[1] and values[0][key] != values[1][key]:
            told.append(f"at the end {name} {values[0][key]} -> {values[1][key]}")
    return told


def word(holds: bool) -> str:
    return "ok" if holds else "FAIL"
