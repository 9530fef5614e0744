"""The words of tools/scenario: one scenario, told in full; or all scenarios below folders, a line each."""

from __future__ import annotations

import argparse
import os
import sys
import time

from lib.output import NOT_WRITTEN, NotWritten
from lib.programs import Astray

from . import answer, outputs, suite
from .line import Wrong
from .playing import Stopped, play
from .programs import Missing, Programs
from .refusals import ASTRAY

USUAL_SECONDS = 60
NO_PROGRAM, INTERRUPTED = 70, 130


def parser() -> argparse.ArgumentParser:
    made = argparse.ArgumentParser(prog="scenario", description="Runs scenarios and judges them (docs/SCENARIOS.md).")
    made.add_argument("paths", nargs="+", metavar="FILE|FOLDER")
    made.add_argument("--journal", metavar="FILE", help="write the journal, and beside it the project that it runs on")
    made.add_argument("--report", metavar="FILE", help="write the report")
    made.add_argument("--timeline", metavar="FILE.svg", help="write the report as a drawing")
    made.add_argument("--wave", metavar="FILE.vcd", help="write the report as a wave file")
    made.add_argument("--project", metavar="FILE", help="try another project, and tell what it changes")
    made.add_argument("--coverage", metavar="FILE", help="write how often each instruction was executed; into a FILE.svg as a drawing")
    made.add_argument("--junit", metavar="FILE", help="write what came of each requirement as JUnit has it")
    made.add_argument("--list", action="store_true", help="only write one command for each scenario")
    made.add_argument("--jobs", type=int, metavar="N", default=0, help="so many scenarios side by side (as many as there are processors)")
    made.add_argument("--seconds", type=float, metavar="N", default=USUAL_SECONDS, help=f"end a run that takes longer ({USUAL_SECONDS})")
    made.add_argument("--programs", metavar="FOLDER", help="take the programs logix_live, logix, .. of this folder")
    return made


class Progress:
    """A line on a terminal, of what takes more than two seconds."""

    def __init__(self) -> None:
        self.next = time.monotonic() + 2
        self.shown = False

    def __call__(self, now: int, end: int) -> None:
        if time.monotonic() > self.next and sys.stderr.isatty():
            sys.stderr.write(f"\r{now} of {end} ms ")
            sys.stderr.flush()
            self.next, self.shown = time.monotonic() + 0.5, True

    def clear(self) -> None:
        if self.shown:
            sys.stderr.write("\r" + " " * 40 + "\r")


def main(words: list[str]) -> int:
    try:
        said = parser().parse_args(words)
    except SystemExit as ended:
        return 2 if ended.code else 0
    programs = Programs(said.programs)
    try:
        return run(said, programs)
    except Missing as missing:
        return refuse(str(missing), NO_PROGRAM)
    except KeyboardInterrupt:
        return refuse("ended by a key", INTERRUPTED)
    except Astray as astray:
        return refuse(astray.told(), ASTRAY)
    except NotWritten as fault:
        return refuse(fault.told(), NOT_WRITTEN)
    finally:
        programs.close()


def refuse(why: str, status: int) -> int:
    print(f"scenario: {why}", file=sys.stderr)
    return status


def run(said: argparse.Namespace, programs: Programs) -> int:
    alone = len(said.paths) == 1 and not os.path.isdir(said.paths[0])
    if said.list:
        return suite.listed(said)
    if not alone or said.junit:
        if said.journal or said.report or said.timeline or said.wave:
            return refuse("--journal, --report, --timeline and --wave are of one scenario, without --junit", 2)
        return suite.run(said, programs)
    progress = Progress()
    try:
        covers = bool(said.coverage)
        played, changes = play(said.paths[0], None, programs, said.seconds, progress, covers and not said.project), None
        if said.project:
            own, played = played, play(said.paths[0], said.project, programs, said.seconds, progress, covers)
            changes = suite.changes(suite.outcome_of(own), suite.outcome_of(played))
    except Wrong as wrong:
        programs.sure()
        return told_wrong(wrong, progress)
    except Stopped as stopped:
        return refuse(stopped.why, stopped.status)
    programs.sure()
    progress.clear()
    print("\n".join(answer.told(played, changes)))
    outputs.write(said, played, programs)
    return answer.status(played)


def told_wrong(wrong: Wrong, progress: Progress) -> int:
    progress.clear()
    print(wrong.told(), file=sys.stderr)
    return 2
