"""The files that stand behind an answer: the journal with its project, the report, drawings of it."""

from __future__ import annotations

import argparse
import json
import os
import subprocess

from lib.output import NotWritten

from .coverage import Suite
from .playing import Played
from .programs import Programs


def write(said: argparse.Namespace, played: Played, programs: Programs) -> None:
    """Writes what is asked for, and says how it is replayed."""
    if said.journal:
        project = beside(said.journal, ".project.json")
        put(said.journal, played.journal)
        put(project, json.dumps(played.copy, indent=1).encode() + b"\n")
        print(f"the journal: ./logix replay {project} {said.journal}")
    if said.report:
        put(said.report, played.report)
    for path, program in ((said.timeline, "logix_timeline"), (said.wave, "logix_wave")):
        if path:
            put(path, drawn(program, played.report, programs))
    if said.coverage:
        every = Suite()
        every.add(played.scenario.path, played.covered)
        write_coverage(said.coverage, every)


def write_coverage(path: str, every: Suite) -> None:
    put(path, every.contents(path))
    print("\n".join(every.summary()))


def beside(path: str, ending: str) -> str:
    """The name of a file beside another one: day.txt, day.project.json."""
    return os.path.splitext(path)[0] + ending


def drawn(program: str, report: bytes, programs: Programs) -> bytes:
    """The report as a drawing over ticks; if it can't be drawn, the line that says why."""
    ran = subprocess.run([programs.path(program), "tick"], input=report, stdout=subprocess.PIPE, check=False)
    if ran.returncode:
        print(f"  {program}: status {ran.returncode}: {ran.stdout[:200].decode(errors='replace').strip()} (docs/FORMATS.md, section 6)")
    programs.sure()
    return ran.stdout


def put(path: str, contents: bytes) -> None:
    try:
        with open(path, "wb") as file:
            file.write(contents)
    except OSError as fault:
        raise NotWritten(path, fault) from None
