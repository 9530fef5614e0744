"""The words of tools/cover."""

from __future__ import annotations

import argparse
import os
import shutil
import subprocess
import sys
import tempfile

from lib.output import say
from lib.paths import read_bytes
from lib.programs import Astray
from lib.scenario.outputs import put
from lib.scenario.programs import Missing, Programs

from .counts import counted
from .drawn import drawn
from .reading import NAME, read
from .telling import told
from .versions import Versions

WRONG_WORDS, NO_PROGRAM = 1, 70


def parser() -> argparse.ArgumentParser:
    made = argparse.ArgumentParser(prog="cover", description="How often each instruction of a run was executed (docs/FORMATS.md, section 8.6).")
    made.add_argument("project", metavar="P", help="a project")
    made.add_argument("journal", metavar="J", help="a journal")
    made.add_argument("--ladder", metavar="FILE.svg", help="draw the rungs with their counts there, too")
    made.add_argument("--lines", action="store_true", help=f"write the lines of {NAME} as they are")
    made.add_argument("--programs", metavar="FOLDER", help=f"take the program {NAME} of this folder")
    return made


def main(words: list[str]) -> int:
    try:
        said = parser().parse_args(words)
    except SystemExit as ended:
        return WRONG_WORDS if ended.code else 0
    programs = Programs(said.programs)
    try:
        with tempfile.TemporaryDirectory(prefix="cover-") as room:
            return run(said, programs, room)
    except (Missing, Astray) as fault:
        say(f"cover: {fault.told() if isinstance(fault, Astray) else fault}")
        return NO_PROGRAM
    finally:
        programs.close()


def run(said: argparse.Namespace, programs: Programs, room: str) -> int:
    files = [again(path, f"{room}/{name}") for path, name in ((said.project, "project.json"), (said.journal, "journal.txt"))]
    ran = subprocess.run([programs.path(NAME), *files], stdin=subprocess.DEVNULL, stdout=subprocess.PIPE, check=False)
    programs.sure()
    text = ran.stdout.decode("latin-1")
    if ran.returncode:
        return refused(ran.returncode, text, [said.project, said.journal])
    lines = read(text)
    if said.lines and not said.ladder:
        sys.stdout.write(text)
        return 0
    routines = counted(Versions(*map(read_bytes, files)), lines)
    if said.ladder:
        put(said.ladder, drawn(routines).encode())
    print(text[:-1] if said.lines else "\n".join(told(routines)))
    return 0


def again(path: str, copy: str) -> str:
    """A file that can be read twice: of a pipe a copy."""
    if not os.path.exists(path) or os.path.isfile(path) or os.path.isdir(path):
        return path
    with open(path, "rb") as file, open(copy, "wb") as to:
        shutil.copyfileobj(file, to)
    return copy


def refused(status: int, text: str, words: list[str]) -> int:
    """What the program said of a call that went wrong, and what that means; its status."""
    if status < 0:
        say(f"cover: {NAME} was ended by signal {-status}")
        return 128 - status
    from lib.places.ended import ended  # loads all that knows the rules

    sys.stdout.write(text)
    for line in ended(NAME, words, status, text.partition("\n")[0], None):
        say(f"cover: {line}" if line.startswith("status") else line)
    return status
