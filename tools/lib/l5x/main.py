"""The tool's words and statuses (docs/L5X.md)."""

from __future__ import annotations

import argparse
import contextlib
import os
import subprocess
import sys
import tempfile
import traceback
from typing import TextIO

from lib.programs import place

from .edits import edits_told
from .neutral import neutral_text
from .profile import MAX_FILE_BYTES, whole
from .reading import read
from .source import NoExport
from .taking import Options, Taken, take
from .writing import text_of

TAKEN, NOT_TAKEN, NO_EXPORT, WRONG_WORDS, NOT_WRITTEN, NO_MEMORY, BROKEN = 0, 1, 2, 3, 5, 6, 70
CHECK_SECONDS = 60
LOGIX = place("logix")


class _Words(argparse.ArgumentParser):
    def error(self, message: str) -> None:
        self.print_usage(sys.stderr)
        self.exit(WRONG_WORDS, f"from_l5x: {message}\n")


def _tick(text: str) -> int:
    number = whole(text)
    if not number or number > 1_000:
        raise argparse.ArgumentTypeError("a tick has 1 to 1000 milliseconds")
    return number


def _words() -> argparse.ArgumentParser:
    words = _Words(prog="from_l5x", description="Makes a project for logix of an L5X file; see docs/L5X.md.")
    words.add_argument("file", metavar="FILE.L5X")
    told = "leave out what can't be taken, and what refers to it: whole routines, or rungs alone"
    words.add_argument("--leave-out", nargs="?", const="routines", choices=("routines", "rungs"), help=told)
    words.add_argument("--watch", metavar="NAME,..", action="append", default=[], help="watched places")
    words.add_argument("--watch-all-bools", action="store_true", help="watch each tag and alias that is a BOOL")
    told = "tell which edits of this journal are of rungs that calls of Add-On Instructions are expanded into"
    words.add_argument("--journal", metavar="J", help=told)
    told = "write the rungs as neutral text, with old or new mnemonics, and no project"
    words.add_argument("--text", choices=("old", "new"), help=told)
    words.add_argument("--tick-ms", metavar="N", type=_tick, default=1, help="milliseconds of a tick; 1 if left out")
    return words


def main(words: list[str], logix: str = LOGIX) -> int:
    """The status of a call with these words."""
    try:
        return _called(words, logix)
    except MemoryError:
        _say(sys.stderr, "from_l5x: out of memory")
        return NO_MEMORY
    except Exception as fault:
        at = traceback.extract_tb(fault.__traceback__)[-1]
        where = f"{os.path.basename(at.filename)} line {at.lineno}"
        _say(sys.stderr, f"from_l5x: a fault of this tool: {type(fault).__name__} at {where}; please report it")
        return BROKEN


def _called(words: list[str], logix: str) -> int:
    given = _words().parse_args(_spelled_out(words))
    watch = [name.strip() for names in given.watch for name in names.split(",") if name.strip()]
    options = Options(given.tick_ms, watch, given.watch_all_bools, given.leave_out == "rungs")
    try:
        export = read(given.file)
    except NoExport as fault:
        _say(sys.stderr, f"from_l5x: {given.file}: {fault}")
        return NO_EXPORT
    taken = take(export, options)
    findings = taken.findings
    try:
        edits = list(edits_told(given.journal, taken.programs)) if given.journal else []
    except OSError as fault:
        _say(sys.stderr, f"from_l5x: {given.journal}: {fault.strerror}")
        return NO_EXPORT
    for line in findings.notes + [f"note: {told}" for told in edits] + findings.faults + taken.summary:
        _say(sys.stderr, line)
    if taken.project is None or (findings.faults and not given.leave_out):
        _say(sys.stderr, _refusal(taken))
        return NOT_TAKEN
    if findings.faults:
        _say(sys.stderr, f"left out: the {_places(taken)} above")
    if given.text:
        return _put(neutral_text(taken.project, given.text == "new"))
    return _written(taken, logix)


def _spelled_out(words: list[str]) -> list[str]:
    """`--leave-out` with its word, since the file's name may follow it."""
    spelled: list[str] = []
    for word in words:
        if word == "rungs" and spelled[-1:] == ["--leave-out=routines"]:
            spelled[-1] = "--leave-out=rungs"
        else:
            spelled.append("--leave-out=routines" if word == "--leave-out" else word)
    return spelled


def _refusal(taken: Taken) -> str:
    if taken.project is None:
        return "no project: nothing is left that runs"
    return f"no project: {_places(taken)} can't be taken; --leave-out takes the rest"


def _places(taken: Taken) -> str:
    count = len(taken.findings.faults)
    return "1 place" if count == 1 else f"{count:,} places"


def _written(taken: Taken, logix: str) -> int:
    text = text_of(taken.project or {})
    if len(text) > MAX_FILE_BYTES:
        _say(sys.stderr, f"no project: it would have more than {MAX_FILE_BYTES:,} bytes")
        return NOT_TAKEN
    verdict = _verdict(text, logix)
    if verdict is None:
        _say(sys.stderr, "check: no proved logix is built here; tools/prove builds it, and ./logix check judges the project")
    else:
        _say(sys.stderr, f"check: {verdict[1]}")
        if verdict[0] != 0:
            _say(sys.stderr, "no project: logix refuses it, which is a fault of this tool")
            return NOT_TAKEN
    return _put(text)


def _put(text: str) -> int:
    try:
        sys.stdout.write(text)
        sys.stdout.flush()
    except (OSError, AttributeError) as fault:
        _say(sys.stderr, f"from_l5x: it can't be written: {getattr(fault, 'strerror', 'no standard output')}")
        # What is left in the buffer isn't tried once more at the end.
        sys.stdout = None
        return NOT_WRITTEN
    return TAKEN


def _verdict(text: str, logix: str) -> tuple[int, str] | None:
    """The status of `logix check` on the project, and its line; none where logix isn't built."""
    if not (os.access(logix, os.X_OK) and os.path.isfile(logix)):
        return None
    with tempfile.TemporaryDirectory() as folder:
        path = os.path.join(folder, "project.json")
        with open(path, "w", encoding="ascii") as file:
            file.write(text)
        words = [logix, "check", path]
        try:
            done = subprocess.run(words, stdin=subprocess.DEVNULL, capture_output=True, text=True, timeout=CHECK_SECONDS)
        except (OSError, subprocess.SubprocessError):
            return None
    return done.returncode, done.stdout.strip() or f"status {done.returncode}"


def _say(out: TextIO | None, line: str) -> None:
    """A line with what the stream can't show escaped."""
    if out is not None:
        with contextlib.suppress(OSError):
            out.write(line.encode("ascii", "backslashreplace").decode("ascii") + "\n")
