"""Runs a program for a person: what it reads and writes is passed on as it is, and what it refuses is explained on the terminal."""

from __future__ import annotations

import os
import signal
import subprocess
import sys
import threading
from typing import TYPE_CHECKING

if TYPE_CHECKING:
    from .report import Report
    from .session import Session

CHUNK = 65_536
MOST_OF_A_LINE = 4_096
REPORTS = ("replay", "run", "stations")
ANSWERING = ("logix_explore",)  # whose status 0 is told too
CANT_BE_WRITTEN = 5


def tell(program: str, lines: list[str]) -> None:
    """Writes the lines to the terminal, the program's name before the first."""
    if lines:
        sys.stderr.write(f"{program}: " + "\n".join(lines) + "\n")
        sys.stderr.flush()


class Passing:
    """Passes on what the program writes, and shows its lines to whoever wants them."""

    def __init__(self, program: str, report: Report | None, session: Session | None) -> None:
        self.program, self.report, self.session = program, report, session
        self.first: bytes | None = None
        self.rest = b""
        self.fails = False

    def all(self, source: int) -> None:
        while chunk := os.read(source, CHUNK):
            try:
                put(1, chunk)
            except OSError:
                self.fails = True
                return
            self.see(chunk)
        self.see(b"\n" if self.rest else b"")

    def see(self, chunk: bytes) -> None:
        if self.first is None or self.report or self.session:
            *whole, self.rest = (self.rest + chunk).split(b"\n")
            for line in whole:
                self.see_line(line)
            self.rest = self.rest[:CHUNK]

    def see_line(self, line: bytes) -> None:
        text = line.decode("utf-8", "replace")
        if self.first is None:
            self.first = line[:MOST_OF_A_LINE]
        try:
            if self.report:
                self.report.take(text)
            if self.session:
                tell(self.program, self.session.take(text))
        except Exception as fault:  # what is told of a program never stops it
            self.report = self.session = None
            tell(self.program, [unexplained(fault)])


def put(to: int, contents: bytes) -> None:
    while contents:
        contents = contents[os.write(to, contents) :]


def feed(process: subprocess.Popen, session: Session) -> None:
    """Passes on what the program is to read."""
    to = process.stdin.fileno()
    try:
        while chunk := os.read(0, CHUNK):
            session.put(chunk)
            put(to, chunk)
        process.stdin.close()
    except OSError:
        pass  # it has ended and reads no more


def run(file: str, words: list[str]) -> int:
    """Runs it and says how it ended; the status."""
    program = os.path.basename(file)
    is_session = program == "logix_live" and can_be_read(0)
    process = subprocess.Popen([file, *words], stdin=subprocess.PIPE if is_session else None, stdout=subprocess.PIPE)
    session = session_of(words) if is_session else None
    if session:
        threading.Thread(target=feed, args=(process, session), daemon=True).start()
    passing = Passing(program, report_of(program, words), session)
    passing.all(process.stdout.fileno())
    process.stdout.close()
    status = process.wait()
    if status < 0:
        return 128 - status
    if passing.fails and status == 0:
        status = CANT_BE_WRITTEN
    if status or passing.report or program in ANSWERING:
        first = (passing.first or b"").decode("utf-8", "replace")
        tell_of(program, status, first, None if passing.fails else passing.report, words)
    return status


def unexplained(fault: Exception) -> str:
    return f"this couldn't be explained, by a fault of tools/lib/places: {type(fault).__name__}: {fault}"


# The modules that know the rules are loaded only when they are needed, and while the program runs.


def tell_of(program: str, status: int, first: str, report: Report | None, words: list[str]) -> None:
    if not (status or program in ANSWERING or report and (report.refused or report.lost)):
        return
    from .ended import ended

    try:
        tell(program, ended(program, words, status, first, report))
    except Exception as fault:  # the status stays the program's
        tell(program, [f"status {status}; {unexplained(fault)}"])


def report_of(program: str, words: list[str]) -> Report | None:
    if program != "logix" or not words or words[0] not in REPORTS:
        return None
    from .report import Report

    return Report(words[0] == "run")


def session_of(words: list[str]) -> Session:
    from .files import files_of
    from .session import Session
    from .telling import readable

    files = files_of("logix_live", words)
    return Session(readable(files[0].contents()) if len(files) == len(words) == 1 else None, os.isatty(0))


def can_be_read(number: int) -> bool:
    try:
        os.read(number, 0)
    except OSError:
        return False  # what is wrong with it is the program's to find
    return True


def tell_of_output(program: str, status: int, output: str, words: list[str]) -> None:
    """Says how a call ended that wrote this file."""
    report = report_of(program, words)
    with open(output, encoding="utf-8", errors="replace") as file:
        first = file.readline(MOST_OF_A_LINE).rstrip("\n")
        file.seek(0)
        for line in file if report else ():
            report.take(line.rstrip("\n"))
    tell_of(program, status, first, report, words)


def main(words: list[str]) -> None:
    signal.signal(signal.SIGINT, signal.SIG_DFL)
    try:
        os.fstat(0), os.fstat(1)
    except OSError:
        os.execv(words[0], words)  # a closed input or output is the program's to find
    status = run(words[0], words[1:])
    sys.stderr.flush()
    os._exit(status)  # a thread may still wait for input
