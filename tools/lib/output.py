"""Standard output of a tool, which may be one that can't be written: a full disk, a reader that has gone, none at all.

Such a tool ends with status 5 and says so in one line on standard error, as the programs do. What else the system doesn't let it have, as
too many open files, is 70: it couldn't be run.
"""

from __future__ import annotations

import contextlib
import errno
import io
import os
import sys
from collections.abc import Callable

NOT_WRITTEN, NOT_RUN = 5, 70


class NotWritten(Exception):
    """Standard output, or a file, couldn't be written: which, and why. No OSError, so that it isn't taken for one of something else."""

    def __init__(self, what: str, fault: OSError) -> None:
        super().__init__(what, fault)
        self.what, self.why = what, fault.strerror or str(fault)

    def told(self) -> str:
        return f"{self.what} couldn't be written: {self.why}"


class Output(io.RawIOBase):
    """The bytes of standard output. After a write that failed nothing more is written, so that it is told once."""

    def __init__(self, is_closed: bool) -> None:
        super().__init__()
        self.is_closed, self.failed = is_closed, False

    def writable(self) -> bool:
        return True

    def fileno(self) -> int:
        return 1

    def isatty(self) -> bool:
        return not self.is_closed and os.isatty(1)

    def write(self, data) -> int:
        if self.failed:
            return len(data)
        try:
            if self.is_closed:
                raise OSError(errno.EBADF, os.strerror(errno.EBADF))
            return os.write(1, data)
        except OSError as fault:
            self.failed = True
            raise NotWritten("standard output", fault) from None


def text_of(output: Output) -> io.TextIOWrapper:
    """A text of standard output's encoding, whose lines a terminal has at once."""
    old = sys.stdout
    encoding, errors = (old.encoding, old.errors) if old else ("utf-8", "strict")
    return io.TextIOWrapper(io.BufferedWriter(output), encoding, errors, line_buffering=output.isatty())


def say(line: str) -> None:
    """A line on standard error, if there is one."""
    if sys.stderr is not None:
        with contextlib.suppress(OSError):
            print(line, file=sys.stderr)


def ended(name: str, main: Callable[[list[str]], int], words: list[str]) -> int:
    """The status of a tool's main with these words, once all that it printed is written."""
    is_closed = sys.stdout is None
    if is_closed:
        hold_place()
    sys.stdout = text_of(Output(is_closed))
    try:
        status = main(words)
        sys.stdout.flush()
        return status
    except NotWritten as fault:
        say(f"{name}: {fault.told()}")
        return NOT_WRITTEN
    except OSError as fault:
        say(f"{name}: {told(fault)}")
        return NOT_RUN


def hold_place() -> None:
    """Sees to it that no file that is opened later gets the number of the closed output."""
    with contextlib.suppress(OSError):
        null = os.open(os.devnull, os.O_RDONLY)
        if null != 1:
            os.dup2(null, 1)
            os.close(null)


def told(fault: OSError) -> str:
    why = fault.strerror or str(fault)
    return f"{why}: {fault.filename}" if fault.filename else why
