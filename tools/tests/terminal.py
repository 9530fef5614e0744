"""A terminal, made by `pty`, for a call whose standard error it is."""

from __future__ import annotations

import os
import pty
import subprocess
from typing import IO


def on_terminal(words: list[str], given: bytes = b"", stdout: int | IO = subprocess.PIPE, cwd: str | None = None) -> tuple[int, bytes, str]:
    """The status of a call, and what it wrote to standard output and to the terminal."""
    ours, theirs = pty.openpty()
    ran = subprocess.run(words, input=given, stdout=stdout, stderr=theirs, cwd=cwd, timeout=60, check=False)
    os.close(theirs)
    said = b""
    try:
        while part := os.read(ours, 65_536):
            said += part
    except OSError:
        pass  # a terminal that nobody else has open any more ends so
    os.close(ours)
    return ran.returncode, ran.stdout or b"", said.decode().replace("\r\n", "\n")
