"""The bound of a run: however a controller goes wrong, nothing is waited for without one."""

from __future__ import annotations

import subprocess
import time

from lib.programs import Late

# What a call of a program, or an answer after the deadline, has at least; and what any has at most, in seconds.
GRACE, MOST = 3.0, 1e6


def until(deadline: float) -> float:
    """The time up to which an answer is waited for that is asked for now."""
    return max(time.monotonic() + GRACE, deadline)


def run(words: list[str], seconds: float, **given) -> subprocess.CompletedProcess:
    """A call of a program, which has the seconds of a whole run; its output as bytes."""
    try:
        return subprocess.run(words, stdout=subprocess.PIPE, check=False, timeout=min(max(GRACE, seconds), MOST), **given)
    except subprocess.TimeoutExpired:
        raise Late("it didn't end in time") from None
