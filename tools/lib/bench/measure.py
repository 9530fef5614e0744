"""What one call of the program costs."""

import dataclasses
import os
import re
import shutil
import subprocess

# Some statuses are an answer: `run` ends with 0 where every lane was served.
WANTED = 0


class Failed(Exception):
    """A call that couldn't be made, or that didn't end as it should."""


@dataclasses.dataclass
class Cost:
    """Instructions in millions, as text; processor seconds; megabytes at the most."""

    instructions: str
    seconds: float
    megabytes: float


def ran(words):
    """Runs the words with no input and no output, and gives the use of the process."""
    child = subprocess.Popen(words, stdin=subprocess.DEVNULL, stdout=subprocess.DEVNULL, stderr=subprocess.DEVNULL)
    _, status, use = os.wait4(child.pid, 0)
    child.returncode = os.waitstatus_to_exitcode(status)
    if child.returncode != WANTED:
        raise Failed(f"status {child.returncode} of {' '.join(words)}")
    return use


def instructions_of(words):
    """The instructions of a call, in millions; None without valgrind."""
    if shutil.which("valgrind") is None:
        return None
    whole = ["valgrind", "--tool=callgrind", "--callgrind-out-file=/dev/null", *words]
    told = subprocess.run(whole, stdin=subprocess.DEVNULL, stdout=subprocess.DEVNULL, stderr=subprocess.PIPE, text=True, check=False)
    found = re.search(r"Collected : (\d+)", told.stderr)
    if told.returncode != WANTED or not found:
        raise Failed(f"callgrind of {' '.join(words)}: {told.stderr[-300:]}")
    return int(found[1]) / 1_000_000


def told(count):
    """A number of millions as a text, short where it is large."""
    return "-" if count is None else f"{count:,.3f}" if count < 1 else f"{count:,.1f}" if count < 10 else f"{count:,.0f}"


def one_of(program, few, many, more):
    """The instructions, in millions, of one of those things of which the second call does `more` more than the first; None without valgrind."""
    less = instructions_of([program, *few])
    return None if less is None else (instructions_of([program, *many]) - less) / more


def cost_of(program, words, rounds):
    uses = [ran([program, *words]) for _ in range(max(rounds, 1))]
    count = instructions_of([program, *words])
    return Cost(
        instructions=told(count),
        seconds=min(use.ru_utime + use.ru_stime for use in uses),
        megabytes=max(use.ru_maxrss for use in uses) / 1024,
    )
