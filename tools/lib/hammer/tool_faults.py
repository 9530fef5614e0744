"""The tools in Python and the pictures with files and outputs that fail: files that aren't there, folders, files that can't be read, a full
device, a pipe whose reader has gone. Each ends with a status that isn't 0, and never with a traceback.
"""

import functools
import os
import subprocess
from typing import NamedTuple

from lib.paths import EXAMPLES, TOOLS

from .laws import Broken, law

SECONDS, UNREAD = 60, 4  # at this status nothing is written
# So that a few turns are of all calls, they don't come in order; the step and the number of turns have no common divisor.
STEPS = (23, 29, 31)
CONVEYOR, L5X = f"{EXAMPLES}/conveyor", f"{EXAMPLES}/l5x"
PROJECT, JOURNAL, REPORT = (f"{CONVEYOR}/{name}" for name in ("project.json", "journal.txt", "report.txt"))
OTHER = f"{EXAMPLES}/blink/report.txt"


class Call(NamedTuple):
    """A call of a tool; `given` is a file on its standard input, `reads` tells whether it can't do without its files, `serves` that it doesn't
    end by itself where it has them."""

    name: str
    words: tuple
    given: str = os.devnull
    reads: bool = True
    serves: bool = False


CALLS = (
    Call("xref", ("xref", PROJECT)), Call("xref of a tag", ("xref", PROJECT, "Motor")), Call("ladder", ("ladder", PROJECT)),
    Call("timeline", ("timeline",), REPORT), Call("timeline with a project", ("timeline", "--project", PROJECT), REPORT),
    Call("wave", ("wave",), REPORT), Call("wave with a project", ("wave", "--project", PROJECT), REPORT), Call("compare", ("compare", REPORT, OTHER)),
    Call("explain", ("explain", "--project", PROJECT, "--journal", JOURNAL, "journal J1 line 3"), reads=False), Call("from_l5x", ("from_l5x", f"{L5X}/line.L5X")),
    Call("from_l5x --check", ("from_l5x", "--check", f"{L5X}/line.L5X")), Call("scenario", ("scenario", f"{L5X}/cells.scenario")),
    Call("scenario of a folder", ("scenario", "--list", L5X), reads=False), Call("help", ("help", "logix", "--help")), Call("live", ("live", PROJECT), JOURNAL),
    Call("online", ("online", PROJECT, JOURNAL), serves=True), Call("cover", ("cover", PROJECT, JOURNAL)),
)
LOST = ("nothing", "a folder", "no file to be read", "an empty name")


def lost(what, program):
    return {"nothing": f"{program.room}/nothing", "a folder": program.room, "no file to be read": "/proc/self/mem", "an empty name": ""}[what]


class Fault(NamedTuple):
    call: str
    what: str
    at: int


@functools.cache
def faults():
    """Each file of each call lost in each way; each call into a full device and into a pipe whose reader has gone, at once or after some bytes."""
    made = [Fault(call.name, what, at) for call in CALLS for at, word in enumerate(call.words) if call.reads and "/" in word for what in LOST]
    ending = [call.name for call in CALLS if not call.serves]
    return made + [Fault(name, what, 0) for name in ending for what in ("full device", "closed pipe", "closed output")] + [Fault(name, "closed pipe", 100) for name in ending]


@law
def of_fault(program, contents):
    name, what, at = (one.decode() for one in contents)
    call = next(one for one in CALLS if one.name == name)
    words = list(call.words)
    if what in LOST:
        words[int(at)] = lost(what, program)
    words[0] = f"{TOOLS}/{words[0]}"
    try:
        with open(call.given, "rb") as given:
            status, out, err = run(words, given, what, int(at))
    except subprocess.TimeoutExpired:
        raise Broken(f"{name}, {what} {at}: it hangs") from None
    program.runs += 1
    program.tally(f"tool, {what}", f"status {status}")
    wrong = judged(what, status, out, err)
    if wrong:
        raise Broken(f"{name}, {what} {at}: {wrong}; {err[-300:]!r}")
    return None


def run(words, given, what, at):
    """The status, the output as far as it is read, and standard error."""
    if what == "closed pipe":
        return run_piped(words, given, at)
    words = ["/bin/sh", "-c", 'exec "$@" >&-', "sh", *words] if what == "closed output" else words
    with open("/dev/full" if what == "full device" else os.devnull, "wb") as output:
        ran = subprocess.run(words, stdin=given, stdout=subprocess.PIPE if what in LOST else output, stderr=subprocess.PIPE, timeout=SECONDS, check=False)
    return ran.returncode, ran.stdout or b"", ran.stderr


def run_piped(words, given, count):
    """The reader takes so many bytes and goes."""
    process = subprocess.Popen(words, stdin=given, stdout=subprocess.PIPE, stderr=subprocess.PIPE)
    out = process.stdout.read(count)
    process.stdout.close()
    process.stdout = None
    _, err = process.communicate(timeout=SECONDS)
    return process.returncode, out, err


def judged(what, status, out, err):
    if b"Traceback" in err or b"Exception ignored" in err:
        return f"status {status} and a traceback"
    if what in LOST and (status == 0 or not (err or out or status == UNREAD)):
        return f"status {status}, and it says {out[:100]!r}"
    if what == "full device" and (status == 0 or not err and status != 5):
        return f"status {status}"
    return None


def tool_faults(_, __, number):
    every = faults()
    step = next(step for step in STEPS if len(every) % step)
    return of_fault, [str(one).encode() for one in every[number * step % len(every)]]
