"""Faults of the system from outside: a pipe that closes after N bytes, a full device, limits of memory, files that can't be read.

The status is 4, 5 or 6, or 0 where the fault came too late; what was written is a beginning of the right output.
"""

import functools
import os

from .calls import calls_of, long_report
from .laws import Broken, law
from .program import PAGE
from .sound import shown, unsound

STEP = 65_536
LEAST_MEMORY = 2_800_000
STEPS_OF_PIPED = 12
LEAP = 1_009


@functools.cache
def named_calls(program):
    return {call.name: call for call in calls_of(program)}


def begins(call, ran, whole, statuses):
    wrong = unsound(ran, statuses)
    if wrong:
        raise Broken(f"{call.name}: {wrong}")
    call.begins(ran.out, whole)


@functools.cache
def piped(program):
    """A call with a long report, and the report."""
    words = ["replay", *(program.put(f"piped{at}", text) for at, text in enumerate(long_report(STEPS_OF_PIPED)))]
    return words, program.run(words).out


@law
def of_closed_pipe(program, contents):
    """The reader of the output goes after N bytes, and the rest is longer than the pipe: status 5, and N bytes of the report."""
    count = int(contents[0])
    words, whole = piped(program)
    if len(whole) < count + 2 * PAGE:
        raise Broken(f"the report has {len(whole)} bytes")
    ran = program.run_piped(words, count)
    if ran.err or ran.status != 5 or ran.out != whole[:count]:
        raise Broken(f"closed after {count} bytes: status {ran.status}, standard error {shown(ran.err)}, {shown(ran.out)}")
    program.tally("closed pipe", "status 5")
    return None


def closed_pipes(_, __, number):
    """Each number of bytes up to a page, in an order that leaps."""
    return of_closed_pipe, [str(number * LEAP % (PAGE + 1)).encode()]


@law
def of_full_device(program, contents):
    call = named_calls(program)[contents[0].decode()]
    full = os.open("/dev/full", os.O_WRONLY)
    try:
        begins(call, call.run(program, out=full), b"", {5})
    finally:
        os.close(full)
    program.tally("full device", "status 5")
    return None


def full_devices(_, program, number):
    names = list(named_calls(program))
    return of_full_device, [names[number % len(names)].encode()]


@law
def of_little_memory(program, contents):
    """A limit of memory: status 6, or the right answer."""
    call, memory = named_calls(program)[contents[0].decode()], int(contents[1])
    whole, ran = call.run(program), call.run(program, memory=memory)
    if not ran.out and (ran.status in (126, 127) or (ran.status == -9 and not ran.err)):
        return None  # The system couldn't start the process.
    begins(call, ran, whole.out, {6, whole.status})
    if ran.status != 6:
        call.same(program, ran.out, whole.out)
    return None


def little_memory(draw, program):
    name = draw.choice(list(named_calls(program)))
    return of_little_memory, [name.encode(), str(LEAST_MEMORY + STEP * draw.randrange(0, 400)).encode()]


@law
def of_lost_file(program, contents):
    """A file that isn't there, a folder, a file that may not be read: status 4 and nothing."""
    name, at, lost = (one.decode("latin-1") for one in contents)
    call = named_calls(program)[name]
    words = [lost if place == int(at) else word for place, word in enumerate(call.words)]
    begins(call, call._replace(words=words).run(program), b"", {4})
    program.tally("lost file", "status 4")
    return None


def lost_files(_, program, number):
    """Each file of each call in turn."""
    turns = turns_of_lost_files(program)
    name, at, lost = turns[number % len(turns)]
    return of_lost_file, [name.encode(), str(at).encode(), lost.encode()]


def turns_of_lost_files(program):
    lost = (f"{program.room}/nothing", program.room, "/proc/self/mem", "")
    calls = named_calls(program).items()
    turns = [(name, at, one) for name, call in calls for at, word in enumerate(call.words) if "/" in word for one in lost]
    # (an empty word is a wrong word of a session)
    return [turn for turn in turns if turn[2] or not turn[0].startswith("live ")]
