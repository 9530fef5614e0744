"""Each allocation, and each open, read and write of the system, fails once, in turn: at each command, on a small and a middle example.

On a long example, with an output of several writes, some hundreds of its allocations.
"""

import functools
from typing import NamedTuple

from .calls import calls_of
from .failing import ALL, ERRORS, Failing
from .laws import Broken, law
from .sound import shown, unsound

# What is tried at each call of the system, and the status then; None: the answer is as without the fault.
WANTED = {
    "open": {"an error": 4, "no memory": 4, "interrupted": None}, "read": {"an error": 4, "no memory": 4, "interrupted": None, "one byte": None},
    "write": {"an error": 5, "no memory": 5, "no space": 5, "interrupted": None, "one byte": None},
}
OUT_OF_MEMORY = 6
# Of a call with more allocations every so manieth fails, so that about so many do.
MOST_ALLOCATIONS = 2_000
# The output's buffer, and the room for the list of words.
NEEDLESS = 2
# Commands that start threads: their allocations are failed one in each run.
THREADED = ("run", "stations")


class Turn(NamedTuple):
    """Of which call which calls fail, and how."""

    call: str
    kind: str
    error: str
    number: int


class Turns:
    """Of a program: its calls, what they answer without a fault, and all faults in turn."""

    def __init__(self, program):
        self.failing = Failing(program)
        calls = calls_of(program) if self.failing.library else []
        self.calls = {call.name: call for call in calls if call.words[0] != "gen"}
        self.wholes, self.counts, self.system, self.threaded = {}, {}, [], []
        self.alone = [name for name, call in self.calls.items() if call.words[0] not in THREADED]
        for name, call in self.calls.items():
            self.wholes[name] = call.run(program)
            if self.wholes[name].status not in (0, 8):
                raise ValueError(f"{name}: status {self.wholes[name].status} with {shown(self.wholes[name].out)}")
            self.failing.run(call)
            self.counts[name] = self.failing.counts()
            self.add(name, self.counts[name])

    def add(self, name, counts):
        if name not in self.alone:
            self.threaded += [Turn(name, "allocation", "no memory", at) for at in range(1, counts["allocation"] + 1)]
        for kind, errors in WANTED.items():
            self.system += [Turn(name, kind, error, at) for error in errors for at in range(1, counts[kind] + 1)]
            self.system += [Turn(name, kind, "one byte", ALL)] if "one byte" in errors else []

    def judge(self, program, turn, ran, came):
        """The status that is wanted, and the right output or a beginning of it."""
        call, whole = self.calls[turn.call], self.wholes[turn.call]
        wrong = unsound(ran, self.wanted(turn, whole.status) if came else {whole.status})
        if wrong:
            raise Broken(f"{turn.call}, {turn.kind} {turn.number}, {turn.error}: {wrong}")
        if ran.status == whole.status:
            call.same(program, ran.out, whole.out)
        else:
            call.begins(ran.out, whole.out)
        what = f"allocation, {turn.call}" if turn.kind == "allocation" else f"{turn.kind}, {turn.error}"
        if came:
            program.tally(what, "right" if ran.status == whole.status else f"status {ran.status}")

    def wanted(self, turn, status):
        """The statuses that may be. An allocation that the program does without may fail."""
        if turn.kind != "allocation":
            return {WANTED[turn.kind][turn.error] or status}
        return {OUT_OF_MEMORY, status}


@functools.cache
def turns_of(program):
    return Turns(program)


@law
def of_turn(program, contents):
    """One call of a kind fails, or all move one byte."""
    name, kind, error, number = (one.decode() for one in contents)
    turn, turns = Turn(name, kind, error, int(number)), turns_of(program)
    ran = turns.failing.run(turns.calls[name], kind, ERRORS[error], turn.number)
    turns.judge(program, turn, ran, turns.failing.counts()[kind] >= turn.number)
    return None


@law
def of_each(program, contents):
    """Each allocation of a call fails once. All are needed but that of the output's buffer, and where the words are collected into a list
    whose length is known, the room that it asks for beforehand."""
    name, turns = contents[0].decode(), turns_of(program)
    count = turns.counts[name]["allocation"]
    step = 1 + count // MOST_ALLOCATIONS
    whole, answers = turns.failing.each(turns.calls[name], "allocation", ERRORS["no memory"], step)
    if list(answers) != list(range(step, count + 1, step)):
        raise Broken(f"{name}: {len(answers)} copies at {count} allocations")
    for number, ran in answers.items():
        turns.judge(program, Turn(name, "allocation", "no memory", number), ran, True)
    turns.judge(program, Turn(name, "allocation", "no memory", ALL), whole, False)
    needless = [number for number, ran in answers.items() if ran.status == whole.status]
    if len(needless) > NEEDLESS:
        raise Broken(f"{name}: the answer is right without each of the allocations {needless}")
    return None


# So that a few turns are of all calls, they don't come in order; the step and the number of turns have no common divisor.
STEPS = (7_919, 104_729)


def nth(turns, number):
    step = next(step for step in STEPS if len(turns) % step)
    return of_turn, [str(one).encode() for one in turns[number * step % len(turns)]]


def failed_allocations(_, program, number):
    """All allocations of a call, call by call."""
    names = turns_of(program).alone
    return of_each, [names[number % len(names)].encode()]


def failed_in_threads(_, program, number):
    """One allocation of a call that starts threads."""
    return nth(turns_of(program).threaded, number)


def failed_calls(_, program, number):
    """One open, read or write of a call."""
    return nth(turns_of(program).system, number)
