"""The judge of requirements: random ones on random runs, by a second reading of what they mean; and each kind by hand."""

from __future__ import annotations

import random
import unittest

import common  # noqa: F401 (where the tools are)
from lib.scenario.judge import Judge
from lib.scenario.reading import read
from lib.scenario.story import read_reports
from lib.scenario.tracing import Trace

TAGS, PROGRAMS, CASES = ("a", "b", "Program:P.c"), ("P", "Q"), 5_000
PROJECT = {
    "tasks": [{"name": "T", "programs": ["P"]}, {"name": "U", "programs": ["Q"]}], "programs": [{"name": "P"}, {"name": "Q"}],
}  # fmt: skip
OPERATORS = {"=": "==", "<>": "!=", "<": "<", "<=": "<=", ">": ">", ">=": ">="}


class Made:
    """A random run: after each event the tick, the values, and the program whose scan it ended; with its report and its trace."""

    def __init__(self, rand: random.Random) -> None:
        self.rand, self.tick, self.step = rand, 0, 0
        self.values = {tag: rand.randrange(3) for tag in TAGS}
        self.opening = {tag.lower(): value for tag, value in self.values.items()}
        self.history, report, trace = [], [], []
        for count in range(rand.randrange(1, 40)):
            # (a scenario's first event is the change to Run)
            ended, lines, traced = self.event() if count else (None, ["reply 31 ok"], "act 31 run - ok 0")
            trace.append(traced)
            for tag in TAGS:
                if rand.random() < 0.15:
                    value = rand.choice([value for value in range(3) if value != self.values[tag]])
                    self.values[tag] = value
                    lines.append(f"set {tag} {value}")
            report += [f"{self.tick} {self.step} {line}\n" for line in lines]
            self.history.append((self.tick, dict(self.values), ended))
        self.report = "".join([*report, f"end {self.tick} {self.step} run lost 0\n"]).encode()
        self.trace = "".join(line + "\n" for line in [*trace, "end"]).encode()

    def event(self):
        """The program whose scan it ends, the lines of the report but for changes, the line of the trace."""
        kind = self.rand.choice(("tick", "step", "ended", "act", "began"))
        at = self.rand.randrange(2)
        if kind == "tick":
            self.tick += 1
            return None, [], "tick 0 0 -"
        if kind == "act":
            return None, ["reply 31 ok"], "act 31 other - ok 0"
        self.step += 1
        if kind == "began":
            return None, [f"begin {'TU'[at]} {PROGRAMS[at]} 0"], f"began {at} {at} 0"
        return (PROGRAMS[at] if kind == "ended" else None), [], f"left {at} {at} ended" if kind == "ended" else f"step {at} {at} - -"

    def story(self):
        story = read_reports([self.report], self.opening)
        story.add_trace(Trace(self.trace), PROJECT)
        return story


def made_test(rand, depth=0):
    """A test as a scenario has it, and as Python has it over `v`."""
    if depth > 2 or rand.random() < 0.4:
        tag, operator = rand.choice(TAGS), rand.choice(list(OPERATORS))
        if rand.random() < 0.3:
            other = rand.choice(TAGS)
            return f"{tag} {operator} {other}", f"(v[{tag!r}] {OPERATORS[operator]} v[{other!r}])"
        number = rand.randrange(3)
        return f"{tag.upper() if ':' not in tag else tag} {operator} {number}", f"(v[{tag!r}] {OPERATORS[operator]} {number})"
    text, python = made_test(rand, depth + 1)
    word = rand.choice(("not", "and", "or", "->"))
    if word == "not":
        return f"not ({text})", f"(not {python})"
    other, more = made_test(rand, depth + 1)
    return f"({text}) {word} ({other})", f"((not {python}) or {more})" if word == "->" else f"({python} {word} {more})"


def made_requirement(rand, last):
    """A requirement's text, and what it means: a judgement over a history."""
    text, python = made_test(rand)
    holds = eval(f"lambda v: {python}")  # noqa: S307 (made right here)
    kind = rand.randrange(6)
    if kind == 0:
        time = rand.randrange(last + 1)
        return f"at {time}: {text}", lambda history: holds([values for tick, values, _ in history if tick <= time][-1])
    if kind == 1:
        return f"always: {text}", lambda history: all(holds(values) for _, values, _ in history)
    if kind == 2:
        return f"never: {text}", lambda history: not any(holds(values) for _, values, _ in history)
    if kind == 3:
        program = rand.choice(PROGRAMS)
        return f"always at {program}: {text}", lambda history: all(holds(values) for _, values, ended in history if ended == program)
    if kind == 4:
        return f"end: {text}", lambda history: holds(history[-1][1])
    time = rand.randrange(5)
    other, more = made_test(rand)
    then = eval(f"lambda v: {more}")  # noqa: S307
    return f"within {time} of {text}: {other}", lambda history: in_time(history, holds, then, time)


def in_time(history, holds, then, time):
    for at, (tick, values, _) in enumerate(history):
        if holds(values) and not (at and holds(history[at - 1][1])):
            came = any(then(later) for when, later, _ in history[at:] if when <= tick + time)
            if not came and history[-1][0] >= tick + time:
                return False
    return True


class Judged(unittest.TestCase):
    def test_random_requirements_on_random_runs(self):
        rand, verdicts = random.Random(59), [0, 0]
        for case in range(CASES):
            made = Made(rand)
            text, judge = made_requirement(rand, made.tick)
            scenario = read(f"project x\nrun {made.tick}\nrequire\n{text}\n", "x")
            found = Judge(scenario, made.story(), [], str, made.report).judge().verdicts[0]
            wanted = judge(made.history)
            self.assertEqual(found.holds, wanted, (case, text, made.report.decode(), made.trace))
            verdicts[wanted] += 1
        self.assertGreater(min(verdicts), CASES // 5)


if __name__ == "__main__":
    unittest.main()
