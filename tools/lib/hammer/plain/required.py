"""What the requirements of a scenario mean (docs/SCENARIOS.md, "What is required"), over the moments of a run: a second reading of them.

A moment is what stands after an event: the tick, the values of the tags that are named, and the program whose scan it ended, or None.
"""

import operator
import re

TOKEN = re.compile(r"\s*(->|<>|<=|>=|[=<>()]|-?[0-9]+(?![A-Za-z0-9_.:])|[A-Za-z_][A-Za-z0-9_.:\[\]]*)")
COMPARED = {"=": operator.eq, "<>": operator.ne, "<": operator.lt, "<=": operator.le, ">": operator.gt, ">=": operator.ge}
WORDS = ("not", "and", "or", "->", "(", ")")


class Test:
    """A test: `names` are the tags in it as they are spelled, `holds` judges values by their lower-case names."""

    def __init__(self, text):
        self.tokens, self.at, self.names = TOKEN.findall(text), 0, []
        self.holds = self.arrow()

    def peek(self):
        return self.tokens[self.at] if self.at < len(self.tokens) else ""

    def next(self):
        self.at += 1
        return self.tokens[self.at - 1]

    def arrow(self):
        left = self.either()
        if self.peek() != "->":
            return left
        self.next()
        right = self.arrow()
        return lambda values: not left(values) or right(values)

    def either(self):
        return self.chain("or", self.both, any)

    def both(self):
        return self.chain("and", self.single, all)

    def chain(self, word, inner, judge):
        parts = [inner()]
        while self.peek() == word:
            self.next()
            parts.append(inner())
        return lambda values: judge(part(values) for part in parts)

    def single(self):
        if self.peek() == "not":
            self.next()
            inner = self.single()
            return lambda values: not inner(values)
        if self.peek() == "(":
            self.next()
            inner = self.arrow()
            self.next()
            return inner
        left, compared, right = self.value(), COMPARED[self.next()], self.value()
        return lambda values: compared(left(values), right(values))

    def value(self):
        word = self.next()
        if word.lstrip("-").isdigit():
            return lambda values: int(word)
        self.names.append(word)
        return lambda values: values[word.lower()]


class Requirement:
    """A line after `require`: what is named in it, and whether it holds over the moments, the faults and the answers of a run."""

    def __init__(self, text):
        head, _, rest = text.partition(": ")
        self.words, self.rest = head.split(" "), rest
        self.tests = [] if self.is_answer() or head == "faults" else [Test(rest)]
        if self.words[0] == "within":
            self.tests.insert(0, Test(" ".join(self.words[3:])))

    def is_answer(self):
        return "engineer" in self.words

    def names(self):
        return [name for test in self.tests for name in test.names]

    def holds(self, run):
        judge = {"at": self.at, "always": self.always, "never": self.always, "end": self.end, "within": self.within, "faults": self.faults}
        return judge[self.words[0]](run)

    def at(self, run):
        time = int(self.words[1])
        if self.is_answer():
            answer = run.answer(time, int(self.words[3]))
            return answer is not None and answer.split()[:len(self.rest.split())] == self.rest.split()
        return self.tests[0].holds([values for tick, values, _ in run.moments if tick <= time][-1])

    def always(self, run):
        wanted = self.words[0] == "always"
        program = self.words[2].lower() if len(self.words) > 1 else None
        return all(self.tests[0].holds(values) == wanted for _, values, ended in run.moments if program is None or ended == program)

    def end(self, run):
        return self.tests[0].holds(run.moments[-1][1])

    def within(self, run):
        """Each time that the first comes to hold, the second does then or in time; what isn't due at the end may still come."""
        time, last, held = int(self.words[1]), run.moments[-1][0], False
        for at, (tick, values, _) in enumerate(run.moments):
            holds, before = self.tests[0].holds(values), held
            held = holds
            if holds and not before and last >= tick + time:
                later = (values for when, values, _ in run.moments[at:] if when <= tick + time)
                if not any(self.tests[1].holds(values) for values in later):
                    return False
        return True

    def faults(self, run):
        if self.rest == "none":
            return not run.faults
        wanted = set(self.rest.split(", "))
        return wanted == {code for _, code in run.faults}
