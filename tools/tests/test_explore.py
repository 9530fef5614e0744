"""The plain explorer: questions, answers worked out by hand, layers against all lists of events, copies of controllers; and explorers that go wrong."""

from __future__ import annotations

import functools
import itertools
import random
import unittest
from collections.abc import Iterator
from types import SimpleNamespace
from unittest import mock

from common import read_bytes
from explore_files import MACHINES, NEVER, REFUSED, TAKEN, TRANSIENT, TRANSIENT_SHOWN, head, machine
from lib.hammer import begins, explore_rules, explores, marks
from lib.hammer.cases import file_text, journal_text
from lib.hammer.plain import explore, question, states
from lib.hammer.plain.explore import OPENING, STEP, TICK, Node, Search
from lib.hammer.plain.journal import Bad, Event, Script, read_journal
from lib.hammer.plain.judge import answer
from lib.hammer.plain.machine import Machine
from lib.hammer.plain.project import Project
from lib.hammer.plain.question import Question
from lib.hammer.program import Ran

WITNESS = read_bytes(f"{NEVER}/exchange.witness.txt").decode()
LARGE = {rule.name for rule in explore_rules.RULES if "240" in str(rule.script) or len(rule.script) > 100}


def silent(within: int | None = None) -> SimpleNamespace:
    """A question that nothing answers."""
    return SimpleNamespace(within=within, line_of=lambda *_: None)


class Questions(unittest.TestCase):
    def setUp(self) -> None:
        self.project = Project(read_bytes(f"{NEVER}/edit.json"))

    def test_refusals(self) -> None:
        for text, cause in REFUSED:
            with self.subTest(text[:80]), self.assertRaises(Bad) as refused:
                Question(self.project, text.encode())
            self.assertEqual(f"{refused.exception.code} line {refused.exception.line}", cause, text[:80])

    def test_those_that_are_taken(self) -> None:
        for text, lines in TAKEN:
            self.assertEqual(len(Question(self.project, text.encode()).lines), lines, text[:80])


class Answers(unittest.TestCase):
    def test_rules(self) -> None:
        for rule in explore_rules.RULES:
            if rule.name not in LARGE or rule.name == "one more in a later layer":
                self.assertEqual(answer(["explore"], rule.files())[1].splitlines()[0], rule.answer_text(), rule.name)

    def test_machines(self) -> None:
        """But for the mended ones of the exchange and the edit, which take long here."""
        for name, (files, shown) in MACHINES.items():
            if shown or name == "interlock, mended":
                status, text = answer(["explore"], machine(name))
                self.assertEqual((status, text.splitlines()[0]), (8, head(shown)) if shown else (0, "never 1"), name)
                if shown:
                    self.assertEqual(text.encode(), read_bytes(f"{NEVER}/{files[0].removesuffix('.json')}.witness.txt"))

    def test_a_transient(self) -> None:
        files = [*machine("edit, mended")[:2], TRANSIENT]
        self.assertEqual(answer(["explore"], files)[1].splitlines()[0], head(TRANSIENT_SHOWN))

    def test_refusals_in_order(self) -> None:
        files = machine("interlock")
        for bad, wanted in (((0, 1, 2), (2, "project P1\n")), ((1, 2), (3, "script J1 line 1\n")), ((2,), (3, "question Q1 line 1\n"))):
            self.assertEqual(answer(["explore"], [b"x" if at in bad else text for at, text in enumerate(files)]), wanted)


class Copies(unittest.TestCase):
    """A copy in mid-run goes on as the controller does, and what one does leaves the other."""

    def test_made_runs(self) -> None:
        for seed in range(40):
            draw = random.Random(f"copies {seed}")
            project, journal = draw.choice((begins.files, marks.files))(draw)
            if answer(["replay"], [project, journal])[0]:
                continue
            events = [event for event in read_journal(journal) for _ in range(min(event.count, 40))]
            self.goes_on(Machine(Project(project)), events, draw.randrange(len(events)))

    def goes_on(self, one: Machine, events: list[Event], at: int) -> None:
        for event in events[:at]:
            one.event(event.verb, event.lane, event.action)
        other, before = states.copied(one), states.key(one)
        self.assertEqual(states.key(other), before)
        keys = []
        for event in events[at:]:
            one.event(event.verb, event.lane, event.action)
            keys.append(states.key(one))
        self.assertEqual(states.key(other), before)
        for event, key in zip(events[at:], keys):
            other.event(event.verb, event.lane, event.action)
            self.assertEqual(states.key(other), key)


def is_partial(project: Project, script: Script, events: tuple[Event, ...]) -> bool:
    """As it is defined: the opening; each lane's first actions in order and in time, none held; ticks at the pace; steps beyond only with an open CPS."""
    if events[:1] != (OPENING,) or any(event.lane is not None and not event.lane < len(script.lanes) for event in events[1:]):
        return False
    paced = (sum(one == STEP for one in events[:at]) % script.pace == 0 and events[at - 1:at] == (STEP,) for at in range(len(events) + 1))
    if any(due != (events[at:at + 1] == (TICK,)) for at, due in enumerate(paced)):
        return False
    for lane, listed in enumerate(script.lanes):
        made = [(events[:at].count(TICK), event.action) for at, event in enumerate(events) if event.lane == lane]
        if [action for _, action in made] != [action for _, action in listed[:len(made)]] or any(now < at for (now, _), (at, _) in zip(made, listed)):
            return False
    controller = Machine(project)
    for event in events:
        if event == STEP and controller.steps >= script.steps and not controller.is_syncing():
            return False
        if controller.event(event.verb, event.lane, event.action).reply == "held":
            return False
    return True


def in_window(script: Script, within: int | None, events: tuple[Event, ...]) -> bool:
    """At no beginning of the journal, nor at its end, is a lane's next action more than so many ticks late."""
    for at in range(len(events) + 1):
        for lane, listed in enumerate(script.lanes):
            left = listed[sum(event.lane == lane for event in events[:at]):]
            if within is not None and left and left[0][0] + within < events[:at].count(TICK):
                return False
    return True


# Tiny scripts, whose journals have at most so many events after the opening.
CASES = (
    (("MOV(I[0],n);",), ("run 3 2 1", "@0 1 in In1 0 7"), 5, {}), (("MOV(I[0],n);",), ("run 3 2 2", "@0 1 in In1 0 7", "@1 0 in In1 0 8"), 6, {}),
    (("MOV(I[0],n);",), ("run 2 1 1", "@0 0 in In1 0 7", "@0 1 in In1 0 8"), 6, {}), (("CPS(I[0],d[0],2);",), ("run 2 2 1", "@0 0 in In1 1 9"), 7, explore_rules.SEVENS),
    (("CPS(I[0],d[0],2);",), ("run 3 3 1", "@0 1 in In1 1 9"), 6, explore_rules.SEVENS), (("UID()UIE();",), ("run 3 9 2", "@0 0 accept P M i 0 MOV(3,n);", "@0 0 test P"), 5, {}),
)  # fmt: skip
ASKED = ("n = 7", "n = 8 and I[0] = 7", "d[1] = 9", "I[1] = 9", "n = 3 at P", "n = 0 at P", "n = 7 at P", "d[0] = 7 and d[1] = 0", "c = 1")


def files_of(case: int) -> tuple[Project, Script]:
    rungs, lines, _, more = CASES[case]
    return Project(file_text(explore_rules.project(rungs, **more))), Script(journal_text([*lines, "end"]))


@functools.cache
def by_definition(case: int) -> list[tuple[Event, ...]]:
    """All partial journals of a case: of all lists of events up to a length."""
    project, script = files_of(case)
    alphabet = [STEP, TICK, *{Event("act", 1, lane, action) for lane, listed in enumerate(script.lanes) for _, action in listed}]
    lists = (list_ for length in range(CASES[case][2] + 1) for list_ in itertools.product(alphabet, repeat=length))
    return [journal for journal in ((OPENING, *list_) for list_ in lists) if is_partial(project, script, journal)]


class Definitions(unittest.TestCase):
    def searches(self) -> Iterator[tuple[Search, list[tuple[Event, ...]]]]:
        """Each case with each window, and its partial journals by the definition."""
        for case, within in itertools.product(range(len(CASES)), (None, 0, 1)):
            search = Search(*files_of(case), silent(within))
            yield search, [journal for journal in by_definition(case) if in_window(search.script, within, journal)]

    def test_journals_one_after_another(self) -> None:
        for search, wanted in self.searches():
            journals = [explore.in_order(node.events) for node in search.journals()]
            self.assertEqual(sorted(journals, key=str), sorted(wanted, key=str))

    def test_moments(self) -> None:
        """What holds first, after each event, is what the layers find."""
        for search, wanted in self.searches():
            moments = {journal[:at] for journal in wanted for at in range(1, len(journal) + 1)}
            for asked, least in zip(ASKED, self.least(search.project, moments)):
                made = Question(search.project, f"never {asked}\nend\n".encode())
                made.within = search.question.within
                found = Search(search.project, search.script, made).found()
                self.assertEqual(found.steps if found.what == "shown" else None, least, asked)

    @staticmethod
    def least(project: Project, moments: set[tuple[Event, ...]]) -> list[int | None]:
        """Of each that is asked, the least steps of a moment at which it holds."""
        lines = [Question(project, f"never {asked}\nend\n".encode()) for asked in ASKED]
        held: list[list[int]] = [[] for _ in lines]
        for moment in moments:
            controller, said = Machine(project), None
            for event in moment:
                said = controller.event(event.verb, event.lane, event.action)
            for steps, line in zip(held, lines):
                if line.line_of(controller, said) is not None:
                    steps.append(explore.steps_of(moment))
        return [min(steps, default=None) for steps in held]


class Layers(unittest.TestCase):
    """Layers with equal states dropped against journals one after another, on made cases."""

    def searches(self, count: int) -> Iterator[Search]:
        for seed in range(count):
            _, files = explores.explorations(random.Random(f"layers {seed}"), None)
            if answer(["explore"], files)[0] in (0, 8) and Script(files[1]).steps <= 10:
                project = Project(files[0])
                yield Search(project, Script(files[1]), Question(project, files[2]))

    def test_verdict_and_least_step(self) -> None:
        for search in self.searches(40):
            found = search.found()
            self.assertEqual(found.steps if found.what == "shown" else None, search.least(1_000_000))

    def test_none_is_lost(self) -> None:
        """As many complete journals, of each number of steps."""
        for search in self.searches(40):
            search.question = silent(search.question.within)
            wanted = sum(node.is_complete() for node in search.journals())
            self.assertEqual(search.complete(), wanted)

    def test_the_interlock_s_journals(self) -> None:
        """So many by an explorer of another make."""
        project, script, _ = machine("interlock")
        self.assertEqual(Search(Project(project), Script(script), silent()).complete(), 2_384_063)


class Explorer:
    """The plain interpreter as the program; `bend` changes what it answers to an exploration."""

    def __init__(self, bend=lambda status, out: (status, out)) -> None:
        self.bend, self.files = bend, {}

    def put(self, name: str, contents: bytes) -> str:
        self.files[name] = contents
        return name

    def beside(self, name: str) -> str:
        return name

    def run(self, words: list[str], path: str) -> Ran:
        status, out = self.bend(*answer(["explore"], [self.files[word] for word in words]))
        return Ran(status, out.encode("latin-1"), b"", 0.0, 0)

    def answer(self, verb: str, *files: bytes) -> Ran:
        status, out = answer([verb], list(files))
        return Ran(status, out.encode("latin-1"), b"", 0.0, 0)


class Kind(unittest.TestCase):
    def test_it_holds_on_the_plain_explorer(self) -> None:
        for seed in range(60):
            judge, files = explores.explorations(random.Random(f"kind {seed}"), None)
            self.assertIsNone(judge(Explorer(), files), seed)

    def test_an_answer_that_is_bent_is_seen(self) -> None:
        """The exchange's: steps 20, a tick, steps 18, an action of lane 0, steps 2, a tick, an action of lane 1, steps 6."""
        for one, other in (
            ("step 46", "step 45"), ("line 1", "line 2"), ("tick 2", "tick 3"), ("# line 1 after step 46, tick 2\n", ""), ("mode run\n", ""), ("cpu 6", "cpu 7"), ("cpu 6", "cpu 5"),
            ("tick 1\ncpu 18\n", "cpu 18\ntick 1\n"), ("@0 in Hmi 0 7\ncpu 2\n", "cpu 2\n@0 in Hmi 0 7\n"), ("Hmi 0 7", "Hmi 0 9"), ("@1 in", "@0 in"), ("cpu 6", "cpu 3\ncpu 3"),
            ("cpu 6\n", "cpu 6\n@0 in Hmi 0 9\n"), ("@0 in Hmi 0 7\n", "@0 in Hmi 0 7\n@0 in Hmi 0 7\n"), ("tick 1\n@1", "@1"), ("mode run\n", "mode run\n@0 in Hmi 0 7\n"), ("end\n", "end\nx\n"), ("end\n", ""),
        ):  # fmt: skip
            self.bends(lambda status, out, one=one, other=other: (status, out.replace(one, other, 1)), True)
        self.bends(lambda *_: (0, "never 1\n"), True)
        self.bends(lambda *_: (9, "unknown 46\n"), True)
        self.bends(lambda *answered: answered, False)

    def bends(self, bend, is_seen: bool) -> None:
        with mock.patch.object(explores, "MOST_STEPS", 1_000):
            self.assertEqual(explores.of_exploration(Explorer(bend), machine("exchange")) is not None, is_seen, bend(8, WITNESS))

    def test_never_where_it_is_not_and_a_wrong_number_of_lines(self) -> None:
        files = explore_rules.RULES[2].files()
        self.assertIsNone(explores.of_exploration(Explorer(), files))
        self.assertIsNotNone(explores.of_exploration(Explorer(lambda *_: (0, "never 2\n")), files))
        self.assertIsNotNone(explores.of_exploration(Explorer(lambda *_: (9, "unknown 3\n")), files))
        self.assertIsNotNone(explores.of_exploration(Explorer(lambda *_: (8, "# line 1 after step 0, tick 0\nmode run\nend\n")), files))


ACTED, STEPPED, MAKE, SPENT, LATE, KEY, LINE_OF = Node.acted, Node.stepped, Node.make, Node.is_spent, Node.is_late, Node.key, Question.line_of


def acted_between(node: Node) -> Node | None:
    """A step, an action that is due, and only then the tick."""
    made = STEPPED(node)
    if made and made.events[0] == TICK:
        between = node.copied()
        between.make(STEP)
        for lane in range(len(node.search.script.lanes)):
            acted = ACTED(between, lane)
            if acted:
                acted.make(TICK)
                return acted
    return made


def made_though_held(node: Node, lane: int) -> Node | None:
    made = ACTED(node, lane)
    listed, count = node.search.script.lanes[lane], node.counts[lane]
    if made or count == len(listed) or listed[count][0] > node.machine.now:
        return made
    made = node.copied()
    made.counts = (*node.counts[:lane], count + 1, *node.counts[lane + 1:])
    return made


def asked_after(*verbs: str):
    """Nothing is asked after other events."""
    def make(node: Node, event: Event):
        if event.verb in verbs and event != OPENING:
            return MAKE(node, event)
        with mock.patch.object(Question, "line_of", lambda *_: None):
            return MAKE(node, event)
    return make


def without(at: int):
    """States that differ in this alone are one."""
    def key(machine: Machine):
        whole = KEY_OF(machine)
        return (*whole[:at], *whole[at + 1:])
    return mock.patch.object(states, "key", key)


def of_task(change):
    """Of a task this is left out."""
    return mock.patch.object(states, "of_task", lambda task, up: change(OF_TASK(task, up)))


def ends(text: str):
    def line_of(question: Question, machine: Machine, said):
        if said.what == "left":
            said.left, said.program = "ended", said.program if text == "a routine" else 0
        return LINE_OF(question, machine, said)
    return mock.patch.object(Question, "line_of", line_of)


def of_node(name: str, made):
    return mock.patch.object(Node, name, made)


def most(count: int):
    return mock.patch.object(Search.found, "__defaults__", (count,))


def sign(one: str, other: str):
    return mock.patch.dict("lib.hammer.plain.question.SIGNS", {one: SIGNS[other]})


KEY_OF, OF_TASK, SIGNS = states.key, states.of_task, dict(question.SIGNS)
MUTANTS = {
    "the last lane is forgotten": of_node("acted", lambda node, lane: ACTED(node, lane) if lane < len(node.counts) - 1 else None),
    "actions right after a tick alone": of_node("acted", lambda node, lane: None if node.machine.steps % node.search.script.pace else ACTED(node, lane)),
    "actions right before a tick alone": of_node("acted", lambda node, lane: None if (node.machine.steps + 1) % node.search.script.pace else ACTED(node, lane)),
    "no action after the last step": of_node("acted", lambda node, lane: None if node.is_spent() else ACTED(node, lane)),
    "no action before the first step": of_node("acted", lambda node, lane: ACTED(node, lane) if node.machine.steps else None),
    "one action of a lane": of_node("acted", lambda node, lane: None if node.counts[lane] else ACTED(node, lane)),
    "an action that is held is passed over": of_node("acted", made_though_held), "an action between a step and its tick": of_node("stepped", acted_between),
    "steps end though a copy is open": of_node("is_spent", lambda node: node.machine.steps >= node.search.script.steps),
    "a step too many": of_node("is_spent", lambda node: SPENT(node) and node.machine.steps > node.search.script.steps),
    "a step too few": of_node("is_spent", lambda node: node.machine.steps + 1 >= node.search.script.steps),
    "a window a tick too short": of_node("is_late", lambda node, ticks: LATE(node, ticks + 1)), "a window a tick too long": of_node("is_late", lambda node, ticks: LATE(node, ticks - 1)),
    "no window": of_node("is_late", lambda *_: False), "the opening isn't asked": of_node("make", asked_after("cpu", "tick", "act")), "actions aren't asked": of_node("make", asked_after("cpu", "tick")),
    "a scan ends with each routine": ends("a routine"), "a scan of any program": ends("a program"),
    "the last line that holds": mock.patch.object(Question, "line_of", lambda asked, *more: next((at for at in reversed(range(len(asked.lines))) if LINE_OF(SimpleNamespace(lines=asked.lines[at:at + 1]), *more) is not None), None)),
    "one test is enough": mock.patch.object(question.Never, "holds", lambda line, values, ended: line.program in (None, ended) and any(test.passes(values) for test in line.tests)),
    "at is overlooked": mock.patch.object(question.Never, "holds", lambda line, values, _: all(test.passes(values) for test in line.tests)),
    "states without counts": of_node("key", lambda node: KEY(node)[1:]), "states without the image": without(3), "states without tasks": without(4), "states without edits": without(5),
    "states without forces": without(8), "states without whether forces are on": without(9), "states without scans": of_task(lambda told: told and told[:-1]),
    "a layer of one state more": most(4_097), "a layer of one state fewer": most(4_095),
    **{f"{one} as {other}": sign(one, other) for one, other in (("=", "<="), ("=", ">="), ("<>", "<"), ("<>", ">"), ("<", "<="), ("<=", "<"), (">", ">="), (">=", ">"), ("<", ">"))},
}


class Mutants(unittest.TestCase):
    """Explorers that go wrong: by each some rule has another answer."""

    def test_they_are_seen(self) -> None:
        for name, mutant in MUTANTS.items():
            with mutant:
                seen = (rule.name for rule in explore_rules.RULES if (rule.name in LARGE) == name.startswith("a layer") and answer(["explore"], rule.files())[1].split("\n")[0] != rule.answer_text())
                self.assertIsNotNone(next(seen, None), name)


if __name__ == "__main__":
    unittest.main()
