"""Random scenarios on random projects, on the built programs: what the tool's own connections write is what a panel would write.

The gate runs this after `rt ci`. The second reading is the plain interpreter on the project as it is, without the tool's connections: at
the events of the tool's words it stores the values in the tags themselves. The reports are the same but for the tool's own tags, `replay`
gives them too, and paces told at once are those that come step by step.
"""

from __future__ import annotations

import json
import random
import unittest

from scenario_files import ScenarioTest
from lib.hammer.made import Maker
from lib.hammer.plain.journal import read_journal
from lib.hammer.plain.judge import Reporter
from lib.hammer.plain.project import FITS, Project, write
from lib.scenario.line import Wrong
from lib.scenario.pacing import Pacer
from lib.scenario.places import Places
from lib.scenario.playing import play
from lib.scenario.refusals import refusal_of
from lib.scenario.programs import Programs
from lib.scenario.running import Runner

CASES, LEAST_WORDS = 40, 80


class Watched(Runner):
    """A run that keeps, for each word of the tool's, the event, the tag and the bits that it got."""

    writes: dict[int, tuple[str, int]] = {}

    def __init__(self, *given) -> None:
        super().__init__(*given)
        self.writes.clear()

    def set(self, what) -> None:
        before = len(self.run.done)
        super().set(what)
        text = what.setting.name.text
        word = self.words[text]
        for done in self.run.done[before:]:
            if word.own and done.answer == "ok":
                self.writes[done.event] = text, int(done.action.split()[3]) >> word.shift & ((1 << word.width) - 1)


class Panel(Reporter):
    def write(self, place, value: int) -> None:
        """Stores a value in a tag, as the report tells it."""
        write(self.machine.image, place.base, place.at, value)
        self.put("reply 31 ok")
        self.image, now = bytes(self.machine.image), self.watched()
        for (name, _, _), old, new in zip(self.project.watches, self.values, now):
            if old != new:
                self.put(f"set {name} {new}")
        self.values = now


def names_of(places: Places) -> list[str]:
    """All BOOLs, bits and integers of a project, as a scenario names them."""
    names = []
    for scope, name, _, _ in places.tags.spans:
        text = name if scope is None else f"Program:{places.project['programs'][scope]['name']}.{name}"
        found = places.resolve(text)
        names += [leaf for leaf, _, _ in places.leaves(found.base, found.dim, found.at, text)]
    return names


def made_scenario(rand: random.Random, maker: Maker, places: Places) -> list[str]:
    names, end, now, lines = names_of(places), rand.randrange(1, 40), 0, ["project lamp.json"]
    count = f"{rand.randrange(1, 30)} steps" if rand.random() < 0.4 else f"{rand.choice((1, 1, 2))} scans"
    lines.append(f"pace {rand.choice((1, 2, 5))} ms, {count}")
    for _ in range(rand.randrange(1, 8)):
        now = min(end, now + rand.randrange(0, 9))
        if rand.random() < 0.75:
            text = rand.choice(names)
            least, most = FITS[places.find(text).base]
            value = rand.choice((least, most, rand.randint(least, most)))
            lines.append(f"at {now}: {rand.choice((text, text.upper()))} = {value}{rand.choice(('', '', ' for 3'))}")
        else:
            lines.append(f"at {now} engineer {rand.randrange(31)}: {maker.action()}")
    return [*lines, f"run {end}", ""]


class Copies(ScenarioTest):
    def setUp(self) -> None:
        super().setUp()
        self.found = Programs(self.programs)

    def patched(self, owner, name: str, value) -> None:
        self.addCleanup(setattr, owner, name, getattr(owner, name))
        setattr(owner, name, value)

    def direct(self, project: dict, places: Places, played) -> str:
        """The report of the project as it is, whose tags are written themselves."""
        watch = [text for text in played.copy["watch"] if not text.lower().startswith("hmi")]
        reporter, at = Panel(Project(json.dumps({**project, "watch": watch}).encode())), 0
        for event in read_journal(played.journal):
            for _ in range(event.count):
                at += 1
                if at in Watched.writes:
                    text, value = Watched.writes[at]
                    reporter.write(places.find(text), value)
                else:
                    reporter.event(event.verb, event.lane, event.action)
        return "".join(line + "\n" for line in [*reporter.lines, reporter.end()])

    def test_nothing_else_can_be_seen(self) -> None:
        import lib.scenario.playing as playing

        self.patched(playing, "Runner", Watched)
        words = cases = 0
        for seed in range(10_000):
            if cases == CASES:
                break
            rand = random.Random(seed)
            maker = Maker(rand)
            project = maker.project()
            refusal_of.cache_clear()
            if refusal_of(f"{self.programs}/logix_live", self.put("lamp.json", json.dumps(project)), 60):
                continue
            places = Places(project)
            path = self.put("day.scenario", "\n".join(made_scenario(rand, maker, places)))
            try:
                played = play(path, None, self.found, 60)
            except Wrong:
                continue  # a copy instruction would see it, or pulses that overlap
            if len(played.journal) > 4_000 or played.story.last.event > 4_000:
                continue
            cases, words = cases + 1, words + len(Watched.writes)
            told = "".join(line for line in played.report.decode().splitlines(True) if " set hmi" not in line.lower())
            self.assertEqual(told, self.direct(project, places, played), seed)
        self.assertEqual(cases, CASES)
        self.assertGreater(words, LEAST_WORDS)

    def test_paces_at_once_are_those_step_by_step(self) -> None:
        sub = {"name": "Sub", "rungs": ["NOP();"] * 3}
        program = {"name": "Main", "main": "Go", "routines": [{"name": "Go", "rungs": ["ADD(n,1,n);", "GEQ(n,40)LES(n,55)JSR(Sub);"]}, sub]}
        tasks = [{"name": "Cont", "kind": "continuous", "programs": ["Main"]}]
        self.project(programs=[program], tasks=tasks)
        path = self.scenario("at 100: Button = 1", "every 70 from 300 to 700: Button = 0", "run 1000")
        at_once = play(path, None, self.found, 60)
        self.patched(Pacer, "ahead", lambda self, room: 0)
        self.assertEqual(at_once.journal, play(path, None, self.found, 60).journal)
        self.assertEqual(at_once.journal.count(b"cpu "), 101)


if __name__ == "__main__":
    unittest.main()
