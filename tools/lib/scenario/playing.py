"""One scenario, from its file to what is judged of it."""

from __future__ import annotations

import json
import os
import subprocess
import tempfile
import time
from collections.abc import Callable
from dataclasses import dataclass, field

from lib.cover.reading import NAME
from lib.paths import read_bytes
from lib.programs import Astray, Ended, Late

from . import bounded
from .agenda import Set, agenda, unseen
from .copying import MOST_WATCHES, Copy, make_copy
from .coverage import Covered, covered
from .judge import Judge, Judged
from .line import Wrong
from .places import Places, Unknown, fits, near
from .programs import Programs
from .reading import read_file
from .refusals import ASTRAY, BY_A_SIGNAL, Stopped, astray_told, explained, refusal_of
from .running import Run, Runner
from .scenario import Scenario, When
from .session import Session, checked
from .story import Story, read_reports
from .tracing import Trace

LEAST_IDLE, MOST_IDLE = 64, 65_536
MOST_TRACED, MOST_LINES = 4_000_000, 100_000
REFUSED = 3  # the status of a refused journal


@dataclass
class Played:
    scenario: Scenario
    # The file of the project, its own or another one.
    path: str
    project: dict
    copy: dict
    run: Run
    story: Story
    judged: Judged
    journal: bytes
    report: bytes
    notes: list[str] = field(default_factory=list)
    covered: Covered | None = None

    def values(self) -> dict[str, int]:
        """The values at the end of what the project watches and the scenario names, as they are spelled there."""
        values, spelled = self.story.values_at_end(), {}
        for text in (*self.project.get("watch", []), *(name.text for name in self.scenario.names())):
            spelled.setdefault(text.lower(), text)
        return {text: values[key] for key, text in spelled.items()}


def no_progress(_now: int, _end: int) -> None:
    pass


def play(path: str, project: str | None, programs: Programs, seconds: float, progress=no_progress, covers: bool = False) -> Played:
    """Reads, runs and judges a scenario; on another project than its own if one is named. `covers`: its executions are counted."""
    deadline = time.monotonic() + seconds
    scenario = read_file(path)
    try:
        return Player(scenario, project, programs, seconds, deadline, progress, covers).play()
    except Wrong as wrong:
        wrong.path = wrong.path or path
        raise


class Player:
    def __init__(
        self, scenario: Scenario, project: str | None, programs: Programs, seconds: float, deadline: float, progress, covers: bool
    ) -> None:
        self.scenario, self.programs, self.seconds, self.deadline = scenario, programs, seconds, deadline
        self.progress = lambda now: progress(now, scenario.end)
        self.live, self.logix = programs.path("logix_live"), programs.path("logix")
        self.cover = programs.path(NAME) if covers else None
        self.is_other = project is not None
        self.path = project if self.is_other else os.path.join(os.path.dirname(scenario.path), scenario.project)
        self.notes: list[str] = []

    def play(self) -> Played:
        self.project = self.load()
        places = Places(self.project)
        self.judge_names(places)
        self.made = self.copied(places)
        self.items = agenda(self.scenario, self.made.places)
        self.notes += unseen(self.items, self.scenario.pace.ms)
        watches = self.watches()
        with tempfile.TemporaryDirectory(prefix="scenario-") as room:
            copies = [self.put(room, f"copy{at}.json", self.made.text(watch)) for at, watch in enumerate(watches)]
            try:
                run, session, trace = self.run(copies[0], room)
                journal = session.journal()
                reports = [session.report(), *(self.again(copy, journal) for copy in copies[1:])]
            except Astray as astray:
                raise Stopped(astray_told(astray), ASTRAY) from None
            except Ended as ended:
                raise Stopped(self.ended_told(ended), ended.status if 0 < ended.status < 8 else BY_A_SIGNAL) from None
            covered = self.covered(copies[0], journal, room)
        lines = reports[0].count(b"\n") - 1
        if lines > MOST_LINES:
            self.notes.append(f"the report has {lines} lines: a replay of the journal keeps the first {MOST_LINES}")
        story = self.story(reports, watches, trace)
        run.done = explained(self.contents, run.done)
        judge = Judge(self.scenario, story, run.done, self.describer(story, run), reports[0])
        judged = judge.judge()
        notes = [*self.made.notes, *self.notes, *run.notes]
        copy = self.made.text(watches[0])
        return Played(self.scenario, self.path, self.project, copy, run, story, judged, journal, reports[0], notes, covered)

    # ---- the project

    def load(self) -> dict:
        line = self.scenario.project_line
        try:
            self.contents = read_bytes(self.path)
        except OSError as fault:
            why = f"the project {self.path} can't be read: {fault.strerror}"
            raise Wrong(why) if self.is_other else line.wrong(why, line.text.find(" ") + 1) from None
        refusal = refusal_of(self.live, self.path, self.seconds)
        if refusal:
            why = f"the project {self.path} is refused: {refusal[0].removeprefix('project ')}"
            raise Wrong(why, number=0 if self.is_other else line.number, more=refusal[1:])
        return json.loads(self.contents)

    def judge_names(self, places: Places) -> None:
        for name in self.scenario.names():
            try:
                places.find(name.text)
            except Unknown as unknown:
                raise name.line.wrong(str(unknown), name.at) from None
        for setters in self.scenario.setters:
            for one in setters.settings:
                misfit = fits(places.find(one.name.text), one.value)
                if misfit:
                    raise one.name.line.wrong(f"{one.value} doesn't fit {one.name.text}: {misfit}", one.name.at)
        for one in self.scenario.requirements:
            if one.program and one.program.key not in places.programs:
                names = [program["name"] for program in self.project["programs"]]
                raise one.line.wrong(f"there is no program {one.program.text}{near(one.program.text, names)}", one.program.at)
            if one.when == When.FAULTS:
                self.judge_faults(one)

    def judge_faults(self, one) -> None:
        tasks = [task["name"] for task in self.project["tasks"]]
        for fault in one.faults:
            if fault.task and fault.task.lower() not in map(str.lower, tasks):
                raise one.line.wrong(f"there is no task {fault.task}{near(fault.task, tasks)}", one.line.text.find(fault.task))

    def copied(self, places: Places) -> Copy:
        """The copy, with a word for each tag that is set."""
        edits = [tuple(one.action.split(None, 2)[1:3]) for one in self.scenario.commands if one.action.startswith("accept")]
        names = {one.name.key: one.name for setters in self.scenario.setters for one in setters.settings}
        try:
            return make_copy(self.project, [name.text for name in names.values()], edits)
        except Unknown as unknown:
            name = next((name for name in names.values() if str(unknown).startswith(f"{name.text} ")), next(iter(names.values())))
            raise name.line.wrong(str(unknown), name.at) from None

    def watches(self) -> list[list[str]]:
        """What each run of the copy watches: the project's own watches, then what the scenario names; at first what settings need."""
        texts: dict[str, str] = {}
        needed: dict[str, str] = {}
        for item in self.items:
            if isinstance(item.what, Set):
                word = self.made.word(item.what.setting.name.text)
                own = [item.what.setting.name.text] if word.own else []
                needed.update({text.lower(): text for text in (*own, *(beside[0] for beside in word.beside))})
        for text in (*self.project.get("watch", []), *needed.values(), *(name.text for name in self.scenario.names())):
            texts.setdefault(text.lower(), text)
        if len(texts) > MOST_WATCHES:
            texts = {**{key: texts[key] for key in needed}, **texts}
        every = list(texts.values())
        if len(every) > MOST_WATCHES:
            self.notes.append(f"{len(every)} tags are watched: the run is told {-(-len(every) // MOST_WATCHES)} times")
        return [every[at : at + MOST_WATCHES] for at in range(0, max(1, len(every)), MOST_WATCHES)]

    def put(self, room: str, name: str, project: dict) -> str:
        path = f"{room}/{name}"
        with open(path, "w", encoding="utf-8") as file:
            json.dump(project, file)
        return path

    # ---- the run

    def run(self, copy: str, room: str) -> tuple[Run, Session, Trace | None]:
        """The run, and its trace. Where nothing but steps tells when all scans are over, so many that at last the processor idles."""
        idle = LEAST_IDLE
        while True:
            session = Session(self.live, copy, self.deadline)
            try:
                runner = Runner(self.scenario, self.made, session, idle)
                run = runner.go(self.items, self.deadline, self.progress)
            finally:
                session.close()
            trace = self.trace(copy, session.journal(), room, runner.events())
            if runner.pacer or self.scenario.pace.steps or run.stopped or trace is None:
                break
            if all(trace.lines[events] == b"idle" for events in run.paces):
                break
            if idle >= MOST_IDLE:
                run.notes.append(f"scans aren't over after {idle} steps: the ticks go on")
                break
            idle *= 4
        if run.stopped:
            run.notes.append(f"ended at {run.now} ms: the run has taken the seconds that --seconds allows")
        return run, session, trace

    def trace(self, copy: str, journal: bytes, room: str, events: int) -> Trace | None:
        if events > MOST_TRACED:
            self.notes.append(f"no trace of {events} events: the scans of tasks aren't counted")
            return None
        path = f"{room}/journal.txt"
        with open(path, "wb") as file:
            file.write(journal)
        ran = bounded.run([self.logix, "trace", copy, path], self.seconds, stdin=subprocess.DEVNULL)
        if ran.returncode:
            raise Ended(ran.returncode, ran.stdout[:200].decode(errors="replace"))
        return Trace(ran.stdout)

    def covered(self, copy: str, journal: bytes, room: str) -> Covered | None:
        """What the run executed, if that is asked for."""
        if self.cover is None:
            return None
        path = f"{room}/journal.txt"
        with open(path, "wb") as file:
            file.write(journal)
        try:
            ran = bounded.run([self.cover, copy, path], self.seconds, stdin=subprocess.DEVNULL)
            if ran.returncode == 0:
                return covered(self.path, ran.stdout.decode(errors="replace"), read_bytes(copy), journal)
        except Late as late:
            raise Stopped(f"{NAME} was ended by --seconds: {late.text}", ASTRAY) from None
        except Astray as astray:
            raise Stopped(astray.text, ASTRAY) from None
        if ran.returncode == REFUSED:
            return Covered(self.path, why="it has more events than a journal may have")
        is_signal = ran.returncode < 0
        raise Stopped(f"{NAME} ended {'by signal' if is_signal else 'with status'} {abs(ran.returncode)}", BY_A_SIGNAL if is_signal else ran.returncode)

    def again(self, copy: str, journal: bytes) -> bytes:
        ran = bounded.run([self.live, copy], self.seconds, input=journal)
        if ran.returncode:
            raise Ended(ran.returncode, ran.stdout[-200:].decode(errors="replace"))
        return checked(ran.stdout)

    def ended_told(self, ended: Ended) -> str:
        if ended.status < 0:
            return f"the controller's process was ended by signal {-ended.status}"
        return f"the controller's process ended with status {ended.status}: {ended.text.strip() or 'it wrote nothing'}"

    # ---- what came of it

    def story(self, reports: list[bytes], watches: list[list[str]], trace: Trace | None) -> Story:
        places = self.made.places
        opening = {text.lower(): places.value(places.image, text) for watch in watches for text in watch}
        story = read_reports(reports, opening)
        if trace is not None:
            story.add_trace(trace, self.project)
        return story

    def describer(self, story: Story, run: Run) -> Callable[[int], str]:
        """Says of an event what it was."""
        done = {one.event: one for one in run.done}
        commands = {one.line.number for one in self.scenario.commands}
        tasks = [task["name"] for task in self.project["tasks"]]
        programs = [program["name"] for program in self.project["programs"]]

        def describe(event: int) -> str:
            one = done.get(event)
            if one and one.line:
                is_command = one.line.number in commands
                return f"line {one.line.number}" + (f": {one.action}" if is_command else f" (in the journal: {one.action})")
            if one:
                return "the change to Run"
            words = story.trace.lines[event].decode().split(" ") if story.trace else [""]
            if words[0] == "tick":
                return "a tick"
            if len(words) > 2:
                return f"a step of {programs[int(words[2])]} in task {tasks[int(words[1])]}"
            return "a processor step"

        return describe
