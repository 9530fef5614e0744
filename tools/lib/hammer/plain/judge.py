"""What the program answers to its words, by the plain interpreter: a status and a text."""

from functools import lru_cache

from .audit import Table, read_trace, verdict
from .cover import cover
from .explore import Search, canonical
from .gen import journal_of, project_of
from .journal import LONGEST, Bad, Reader, Script, lines_of, read_journal
from .laws import verdict as lawful
from .link import Link, LinkScript
from .machine import Machine
from .project import Project, read
from .question import Question
from .reader import Fault
from .rungs import spelled
from .xref import xref

MOST_LINES = 100_000
MOST_EVENTS = 20_000
MOST_SNAPSHOTS = 4_096
MOST_BYTES = 16_777_216


class TooLong(Exception):
    """A file with too many bytes, which isn't read."""


def whole(contents):
    if len(contents) > MOST_BYTES:
        raise TooLong
    return contents


@lru_cache(2)
def kept_project(contents):
    """The project of a file; the last ones are kept, which no run changes."""
    return Project(contents)


def answer(words, contents):
    """The status and the output of the command over these contents of its files; None of a long run."""
    try:
        return answer_of(words[0], contents)
    except TooLong:
        return 7, ""


def answer_of(verb, contents):
    try:
        projects = [kept_project(whole(contents[0]))]
    except Fault as fault:
        return 2, ("a " if verb == "link" else "") + fault.line() + "\n"
    if verb in OF_PROJECT:
        return 0, OF_PROJECT[verb](projects[0])
    if verb == "explore":
        return explored(projects[0], *contents[1:])
    try:
        if verb == "link":
            projects.append(kept_project(whole(contents[1])))
        return OF_MORE[verb](*projects, whole(contents[-1]))
    except Fault as fault:
        return 2, f"b {fault.line()}\n"
    except Bad as bad:
        return 3, f"{KIND_OF.get(verb, 'journal')} {bad.code} line {bad.line}\n"


def is_long(events):
    return sum(event.count for event in events) > MOST_EVENTS


def replayed(project, contents):
    events = read_journal(contents)
    return None if is_long(events) else (0, report(project, events))


def traced(project, contents):
    events = read_journal(contents)
    return None if is_long(events) else (0, trace(project, events))


def covered(project, contents):
    events = read_journal(contents)
    return None if is_long(events) else (0, cover(project, events))


def searched(project, script, question):
    """The search, or a refusal: its status and text."""
    try:
        script = Script(whole(script))
    except Bad as bad:
        return None, (3, f"script {bad.code} line {bad.line}\n")
    try:
        return Search(project, script, Question(project, whole(question))), None
    except Bad as bad:
        return None, (3, f"question {bad.code} line {bad.line}\n")


def explored(project, script, question):
    """Of several shortest journals that show a line, one."""
    search, refused = searched(project, script, question)
    if refused:
        return refused
    found = search.found()
    if found.what == "never":
        return 0, f"never {len(search.question.lines)}\n"
    if found.what == "unknown":
        return 9, f"unknown {found.steps}\n"
    return 8, "".join(f"{line}\n" for line in [found.head(), *canonical(found.events)])


def audited(project, contents):
    table = Table(project)
    return verdict(read_trace(contents, table), table)


def judged_by_laws(project, contents):
    table = Table(project)
    return lawful(read_trace(contents, table), table, project)


def live(contents, lines):
    """What is written of lines that come one by one: the report's lines of those that are done, and the cause of each that isn't."""
    try:
        reporter = Reporter(kept_project(contents))
    except Fault as fault:
        return 2, fault.line() + "\n"
    written = []
    for number, line in lines_of(lines)[1]:
        if len(line) <= LONGEST and line.strip(" ") == "end":
            break
        reader, seen = Reader(), len(reporter.lines)
        try:
            if len(line) > LONGEST:
                raise Bad("J1")
            reader.take(line)
        except Bad as bad:
            written.append(f"line {bad.code} {number}")
            continue
        if is_long(reader.events):
            return None
        run(reporter, reader.events)
        written += reporter.lines[seen:]
    return 0, "".join(line + "\n" for line in [*written, reporter.end()])


def linked(a, b, contents):
    script = LinkScript(contents, a, b)
    if is_long([step[1] for step in script.steps if step[0] in ("a", "b")]):
        return None
    return 0, Link(Reporter(a), Reporter(b), script).run()


def counted(project):
    routines = [rungs for program in project.texts for rungs in program]
    return (f"ok tasks {len(project.tasks)} programs {len(project.programs)} routines {len(routines)} "
            f"rungs {sum(map(len, routines))} bytes {project.tags.bytes}\n")


def texts(project):
    lines = []
    for program, routines in zip(project.programs, project.texts):
        for routine, rungs in zip(program["routines"], routines):
            lines.append(f"program {program['name']} routine {routine['name']}")
            lines += [spelled(rung) for rung in rungs]
    return "".join(line + "\n" for line in lines)


class Reporter:
    """The report's lines, event by event."""

    def __init__(self, project):
        self.project, self.machine, self.lines, self.lost = project, Machine(project), [], 0
        self.tasks = [task["name"] for task in project.tasks]
        self.programs = [program["name"] for program in project.programs]
        self.values, self.image = self.watched(), bytes(self.machine.image)

    def watched(self):
        return [read(self.machine.image, kind, at) for _, kind, at in self.project.watches]

    def put(self, text):
        if len(self.lines) < MOST_LINES:
            self.lines.append(f"{self.machine.now} {self.machine.steps} {text}")
        else:
            self.lost += 1

    def event(self, verb, lane=None, action=None):
        said = self.machine.event(verb, lane, action)
        if said.what == "began":
            self.put(f"begin {self.tasks[said.task]} {self.programs[said.program]} {said.version}")
        if said.what == "act":
            self.put(f"reply {lane} {said.reply}")
        for severity, kind, code, task, program in said.faults:
            self.put(f"fault {severity} {kind}/{code} {self.tasks[task]} {'-' if program is None else self.programs[program]}")
        if self.machine.image != self.image:
            self.sets()
        return said

    def sets(self):
        """Lines of the watched places that have another value than before the event."""
        image, values = bytes(self.machine.image), list(self.values)
        for number in self.project.watched_where(self.image, image):
            name, kind, at = self.project.watches[number]
            values[number] = read(image, kind, at)
            if values[number] != self.values[number]:
                self.put(f"set {name} {values[number]}")
        self.image, self.values = image, values

    def end(self):
        return f"end {self.machine.now} {self.machine.steps} {self.machine.mode} lost {self.lost}"


def generated(number):
    """What `gen N` writes."""
    reporter = run(Reporter(Project(project_of(number))), read_journal(journal_of(number)))
    return f"gen {number} lines {len(reporter.lines)} lost {reporter.lost}\n{reporter.end()}\n"


def story(project, events):
    """The snapshots: tick and watched values before the first event, and right after each tick; the first of them alone are kept."""
    reporter = Reporter(project)
    snapshots = [(0, *reporter.values)]
    for event in events:
        for _ in range(event.count):
            reporter.event(event.verb, event.lane, event.action)
            if event.verb == "tick":
                snapshots.append((reporter.machine.now, *reporter.values))
    return snapshots[:MOST_SNAPSHOTS]


def run(reporter, events):
    for event in events:
        for made in range(event.count):
            if reporter.event(event.verb, event.lane, event.action).what == "idle":
                reporter.machine.steps += event.count - made - 1  # so are the steps that follow: none of them changes a thing
                break
    return reporter


def report(project, events):
    reporter = run(Reporter(project), events)
    return "".join(line + "\n" for line in [*reporter.lines, reporter.end()])


def trace(project, events):
    machine, lines = Machine(project), []
    for event in events:
        for _ in range(event.count):
            lines.append(seen(machine.event(event.verb, event.lane, event.action), event))
    return "".join(line + "\n" for line in [*lines, "end"])


VERBS = {"mode run": "run", "mode program": "program"}


def seen(said, event):
    """A line of the trace."""
    if said.what == "idle":
        return "idle"
    if said.what == "began":
        return f"began {said.task} {said.program} {said.version}"
    if said.what == "left":
        return f"left {said.task} {said.program} {said.left}"
    if said.what == "tick":
        return f"tick {said.released} {said.overlapped} {'-' if said.watchdog is None else said.watchdog}"
    if said.what == "step":
        return f"step {said.task} {said.program} {said.mark} {said.faults[0][0] if said.faults else '-'}"
    verb = VERBS.get(event.action.verb, event.action.verb)
    known = verb in ("accept", "test", "untest", "assemble", "cancel", "run", "program", "clear")
    program = "-" if said.program is None else said.program
    done = said.reply.startswith("ok")
    number = ":" + said.reply[3:] if verb == "accept" and done else ""
    return f"act {event.lane} {verb if known else 'other'} {program} {'ok' + number if done else 'no'} {said.released}"


OF_PROJECT = {"check": counted, "text": texts, "migrate": Project.migrated, "xref": xref}
OF_MORE = {"replay": replayed, "trace": traced, "cover": covered, "audit": audited, "laws": judged_by_laws, "link": linked}
KIND_OF = {"audit": "trace", "laws": "trace", "link": "link"}
