"""Explorations: what `logix_explore` answers of all journals of a made script is what the plain explorer finds, and a journal that it writes
is one of the script, shows its line at its last event, and shows none before."""

import re
from types import SimpleNamespace

from .bent import Bender
from .cases import file_text, journal_text, told
from .laws import Broken, law
from .made import Maker
from .plain.explore import MOST_STATES, OPENING, Node, Search, TooMany, canonical
from .plain.journal import Bad, Script, line_of, read_journal
from .plain.judge import Reporter, answer, searched
from .plain.project import Project, read
from .plain.question import Question
from .plain.reader import Fault
from .sound import shown

HEAD = re.compile(rb"# line ([0-9]+) after step ([0-9]+), tick ([0-9]+)\n")
UNKNOWN = re.compile(rb"unknown (0|[1-9][0-9]*)\n")
NAME, REFUSED = "logix_explore", (2, 3, 7)
MOST_STEPS, MOST_JOURNALS = 100, 500  # in a script that is explored here; that are tried one after another too


@law
def of_exploration(program, contents):
    """A project, a script and a question."""
    if is_long(contents[1]):
        return None
    ran = program.run([program.put(f"file{at}", one) for at, one in enumerate(contents)], path=program.beside(NAME))
    status, text = answer(["explore"], contents)
    if status in REFUSED:
        return told(ran, status, text.encode("latin-1"))
    search, _ = searched(Project(contents[0]), *contents[1:])
    found = search.found()
    judge_layers(search, found)
    if ran.err or ran.status not in (8, 9) or (status == ran.status == 0):
        return told(ran, status, text.encode("latin-1"))
    if ran.status == 9:
        judge_unknown(search, found, ran.out)
    else:
        judge_journal(program, contents, search, found, ran.out)
    return None


def is_long(script):
    try:
        return Script(script).steps > MOST_STEPS
    except Bad:
        return False


def judge_layers(search, found):
    """What the layers say, journals one after another say too, where these are few."""
    try:
        least = search.least(MOST_JOURNALS)
    except TooMany:
        return
    if found.what == "unknown" or least != (found.steps if found.what == "shown" else None):
        raise Broken(f"plain explorers: {found.what} {found.steps}, and one after another {least}")


def judge_unknown(search, found, out):
    """The layer has too many states, and before it nothing holds."""
    said = UNKNOWN.fullmatch(out)
    if not said or (found.what == "shown" and found.steps < int(said[1])) or not is_too_large(search, int(said[1])):
        raise Broken(f"{shown(out)}, and {found.what} {found.steps}")


def is_too_large(search, steps):
    """Whether the layer of so many steps has more states than it may have, and none before it."""
    layers = Search(search.project, search.script, SimpleNamespace(within=search.question.within, line_of=lambda *_: None)).layers(MOST_STATES)
    try:
        for _ in range(steps):
            next(layers, None)
    except TooMany:
        return False
    try:
        next(layers, None)
    except TooMany:
        return True
    return False


def judge_journal(program, contents, search, found, out):
    """Its head, its form, its events, where it shows its line, and its report. Too many states aren't too many for a line that holds there."""
    head = HEAD.match(out)
    if not head or found.what == "never":
        raise Broken(f"{shown(out)}, wanted {found.what}")
    line, steps, ticks = map(int, head.groups())
    if steps != found.steps:
        raise Broken(f"after step {steps}, wanted {found.steps}")
    try:
        events = read_journal(out)
    except Bad as bad:
        raise Broken(f"no journal: {bad.code} line {bad.line}") from None
    if out != head[0] + journal_text(canonical(single(events))):
        raise Broken("the journal isn't canonical")
    moment = Moment(search)
    for at, event in enumerate(single(events)):
        moment.make(at, event)
    if (moment.shown, moment.steps, moment.ticks) != (line - 1, steps, ticks):
        raise Broken(f"{shown(head[0])}, but line {moment.shown}, from 0, after step {moment.steps}, tick {moment.ticks}")
    replayed, wanted = program.answer("replay", contents[0], out), "".join(f"{one}\n" for one in [*moment.reporter.lines, moment.reporter.end()])
    wrong = told(replayed, 0, wanted.encode("latin-1"))
    if wrong:
        raise Broken(f"the journal's report: {wrong}")


def single(events):
    return [event._replace(count=1) for event in events for _ in range(event.count)]


class Moment:
    """Follows a journal event by event, and raises what no journal of the script within the window has."""

    def __init__(self, search):
        self.script, self.question, self.reporter = search.script, search.question, Reporter(search.project)
        self.rest = [list(lane) for lane in search.script.lanes]
        self.steps, self.ticks, self.shown, self.is_due = 0, 0, None, False

    def make(self, at, event):
        if self.shown is not None:
            raise Broken(f"event {at} comes after one that shows line {self.shown}, from 0")
        if (event == OPENING) != (at == 0) or (event.verb == "tick") != self.is_due:
            raise Broken(f"event {at}: {line_of(event)}")
        if event.verb == "cpu":
            self.step(at)
        elif event.verb == "tick":
            self.ticks, self.is_due = self.ticks + 1, False
        elif at:
            self.take(at, event)
        said = self.reporter.event(event.verb, event.lane, event.action)
        if said.reply == "held":
            raise Broken(f"event {at} is held")
        self.in_window(at, self.ticks)
        self.shown = self.question.line_of(self.reporter.machine, said)

    def step(self, at):
        if self.steps >= self.script.steps and not self.reporter.machine.is_syncing():
            raise Broken(f"event {at}: step {self.steps + 1} of {self.script.steps}")
        self.steps += 1
        self.is_due = self.steps % self.script.pace == 0
        self.in_window(at, self.ticks + self.is_due)

    def take(self, at, event):
        if event.lane >= len(self.rest) or not self.rest[event.lane]:
            raise Broken(f"event {at} is no action of lane {event.lane}")
        due, action = self.rest[event.lane].pop(0)
        if action != event.action or due > self.ticks:
            raise Broken(f"event {at}, at tick {self.ticks}: {line_of(event)}")

    def in_window(self, at, ticks):
        if self.question.within is not None and any(lane and lane[0][0] + self.question.within < ticks for lane in self.rest):
            raise Broken(f"event {at}: an action is late")


# ---- made cases

SIGNS = ("=", "=", "=", "<>", "<", "<=", ">", ">=")


def explorations(draw, _):
    """A made project or a small cell, a script of a few steps and actions, and a question of what a journal of it shows; some with slips."""
    maker = Maker(draw, draw.choice((0.0, 0.0, 0.0, 0.002)))
    described = cell(draw) if draw.random() < 0.6 else maker.project()
    action = (lambda: cell_action(draw)) if described["controller"] == "Cell" else (lambda: small_action(draw, maker))
    project, script = file_text(described), journal_text(small_script(draw, action))
    question = wanted_question(draw, described, project, script)
    files = [project, script, question]
    if draw.random() < 0.1:
        at = draw.choice((0, 1, 2, 2, 2))
        files[at] = Bender(draw).text(files[at])
    return of_exploration, files


def wanted_question(draw, described, project, script):
    """A question that the opening shows nothing of, mostly."""
    seen = seen_values(draw, project, script)
    for _ in range(5):
        text = journal_text(made_question(draw, described, seen))
        try:
            lines = Question(Project(project), text).lines if seen else ()
        except Bad:
            break
        if not any(line.holds(seen[0], line.program) for line in lines):
            break
    return text


# A scan of each takes a few steps.
CELL_RUNGS = (
    "MOV(Local:1:I[0],a);", "MOV(Local:1:I[1],b);", "MOV(a,b);", "ADD(a,1,a);", "EQU(a,b)OTE(x);", "XIC(x)OTE(y);", "XIO(y)OTE(x);", "XIC(x)EVENT(E);",
    "UID()MOV(Local:1:I[0],a)MOV(Local:1:I[1],b)UIE();", "CPS(Local:1:I[0],d[0],2);", "COP(Local:1:I[0],d[0],2);", "JSR(S,1,a,b);", "OTU(x)OTL(x);", "[XIC(x),XIC(y)]OTE(Local:2:O.0);",
)


def cell(draw):
    """A continuous task, an event task that the input triggers, and perhaps a periodic one, each of a rung or two."""
    kinds = [{"kind": "continuous"}, {"kind": "event", "priority": 2}, {"kind": "periodic", "priority": draw.choice((2, 9)), "period": 1}]
    tasks = [{"name": name, **kind, "programs": [program]} for name, program, kind in zip("CEF", "PQR", kinds)][:draw.choice((1, 2, 2, 3))]
    rungs = [rung for rung in CELL_RUNGS if len(tasks) > 1 or "EVENT" not in rung]
    routines = [[{"name": "M", "rungs": draw.choices(rungs, k=draw.choice((1, 1, 2)))}, {"name": "S", "rungs": ["SBR(c)RET(c);"]}] for _ in tasks]
    tags = [*({"name": name, "type": kind} for name, kind in zip("abcxy", ("DINT", "DINT", "DINT", "BOOL", "BOOL"))), {"name": "d", "type": "DINT", "dim": 2},
            {"name": "Local:1:I", "type": "DINT", "dim": 2}, {"name": "Local:2:O", "type": "DINT"}]
    source = {"name": "In1", "tag": "Local:1:I", "direction": "in", **({"trigger": "E"} if len(tasks) > 1 and draw.random() < 0.8 else {})}
    return {
        "schema": 2, "controller": "Cell", "tags": tags, "tasks": tasks, "connections": [source, {"name": "Out2", "tag": "Local:2:O", "direction": "out"}],
        "programs": [{"name": program, "main": "M", "routines": made} for program, made in zip("PQR", routines)],
        "watch": ["a", "b", "c", "x", "y", "d[0]", "d[1]", "Local:1:I[0]", "Local:1:I[1]", "Local:2:O.0"],
    }


def cell_action(draw):
    rung = draw.choice(("ADD(a,7,a);", "MOV(9,b);", "XIC(y)OTE(x);", "CPS(Local:1:I[0],d[0],2);"))
    return draw.choice((
        *(f"in In1 {draw.randrange(2)} {draw.randrange(4)}" for _ in range(6)), *(f"accept P M {what} 0 {rung}" for what in "rir"), "test P", "test P", "untest P",
        "assemble P", "cancel P", "mode program", "mode run", "force In1 0 -1 5", "force enable", "out Out2 0", "clear",
    ))


def small_script(draw, action):
    """Up to four actions, of up to four lanes, and up to ten steps, or of one or two actions up to thirty."""
    actions = draw.randrange(5)
    steps, pace = draw.randint(1, 10 if actions > 2 else 30), draw.choice((1, 2, 3, 5, 8, 40))
    lanes = max(1, draw.randrange(5)) if actions else draw.randrange(3)
    ticks = sorted(draw.randrange(steps // pace + 1) if draw.random() < 0.6 else 0 for _ in range(actions))
    return [f"run {steps} {pace} {lanes}", *(f"@{draw.randrange(lanes)} {tick} {action()}" for tick in ticks), "end"]


def small_action(draw, maker):
    """Half of them words for an input."""
    return f"in In1 {draw.randrange(2)} {maker.number()}" if draw.random() < 0.5 else maker.action()


def seen_values(draw, project, script):
    """The values of the watched places after each event of some journal; none if a file is refused."""
    seen = []

    def note(machine, _):
        seen.append([read(machine.image, kind, at) for _, kind, at in machine.project.watches])

    try:
        search = Search(Project(project), Script(script), SimpleNamespace(within=None, line_of=note))
    except (Fault, Bad):
        return seen
    node = Node(search)
    while node:
        choices = [node.stepped, *(lambda lane=lane: node.acted(lane) for lane in range(len(search.script.lanes)))]
        draw.shuffle(choices)
        node = next((made for made in (choice() for choice in choices) if made), None)
    return seen


def made_question(draw, described, seen):
    """One to three lines; the first test of most is of what changed in the journal."""
    watches = described["watch"] or ["a"]
    later = [(at, values[at]) for values in seen for at in range(len(watches)) if values[at] != seen[0][at]]
    lines = [f"within {draw.choice((0, 0, 1, 1, 2, 3, 100))}"] if draw.random() < 0.4 else []
    for _ in range(draw.choice((1, 1, 1, 2, 3))):
        tests = [made_test(draw, watches, seen) for _ in range(draw.choice((0, 0, 1, 1, 2)))]
        if later and (not tests or draw.random() < 0.8):
            at, value = draw.choice(later)
            tests.insert(0, draw.choice((f"{watches[at]} = {value}", f"{watches[at]} <> {seen[0][at]}")))
        line = "never " + " and ".join(tests or [made_test(draw, watches, seen)])
        lines.append(line + (f" at {draw.choice(described['programs'])['name']}" if draw.random() < 0.3 else ""))
    if draw.random() < 0.12:
        lines.insert(draw.randrange(len(lines) + 1), draw.choice(SLIPS))
    return [*lines, "end"]


SLIPS = (
    "", "# never", "within 1", "never", "never zz = 1", "never zz = x", "never a = 2147483648", "never a == 1", "never a = 1 or a = 2", "never a = 1 at", "never a = 1 at Zz",
    "never zz = 1 at Zz", "within", "within -1", "within 4294967296", "always a = 1", "end", "never a = 1 and", "NEVER a = 1",
    "never " + " and ".join(["zz = 1"] * 17),
)


def made_test(draw, watches, seen):
    """Of two places, or of one and a number, often one that was seen."""
    at, sign = draw.randrange(len(watches)), draw.choice(SIGNS)
    name = watches[at] if draw.random() < 0.8 else watches[at].upper()
    if draw.random() < 0.2:
        return f"{name} {sign} {draw.choice(watches)}"
    value = draw.choice(seen)[at] if seen and draw.random() < 0.5 else draw.choice((0, 1, 2, -1, draw.randrange(-(1 << 31), 1 << 31)))
    return f"{name} {sign} {value}"
