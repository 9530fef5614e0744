"""Scripts: `run` writes a journal that is complete for its script, counted here, and the report of that journal."""

from .bent import Bender
from .cases import first_difference, journal_text, made_project, told
from .laws import Broken, got, law
from .plain.journal import Bad, Script, line_of, read_journal
from .plain.judge import Reporter
from .plain.project import Project
from .sound import shown

MOST_PLAIN = 3_000


@law
def of_script(program, contents, plain=True):
    project, text = contents
    checked = program.answer("check", project)
    try:
        script = Script(text)
    except Bad as bad:
        if checked.status == 0:
            return told(program.answer("run", project, text), 3, f"script {bad.code} line {bad.line}\n".encode())
        return told(program.answer("run", project, text), checked.status, checked.out)
    if checked.status:
        return told(program.answer("run", project, text), checked.status, checked.out)
    judge_answer(program, project, script, got(program, {0}, "run", project, text).out, plain or b"cps" in (project + text).lower())
    return None


def judge_answer(program, project, script, out, plain=True):
    """Raises what is wrong with the output of a `run`. Its report is that of `replay`; is it that of the plain interpreter too?"""
    journal, end, report = out.partition(b"\nend\n")
    journal += end
    replayed = got(program, {0}, "replay", project, out)
    if replayed.out != report:
        raise Broken(f"the journal's report: {shown(replayed.out)}, and not {shown(report)}")
    events = read_journal(journal)
    if "".join(line_of(event) + "\n" for event in events) + "end\n" != journal.decode("latin-1"):
        raise Broken("the journal isn't canonical")
    steps = complete(script, events, report)
    if script.steps <= MOST_PLAIN and (plain or steps != script.steps):
        wanted = needed(Project(project), events, script.steps).encode("latin-1")
        if wanted != report:
            raise Broken(f"the report: {first_difference(report, wanted)}")


def complete(script, events, report):
    """Lane 31's `mode run` first; each lane's actions once, in order, none too early; a tick after each PACE-th step; all steps.

    Answers how many there are.
    """
    if not events or line_of(events[0]) != "mode run":
        raise Broken("no mode run first")
    steps = ticks = 0
    rest = [list(lane) for lane in script.lanes]
    for event in events[1:]:
        if event.verb == "cpu":
            steps += event.count
            if steps // script.pace > ticks + (steps % script.pace == 0):
                raise Broken(f"no tick after step {(ticks + 1) * script.pace}")
        elif event.verb == "tick":
            ticks += 1
            if event.count != 1 or steps != ticks * script.pace:
                raise Broken(f"tick {ticks} after step {steps}")
        else:
            if steps // script.pace > ticks:
                raise Broken(f"an action between step {steps} and its tick")
            take(rest, event, ticks)
    if any(rest):
        raise Broken("actions are missing")
    if steps // script.pace != ticks or steps < script.steps:
        raise Broken(f"{steps} steps and {ticks} ticks")
    if b" held\n" in report:
        raise Broken("an action is held")
    return steps


def needed(project, events, steps):
    """The plain report. Steps beyond the script's are made only while a CPS is open, and at the end none is."""
    reporter = Reporter(project)
    machine = reporter.machine
    for event in events:
        for _ in range(event.count):
            if event.verb == "cpu" and machine.steps >= steps and not machine.is_syncing():
                raise Broken(f"step {machine.steps + 1} of {steps}, and no CPS is open")
            reporter.event(event.verb, event.lane, event.action)
    if machine.is_syncing():
        raise Broken("a CPS is open at the end")
    return "".join(line + "\n" for line in [*reporter.lines, reporter.end()])


def take(rest, event, ticks):
    if event.lane >= len(rest) or not rest[event.lane]:
        raise Broken(f"an action too many of lane {event.lane}")
    at, action = rest[event.lane].pop(0)
    if action != event.action:
        raise Broken(f"another action of lane {event.lane}: {line_of(event)}")
    if ticks < at:
        raise Broken(f"an action of tick {at} at tick {ticks}")


scripts_project, lanes_project = made_project(0.0, 0.0, 0.003), made_project(0.0)


def scripts(draw, _, made=None, __=None):
    """A few lanes, and mutations."""
    maker, project = made or scripts_project(draw)
    maker.draw = draw
    script = journal_text(maker.script())
    return of_script, [project, Bender(draw).text(script) if draw.random() < 0.4 else script]


def many_lanes(draw, _, made=None, __=None):
    """1 to 31 lanes, with many actions."""
    return of_script, on_lanes(draw, made, (200, 3_000), (1, 2, 5, 10, 50), 12)


@law
def of_threads(program, contents):
    """The same, on so many processors; the plain interpreter's report only where a CPS may be open."""
    *files, processors = contents
    with program.on(int(processors)):
        return of_script(program, files, plain=False)


def threads(draw, _, made=None, __=None):
    """1 to 31 lanes that meet often, on 2 and on 4 processors."""
    return of_threads, [*on_lanes(draw, made, (10, 250), (1, 2, 5, 20), 4), draw.choice((b"2", b"4"))]


def on_lanes(draw, made, steps, paces, most):
    """A project, and a script of 1 to 31 lanes with up to so many actions each."""
    maker, project = made or lanes_project(draw)
    maker.draw = draw
    lanes, steps, pace = maker.between(1, 31), maker.between(*steps), maker.pick(paces)
    lines = []
    for lane in range(lanes):
        ticks = sorted(maker.between(0, steps // pace) for _ in range(maker.between(0, most)))
        lines += [f"@{lane} {tick} {maker.action()}" for tick in ticks]
    if draw.random() < 0.5:
        lines = interleaved(draw, lines)
    return [project, journal_text([f"run {steps} {pace} {lanes}", *lines, "end"])]


def interleaved(draw, lines):
    """The same lines, lanes mixed; each lane's in order."""
    queues = {}
    for line in lines:
        queues.setdefault(line.split()[0], []).append(line)
    mixed = []
    while queues:
        lane = draw.choice(sorted(queues))
        mixed.append(queues[lane].pop(0))
        if not queues[lane]:
            del queues[lane]
    return mixed
