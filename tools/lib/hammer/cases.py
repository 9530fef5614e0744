"""Cases that the plain interpreter judges: what the program answers is what the rules say, byte for byte."""

import functools
import json
import os

from lib.paths import EXAMPLES, read_bytes

from .bent import Bender
from .made import Maker
from .plain.audit import Counting, Table, event_of
from .plain.judge import answer, kept_project
from .sound import shown, unsound


@functools.cache
def example_files():
    """The projects of the examples, each with its journal where it has one."""
    found = []
    for folder in sorted(os.listdir(EXAMPLES)):
        project, journal = f"{EXAMPLES}/{folder}/project.json", f"{EXAMPLES}/{folder}/journal.txt"
        if os.path.exists(project):
            found.append((read_bytes(project), read_bytes(journal) if os.path.exists(journal) else b"mode run\ncpu 9\nend\n"))
    return found


def first_difference(got, wanted):
    at = next((at for at, pair in enumerate(zip(got, wanted)) if pair[0] != pair[1]), min(len(got), len(wanted)))
    start = max(0, at - 80)
    return f"from byte {at}: got ..{shown(got[start:])}, wanted ..{shown(wanted[start:])}"


def told(ran, status, text):
    """What differs between an answer and the wanted one; None if nothing does."""
    if ran.err:
        return f"standard error: {shown(ran.err)}"
    if ran.status != status:
        return f"status {ran.status} with {shown(ran.out)}, wanted {status} with {shown(text)}"
    return None if ran.out == text else first_difference(ran.out, text)


def judged(verb):
    """Compares what the command answers with the plain interpreter."""
    def judge(program, contents):
        ran, wanted = program.answer(verb, *contents), answer([verb], contents)
        return told(ran, wanted[0], wanted[1].encode("latin-1")) if wanted else unsound(ran, {0})
    judge.command = verb
    return judge


def file_text(project):
    return json.dumps(project).encode("utf-8")


def journal_text(lines):
    return ("\n".join(lines) + "\n").encode("latin-1")


OF_JOURNAL, OF_PROJECT = ("replay", "replay", "replay", "replay", "trace"), ("check", "text", "migrate", "xref")
EVERY = 3  # of the cases on one project every third, up to the last command, reads the project alone


def made_project(*slips):
    """What makes a project, with one of these slips: its maker, who makes its journals too, and its text."""
    def make(draw):
        maker = Maker(draw, draw.choice(slips))
        return maker, file_text(maker.project())
    return make


def projects_of(made):
    """The texts of projects in what several cases share."""
    return [text for one in made for text in (one if isinstance(one, list) else [one]) if isinstance(text, bytes) and text.startswith(b"{")]


whole_project = made_project(0.0, 0.0, 0.0, 0.002, 0.01)


def whole(draw, program, made=None, at=None):
    """A made project and journal, with some slips; or the case of this number on a project that was made before, where no command reads the project alone twice."""
    maker, project = made or whole_project(draw)
    maker.draw = draw
    contents = [project, journal_text(maker.journal())]
    commands = OF_JOURNAL + OF_PROJECT if at is None else OF_JOURNAL if at % EVERY else OF_PROJECT[at // EVERY:][:1] or OF_JOURNAL
    verb = draw.choice([command for command in commands if command in program.commands] or ["replay"])
    return judged(verb), contents if verb in OF_JOURNAL else contents[:1]


def long_runs(draw, _):
    """A journal of some thousand steps."""
    maker = Maker(draw, 0.0)
    return judged("replay"), [file_text(maker.project()), journal_text(maker.journal(maker.between(50, 300)))]


ONE_ROUTINE = {
    "schema": 1, "controller": "C", "tags": [{"name": "n", "type": "DINT"}],
    "programs": [{"name": "P", "main": "M", "routines": [{"name": "M", "rungs": ["MOV(1,n);", "MOV(2,n);", "MOV(3,n);"]}]}],
    "tasks": [{"name": "T", "kind": "continuous", "programs": ["P"]}], "watch": ["n"],
}


EDIT_VERBS = ("accept", "accept", "accept", "accept", "accept", "test", "test", "untest", "assemble", "cancel", "cpu", "cpu")


def edit_runs(draw, _):
    """Some thousand edit commands of two lanes on one routine, each of whose rungs stores another number, with a few steps between."""
    lines, number = ["mode run"], 3
    for _ in range(2000):
        client, verb = draw.choice((0, 0, 0, 0, 0, 0, 0, 1)), draw.choice(EDIT_VERBS)
        if verb == "cpu":
            lines.append(f"cpu {draw.randint(1, 8)}")
        elif verb == "accept":
            edits = []
            for _ in range(draw.randint(1, 4)):
                number += 1
                what, rung = draw.choice("rddii"), draw.randint(0, 6)
                edits.append(f"d {rung}" if what == "d" else f"{what} {rung} MOV({number},n);")
            lines.append(f"@{client} accept P M " + " | ".join(edits))
        else:
            lines.append(f"@{client} {verb} P")
    return judged("replay"), [file_text(ONE_ROUTINE), journal_text([*lines, "cpu 20", "end"])]


def projects(draw, program):
    """A made or an example's project with mutations."""
    if draw.random() < 0.4:
        contents, _ = draw.choice(example_files())
    else:
        contents = file_text(Maker(draw, 0.0).project())
    bender = Bender(draw)
    if draw.random() < 0.6:
        contents = bender.value(json.loads(contents))
    if draw.random() < 0.5:
        contents = bender.text(contents)
    return judged(draw.choice(("check", "check", "text"))), [contents]


def journals_project(draw):
    """A made project with its maker, or an example's with its journal."""
    return (None, *draw.choice(example_files())) if draw.random() < 0.4 else (*made_project(0.0, 0.01)(draw), None)


def journals(draw, program, made=None, _=None):
    """A made or an example's journal with mutations."""
    maker, project, journal = made or journals_project(draw)
    if maker:
        maker.draw = draw
        journal = journal_text(maker.journal())
    return judged("replay"), [project, Bender(draw).text(journal)]


def cuts(draw, program):
    """An example's project or journal, cut at some byte."""
    project, journal = draw.choice(example_files())
    if draw.random() < 0.5:
        return judged("check"), [project[:int(draw.random() * (len(project) + 1))]]
    return judged("replay"), [project, journal[:int(draw.random() * (len(journal) + 1))]]


def traced(draw):
    """A made project, and the trace of a run of it."""
    maker, project = made_project(0.0)(draw)
    wanted = answer(["trace"], [project, journal_text(maker.journal())])
    return project, wanted[1].encode("latin-1") if wanted and wanted[0] == 0 else b"idle\nend\n"


def doctored(draw, made, at, changes, bent):
    """A trace of a made run with one of these numbers of changes, or sometimes bent; of several on one run the first alone has perhaps none."""
    project, trace = made or traced(draw)
    bender = Bender(draw)
    for _ in range(draw.choice(changes if not at else [count for count in changes if count])):
        trace = bender.trace(trace)
    return [project, bender.text(trace) if draw.random() < bent else trace]


def traces(draw, _, made=None, at=None):
    """A trace of a made run, or another project's, doctored: lines dropped, doubled and swapped, marks and numbers changed."""
    return judged("audit"), doctored(draw, made, at, (0, 1, 1, 2, 3, 8), 0.15)


TASKS = [
    {"name": "C", "kind": "continuous", "programs": ["P0"]}, {"name": "E", "kind": "event", "priority": 5, "programs": ["P1", "P2"]},
    {"name": "F", "kind": "periodic", "priority": 5, "period": 2, "programs": ["P3"]},
    {"name": "G", "kind": "event", "priority": 5, "inhibited": True, "programs": ["P4"]},
    {"name": "H", "kind": "event", "priority": 1, "programs": ["P5"]},
]
PROJECT = {
    "schema": 2, "controller": "C", "tasks": TASKS,
    "programs": [{"name": f"P{at}", "main": "M", "routines": [{"name": "M", "rungs": []}]} for at in range(6)],
}


def walks(draw, _):
    """A trace that walks along the laws event by event, and breaks one now and then."""
    table = Table(kept_project(file_text(PROJECT)))
    counting, lines = Counting(table), ["act 31 run - ok 1"]
    counting.count(event_of(lines[0].split(" "), table))
    slips = {None: 1.0, 1: draw.choice((0.0, 0.0, 0.01)), 2: 0.2, 3: 0.03}
    for _ in range(draw.randrange(5, 120)):
        line = walked(draw)
        event = event_of(line.split(" "), table)
        if draw.random() < slips[counting.breach(event)]:
            lines.append(line)
            counting.count(event)
    return judged("audit"), [file_text(PROJECT), journal_text([*lines, "end"])]


MARKS = ("-", "-", "-", "up", "down", "sync", "syncend", "copy", "trigger:1", "trigger:4", "trigger:3")
# Lines of a trace: a text, and the words for its blanks; `at` is a task with a program, mostly one of its own.
LINES = (
    ("idle",), ("began {at} {}", (0, 0, 1, 2)), ("step {at} {} {}", MARKS, ("-", "-", "-", "minor", "major")), ("step {at} {} -", MARKS), ("step {at} - -",),
    ("left {at} {}", ("ended", "on")), ("tick {} 0 -", range(32)), ("tick 0 0 -",), ("tick {} {} {}", (2, 4, 6), range(32), ("-", "-", "-", "1")),
    ("act {} other - ok {}", range(32), (0, 2, 16)), ("act 0 accept {program} ok:{} 0", (1, 2)),
    ("act 0 {} {program} {} 0", ("test", "untest", "assemble", "cancel"), ("ok", "ok", "no")), ("act 31 {} - {} {}", ("program", "run", "clear"), ("ok", "no"), (0, 1)),
)
WHERE = ("0 0",) * 3 + ("1 0", "1 1", "1 2") * 2 + ("2 3",) * 6 + ("3 4",) * 3 + ("4 5",) * 3


def walked(draw):
    """Some line of a trace, of the five tasks."""
    text, *words = draw.choice(LINES)
    where = draw.choice(WHERE)
    return text.format(*map(draw.choice, words), at=where, program=where[2:])


def links_projects(draw):
    """Two made controllers with a connection each: their makers, and their texts."""
    made = []
    for direction in ("out", "in"):
        maker = Maker(draw, draw.choice((0.0, 0.0, 0.0, 0.001)))
        project = maker.project()
        dim = {"dim": draw.choice((1, 2, 2, 3))} if draw.random() < 0.5 else {}
        project["tags"].append({"name": "Link", "type": "DINT", **dim})
        project["connections"].append({"name": "Link", "tag": "Link", "direction": direction})
        project["watch"] = project["watch"][:200] + (["Link[0]"] if dim else ["Link"])
        if draw.random() < 0.5:
            text = "ADD(Link[0],1,Link[0]);" if dim else "ADD(Link,3,Link);"
            project["programs"][0]["routines"][0]["rungs"].append(text)
        made.append((maker, project))
    if draw.random() < 0.8:
        made[1][1]["tags"][-1] = dict(made[0][1]["tags"][-1])
        made[1][1]["watch"][-1] = made[0][1]["watch"][-1]
        routine = made[1][1]["programs"][0]["routines"][0]
        routine["rungs"] = [one for one in routine["rungs"] if "Link" not in one]
    return [maker for maker, _ in made], [file_text(project) for _, project in made]


def links(draw, _, made=None, __=None):
    """Two controllers, and a link script that loses, repeats and reorders."""
    makers, projects = made or links_projects(draw)
    for maker in makers:
        maker.draw = draw
    text = journal_text(link_script(draw, makers))
    return judged("link"), [*projects, Bender(draw).text(text) if draw.random() < 0.2 else text]


def link_script(draw, makers):
    lines = ["link Link Link" if draw.random() < 0.97 else draw.choice(("link In1 Link", "link Link Out2", "link link LINK", "link Link"))]
    lines += ["a mode run", "b mode run"][:draw.choice((0, 1, 2, 2, 2))]
    for _ in range(draw.randrange(3, 30)):
        chance = draw.random()
        if chance < 0.25:
            lines.append("send")
        elif chance < 0.5:
            lines.append(f"deliver {draw.randrange(0, 6)}")
        else:
            side = draw.randrange(2)
            lines += [f"{'ab'[side]} {line}" for line in makers[side].journal_lines()]
    return [*lines, "end"]
