"""Laws between answers: of one project, of one journal, of a run and its trace."""

import json

from .bent import Bender
from .cases import example_files, file_text, journal_text, links, made_project, told
from .made import Maker
from .plain.journal import line_of, read_journal
from .plain.judge import generated, live, story
from .plain.link import LinkScript
from .plain.project import Project
from .sound import shown, unsound


class Broken(Exception):
    """A law that doesn't hold, in words."""


def got(program, statuses, verb, *contents, more=()):
    """The output at one of these statuses."""
    ran = program.answer(verb, *contents, more=more)
    wrong = unsound(ran, statuses)
    if wrong:
        raise Broken(f"{verb}: {wrong}")
    return ran


def law(judge):
    """A judge of files that raises what is broken."""
    def whole(program, contents, **more):
        try:
            return judge(program, contents, **more)
        except Broken as broken:
            return str(broken)
    return whole


def same(what, one, other):
    if one.status != other.status or one.out != other.out:
        raise Broken(f"{what}: {one.status} {shown(one.out)} and {other.status} {shown(other.out)}")


@law
def of_project(program, contents):
    """`migrate` and then `check` says what `check` says; so does `check` of a project with the rungs that `text` writes."""
    project = contents[0]
    checked = got(program, {0, 2}, "check", project)
    migrated = got(program, {checked.status}, "migrate", project)
    listed = got(program, {checked.status}, "text", project)
    if checked.status:
        for command in sorted({"migrate", "text", "xref"} & program.commands):
            same(f"{command}, check", got(program, {checked.status}, command, project), checked)
        return None
    same("check of the migrated project", got(program, {0}, "check", migrated.out), checked)
    same("migrate of the migrated project", got(program, {0}, "migrate", migrated.out), migrated)
    same("text of the migrated project", got(program, {0}, "text", migrated.out), listed)
    respelled = with_rungs(json.loads(project), listed.out.decode("latin-1"))
    same("check of the project as it is spelled", got(program, {0}, "check", respelled), checked)
    same("text of the project as it is spelled", got(program, {0}, "text", respelled), listed)
    if "xref" in program.commands:
        same("xref of the migrated project", got(program, {0}, "xref", migrated.out), got(program, {0}, "xref", project))
    return None


def with_rungs(project, text):
    """The project with the rungs of a text that `text` wrote."""
    lines = text.splitlines()
    for made in project["programs"]:
        for routine in made["routines"]:
            if lines.pop(0) != f"program {made['name']} routine {routine['name']}":
                raise Broken("text has no line of a routine")
            routine["rungs"] = [lines.pop(0) for _ in routine["rungs"]]
    return file_text(project)


@law
def of_journal(program, contents):
    """A report comes again; a journal that is cut after a line gives a report that begins alike; a trace that is written is kept."""
    project, journal = contents
    whole = got(program, {0, 2, 3}, "replay", project, journal)
    same("replay twice", got(program, {whole.status}, "replay", project, journal), whole)
    if whole.status:
        return None
    lines = journal.split(b"\n")
    end = next(at for at, line in enumerate(lines) if line.strip(b" ") == b"end")
    report = whole.out[:whole.out.rindex(b"end ")]
    for cut in sorted({1, end // 3, end // 2, end - 1} & set(range(end))):
        part = got(program, {0}, "replay", project, b"\n".join([*lines[:cut], b"end", b""])).out
        if not report.startswith(part[:part.rindex(b"end ")]):
            raise Broken(f"the report up to line {cut} doesn't begin the report")
    return of_trace(program, project, journal, whole)


def of_trace(program, project, journal, whole):
    trace = got(program, {0}, "trace", project, journal).out
    events = trace.count(b"\n") - 1
    if trace.count(b"\nact ") + trace.startswith(b"act ") != sum(line.split()[2] == b"reply" for line in whole.out.splitlines()[:-1]):
        raise Broken("the trace has other actions than the report")
    audited = got(program, {0}, "audit", project, trace).out
    if audited != b"yes %d\n" % events:
        raise Broken(f"audit of the trace: {shown(audited)}, of {events} events")


@law
def of_stations(program, contents):
    """The report; and of each station a member of the story first, and the story's last member last."""
    *files, count = contents
    whole = got(program, {0, 2, 3}, "replay", *files)
    ran = got(program, {whole.status}, "stations", *files, more=[count.decode()])
    if whole.status:
        return same("stations, replay", ran, whole)
    rest = ran.out[len(whole.out):]
    lines = [line.split() for line in rest.decode("latin-1").splitlines()]
    snapshots = story(Project(files[0]), read_journal(files[1]))
    names = [["station", str(at // 2)] for at in range(2 * int(count))]
    if not ran.out.startswith(whole.out) or [line[:2] for line in lines] != names:
        raise Broken(f"stations: {shown(rest)}")
    told = [tuple(map(int, line[2:])) for line in lines]
    if any(one != snapshots[-1] for one in told[1::2]) or not set(told[::2]) <= set(snapshots):
        raise Broken(f"stations: {shown(rest)}, and the last of the story is {snapshots[-1]}")
    return None


@law
def of_link(program, contents):
    """A's lines of a link are the report of A's events; B's lines that of B's."""
    *projects, script = contents
    ran = got(program, {0, 2, 3}, "link", *projects, script)
    if ran.status:
        return None
    lines = ran.out.decode("latin-1").splitlines()
    link = LinkScript(script, *(Project(project) for project in projects))
    journals = journals_of(link, [line for line in lines if line.startswith(("send", "deliver"))], lines)
    for side, project in zip("ab", projects):
        told = "".join(line[2:] + "\n" for line in lines if line.startswith(f"{side} "))
        journal = "".join(line + "\n" for line in [*journals[side], "end"]).encode("latin-1")
        replayed = got(program, {0}, "replay", project, journal).out.decode("latin-1")
        if replayed != told:
            raise Broken(f"the lines of {side} aren't the report of its events: {shown(told.encode())}, {shown(replayed.encode())}")
    return None


def journals_of(link, answers, lines):
    """The journal lines of both sides; a send's words are those that A's replies before it tell."""
    journals, packets, answers = {"a": [], "b": []}, [], iter(answers)
    sent = iter([at for at, line in enumerate(lines) if line.startswith("send ") and line != "send held"])
    for step in link.steps:
        if step[0] in journals:
            journals[step[0]].append(line_of(step[1]))
            continue
        answer = next(answers)
        if step[0] == "send" and answer != "send held":
            at = next(sent)
            packets.append([line.split()[-1] for line in lines[at - link.words:at]])
            journals["a"] += [f"out {link.head[0]} {word}" for word in range(link.words)]
        elif answer.endswith(" new"):
            journals["b"] += [f"in {link.head[1]} {word} {value}" for word, value in enumerate(packets[step[1]])]
    return journals


def of_live(program, contents):
    """What `logix_live` writes of lines on standard input is what the plain interpreter does: a refused line is told and not done."""
    project, lines = contents
    ran = program.run([program.put("file0", project)], given=lines, path=program.beside("logix_live"))
    wanted = live(project, lines)
    return told(ran, wanted[0], wanted[1].encode("latin-1")) if wanted else unsound(ran, {0})


def project_laws(draw, _):
    project = draw.choice(example_files())[0] if draw.random() < 0.05 else file_text(Maker(draw, draw.choice((0.0, 0.0, 0.003))).project())
    return of_project, [project]


sound_project, live_project, stations_project = made_project(0.0), made_project(0.0, 0.002), made_project(0.0, 0.0, 0.002)


def journal_laws(draw, _, made=None, __=None):
    maker, project = made or sound_project(draw)
    maker.draw = draw
    return of_journal, [project, journal_text(maker.journal(maker.between(10, 60)))]


def live_laws(draw, _, made=None, __=None):
    maker, project = made or live_project(draw)
    maker.draw = draw
    journal = journal_text(maker.journal())
    return of_live, [project, Bender(draw).text(journal) if draw.random() < 0.2 else journal]


def stations(draw, _, made=None, __=None):
    maker, project = made or stations_project(draw)
    maker.draw = draw
    return of_stations, [project, journal_text(maker.journal()), str(maker.between(1, 8)).encode()]


def link_laws(draw, program, made=None, at=None):
    return of_link, links(draw, program, made, at)[1]


def of_number(program, contents):
    """`gen N` writes what the plain interpreter makes of the generated project and journal."""
    number = contents[0].decode()
    return told(program.run(["gen", number]), 0, generated(int(number)).encode())


def numbers(draw, _):
    return of_number, [str(draw.choice((draw.randrange(100), draw.randrange(1 << 32)))).encode()]
