"""Made scenarios on made projects: each verdict of tools/scenario is that of a second reading over the plain interpreter's run of the same
journal, and the report that it writes is the plain interpreter's."""

import contextlib
import io
import os
import shutil

from lib.paths import read_bytes

from .cases import file_text, first_difference
from .laws import Broken, law
from .made import Maker
from .outside import scenario
from .plain.journal import read_journal
from .plain.judge import MOST_EVENTS, Reporter
from .plain.project import Project, read
from .plain.required import COMPARED, Requirement

BITS_OF_INPUT, LAST, SECONDS = 4, 60, "20"


class Ran:
    """The run of a journal on the copy of the project: its moments, faults and answers, by the plain interpreter."""

    def __init__(self, copy, journal, names, commands):
        project, self.moments, self.faults, self.answers = Project(copy), [], [], []
        self.commands, self.taken = commands, set()
        places = {name.lower(): project.scoped(name, ()) for name in names}
        programs = [program["name"].lower() for program in project.programs]
        self.reporter = Reporter(project)
        for event in journal:
            for _ in range(event.count):
                self.note(self.reporter.event(event.verb, event.lane, event.action), event.lane, places, programs)

    def note(self, said, lane, places, programs):
        machine = self.reporter.machine
        values = {name: read(machine.image, kind, at) for name, (kind, at) in places.items()}
        self.moments.append((machine.now, values, programs[said.program] if said.left == "ended" else None))
        self.faults += [(fault[0], f"{fault[1]}/{fault[2]}") for fault in said.faults]
        if lane is not None and lane != 31 and said.reply != "held":
            self.answers.append(said.reply)

    def report(self):
        return "".join(line + "\n" for line in [*self.reporter.lines, self.reporter.end()]).encode("latin-1")

    def answer(self, time, lane):
        """The answer to the first command of this time and lane that nothing asked about yet."""
        at = next((at for at, command in enumerate(self.commands) if command == (time, lane) and at not in self.taken), None)
        if at is None:
            return None
        self.taken.add(at)
        return self.answers[at]

    def unasked(self, asks_faults):
        refused = [at for at, answer in enumerate(self.answers) if answer.startswith("refused") and at not in self.taken]
        return bool(refused) or (not asks_faults and any(severity == "major" for severity, _ in self.faults))


class Called:
    """A call of tools/scenario in a folder of its own."""

    def __init__(self, program, project, text):
        # (what a project is answered is kept by its path, so each case has another)
        self.folder = f"{program.room}/scenario-{program.runs}"
        program.runs += 1
        os.makedirs(f"{self.folder}/programs")
        for name in ("logix", "logix_live"):
            os.symlink(program.beside(name) or program.path, f"{self.folder}/programs/{name}")
        for name, contents in (("p.json", project), ("day.scenario", text)):
            with open(f"{self.folder}/{name}", "wb") as file:
                file.write(contents)
        out, err = io.StringIO(), io.StringIO()
        words = [f"{self.folder}/day.scenario", "--journal", f"{self.folder}/j.txt", "--report", f"{self.folder}/r.txt", "--seconds", SECONDS,
                 "--programs", f"{self.folder}/programs"]
        with contextlib.redirect_stdout(out), contextlib.redirect_stderr(err):
            self.status = scenario(words)
        self.out, self.err = out.getvalue(), err.getvalue()

    def file(self, name):
        return read_bytes(f"{self.folder}/{name}")


@law
def of_scenario(program, contents):
    called = Called(program, *contents)
    try:
        return judge(program, called, contents[1].decode())
    finally:
        shutil.rmtree(called.folder)


def judge(program, called, text):
    program.tally("scenario", f"status {called.status}")
    if called.status == 2 and called.err and not called.out:
        return None  # (a tag that can't be set, which it says)
    if called.status not in (0, 1) or called.err:
        raise Broken(f"status {called.status}: {called.err[:300]}")
    done, _, required = text.partition("require\n")
    requirements = [Requirement(line) for line in required.splitlines()]
    journal = read_journal(called.file("j.txt"))
    if sum(event.count for event in journal) > MOST_EVENTS:
        return None
    commands = [(int(line.split(" ")[1]), int(line.split(" ")[3].rstrip(":"))) for line in done.splitlines() if " engineer " in line]
    ran = Ran(called.file("j.project.json"), journal, {name for one in requirements for name in one.names()}, commands)
    if ran.report() != called.file("r.txt"):
        raise Broken(f"the report: {first_difference(called.file('r.txt'), ran.report())}")
    return compare(called, requirements, ran, required.splitlines())


def compare(called, requirements, ran, lines):
    told = [line[:4] for line in called.out.split("\n\n")[0].splitlines() if line[:6] in ("ok    ", "FAIL  ")]
    for at, (one, line) in enumerate(zip(requirements, lines)):
        holds = one.holds(ran)
        if told[at] != ("ok  " if holds else "FAIL"):
            raise Broken(f"{line}: {told[at].strip()}, and by the plain reading it {'holds' if holds else 'falls short'}")
    unasked = ran.unasked(any(one.words[0] == "faults" for one in requirements))
    wanted = 1 if unasked or "FAIL" in told[:len(lines)] else 0
    return None if called.status == wanted else f"status {called.status}, and not {wanted}"


# ---- made scenarios

class Made:
    def __init__(self, draw):
        self.draw, self.maker = draw, Maker(draw, 0.0)
        self.project = self.maker.project()
        self.names = [text for text in self.project["watch"] if text.isascii()] or ["Local:1:I[0]"]
        self.last = draw.randrange(1, LAST)

    def text(self):
        lines = ["project p.json", self.pace(), *sorted(self.settings(), key=lambda line: int(line.split(" ")[1].rstrip(":"))), f"run {self.last} ms", "require"]
        lines += [self.requirement() for _ in range(self.draw.randrange(1, 9))]
        return "".join(line + "\n" for line in lines if line)

    def pace(self):
        return self.draw.choice(("", "pace 1 ms, 1 scan", "pace 5 ms, 2 scans", "pace 3 ms, 7 steps", "pace 1 ms, 20 steps", "pace 10 ms, 50 steps"))

    def settings(self):
        made = []
        for _ in range(self.draw.randrange(0, 6)):
            at, what = self.draw.randrange(self.last + 1), self.draw.random()
            if what < 0.6:
                lasts = self.draw.choice(("", "", f" for {self.draw.randrange(1, 9)}"))
                made.append(f"at {at}: Local:1:I[{self.draw.randrange(2)}].{self.draw.randrange(BITS_OF_INPUT)} = {self.draw.randrange(2)}{lasts}")
            elif what < 0.7:
                made.append(f"at {at}: {self.draw.choice(self.names)} = {self.draw.randrange(2)}")
            else:
                made.append(f"at {at} engineer {self.draw.randrange(3)}: {self.maker.edit()}")
        return made

    def test(self, depth=0):
        if depth > 2 or self.draw.random() < 0.4:
            other = self.draw.choice(self.names) if self.draw.random() < 0.3 else self.draw.choice((0, 0, 1, 1, 2, 5, -1))
            return f"{self.draw.choice(self.names)} {self.draw.choice(list(COMPARED))} {other}"
        word = self.draw.choice(("not", "and", "or", "->"))
        if word == "not":
            return f"not ({self.test(depth + 1)})"
        return f"({self.test(depth + 1)}) {word} ({self.test(depth + 1)})"

    def requirement(self):
        draw, time = self.draw, self.draw.randrange(self.last + 1)
        return draw.choice((
            f"at {time}: {self.test()}", f"always: {self.test()}", f"never: {self.test()}", f"always at {draw.choice(self.maker.names)}: {self.test()}",
            f"never at {draw.choice(self.maker.names)}: {self.test()}", f"within {draw.randrange(9)} of {self.test()}: {self.test()}",
            f"within {draw.randrange(9)} of {self.test()}: {self.test()}", f"end: {self.test()}",
            f"at {time} engineer {draw.randrange(3)}: {draw.choice(('ok', 'refused', 'refused E10'))}",
            f"faults: {draw.choice(('none', '6/2', '4/4', '4/4, 6/2', '4/20'))}"))


def scenarios(draw, _):
    made = Made(draw)
    return of_scenario, [file_text(made.project), made.text().encode()]
