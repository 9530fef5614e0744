"""Traces judged by the laws that the audit leaves out: the text of `logix_laws` is what the plain reading says."""

from .cases import PROJECT, doctored, file_text, journal_text, told, walked
from .laws import law
from .plain.audit import Table, event_of
from .plain.judge import answer, kept_project
from .plain.laws import LAWS, Lawful
from .sound import unsound

OTHERS = (
    "tick 0 0 -", "tick 0 0 -", "tick 0 0 1", "tick 4 0 -", "tick 0 4 -", "step 1 1 trigger:3 -", "step 1 1 trigger:1 minor", "step 0 0 trigger:4 -",
    "act 31 run - ok 1", "act 3 other - ok 2", "act 3 other - ok 18", "began 0 0 0", "step 0 0 up -", "step 0 0 sync -", "step 0 0 syncend -", "began 1 1 0",
    "step 1 1 - -", "step 1 1 down -", "left 1 1 ended", "began 1 2 0", "left 0 0 ended", "step 0 0 copy -", "step 0 0 copyend -", "step 0 0 - minor",
    "act 31 run - no 0", "act 31 program - no 0", "act 31 program - ok 0", "act 31 clear - ok 0", "act 31 clear - no 0", "act 0 accept 0 ok:1 0",
    "act 0 accept 0 ok:2 0", "act 1 accept 0 ok:1 0", "act 0 test 0 ok 0", "act 1 test 0 ok 0", "act 0 test 0 no 0", "act 0 untest 0 ok 0",
    "act 0 untest 0 no 0", "act 0 assemble 0 ok 0", "act 1 cancel 0 ok 0", "act 0 cancel 0 ok 0", "act 0 accept - ok:1 0", "act 0 accept 1 ok:1 0",
)


@law
def of_laws(program, contents):
    status, text = answer(["laws"], contents) or (None, "")
    words = [program.put(f"file{at}", one) for at, one in enumerate(contents)]
    ran = program.run(words, path=program.beside("logix_laws"))
    return unsound(ran, {0}) if status is None else told(ran, status, text.encode("latin-1"))


def laws(draw, _, made=None, at=None):
    """A trace of a made run, or another project's, doctored; or one that walks along the laws and breaks one now and then."""
    return of_laws, doctored(draw, made, at, (0, 1, 1, 2, 3), 0.1) if draw.random() < 0.4 else walk(draw)


def walk(draw):
    """Events one by one, each that keeps the laws and of the others a few."""
    project = kept_project(file_text(PROJECT))
    table = Table(project)
    counting, lines = Lawful(table, project), ["act 31 run - ok 1"]
    counting.count(event_of(lines[0].split(" "), table))
    slips = {None: 1.0, **{one: draw.choice((0.0, 0.0, 0.02, 0.3)) for one in LAWS}, "scans": draw.choice((0.0, 0.0, 0.01))}
    for _ in range(draw.randrange(5, 120)):
        line = walked(draw) if draw.random() < 0.7 else draw.choice(OTHERS)
        event = event_of(line.split(" "), table)
        if draw.random() < slips[counting.broken(event)]:
            lines.append(line)
            counting.count(event)
    return [file_text(PROJECT), journal_text([*lines, "end"])]
