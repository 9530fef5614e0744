"""Counts of executions: the text of `logix_cover` is what the plain interpreter counts on a made project and journal."""

from . import begins, marks
from .bent import Bender
from .cases import journal_text, made_project, told
from .laws import law
from .made import Maker
from .plain.judge import answer
from .sound import unsound


@law
def of_counts(program, contents):
    wanted = answer(["cover"], contents)
    words = [program.put(f"file{at}", one) for at, one in enumerate(contents)]
    ran = program.run(words, path=program.beside("logix_cover"))
    return told(ran, wanted[0], wanted[1].encode("latin-1")) if wanted else unsound(ran, {0})


def project(draw):
    """A made project of one of the makers, some with slips, and its maker."""
    return draw.choice((begins.project, marks.project, some_project, some_project))(draw)


some_project = made_project(0.0, 0.0, 0.0, 0.003)


def covers(draw, _, made=None, __=None):
    """A run of a made project; in some a byte or so of a file is another."""
    maker, text = made or project(draw)
    maker.draw = draw
    lines = [draw.choice((None, maker.between(20, 80)))] if isinstance(maker, Maker) else []
    files = [text, journal_text(maker.journal(*lines))]
    if draw.random() < 0.1:
        at = draw.randrange(2)
        files[at] = Bender(draw).text(files[at])
    return of_counts, files
