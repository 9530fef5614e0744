"""Commands of tools/online on made projects: after each, what is shown is what a new process of the controller says that is told the journal.

The walk is that of tools/tests/online_files.py; here its projects are made, and a case is a project and the number of its commands' drawer.
"""

from . import outside
from .cases import file_text
from .laws import Broken, law
from .made import Maker

COMMANDS, MOST_BEATS = 8, 60


class Wanted:
    """What a walk asks of a test."""

    @staticmethod
    def assertEqual(ours, theirs, what):  # noqa: N802 (as a test has it)
        if ours != theirs:
            keys = [key for key in ours if ours[key] != theirs[key]] if isinstance(ours, dict) else []
            told = [(key, ours[key], theirs[key]) for key in keys] or (ours, theirs)
            raise Broken(f"{what}: {str(told)[:600]}")

    @staticmethod
    def assertTrue(holds, what):  # noqa: N802
        if not holds:
            raise Broken(f"{what}")


def parts():
    """The walk and how a program is called; a run up to something makes few beats."""
    files, known, player = outside.online()
    player.MOST_BEATS = MOST_BEATS
    return files, known


@law
def of_walk(program, contents):
    project, seed, count = contents
    files, known = parts()
    programs = files.Programs(known((program.path,), True), known((program.beside("logix_live"),), True))
    if program.answer("check", project).status:
        return None
    walk = files.Walk(Wanted, programs, program.put("walked.json", project), int(seed))
    walk.take(int(count))
    return None


def online(draw, _):
    maker = Maker(draw, 0.0)
    return of_walk, [file_text(maker.project()), str(draw.randrange(1 << 30)).encode(), str(draw.randrange(1, COMMANDS + 1)).encode()]
