"""Made calls of Add-On Instructions in a file of L5X: what tools/from_l5x makes of it has, on the built program too, after each scan the tags
that a plain interpreter of the calls themselves has.

The two runs are those of tools/tests/test_add_on_cases.py, where the project runs on the plain interpreter; its journal is then replayed.
"""

from .cases import told
from .laws import Broken, law
from .outside import add_ons as both
from .plain.judge import answer


@law
def of_add_on(program, contents):
    run = both()(int(contents[0]))
    try:
        run.run()
    except AssertionError as fault:
        raise Broken(str(fault)[:600]) from None
    files = [str(run.project.contents, "latin-1").encode("latin-1"), "".join(line + "\n" for line in [*run.journal, "end"]).encode()]
    wanted = answer(["replay"], files)
    return told(program.answer("replay", *files), wanted[0], wanted[1].encode("latin-1")) if wanted else None


def add_ons(draw, _):
    return of_add_on, [str(draw.randrange(1 << 30)).encode()]
