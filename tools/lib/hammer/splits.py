"""A stretch of steps gives the same lines wherever it is cut: `cpu N` as two lines at every place, some steps of it in all ways, all as single
steps, joined, by chance, and with lines between.

Nothing that is put between changes anything: a comment, an empty line, and an action that is refused or held, whose reply is taken out.
"""

import random
import re

from . import begins, marks
from .cases import file_text, first_difference, journal_text
from .laws import Broken, got, law
from .made import Maker
from .sound import shown

STRETCH = re.compile(r"cpu ([0-9]+)")
MOST_PLACES, MOST_WAYS = 40, 5
LANE = 30  # that no maker uses
NOTHING, REFUSED = f"@{LANE} out Zz 0", re.compile(rb"[0-9]+ [0-9]+ reply %d (?:refused N1|held)\n" % LANE)


@law
def of_cuts(program, contents):
    """The stretch of this number, cut after each of its steps, and five of its steps cut in all ways; then all stretches into single steps, joined,
    and cut by chance."""
    project, journal, number = contents
    lines = journal.decode("latin-1").split("\n")
    ran = got(program, {0, 2, 3}, "replay", project, journal)
    if ran.status:
        return None
    whole = ran.out
    places = [at for at, line in enumerate(lines) if STRETCH.fullmatch(line)]
    if not places:
        return None
    at = places[int(number) % len(places)]
    steps = int(STRETCH.fullmatch(lines[at])[1])
    for place in range(1, steps, 1 + steps // MOST_PLACES):
        between = ([], ["# here", ""], [NOTHING])[place % 3]
        compare(program, project, [*lines[:at], f"cpu {place}", *between, f"cpu {steps - place}", *lines[at + 1:]], whole, f"line {at + 1} cut at {place}")
    draw = random.Random(int(number))
    for way in around(steps, draw):
        compare(program, project, [*lines[:at], *(f"cpu {piece}" for piece in way), *lines[at + 1:]], whole, f"line {at + 1} as {way}")
    for what, made in (
        ("single steps", single(lines)), ("single steps with refused actions between", single(lines, NOTHING)),
        ("joined", joined(lines)), ("cut by chance", by_chance(lines, draw)),
    ):  # fmt: skip
        compare(program, project, made, whole, what)
    same_trace(program, project, journal, single(lines))
    return None


def compare(program, project, lines, whole, what):
    ran = got(program, {0}, "replay", project, "\n".join(lines).encode("latin-1"))
    out = REFUSED.sub(b"", ran.out)
    if out != whole:
        raise Broken(f"{what}: {first_difference(out, whole)}")


def ways(steps):
    """All lists of numbers above 0 that are so many in all."""
    return [[first, *rest] for first in range(1, steps + 1) for rest in ways(steps - first)] if steps else [[]]


def around(steps, draw):
    """Cuts of a stretch: some steps of it, beside one another, in all ways, with what is before them and after in one piece each."""
    most = min(steps, MOST_WAYS)
    before = draw.randrange(steps - most + 1)
    return [[piece for piece in (before, *way, steps - most - before) if piece] for way in ways(most)]


def by_chance(lines, draw):
    made = []
    for line in lines:
        found = STRETCH.fullmatch(line)
        rest = int(found[1]) if found else 0
        while rest:
            piece = draw.randrange(1, rest + 1)
            made.append(f"cpu {piece}")
            rest -= piece
        made += [] if found else [line]
    return made


def single(lines, between=None):
    """Each stretch as lines of one step."""
    made = []
    for line in lines:
        found = STRETCH.fullmatch(line)
        if not found:
            made.append(line)
            continue
        for _ in range(int(found[1])):
            made += ["cpu 1", between] if between else ["cpu 1"]
    return made


def joined(lines):
    """Stretches in a row as one."""
    made = []
    for line in lines:
        found, before = STRETCH.fullmatch(line), STRETCH.fullmatch(made[-1]) if made else None
        if found and before:
            made[-1] = f"cpu {int(before[1]) + int(found[1])}"
        else:
            made.append(line)
    return made


def same_trace(program, project, journal, lines):
    """The trace has a line an event, so it is the same."""
    traces = [got(program, {0}, "trace", project, one).out for one in (journal, "\n".join(lines).encode("latin-1"))]
    if traces[0] != traces[1]:
        raise Broken(f"traces: {shown(traces[0])} and {shown(traces[1])}")


def files(draw):
    """A made run of one of the makers."""
    what = draw.randrange(3)
    if what == 0:
        maker = Maker(draw, 0.0)
        return [file_text(maker.project()), journal_text(maker.journal())]
    return (begins if what == 1 else marks).files(draw)


def splits(draw, _):
    return of_cuts, [*files(draw), str(draw.randrange(1_000)).encode()]
