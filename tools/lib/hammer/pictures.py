"""Reports as pictures: the wave file is that of a plain reading of the report, a drawing is XML that is well formed, and both refuse alike."""

import xml.etree.ElementTree as tree

from . import begins, marks
from .bent import Bender
from .cases import first_difference, told
from .laws import Broken, law
from .plain.chart import wave
from .plain.judge import answer
from .sound import shown

CLOCKS = {b"step": [], b"tick": ["tick"]}


@law
def of_picture(program, contents):
    report, clock = contents
    wanted = wave(report, clock == b"tick")
    ran = program.run(CLOCKS[clock], given=report or b"\n", path=program.beside("logix_wave"))
    wrong = told(ran, wanted[0], wanted[1].encode("latin-1"))
    if wrong:
        raise Broken(f"wave: {wrong}")
    drawn = program.run(CLOCKS[clock], given=report or b"\n", path=program.beside("logix_timeline"))
    if drawn.err or drawn.status != wanted[0]:
        raise Broken(f"timeline: status {drawn.status}, standard error {shown(drawn.err)}")
    if drawn.status:
        return told(drawn, ran.status, ran.out) if drawn.out != ran.out else None
    try:
        if not tree.fromstring(drawn.out).tag.endswith("svg") or not drawn.out.endswith(b"</svg>\n"):
            raise Broken(f"timeline: {shown(drawn.out)}")
    except tree.ParseError as fault:
        raise Broken(f"timeline: {fault}; {first_difference(drawn.out, b'')}") from None
    return None


def pictures(draw, _):
    """A made run's report; often with something wrong, or with more names than there may be."""
    wanted = answer(["replay"], draw.choice((begins, marks)).files(draw))
    report = wanted[1].encode("latin-1") if wanted and wanted[0] == 0 else b"end 0 0 run lost 0\n"
    bender = Bender(draw)
    for _ in range(draw.choice((0, 0, 1, 1, 2))):
        report = bender.text(report)
    if draw.random() < 0.05:
        count, kind = draw.choice(((256, "set n{} 1"), (257, "set n{} 1"), (32, "begin T{} P 0"), (33, "begin T{} P 0")))
        report = "".join(f"0 {at} {kind.format(at)}\n" for at in range(count)).encode() + f"end 0 {count} run lost 0\n".encode()
    if draw.random() < 0.05:
        report += draw.choice((b"x", b"\n", b"end 0 0 run lost 0\n", report))
    return of_picture, [report or b"\n", draw.choice((b"step", b"tick"))]
