"""Cases that are made for the causes which drawn ones seldom meet, each as often as the others. What is answered is judged as elsewhere, but for the two
limits of instructions, whose answers are counted out here: the plain interpreter would read 65,537 instructions for a second."""

from . import begins, explores, marks
from .cases import file_text, journal_text, judged, told
from .lanes import of_script
from .limits import of_program
from .made import Maker
from .pictures import of_picture
from .plain.judge import answer

ROUTINE, BY_EDITS, OF_RUNG = 65_536, 131_072, 512  # instructions


def put(draw, lines, line, least=0):
    """The lines with one more somewhere after the first `least`, and before the last."""
    at = draw.randrange(least, len(lines))
    return [*lines[:at], line, *lines[at:]]


def late_label(draw):
    """A label that isn't the first element of its rung."""
    project = Maker(draw).project()
    rungs = draw.choice(draw.choice(project["programs"])["routines"])["rungs"]
    rungs.insert(draw.randrange(len(rungs) + 1), draw.choice(("NOP()LBL(Late);", "[AFI(),NOP()]LBL(Late)NOP();", "LBL(Late)LBL(Later);", "AFI()[LBL(Late),];")))
    return judged(draw.choice(("check", "check", "text", "migrate", "xref"))), [file_text(project)]


def script_of(draw, *lines):
    """A made project, and its script of 400 steps with these lines."""
    maker = Maker(draw)
    project, made = file_text(maker.project()), ["run 400 10 4", f"@3 {draw.randrange(41)} {maker.action()}", "end"]
    for lane, tick in lines:
        made.insert(-1, f"@{lane} {tick} {maker.action()}")
    return of_script, [project, journal_text(made)]


def action_too_late(draw):
    """An action after the last tick."""
    return script_of(draw, (draw.randrange(4), 41 + draw.choice((0, 1, 2, 10, 1_000_000))))


def action_before_another(draw):
    """An action of a lane before that lane's last one."""
    lane, tick = draw.randrange(3), draw.randint(1, 40)
    return script_of(draw, (lane, tick), (lane, draw.randrange(tick)))


def question(*wrong):
    """What makes a small cell, a script, and a question with a wrong line."""
    def make(draw):
        cell = explores.cell(draw)
        script = explores.small_script(draw, lambda: explores.cell_action(draw))
        lines = draw.choice(wrong)(draw, explores.made_question(draw, cell, []))
        return explores.of_exploration, [file_text(cell), journal_text(script), journal_text(lines)]
    return make


no_line = question(
    lambda draw, lines: put(draw, lines, draw.choice(("never", "never a = 1 or b = 2", "within", "always a = 1", "", "NEVER a = 1", "never a == 1", "# never"))),
    lambda draw, lines: lines[:-1],
)
no_place = question(lambda draw, lines: put(draw, lines, f"never {draw.choice(('zz', 'd[2]', 'a.0', 'Program:P.a'))} {draw.choice(explores.SIGNS)} 1", 1))
no_program = question(lambda draw, lines: put(draw, lines, f"never a = 1 at {draw.choice(('Zz', 'M', 'C', 'a'))}", 1))
no_order = question(
    lambda draw, lines: ["within 3", *lines] if lines[0].startswith("within") else put(draw, lines, f"within {draw.randrange(9)}", 1),
    lambda draw, lines: ["within 3", "end"] if draw.random() < 0.5 else ["end"],
    lambda draw, lines: [*["never a = 1"] * draw.randint(65, 70), "end"],
    lambda draw, lines: put(draw, lines, "never " + " and ".join(["a = 1"] * draw.randint(17, 20)), 1),
)


def report(change):
    """What makes the report of a made run, changed so that it is refused."""
    def make(draw):
        wanted = answer(["replay"], draw.choice((begins, marks)).files(draw))
        lines = wanted[1].split("\n")[:-1] if wanted and wanted[0] == 0 else ["0 0 reply 31 ok", "end 3 5 run lost 0"]
        return of_picture, [change(draw, lines).encode("latin-1"), draw.choice((b"step", b"tick"))]
    return make


def whole(lines):
    return "".join(f"{line}\n" for line in lines)


no_report_line = report(lambda draw, lines: whole(put(draw, lines, draw.choice(("x", "", "0 0", "0 0 set n", "0 0 begin T P", "end 0 0 run", "-1 0 reply 0 ok")))))
back_in_time = report(lambda draw, lines: whole([lines[0], "1000000000 4000000000 set n 1", *lines[1:]]))
too_many_names = report(lambda draw, lines: whole([*(f"0 0 {line}" for line in draw.choice(([f"set n{at} 1" for at in range(257)], [f"begin T{at} P 0" for at in range(33)]))), *lines]))
no_end = report(lambda draw, lines: whole(lines)[:-1] if draw.random() < 0.3 else whole(lines[:-1]))
after_the_end = report(lambda draw, lines: whole(lines) + draw.choice(("x", "\n", "end 0 0 run lost 0\n", whole(lines))))


def wanted_of(verb, status, text):
    def judge(program, contents):
        return told(program.answer(verb, *contents), status, text.encode("latin-1"))
    judge.command = verb
    return judge


def rungs_of(draw, count):
    """Rungs with so many instructions in all."""
    rungs = []
    while count:
        taken = min(count, draw.randint(1, OF_RUNG) if draw.random() < 0.3 else OF_RUNG)
        rungs.append(draw.choice(("NOP()", "AFI()")) * taken + ";")
        count -= taken
    return rungs


def too_long(draw):
    """A routine of more instructions than it may have; the first of them is told."""
    rungs = rungs_of(draw, ROUTINE + draw.randint(1, 600))
    left = ROUTINE
    for at, rung in enumerate(rungs):
        if left < rung.count("("):
            break
        left -= rung.count("(")
    text = f"project P10 programs.0.routines.0 C16 {at} {left}\n"
    return wanted_of("check", 2, text), [of_program(routines=[{"name": "M", "rungs": rungs}])]


def too_long_by_edits(draw):
    """An accept by which a program would have more instructions than it may have, and then one by which it has just so many."""
    count = draw.randint(1, OF_RUNG)
    first = ROUTINE - draw.randint(0, count)
    routines = [("M", rungs_of(draw, first)), ("N", rungs_of(draw, BY_EDITS - count - first)), ("Z", [])]
    project = of_program(routines=[{"name": name, "rungs": rungs} for name, rungs in routines])
    lines = [f"accept P Z i 0 {'NOP()' * more};" for more in (count + draw.randint(1, 200), count)]
    return wanted_of("replay", 0, "0 0 reply 31 refused E9\n0 0 reply 31 ok 1\nend 0 0 program lost 0\n"), [project, journal_text([*lines, "end"])]


MAKERS = (
    late_label, action_too_late, action_before_another, no_line, no_place, no_program, no_order, no_report_line, back_in_time, too_many_names, no_end, after_the_end,
    too_long, too_long_by_edits,
)


def rare(draw, _):
    """A case for one of these causes."""
    return draw.choice(MAKERS)(draw)
