"""31 lanes that meet again and again, on one processor, two and four: each journal is complete, each report is its replay's, and how many
different journals there were is told.
"""

from .cases import file_text, journal_text
from .lanes import judge_answer
from .laws import got, law
from .plain.journal import Script

LANES, RUNS = 31, 10
MIXED = {
    "schema": 2, "controller": "Mixed", "tags": [{"name": "w", "type": "DINT", "dim": 4}, {"name": "n", "type": "DINT"}, {"name": "o", "type": "DINT", "dim": 4}],
    "programs": [{"name": "P", "main": "M", "routines": [{"name": "M", "rungs": ["ADD(n,1,n);", "CPS(w[0],o[0],4);"]}]},
                 {"name": "Q", "main": "M", "routines": [{"name": "M", "rungs": ["UID()ADD(n,2,n)UIE();"]}]}],
    "tasks": [{"name": "T", "kind": "continuous", "programs": ["P"]}, {"name": "F", "kind": "periodic", "priority": 5, "period": 2, "programs": ["Q"]}],
    "connections": [{"name": "In1", "tag": "w", "direction": "in"}, {"name": "Out1", "tag": "o", "direction": "out"}], "watch": ["w[0]", "w[3]", "n", "o[3]"],
}
ACTIONS = ("in In1 0 {}", "in In1 3 {}", "out Out1 3", "accept P M i 0 MOV({},n);", "test P", "untest P", "assemble P", "cancel P", "force In1 0 {} 1", "force enable")


@law
def of_mix(program, contents):
    """One script many times; what was written is counted."""
    project, text, processors = contents
    script, journals, seen = Script(text), set(), f"{LANES} lanes on {int(processors)} processors"
    with program.on(int(processors)):
        for _ in range(RUNS):
            out = got(program, {0}, "run", project, text).out
            judge_answer(program, project, script, out, plain=False)
            journals.add(out.partition(b"\nend\n")[0])
            program.tally(seen, "runs")
    program.told[seen]["different journals"] += len(journals)
    return None


def mixes(draw, _):
    steps, pace = draw.choice(((60, 3), (120, 5), (300, 20))), draw.choice((0, 0, 1))
    lines = []
    for lane in range(LANES):
        ticks = sorted(draw.randrange(steps[0] // steps[1]) * pace for _ in range(draw.randrange(1, 4)))
        lines += [f"@{lane} {tick} {draw.choice(ACTIONS).format(draw.randrange(1, 99))}" for tick in ticks]
    return of_mix, [file_text(MIXED), journal_text([f"run {steps[0]} {steps[1]} {LANES}", *lines, "end"]), draw.choice((b"1", b"2", b"2", b"4", b"4"))]
