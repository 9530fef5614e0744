"""The generated project and journal of a number (FORMATS.md, section 4)."""

import json

FORMS = (
    "XIC(a{i})OTE(a{j});", "[XIC(a{i}),XIO(a{j})]TON(t{k},?,?);", "XIC(t{k}.DN)CTU(c{k},?,?);", "ADD(n{i},1,n{j});",
    "XIC(Local:1:I[{k}].{i})MOV(n{i},n{j});", "XIC(c{k}.DN)RES(c{k});", "UID()MUL(n{i},3,n{j})UIE();", "CPS(Local:1:I[0],w[0],4);",
)
TAGS = {"a": (16, "BOOL"), "n": (16, "DINT"), "t": (4, "TIMER"), "c": (4, "COUNTER")}
ROUNDS = 2_000


class Draws:
    """Numbers below others, from a state."""

    def __init__(self, number):
        self.state = number

    def below(self, most):
        self.state = (self.state * 1_664_525 + 1_013_904_223) % (1 << 32)
        return (self.state >> 16) % most


def project_of(number):
    draws = Draws(number)

    def rung():
        form, i, j, k = draws.below(8), draws.below(16), draws.below(16), draws.below(4)
        return FORMS[form].format(i=i, j=j, k=k)

    tags = [{"name": f"{letter}{at}", "type": kind} for letter, (count, kind) in TAGS.items() for at in range(count)]
    tags += [{"name": name, "type": "DINT", "dim": 4} for name in ("w", "Local:1:I")]
    programs = [{"name": f"P{at}", "main": "M", "routines": [{"name": "M", "rungs": [rung() for _ in range(32)]}]} for at in range(4)]
    tasks = [
        {"name": "Cont", "kind": "continuous", "programs": ["P0"]},
        {"name": "Per1", "kind": "periodic", "priority": 4, "period": 3, "programs": ["P1"]},
        {"name": "Per2", "kind": "periodic", "priority": 4, "period": 7, "programs": ["P2"]},
        {"name": "Ev", "kind": "event", "priority": 2, "programs": ["P3"]},
    ]
    initial = [{"tag": f"{letter}{at}.PRE", "value": value} for letter, value in (("t", 3), ("c", 4)) for at in range(4)]
    return json.dumps({
        "schema": 1, "controller": "Gen", "tags": tags, "programs": programs, "tasks": tasks,
        "connections": [{"name": "In", "tag": "Local:1:I", "direction": "in", "trigger": "Ev"}], "initial": initial,
        "watch": [f"n{at}" for at in range(16)],
    }).encode()


def journal_of(number):
    draws, lines = Draws(number), ["mode run"]
    for at in range(ROUNDS):
        steps, word, value = draws.below(50), draws.below(4), draws.below(65_536)
        lines += [f"cpu {50 + steps}", f"@0 in In {word} {value}"]
        if at % 10 == 9:
            index, moved = draws.below(32), draws.below(100)
            lines += [f"@1 accept P0 M r {index} MOV({moved},n0);", "@1 test P0", "@1 assemble P0"]
        lines.append("tick 1")
    return ("\n".join([*lines, "end"]) + "\n").encode()
