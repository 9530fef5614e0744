"""Explorations whose answers are worked out by hand: of each rule of questions and journals one that a program without it answers otherwise.

A scan begins by a step, each instruction, each element of a copy and each end of a routine is one. So `MOV(..)` alone is executed at steps 2,
5, 8 and so on.
"""

from typing import NamedTuple

from .cases import file_text, journal_text
from .explores import NAME, of_exploration
from .laws import Broken, law
from .sound import shown


class Rule(NamedTuple):
    """The rungs of P, the script's and the question's lines, and `never N`, `unknown K`, or the line and the step and tick after which it holds."""

    name: str
    rungs: tuple
    script: tuple
    question: tuple
    answer: object
    more: dict = {}

    def files(self):
        return [file_text(project(self.rungs, **self.more)), *(journal_text([*lines, "end"]) for lines in (self.script, self.question))]

    def answer_text(self):
        """The answer's first line."""
        return self.answer if isinstance(self.answer, str) else "# line {} after step {}, tick {}".format(*self.answer)


def project(rungs, sub=(), initial=(), event=(), periodic=(), main="M"):
    """A program P in a continuous task, Q in an event task that the input's second word triggers, R in a periodic one."""
    made = {
        "schema": 2, "controller": "C", "connections": [{"name": "In1", "tag": "I", "direction": "in"}, {"name": "Out2", "tag": "O", "direction": "out"}],
        "tags": [*({"name": name, "type": "DINT"} for name in "abcnO"), *({"name": name, "type": "DINT", "dim": 2} for name in "dI"), {"name": "x", "type": "BOOL"}],
        "programs": [program("P", rungs, sub)], "tasks": [{"name": "T", "kind": "continuous", "programs": ["P"]}],
        "initial": [{"tag": tag, "value": value} for tag, value in initial], "watch": ["a", "b", "c", "n", "d[0]", "d[1]", "I[0]", "I[1]", "x", "Program:P.own"],
    }
    for name, kind, listed in (("Q", {"kind": "event"}, event), ("R", {"kind": "periodic", "period": 1}, periodic)):
        if listed:
            made["programs"].append(program(name, listed))
            made["tasks"].append({"name": f"On{name}", **kind, "priority": 5, "programs": [name]})
    if event:
        made["connections"][0]["trigger"] = "OnQ"
    return made


def program(name, rungs, sub=()):
    routines = [{"name": "M", "rungs": list(rungs)}, {"name": "S", "rungs": list(sub)}]
    return {"name": name, "main": "M", "routines": routines, "tags": [{"name": "own", "type": "SINT"}]}


MOVED, COUNTED, BOTH = ("MOV(I[0],n);",), ("ADD(c,1,c);",), ("MOV(I[0],a)MOV(I[0],b);",)
# P writes c by its fourth step, after which there is a tick, R then b, and Q tells both in a and n.
PACED, RACE = ("NOP()NOP()MOV(1,c);",), {"event": ("ADD(c,10,a)MOV(b,n);",), "periodic": ("MOV(1,b);",), "initial": (("n", 5),)}
SEVENS = {"initial": (("I[0]", 7), ("I[1]", 7))}
OUT = "out Out2 0"
EDITORS = ("run 9 3 2", "@0 0 accept P M r 0 MOV(2,n);", "@0 1 test P", "@1 0 accept P M r 0 MOV(3,n);", "@1 1 test P")
FORCERS = ("run 3 3 3", "@0 0 force In1 0 -1 3", "@1 0 force In1 0 -1 4", "@2 1 force enable", "@2 1 in In1 0 9")
ENABLERS = ("run 3 3 3", "@0 0 force In1 0 -1 3", "@0 0 force enable", "@1 0 force disable", "@2 1 in In1 0 9")
STARTERS = ("run 4 1 3", "@0 0 mode program", "@1 0 mode run", "@2 3 in In1 0 9")
PLACED, PLACE = ("MOV(1,c);", "XIC(b.0)OTE(x);", "MOV(1,a);"), {"event": ("NOP()NOP()MOV(c,d[0])MOV(1,b);",)}


def lanes(*counts, at=0):
    """So many actions of each lane, none of which changes a state."""
    return tuple(f"@{lane} {at} {OUT}" for lane, count in enumerate(counts) for _ in range(count))


RULES = (
    Rule("the opening", (), ("run 1 1 0",), ("never n = 1",), (1, 0, 0), {"initial": [("n", 1)]}),
    Rule("before the opening nothing is asked", ("OTE(x);",), ("run 2 1 0",), ("never x = 1",), (1, 2, 1), {"initial": [("x", 1)]}),
    Rule("the prescan is the opening's", ("XIC(I[0].0)OTE(x);",), ("run 9 2 0",), ("never x = 1",), "never 1", {"initial": [("x", 1)]}),
    Rule("no lanes", ("MOV(5,n);",), ("run 5 2 0",), ("never n = 5",), (1, 2, 0)),
    Rule("no lanes, too few steps", ("MOV(5,n);",), ("run 1 2 0",), ("never n = 5",), "never 1"),
    Rule("the last lane", MOVED, ("run 3 5 3", "@2 0 in In1 0 7"), ("never n = 7",), (1, 2, 0)),
    Rule("a lane without actions", MOVED, ("run 3 5 3", "@1 0 in In1 0 7"), ("never n = 7",), (1, 2, 0)),
    Rule("an action is no step", MOVED, ("run 3 5 1", "@0 0 in In1 0 7"), ("never I[0] = 7",), (1, 0, 0)),
    Rule("an action between two steps", BOTH, ("run 6 6 1", "@0 0 in In1 0 7"), ("never a = 0 and b = 7",), (1, 3, 0)),
    Rule("an action before the first step", MOVED, ("run 2 1 1", "@0 0 in In1 0 7"), ("never n = 7",), (1, 2, 1)),
    Rule("an action late", COUNTED, ("run 8 9 1", "@0 0 in In1 0 7"), ("never I[0] = 7 and c = 3",), (1, 8, 0)),
    Rule("an action not before its tick", COUNTED, ("run 9 3 1", "@0 2 in In1 0 7"), ("never I[0] = 7 and c < 2", "never I[0] = 7"), (2, 6, 2)),
    Rule("an action after the last step", COUNTED, ("run 2 2 1", "@0 1 in In1 0 7"), ("never I[0] = 7",), (1, 2, 1)),
    Rule("none between a step and its tick", PACED, ("run 12 4 1", "@0 0 in In1 1 7"), ("never a = 11 and n = 0",), "never 1", RACE),
    Rule("one before that step", PACED, ("run 12 4 1", "@0 0 in In1 1 7"), ("never a = 10 and n = 0",), (1, 3, 0), RACE),
    Rule("one after that tick", PACED, ("run 12 4 1", "@0 0 in In1 1 7"), ("never a = 11 and n = 1",), (1, 10, 2), RACE),
    Rule("lanes in either order", (), ("run 1 1 2", "@0 0 in In1 0 1", "@1 0 in In1 1 2"), ("never I[0] = 0 and I[1] = 2",), (1, 0, 0)),
    Rule("a lane in its order", (), ("run 1 1 1", "@0 0 in In1 0 1", "@0 0 in In1 1 2"), ("never I[0] = 0 and I[1] = 2",), "never 1"),
    Rule("a lane that is refused goes on", (), ("run 1 1 1", "@0 0 clear", "@0 0 in In1 1 2"), ("never I[1] = 2",), (1, 0, 0)),
    Rule("two lanes between the same steps", BOTH, ("run 5 6 2", "@0 0 in In1 0 7", "@1 0 in In1 0 8"), ("never a = 7 and b = 8",), (1, 3, 0)),
    Rule("a step before its tick", ("MOV(1,n);",), ("run 3 3 0",), ("never n = 1 at P",), (1, 3, 0)),
    Rule("a scan that ends", ("MOV(1,n);", "MOV(0,n);"), ("run 9 4 0",), ("never n = 1 at P", "never n = 0 and a = 0 at P"), (2, 4, 0)),
    Rule("a routine that ends", ("JSR(S,0);", "MOV(0,n);"), ("run 12 5 0",), ("never n = 1 at P",), "never 1", {"sub": ("MOV(1,n);",)}),
    Rule("another program's scan", ("MOV(0,n);",), ("run 12 4 0",), ("never n = 2 at P", "never n = 2 at R"), (2, 7, 1), {"periodic": ("MOV(2,n);",)}),
    Rule("a scan that is stopped doesn't end", ("MOV(1,n);",), ("run 3 9 1", "@0 0 mode program"), ("never n = 1 and a = 1 at P", "never n = 2"), "never 2"),
    Rule("the first line that holds", ("MOV(1,n);",), ("run 3 9 0",), ("never n = 5", "never n = 1", "never n > 0"), (2, 2, 0)),
    Rule("all tests of a line", ("MOV(1,n)MOV(1,a);",), ("run 9 9 0",), ("never n = 1 and b = 1", "never n = 1 and a = 1"), (2, 3, 0)),
    Rule("names", ("MOV(1,n)MOV(3,own);",), ("run 9 9 0",), ("never PROGRAM:p.OWN = 3 and N = 1 at p",), (1, 4, 0)),
    Rule("of two places", ("MOV(4,n)MOV(4,a);",), ("run 4 9 0",), ("never n > 0 and n = a",), (1, 3, 0)),
    Rule("equal", ("MOV(-5,n);",), ("run 3 9 0",), ("never n = -5",), (1, 2, 0)),
    Rule("differs", ("MOV(-5,n);",), ("run 3 9 0",), ("never n <> 0",), (1, 2, 0)), Rule("differs, above", ("MOV(5,n);",), ("run 3 9 0",), ("never n <> 0",), (1, 2, 0)),
    Rule("less", ("MOV(-5,n);",), ("run 3 9 0",), ("never n < -5", "never n < -4"), (2, 2, 0)),
    Rule("at most", ("MOV(-5,n);",), ("run 3 9 0",), ("never n <= -6", "never n <= -5"), (2, 2, 0)),
    Rule("more", ("MOV(5,n);",), ("run 3 9 0",), ("never n > 5", "never n > 4"), (2, 2, 0)),
    Rule("at least", ("MOV(5,n);",), ("run 3 9 0",), ("never n >= 6", "never n >= 5"), (2, 2, 0)),
    Rule("a window", COUNTED, ("run 11 2 1", "@0 1 in In1 0 7"), ("within 2", "never I[0] = 0 and c = 3"), "never 1"),
    Rule("a window a tick longer", COUNTED, ("run 11 2 1", "@0 1 in In1 0 7"), ("within 3", "never I[0] = 0 and c = 3"), (1, 8, 3)),
    Rule("a window of no tick", COUNTED, ("run 11 2 1", "@0 1 in In1 0 7"), ("within 0", "never I[0] = 7 and c = 1", "never I[0] = 7 and c = 0"), (1, 2, 1)),
    Rule("a window of no tick that is over", COUNTED, ("run 11 2 1", "@0 1 in In1 0 7"), ("within 0", "never I[0] = 0 and c = 2"), "never 1"),
    Rule("no window", COUNTED, ("run 11 2 1", "@0 1 in In1 0 7"), ("never I[0] = 0 and c = 4",), (1, 11, 5)),
    Rule("a window and a second action", (), ("run 9 2 1", "@0 1 in In1 0 7", "@0 1 in In1 1 7"), ("within 1", "never I[0] = 7 and I[1] = 0 at P", "never I[0] = 7"), (2, 2, 1)),
    Rule("a copy torn", ("COP(I[0],d[0],2);",), ("run 4 9 1", "@0 0 in In1 1 9"), ("never d[0] = 7 and d[1] = 9 and I[0] = 7", "never d[0] = 7 and I[1] = 9"), (2, 3, 0), SEVENS),
    Rule("a copy torn between its elements", ("COP(I[0],d[0],2);",), ("run 4 9 1", "@0 0 in In1 0 9"), ("never d[0] = 7 and d[1] = 7 and I[0] = 9",), (1, 4, 0), SEVENS),
    Rule("a copy that holds", ("CPS(I[0],d[0],2);",), ("run 4 9 1", "@0 0 in In1 0 9"), ("never d[0] = 7 and d[1] = 0 and I[0] = 9",), "never 1", SEVENS),
    Rule("an action comes after the copy", ("CPS(I[0],d[0],2);",), ("run 4 9 1", "@0 0 in In1 0 9"), ("never d[0] = 7 and I[0] = 9",), (1, 4, 0), SEVENS),
    Rule("edits and forces aren't held", ("CPS(I[0],d[0],2);",), ("run 3 9 1", "@0 0 force In1 0 -1 3", "@0 0 force enable", "@0 0 in In1 0 9"), ("never I[0] = 9", "never I[0] = 3"), (2, 0, 0)),
    Rule("a copy beyond the steps", ("CPS(I[0],d[0],2)MOV(1,n);",), ("run 2 9 0",), ("never d[1] = 7",), (1, 4, 0), SEVENS),
    Rule("no step beyond the copy", ("CPS(I[0],d[0],2)MOV(1,n);",), ("run 2 9 0",), ("never n = 1",), "never 1", SEVENS),
    Rule("a tick beyond the steps", ("CPS(I[0],d[0],2)MOV(1,n);",), ("run 2 1 1", "@0 2 in In1 0 9"), ("never I[0] = 9",), (1, 4, 4), SEVENS),
    Rule("an action that the copy holds past its window", ("CPS(I[0],d[0],2);",), ("run 2 1 1", "@0 2 in In1 0 9"), ("within 1", "never d[1] = 7"), "never 1", SEVENS),
    Rule("an edit under test", ("MOV(1,n);",), ("run 9 9 1", "@0 0 accept P M r 0 MOV(2,n);", "@0 0 test P"), ("never n = 2",), (1, 2, 0)),
    Rule("an edit between two scans", ("MOV(1,n)ADD(c,1,c);",), ("run 9 9 1", "@0 0 accept P M r 0 MOV(2,n);", "@0 0 test P"), ("never n = 2 and c = 1",), (1, 6, 0)),
    Rule("who edits first", ("MOV(1,n);",), EDITORS, ("within 0", "never n = 3"), (1, 5, 1)),
    Rule("or the other", ("MOV(1,n);",), EDITORS, ("within 0", "never n = 2"), (1, 5, 1)),
    Rule("who forces last", (), FORCERS, ("within 0", "never I[0] = 3"), (1, 3, 1)),
    Rule("or the other forces last", (), FORCERS, ("within 0", "never I[0] = 4"), (1, 3, 1)),
    Rule("forced or not", (), ENABLERS, ("within 0", "never I[0] = 3"), (1, 3, 1)),
    Rule("not forced or forced", (), ENABLERS, ("within 0", "never I[0] = 9"), (1, 3, 1)),
    Rule("stopped and started", COUNTED, STARTERS, ("within 0", "never c = 1"), (1, 2, 1)),
    Rule("started and stopped", COUNTED, STARTERS, ("within 0", "never c = 0 and I[0] = 9"), (1, 3, 3)),
    Rule("where a scan stands", PLACED, ("run 12 4 1", "@0 0 in In1 1 7"), ("within 0", "never d[0] = 1 and x = 1"), (1, 10, 2), PLACE),
    Rule("or an instruction further on", PLACED, ("run 12 4 1", "@0 0 in In1 1 7"), ("within 0", "never d[0] = 1 and a = 1 and x = 0"), (1, 11, 2), PLACE),
    Rule("a layer of as many states as it may have", (), ("run 1 1 2", *lanes(15, 255)), ("never n = 1",), "never 1"),
    Rule("one more", (), ("run 1 1 2", *lanes(16, 240)), ("never n = 1",), "unknown 0"),
    Rule("one more in a later layer", (), ("run 2 1 2", *lanes(16, 240, at=1)), ("never n = 1",), "unknown 1"),
    Rule("a line that holds before that layer", ("MOV(1,n);",), ("run 3 3 2", *lanes(16, 240, at=1)), ("never n = 1",), (1, 2, 0)),
    Rule("too many states but for the window", (), ("run 2 1 2", *lanes(16, 240)), ("within 0", "never n = 1"), "unknown 0"),
)


@law
def of_rule(program, contents):
    rule = RULES[int(contents[0])]
    ran = program.run([program.put(f"file{at}", one) for at, one in enumerate(rule.files())], path=program.beside(NAME))
    wanted = rule.answer_text()
    if ran.status != {"n": 0, "u": 9, "#": 8}[wanted[0]] or ran.out.split(b"\n")[0] != wanted.encode():
        raise Broken(f"{rule.name}: status {ran.status} with {shown(ran.out)}, wanted {wanted}")
    wrong = of_exploration(program, rule.files())
    if wrong:
        raise Broken(f"{rule.name}: {wrong}")


def rules(_, __, number):
    return of_rule, [str(number % len(RULES)).encode()]
