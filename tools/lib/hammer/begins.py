"""Begins in the middle of a stretch: edits, watchdogs, inhibited tasks, triggers and regions around them, in six programs of some rungs."""

from .cases import file_text, journal_text, judged

PROGRAMS = ("Aa", "Bb", "Cc", "Dd", "Ee", "Ff")
ROUTINE_RUNGS = (0, 1, 1, 2, 3)
LANES = (0, 0, 0, 1)


class Begins:
    def __init__(self, draw):
        self.draw = draw
        count = draw.randrange(2, len(PROGRAMS) + 1)
        self.names = PROGRAMS[:count]
        self.tasks = self.made_tasks()
        self.events = [task["name"] for task in self.tasks if task["kind"] == "event"]

    def made_tasks(self):
        """Every program in one task's list; short periods, some short watchdogs, some tasks inhibited."""
        draw, rest, made = self.draw, list(self.names), []
        while rest:
            listed = [rest.pop(0) for _ in range(min(len(rest), draw.choice((1, 1, 1, 2, 3))))]
            kind = draw.choice(("periodic", "periodic", "event")) if made else draw.choice(("continuous", "continuous", "periodic"))
            task = {"name": f"T{len(made)}", "kind": kind, "programs": listed}
            if kind != "continuous":
                task["priority"] = draw.choice((1, 5, 5, 5, 9))
            if kind == "periodic":
                task["period"] = draw.choice((1, 1, 2, 2, 3, 7))
            if draw.random() < 0.4:
                task["watchdog"] = draw.choice((1, 2, 3, 5, 9))
            if draw.random() < 0.15:
                task["inhibited"] = draw.random() < 0.8
            made.append(task)
        draw.shuffle(made)
        return made

    def rung(self):
        draw = self.draw
        one = draw.choice((
            "NOP()", "ADD(n,1,n)", "UID()", "UIE()", "UIE()", "CPS(a[0],b[0],3)", "COP(a[0],b[0],2)", "MOV(n,a[1])", "TND()", "XIC(bit)", "AFI()", "JSR(S)",
            f"EVENT({draw.choice(self.events)})" if self.events else "NOP()", "XIC(S:FS)ADD(m,1,m)", "ADD(127,n,s)", "XIO(bit)OTE(bit)", "MOV(9,a[n])", "",
            f"EVENT({draw.choice(self.events)})" if self.events else "NOP()"))
        return one + draw.choice(("", "", "NOP()")) + ";"

    def rungs(self):
        return [self.rung() for _ in range(self.draw.choice(ROUTINE_RUNGS))]

    def project(self):
        programs = [{"name": name, "main": "M", "routines": [{"name": "M", "rungs": self.rungs()}, {"name": "S", "rungs": self.rungs()}]} for name in self.names]
        for program in programs:
            program["routines"][1]["rungs"] = [rung for rung in program["routines"][1]["rungs"] if "JSR" not in rung]
        connection = {"name": "In1", "tag": "w", "direction": "in"}
        if self.events and self.draw.random() < 0.9:
            connection["trigger"] = self.draw.choice(self.events)
        tags = [{"name": name, "type": "DINT"} for name in ("n", "m", "w")] + [{"name": name, "type": "DINT", "dim": 3} for name in "ab"]
        return {"schema": 2, "controller": "Begins", "tags": [*tags, {"name": "bit", "type": "BOOL"}, {"name": "s", "type": "SINT"}], "programs": programs,
                "tasks": self.tasks, "connections": [connection], "watch": ["n", "m", "a[1]", "b[1]", "s", "bit"]}

    def lines(self):
        """Stretches of many lengths, with what begins within them or right before, or right after."""
        draw, name, lane = self.draw, self.draw.choice(self.names), self.draw.choice(LANES)
        edit = f"@{lane} accept {name} {draw.choice('MMS')} {draw.choice('ri')} {draw.randrange(2)} {self.rung()}"
        return draw.choice((
            [f"cpu {draw.randrange(1, 12)}"], [f"cpu {draw.randrange(1, 60)}"], [f"cpu {draw.randrange(100, 300)}"], [f"tick {draw.choice((1, 1, 2, 3))}"],
            [f"tick {draw.choice((1, 1, 2, 3))}", f"cpu {draw.randrange(1, 30)}"], ["in In1 0 1"], ["in In1 0 1", f"cpu {draw.randrange(1, 9)}", "in In1 0 2"],
            [edit], [edit, f"@{lane} test {name}"], [edit, f"@{lane} test {name}", f"cpu {draw.randrange(1, 20)}", f"@{lane} untest {name}"],
            [f"@{lane} {draw.choice(('test', 'untest', 'assemble', 'cancel', 'assemble'))} {name}"],
            [edit, f"@{lane} assemble {name}", f"cpu {draw.randrange(1, 9)}"], ["clear", "mode run"], [draw.choice(("mode program", "mode run", "clear"))]))

    def journal(self):
        lines = ["mode run"]
        for _ in range(self.draw.randrange(4, 25)):
            lines += self.lines()
        return [*lines, "end"]


def project(draw):
    """A made project: its maker, who makes its journals too, and its text."""
    made = Begins(draw)
    return made, file_text(made.project())


def files(draw, made=None):
    maker, text = made or project(draw)
    maker.draw = draw
    return [text, journal_text(maker.journal())]


def begins(draw, program, made=None, _=None):
    verb = draw.choice([verb for verb in ("replay", "replay", "trace") if verb in program.commands])
    return judged(verb), files(draw, made)
