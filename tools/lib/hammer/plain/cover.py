"""How often each instruction of a run was executed, with a true and with a false condition, as `logix_cover` writes it (FORMATS.md, section 8.6).

An instruction is told by how many pieces of code its routine has left from it on. What has no instruction has no code, but for a routine's
last rung.
"""

from .machine import Machine
from .rungs import Branch, instructions


class Counts:
    """Tables in the order in which the versions began: by routine and pieces left, the steps with a true and with a false condition."""

    def __init__(self):
        self.tables, self.places = {}, {}

    def note(self, said):
        if said.what == "began":
            self.tables.setdefault((said.program, said.version), {})
        if said.executed:
            scan, routine, one, on = said.executed
            counts = self.tables[scan.program, scan.version].setdefault((routine, self.left(scan.routines[routine], one)), [0, 0])
            counts[0 if on else 1] += 1

    def left(self, rungs, one):
        if id(rungs) not in self.places:
            self.places[id(rungs)] = (rungs, left_of(rungs))  # (what is kept has its id alone)
        return self.places[id(rungs)][1][id(one)]

    def text(self):
        lines = [f"{program} {version} {routine} {left} {true} {false}"
                 for (program, version), table in self.tables.items()
                 for (routine, left), (true, false) in sorted(table.items(), key=lambda one: (one[0][0], -one[0][1]))]
        return "".join(line + "\n" for line in [*lines, "end"])


def left_of(rungs):
    """Of each instruction of a routine, by its id, how many pieces of code are left from it on; counted from the end."""
    table, count = {}, 0
    for at in reversed(range(len(rungs))):
        if at == len(rungs) - 1 or any(instructions(rungs[at])):
            count = counted(rungs[at], count, table) + 1
    if len(table) != sum(1 for rung in rungs for _ in instructions(rung)):
        raise ValueError("an instruction stands in two places")
    return table


def counted(elements, count, table):
    """Adds the pieces of these elements, before so many."""
    for element in reversed(elements):
        if not isinstance(element, Branch):
            count += 1
            table[id(element)] = count
        elif any(any(instructions(leg)) for leg in element.legs):
            count += 1
            for leg in reversed(element.legs):
                count = counted(leg, count + 1, table) if any(instructions(leg)) else count
            count += 1
    return count


def cover(project, events):
    machine, counts = Machine(project), Counts()
    for event in events:
        for _ in range(event.count):
            counts.note(machine.event(event.verb, event.lane, event.action))
    return counts.text()
