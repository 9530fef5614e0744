"""Who writes and who reads each tag."""

from bisect import bisect_right

from .check import Path
from .rungs import instructions

FIRST = ("OTE", "OTL", "OTU", "ONS", "TON", "TOF", "RTO", "CTU", "CTD", "RES")
LAST = ("ADD", "SUB", "MUL", "DIV", "MOD", "AND", "OR", "XOR", "MVM", "NEG", "ABS", "MOV", "NOT", "CLR")


def written(one):
    """The numbers of the operands that the instruction may change."""
    if one.op in FIRST:
        return {0}
    if one.op in ("OSR", "OSF"):
        return {0, 1}
    if one.op in LAST:
        return {len(one.args) - 1}
    if one.op in ("COP", "CPS", "FLL"):
        return {1}
    if one.op == "SBR":
        return set(range(len(one.args)))
    if one.op == "JSR":
        return set(range(2 + one.args[1].value, len(one.args))) if len(one.args) > 1 else set()
    return set()


def read_too(one):
    """Written operands that are read as well."""
    if one.op in ("ONS", "OSR", "OSF", "TON", "TOF", "RTO", "CTU", "CTD", "MVM"):
        return written(one)
    return set()


class Uses:
    """For each tag the lines of its writers and of its readers."""

    def __init__(self, project):
        self.project = project
        self.starts = [start for _, _, start, _ in project.tags.spans]
        self.writers, self.readers = [[] for _ in self.starts], [[] for _ in self.starts]
        for program, routines in enumerate(project.checked):
            returns = self.returns(routines)
            for routine, rungs in enumerate(routines):
                for at, rung in enumerate(rungs):
                    for number, one in enumerate(instructions(rung)):
                        self.add(program, routine, f"{at} {number} {one.op}", one, returns.get(routine, set()))

    def tag(self, bit):
        return bisect_right(self.starts, bit // 8) - 1

    def returns(self, routines):
        """For each routine the tags of the returns of its calls."""
        made = {}
        for rungs in routines:
            for rung in rungs:
                for one in instructions(rung):
                    if one.op == "JSR":
                        made.setdefault(one.args[0].value, set()).update(self.tag(one.args[at].at) for at in written(one))
        return made

    def add(self, program, routine, rest, one, returns):
        places = {at: arg for at, arg in enumerate(one.args) if isinstance(arg, Path)}
        writes = {self.tag(places[at].at) for at in written(one)} | (returns if one.op == "RET" else set())
        reads = {self.tag(path.at) for at, path in places.items() if at not in written(one) or at in read_too(one)}
        reads |= {self.tag(step.at) for path in places.values() for step in path.steps}
        described = self.project.programs[program]
        line = f"{described['name']} {described['routines'][routine]['name']} {rest}"
        for tag in writes:
            self.writers[tag].append(f"  write {line}\n")
        for tag in reads:
            self.readers[tag].append(f"  read {line}\n")


def xref(project):
    uses, text = Uses(project), []
    for at, (scope, name, _, _) in enumerate(project.tags.spans):
        text.append(f"tag {name}\n" if scope is None else f"tag Program:{project.programs[scope]['name']}.{name}\n")
        text += uses.writers[at] + uses.readers[at]
    return "".join(text)
