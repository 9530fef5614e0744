"""The laws of a trace that the audit leaves out, told by counting along one (FORMATS.md, section 8.8; CONTROLLER.md, section 16)."""

from .audit import EDITS, Counting
from .machine import USUAL_WATCHDOG


class Lawful(Counting):
    """What is counted along a trace, with how long each task has been up, the program and the copy that it has begun, the mode, how
    long Run has lasted, and who owns a program's edits."""

    def __init__(self, table, project):
        super().__init__(table)
        count = len(table.priority)
        self.schedule = project.schedule
        self.periods = [task.get("period") if task["kind"] == "periodic" else None for task in project.tasks]
        self.watchdogs = [task.get("watchdog", USUAL_WATCHDOG) for task in project.tasks]
        self.kinds = [task["kind"] for task in project.tasks]
        self.ages, self.begun, self.copies, self.in_run = [0] * count, [None] * count, [None] * count, None
        self.mode, self.owners, self.tested = "program", {}, set()

    # ---- the laws

    def broken(self, event):
        """The first law that the event breaks, or None."""
        return next((law for law in LAWS if not getattr(self, "keeps_" + law)(*event)), None)

    def keeps_regions(self, what, task=None, *_):
        if what not in ("began", "step", "left"):
            return True
        return not any(self.is_open(other) for other in range(len(self.up)) if other != task)

    def keeps_copies(self, what, task=None, _=None, mark=None, __=None, fault=None):
        if what not in ("began", "step", "left"):
            return True
        copy = self.copies[task]
        if what != "step":
            return copy is None
        if copy is None:
            return mark not in ("copyend", "syncend") and (mark not in ("copy", "sync") or fault == "-")
        return mark in ("-", copy + "end") and fault == "-"

    def keeps_watchdogs(self, what, *said):
        if what != "tick":
            return True
        out = [task for task in range(len(self.up)) if self.up[task] and self.ages[task] + 1 >= self.watchdogs[task]]
        return said[2] == (out[0] if out else None)

    def keeps_releases(self, what, *said):
        if what != "tick":
            return True
        due = [] if said[2] is not None else [task for task in range(len(self.up)) if self.is_due(task)]
        return said[:2] == tuple(sum(1 << task for task in due if self.up[task] == up) for up in (False, True))

    def is_due(self, task):
        period = self.periods[task]
        return self.in_run is not None and bool(period) and (self.in_run + 1) % period == 0 and not self.table.inhibited[task]

    def keeps_starts(self, what, *said):
        if what != "act":
            return True
        verb, done, released = said[1], said[3][0] == "ok", said[4]
        free = [task for task in range(len(self.up)) if not self.up[task] and not self.table.inhibited[task]]
        if verb == "run" and done:
            return released == sum(1 << task for task in free if self.kinds[task] == "continuous")
        if verb == "other" and done and self.mode == "run" and not any(self.sync):
            return released in {0, *(1 << task for task in free if self.kinds[task] == "event")}
        return released == 0

    def keeps_triggers(self, what, *said):
        if what != "step" or said[2] != "trigger":
            return True
        return said[4] == ("minor" if self.up[said[3]] and not self.table.inhibited[said[3]] else "-")

    def keeps_scans(self, what, task=None, program=None, *_):
        if what in ("step", "left"):
            return self.begun[task] == program
        if what != "began":
            return True
        return self.begun[task] is None and program == dict(enumerate(self.schedule[task])).get(self.ended[task], 0)

    def keeps_modes(self, what, *said):
        leads = {"run": "program", "program": "run", "clear": "faulted"}
        if what != "act" or said[1] not in leads:
            return True
        return (said[3][0] == "ok") == (self.mode == leads[said[1]] and not any(self.sync))

    def keeps_edits(self, what, *said):
        if what != "act" or said[1] not in EDITS:
            return True
        lane, verb, program, (answer, _), _ = said
        if program is None:
            return answer == "no"
        owner, testing = self.owners.get(program), self.versions.get(program, (0, 0, False))[2]
        if verb == "accept":
            return answer == "no" or owner in (None, lane)
        may = owner == lane and {"test": not testing, "untest": testing}.get(verb, True)
        return may if answer == "ok" else not (may and program in self.tested)

    def keeps_numbers(self, what, *said):
        if what != "act" or said[1] != "accept" or said[3][0] != "ok" or said[2] is None:
            return True
        return said[3][1] == self.versions.get(said[2], (0, 0, False))[1] + 1

    # ---- what is counted

    def count(self, event):
        was = list(self.up)
        super().count(event)
        for task, up in enumerate(was):
            if up and self.up[task] and event[0] == "tick":
                self.ages[task] += 1
        if self.in_run is not None and event[0] == "tick":
            self.in_run += 1
        if event[0] == "act" and event[4][0] == "ok":
            self.done(*event[1:])

    def done(self, lane, verb, program, *_):
        """After an action that was done."""
        if verb in ("run", "program", "clear"):
            self.mode = "run" if verb == "run" else "program"
        if verb == "run":
            self.in_run = 0
        if verb == "accept":
            self.owners[program] = lane
        elif verb == "test":
            self.tested.add(program)
        elif verb in ("assemble", "cancel"):
            self.owners.pop(program, None)
            self.tested.discard(program)

    def after_began(self, task, program, version):
        super().after_began(task, program, version)
        self.begun[task] = program if self.up[task] else None

    def after_step(self, task, program, mark, target, fault):
        super().after_step(task, program, mark, target, fault)
        if fault == "major":
            self.mode = "faulted"
        elif self.up[task] and mark in ("copy", "sync", "copyend", "syncend"):
            self.copies[task] = mark if mark in ("copy", "sync") else None

    def after_tick(self, released, overlapped, watchdog):
        super().after_tick(released, overlapped, watchdog)
        if watchdog is not None:
            self.mode = "faulted"

    def after_left(self, task, program, ended):
        super().after_left(task, program, ended)
        if ended:
            self.begun[task] = None

    def down(self, task):
        super().down(task)
        self.ages[task], self.begun[task], self.copies[task], self.ended[task] = 0, None, None, 0

    def all_down(self):
        super().all_down()
        self.in_run = None


LAWS = ("regions", "copies", "watchdogs", "releases", "starts", "triggers", "scans", "modes", "edits", "numbers")


def verdict(events, table, project):
    """`yes N`, or the first breach."""
    counting = Lawful(table, project)
    for at, event in enumerate(events):
        law = counting.broken(event)
        if law:
            return 8, f"no {law} {at}\n"
        counting.count(event)
    return 0, f"yes {len(events)}\n"
