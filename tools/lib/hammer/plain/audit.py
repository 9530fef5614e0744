"""Traces, and the laws of the schedule told by counting along one (FORMATS.md, section 8.1; CONTROLLER.md, section 16)."""

import re

from .journal import Bad

NUMBER = re.compile(r"0|[1-9][0-9]*")
EDITS = ("accept", "test", "untest", "assemble", "cancel")
VERBS = (*EDITS, "run", "program", "clear", "other")
MARKS = ("up", "down", "copy", "copyend", "sync", "syncend", "-")


def number(word):
    if not NUMBER.fullmatch(word) or int(word) >= 1 << 32:
        raise Bad("K1")
    return int(word)


def one_of(word, *words):
    if word not in words:
        raise Bad("K1")
    return word


class Table:
    """The tasks and programs of a project, as far as a trace is about them."""

    def __init__(self, project):
        self.priority = [task.get("priority", 16) for task in project.tasks]
        self.lengths = [len(programs) for programs in project.schedule]
        self.continuous = [task["kind"] == "continuous" for task in project.tasks]
        self.inhibited = [task.get("inhibited", False) for task in project.tasks]
        self.programs = len(project.programs)

    def judge(self, tasks=(), programs=(), masks=(), lane=0):
        """K2: what the project hasn't got."""
        count = len(self.priority)
        missing = any(task >= count for task in tasks) or any(one >= self.programs for one in programs)
        if missing or any(mask >> count for mask in masks) or lane > 31:
            raise Bad("K2")


def read_trace(contents, table):
    """The events of a trace, up to the line `end`."""
    events = []
    pieces = contents.decode("latin-1").split("\n")
    pieces.pop()
    for at, line in enumerate(pieces, 1):
        if line == "end":
            return events
        try:
            events.append(event_of(line.split(" "), table))
        except Bad as bad:
            raise Bad(bad.code, at) from None
    raise Bad("K1", len(pieces) + 1)


def event_of(words, table):
    lengths = {"idle": 1, "began": 4, "step": 5, "left": 4, "tick": 4, "act": 6}
    if lengths.get(words[0]) != len(words):
        raise Bad("K1")
    return {"idle": lambda *_: ("idle",), "began": began, "step": step, "left": left, "tick": tick, "act": act}[words[0]](words, table)


def began(words, table):
    task, program, version = (number(word) for word in words[1:])
    table.judge([task], [program])
    return "began", task, program, version


def step(words, table):
    task, program = number(words[1]), number(words[2])
    mark, target = words[3], None
    if mark.startswith("trigger:"):
        mark, target = "trigger", number(mark[len("trigger:"):])
    else:
        one_of(mark, *MARKS)
    fault = one_of(words[4], "minor", "major", "-")
    table.judge([task] if target is None else [task, target], [program])
    return "step", task, program, mark, target, fault


def left(words, table):
    task, program = number(words[1]), number(words[2])
    ended = one_of(words[3], "ended", "on") == "ended"
    table.judge([task], [program])
    return "left", task, program, ended


def tick(words, table):
    released, overlapped = number(words[1]), number(words[2])
    watchdog = None if words[3] == "-" else number(words[3])
    table.judge([] if watchdog is None else [watchdog], (), [released, overlapped])
    return "tick", released, overlapped, watchdog


def act(words, table):
    lane, verb = number(words[1]), one_of(words[2], *VERBS)
    program = None if words[3] == "-" else number(words[3])
    if program is not None and verb not in EDITS:
        raise Bad("K1")
    answer = words[4]
    if verb == "accept" and answer.startswith("ok:"):
        answer = ("ok", number(answer[3:]))
    else:
        answer = (one_of(answer, *(("no",) if verb == "accept" else ("ok", "no"))), None)
    released = number(words[5])
    table.judge((), [] if program is None else [program], [released], lane)
    return "act", lane, verb, program, answer, released


class Counting:
    """What is counted along a trace: who is up, with regions and copies open, who stepped, what is selected."""

    def __init__(self, table):
        self.table, count = table, len(table.priority)
        self.up, self.ended, self.regions, self.sync = [False] * count, [0] * count, [0] * count, [False] * count
        self.others = [None] * count  # since the last step of a task that has stayed up, without a tick: whether an equal stepped
        self.barred = [()] * count  # the equals that must go down before the task steps
        self.stepped = None  # the task of the last step, if nothing but actions came after it, and it hasn't gone down
        self.versions = {}

    def is_open(self, task):
        return self.regions[task] > 0 or self.sync[task]

    def above(self, task):
        return any(up and priority < self.table.priority[task] for up, priority in zip(self.up, self.table.priority))

    def breach(self, event):
        """The least law that the event breaks, or None."""
        if event[0] == "idle":
            return 1 if any(self.up) else None
        if event[0] not in ("began", "step", "left"):
            return None
        task = event[1]
        if not self.up[task] or (self.above(task) and not self.is_open(task)):
            return 1
        if self.others[task] or any(self.up[equal] for equal in self.barred[task]):
            return 2
        if event[0] == "began" and event[3] != self.selected(event[2]):
            return 3
        return None

    def selected(self, program):
        base, merged, testing = self.versions.get(program, (0, 0, False))
        return merged if testing else base

    def count(self, event):
        getattr(self, "after_" + event[0])(*event[1:])

    def after_idle(self):
        self.stepped = None

    def stepping(self, task):
        for other, priority in enumerate(self.table.priority):
            if other != task and priority == self.table.priority[task] and self.others[other] is not None:
                self.others[other] = True
        self.others[task], self.stepped = False, task

    def after_began(self, task, _, __):
        self.stepping(task)
        self.regions[task] = 0

    def after_step(self, task, _, mark, target, fault):
        self.stepping(task)
        if fault == "major":
            self.all_down()
            return
        if mark == "up":
            self.regions[task] += 1
        elif mark == "down":
            self.regions[task] = max(0, self.regions[task] - 1)
        elif mark in ("sync", "syncend"):
            self.sync[task] = mark == "sync"
        elif mark == "trigger" and fault == "-" and not self.table.inhibited[target]:
            self.release(target)

    def after_left(self, task, _, ended):
        self.stepping(task)
        if not ended:
            return
        self.regions[task] = 0
        self.ended[task] += 1
        if self.ended[task] == self.table.lengths[task]:
            self.down(task)
            if self.table.continuous[task]:
                self.release(task)

    def after_tick(self, released, _, watchdog):
        count = len(self.up)
        barred = [()] * count
        task = self.stepped
        if task is not None and not self.is_open(task) and not self.above(task):
            same = self.table.priority[task]
            barred[task] = [other for other in range(count) if other != task and self.up[other] and self.table.priority[other] == same]
        self.barred, self.others, self.stepped = barred, [None] * count, None
        if watchdog is not None:
            self.all_down()
            return
        self.release_mask(released)

    def after_act(self, _, verb, program, answer, released):
        done = answer[0] == "ok"
        if verb == "program" and done:
            self.all_down()
            return
        if verb in EDITS and done and program is not None:
            self.edit(verb, program, answer[1])
        self.release_mask(released)

    def edit(self, verb, program, accepted):
        base, merged, testing = self.versions.get(program, (0, 0, False))
        if verb == "accept":
            merged = accepted
        elif verb == "assemble":
            base, testing = merged, False
        else:
            testing = verb == "test"
        self.versions[program] = (base, merged, testing)

    def release_mask(self, mask):
        for task in range(len(self.up)):
            if mask >> task & 1:
                self.release(task)

    def release(self, task):
        self.up[task], self.ended[task] = True, 0

    def down(self, task):
        self.up[task], self.regions[task], self.sync[task], self.others[task] = False, 0, False, None
        self.barred = [[other for other in equals if other != task] for equals in self.barred]
        if self.stepped == task:
            self.stepped = None

    def all_down(self):
        for task in range(len(self.up)):
            self.down(task)


def verdict(events, table):
    """`yes N`, or the first breach."""
    counting = Counting(table)
    for at, event in enumerate(events):
        law = counting.breach(event)
        if law:
            return 8, f"no L{law} {at}\n"
        counting.count(event)
    return 0, f"yes {len(events)}\n"
