"""Which tasks a project can have."""

from __future__ import annotations

from dataclasses import dataclass, field
from decimal import Decimal, InvalidOperation

from lib.texts import shown

from .findings import Findings
from .model import Task
from .profile import DEFAULT_WATCHDOG_MS, MAX_TICKS, is_name, key, whole

_KINDS = {"CONTINUOUS": "continuous", "PERIODIC": "periodic", "EVENT": "event"}
_NO_TRIGGER = ("", "event instruction only")
_INPUT = "module input data state change"


class TaskFault(Exception):
    """The profile has no such task; says why."""


@dataclass(eq=False)
class TakenTask:
    task: Task
    where: str
    kind: str
    priority: int | None = None
    period: int | None = None
    watchdog: int = 500
    programs: list[str] = field(default_factory=list)
    # The tag of the module whose words release it.
    trigger: str | None = None


def take_tasks(tasks: list[Task], tick_ms: int, findings: Findings) -> list[TakenTask]:
    """The tasks without a fault of their own; which of their programs are taken is judged later."""
    taken: list[TakenTask] = []
    names: set[str] = set()
    for task in tasks:
        where = f"task {shown(task.name)}"
        try:
            if key(task.name) in names:
                taken = [t for t in taken if key(t.task.name) != key(task.name)]
                raise TaskFault("the controller has the name twice (P6)")
            names.add(key(task.name))
            found = _judged(task, where, tick_ms)
            if found.kind == "continuous" and any(t.kind == "continuous" for t in taken):
                raise TaskFault("a second continuous task (P8)")
            taken.append(found)
        except TaskFault as fault:
            findings.fault(where, str(fault))
    return taken


def _judged(task: Task, where: str, tick_ms: int) -> TakenTask:
    if task.fault is not None:
        raise TaskFault(task.fault)
    if not is_name(task.name):
        raise TaskFault("its name is none of the profile (P5)")
    kind = _KINDS.get(task.kind.upper())
    if kind is None:
        raise TaskFault(f"a task of the type {shown(task.kind, 30) or 'none'}")
    watchdog = _ticks("Watchdog", task.watchdog or DEFAULT_WATCHDOG_MS, tick_ms)
    found = TakenTask(task, where, kind, watchdog=watchdog, programs=list(task.programs))
    if kind != "continuous":
        found.priority = whole(task.priority)
        if found.priority is None or not 1 <= found.priority <= 15:
            raise TaskFault(f"its Priority is {shown(task.priority or 'not there', 30)}; it may be 1 to 15")
    if kind == "periodic":
        found.period = _ticks("Rate", task.rate, tick_ms)
    if kind == "event":
        found.trigger = _trigger(task)
    return found


def _ticks(what: str, text: str | None, tick_ms: int) -> int:
    """A time in milliseconds as ticks."""
    try:
        time = Decimal((text or "")[:40])
    except InvalidOperation:
        raise TaskFault(f"its {what} is {shown(text or 'not there', 30)}, no number of milliseconds") from None
    if not time.is_finite() or abs(time) > MAX_TICKS * tick_ms or time < tick_ms:
        most = MAX_TICKS * tick_ms
        raise TaskFault(f"its {what} is {shown(text or '', 30)} ms; it may be {tick_ms} to {most:,}")
    if time % tick_ms:
        raise TaskFault(f"its {what} is {shown(text or '', 30)} ms, no whole number of ticks of {tick_ms} ms")
    return int(time) // tick_ms


def _trigger(task: Task) -> str | None:
    trigger = task.trigger.strip().lower()
    if trigger in _NO_TRIGGER:
        return None
    if trigger != _INPUT:
        raise TaskFault(f"its trigger is {shown(task.trigger, 40)}; taken are EVENT and a module's input")
    return task.trigger_tag
