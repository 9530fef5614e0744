"""What the controller refuses, a project or a command, as tools/explain tells it: where, the text with a mark, the names that are near."""

from __future__ import annotations

import dataclasses
import functools
import subprocess
from dataclasses import dataclass
from typing import TYPE_CHECKING

from lib.paths import read_bytes
from lib.places.running import unexplained
from lib.programs import Astray, Late

from .bounded import run

if TYPE_CHECKING:
    from .running import Done

ASTRAY, BY_A_SIGNAL = 1, 6

# (the modules that know the rules are loaded only when something is refused)


class Stopped(Exception):
    """The controller's process ended before its time, or was ended: why, and the status to end with."""

    def __init__(self, why: str, status: int) -> None:
        super().__init__(why)
        self.why, self.status = why, status


def astray_told(astray: Astray) -> str:
    return f"the controller was ended{' by --seconds' if isinstance(astray, Late) else ''}: {astray.text}"


@dataclass(frozen=True)
class Refusal:
    """Why a command was refused; and if it is for a rung, its text with a mark under the place."""

    why: str
    quote: tuple[str, ...] = ()


@functools.lru_cache(maxsize=64)
def refusal_of(live: str, path: str, seconds: float) -> tuple[str, ...]:
    """The controller's line of a project that it refuses, and what that says of the file; nothing of a project that it takes."""
    try:
        ran = run([live, path], seconds, stdin=subprocess.DEVNULL)
    except Astray as astray:
        raise Stopped(astray_told(astray), ASTRAY) from None
    if ran.returncode == 0:
        return ()
    if ran.returncode < 0:
        raise Stopped(f"the controller was ended by signal {-ran.returncode} at the project {path}", BY_A_SIGNAL)
    if ran.returncode != 2:
        raise Stopped(f"the controller ended with status {ran.returncode} at the project {path}", ran.returncode)
    line = ran.stdout.decode(errors="replace").partition("\n")[0]
    return (line, *of_project(path, line.split()[1:]))


def of_project(path: str, words: list[str]) -> list[str]:
    from lib.places import project

    try:
        return project.told(path, read_bytes(path), words)
    except Exception as fault:  # what can't be explained is refused all the same
        return [unexplained(fault), *project.codes_said(words)]


def explained(project: bytes, done: list[Done]) -> list[Done]:
    """The same commands, each that was refused with its refusal. They are followed, as the rungs come from the edits before."""
    if not any(one.is_refused() for one in done):
        return done
    from lib.places.replies import Follower
    from lib.places.telling import readable

    about, made = readable(project), []
    if about is None:
        return done
    follower = Follower(about)
    for one in done:
        if one.is_refused():
            one = dataclasses.replace(one, refusal=of_command(follower, one.action, one.answer.split()[1:]))
        elif one.answer.startswith("ok"):
            follower.done(one.action)
        made.append(one)
    return made


def of_command(follower, action: str, cause: list[str]) -> Refusal:
    from lib.places.codes import table
    from lib.places.replies import NO_PLACE

    try:
        said = follower.refused(action, cause)
        if said.why != NO_PLACE:
            # (the command is told anyway: what is quoted after it is a rung)
            return Refusal(said.why, tuple(said.quote[1:]) if len(said.quote) > 2 else ())
    except Exception as fault:  # what can't be explained is refused all the same
        return Refusal(unexplained(fault))
    return Refusal("; or ".join(row.meaning for row in table().get(cause[0], [])))
