"""Runs a command and follows the processor time of every process below it."""

import os
import subprocess
import time
from dataclasses import dataclass, field

from lib.costs.work import Work, work_of

TICKS = os.sysconf("SC_CLK_TCK")
PAUSE = 0.25


@dataclass
class Process:
    work: Work | None
    seconds: float = 0.0


@dataclass
class Run:
    """What a command took: by work, and as a whole."""

    status: int
    clock: float
    user: float
    system: float
    processes: list[Process] = field(default_factory=list)


def stats():
    """Of each process its parent, the moment of its start and the processor seconds that it used itself."""
    found = {}
    for name in os.listdir("/proc"):
        if not name.isdigit():
            continue
        try:
            with open(f"/proc/{name}/stat", encoding="utf-8", errors="replace") as file:
                fields = file.read().rpartition(")")[2].split()
        except OSError:
            continue  # it has ended meanwhile
        found[int(name)] = int(fields[1]), int(fields[19]), (int(fields[11]) + int(fields[12])) / TICKS
    return found


def words_and_folder(pid):
    try:
        with open(f"/proc/{pid}/cmdline", "rb") as file:
            words = [os.fsdecode(word) for word in file.read().split(b"\0")]
        return words, os.readlink(f"/proc/{pid}/cwd")
    except OSError:
        return [], ""


class Follower:
    """The processes below one, each by its number and its start, since numbers come again."""

    def __init__(self, top):
        self.top, self.known, self.seeds = top, {}, set()

    def look(self):
        found = stats()
        below = {self.top}
        pids = sorted(found, key=lambda pid: found[pid][1])
        for _ in range(2):  # a child may have begun in the same moment as its parent
            below.update(pid for pid in pids if found[pid][0] in below)
        for pid in pids:
            if pid in below:
                self.note(pid, found)

    def note(self, pid, found):
        parent, start, seconds = found[pid]
        process = self.known.get((pid, start))
        if process is None or process.work is None:
            work = work_of(*words_and_folder(pid), self.seeds)
            above = self.known.get((parent, found[parent][1])) if parent in found else None
            process = self.known.setdefault((pid, start), Process(None))
            process.work = work or (above.work if above else None)
        process.seconds = max(process.seconds, seconds)


def watched(words):
    """Runs a command to its end, and says what it took."""
    begun = time.monotonic()
    with subprocess.Popen(words) as started:
        follower = Follower(started.pid)
        while True:
            follower.look()
            pid, status, used = os.wait4(started.pid, os.WNOHANG)
            if pid:
                break
            time.sleep(PAUSE)
        started.returncode = os.waitstatus_to_exitcode(status)
    code = started.returncode if started.returncode >= 0 else 128 - started.returncode
    return Run(code, time.monotonic() - begun, used.ru_utime, used.ru_stime, list(follower.known.values()))
