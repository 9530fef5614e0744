"""Runs the built program on files of a room of its own, and tells all that can be seen of it."""

import collections
import contextlib
import fcntl
import os
import resource
import shutil
import signal
import sys
import tempfile
import time
from typing import NamedTuple

MOST_MEMORY = 1_500_000_000
MOST_SECONDS = 60
PAGE = 4_096


class Ran(NamedTuple):
    """A status (negative: the signal that ended it; None: it hung), the output, what stood on standard error, and its cost."""

    status: object
    out: bytes
    err: bytes
    seconds: float
    memory: int


class Hung(Exception):
    """The time bound passed."""


def hang(_, __):
    raise Hung


class Program:
    """A program; its memory is limited for all that this process runs."""

    def __init__(self, path):
        self.path = os.path.abspath(path)
        self.room = tempfile.mkdtemp(prefix="hammer-", dir="/dev/shm" if os.path.isdir("/dev/shm") else None)
        self.out = os.open(f"{self.room}/out", os.O_RDWR | os.O_CREAT)
        self.err = os.open(f"{self.room}/err", os.O_RDWR | os.O_CREAT)
        self.runs, self.slowest, self.largest = 0, 0.0, 0
        self.told = {}
        signal.signal(signal.SIGALRM, hang)
        signal.signal(signal.SIGTERM, lambda *_: sys.exit(128 + signal.SIGTERM))
        resource.setrlimit(resource.RLIMIT_AS, (MOST_MEMORY, resource.getrlimit(resource.RLIMIT_AS)[1]))
        self.commands = self.usage()

    def close(self):
        os.close(self.out)
        os.close(self.err)
        shutil.rmtree(self.room, ignore_errors=True)

    def usage(self):
        """The commands that the usage line names."""
        line = self.run([]).out.decode("latin-1")
        return {piece.split()[0] for piece in line.partition("logix ")[2].split(", ")}

    def put(self, name, contents):
        """A file of the room; its path."""
        path = f"{self.room}/{name}"
        with open(path, "wb") as file:
            file.write(contents)
        return path

    def answer(self, verb, *contents, more=()):
        """Runs a command on files of these contents, and then more words."""
        return self.run([verb, *(self.put(f"file{at}", one) for at, one in enumerate(contents)), *more])

    def tally(self, fault, came):
        """Counts what came of a fault, for the table."""
        self.told.setdefault(fault, collections.Counter())[came] += 1

    @contextlib.contextmanager
    def on(self, count):
        """Runs on so many of the processors that there are."""
        processors = os.sched_getaffinity(0)
        few = set(sorted(processors)[:count])
        if few != processors:
            os.sched_setaffinity(0, few)
        try:
            yield
        finally:
            if few != processors:
                os.sched_setaffinity(0, processors)

    def beside(self, name):
        """Another program of the same repository, or None."""
        path = os.path.join(os.path.dirname(os.path.dirname(os.path.dirname(self.path))), name, "out", name)
        return path if os.access(path, os.X_OK) else None

    def run(self, words, out=None, memory=None, given=b"", path=None, variables=None, seconds=MOST_SECONDS):
        """Runs it with these words. `out`: in place of a file that is read back; `memory`: a limit in bytes, below the usual one;
        `given`: what stands on standard input; `path`: another program; `variables`: of its environment."""
        called = [path or self.path, *words]
        if memory:
            called = ["/bin/sh", "-c", 'ulimit -v "$0"; exec "$@"', str(memory // 1024), *called]
        self.runs += 1
        self.empty(self.out, self.err)
        began = time.monotonic()
        files = [
            (os.POSIX_SPAWN_OPEN, 0, self.put("in", given) if given else os.devnull, os.O_RDONLY, 0),
            (os.POSIX_SPAWN_DUP2, self.out if out is None else out, 1), (os.POSIX_SPAWN_DUP2, self.err, 2),
        ]
        child = os.posix_spawn(called[0], called, variables or {}, file_actions=files, setsigdef=[signal.SIGPIPE])
        status, used = self.wait(child, seconds)
        took = time.monotonic() - began
        self.slowest, self.largest = max(self.slowest, took), max(self.largest, used)
        return Ran(status, self.read(self.out), self.read(self.err), took, used)

    @staticmethod
    def empty(*files):
        for file in files:
            if os.fstat(file).st_size:
                os.ftruncate(file, 0)
            os.lseek(file, 0, os.SEEK_SET)

    @staticmethod
    def wait(child, seconds=MOST_SECONDS):
        """Its status and its memory. It hangs if it takes so many seconds of processor time, or ten times as long in all."""
        resource.prlimit(child, resource.RLIMIT_CPU, (seconds, seconds + 1))
        signal.setitimer(signal.ITIMER_REAL, 10 * seconds)
        try:
            _, status, used = os.wait4(child, 0)
            signal.setitimer(signal.ITIMER_REAL, 0)
            return os.waitstatus_to_exitcode(status), used.ru_maxrss * 1024
        except Hung:
            os.kill(child, signal.SIGKILL)
            _, _, used = os.wait4(child, 0)
            return None, used.ru_maxrss * 1024
        except SystemExit:
            os.kill(child, signal.SIGKILL)
            raise

    @staticmethod
    def read(file):
        size = os.fstat(file).st_size
        return os.pread(file, size, 0) if size else b""

    def run_piped(self, words, count):
        """Runs it into a pipe that holds a page, whose reader goes after so many bytes; the answer with what was read."""
        mine, theirs = os.pipe()
        fcntl.fcntl(mine, fcntl.F_SETPIPE_SZ, PAGE)
        files = [(os.POSIX_SPAWN_DUP2, theirs, 1), (os.POSIX_SPAWN_DUP2, self.err, 2), (os.POSIX_SPAWN_CLOSE, mine)]
        self.empty(self.err)
        self.runs += 1
        child = os.posix_spawn(self.path, [self.path, *words], {}, file_actions=files, setsigdef=[signal.SIGPIPE])
        os.close(theirs)
        taken = b""
        while len(taken) < count:
            piece = os.read(mine, count - len(taken))
            if not piece:
                break
            taken += piece
        os.close(mine)
        status, used = self.wait(child)
        return Ran(status, taken, self.read(self.err), 0.0, used)
