"""Has calls of the program fail that always succeed otherwise, by a library of ours that is loaded before it (failing.c)."""

import errno
import os
import shutil
import struct
import subprocess

from .program import MOST_SECONDS, Ran

KINDS = ("allocation", "open", "read", "write")
SHORT, ALL = -1, 0
SECONDS_OF_ALL = 1_000
SOURCE = os.path.join(os.path.dirname(os.path.abspath(__file__)), "failing.c")
FLAGS = ["-shared", "-fPIC", "-O2", "-nostdlib", "-fno-builtin", "-fno-stack-protector"]


def compilers():
    """Each C compiler that may be here: the system's, and that of the kit."""
    for name in ("cc", "clang", "gcc"):
        if shutil.which(name):
            yield [name]
    if shutil.which("rt"):
        kit = os.path.dirname(os.path.dirname(os.path.realpath(shutil.which("rt"))))
        yield [f"{kit}/toolchain/bin/clang", "-fuse-ld=lld"]


def built(room):
    """The library, built in this folder; None where no compiler builds it."""
    path = f"{room}/failing.so"
    for compiler in compilers():
        try:
            if subprocess.run([*compiler, *FLAGS, "-o", path, SOURCE], capture_output=True, timeout=60, check=False).returncode == 0:
                return path
        except (OSError, subprocess.TimeoutExpired):
            pass
    return None


class Failing:
    """The program with one kind of its calls at fault; `library` is None where that can't be."""

    def __init__(self, program):
        self.program, self.library = program, built(program.room)
        self.counted = os.open(program.put("counts", self.none()), os.O_RDWR)

    @staticmethod
    def none():
        return bytes(8 * len(KINDS))

    def run(self, call, kind=None, how=0, number=ALL, seconds=MOST_SECONDS, **variables):
        """Runs it with the fault `how`, an error or SHORT, at the call of this number, or at all calls, of the kind."""
        os.pwrite(self.counted, self.none(), 0)
        variables |= {"LD_PRELOAD": self.library, "HAMMER_COUNTS": f"{self.program.room}/counts"}
        if kind:
            variables["HAMMER_FAULT"] = f"{KINDS.index(kind)} {how} {number}"
        return call.run(self.program, variables=variables, seconds=seconds)

    def each(self, call, kind, how, step):
        """Runs it once, and at each step-th call of the kind once more from there on with this call at fault.

        What it answers without a fault, and with each by its number.
        """
        path = self.program.put("copies", b"")
        last = self.run(call, kind, how, step, SECONDS_OF_ALL, HAMMER_EACH=path)
        with open(path, "rb") as file:
            told = file.read()
        answers, at = {}, 0
        while at < len(told):
            number, status, length = struct.unpack_from("=3q", told, at)
            at += 24 + length
            answers[number] = Ran(os.waitstatus_to_exitcode(status), told[at - length:at], last.err, 0.0, 0)
        return last, answers

    def counts(self):
        """How many calls of each kind the last run made."""
        return dict(zip(KINDS, struct.unpack(f"={len(KINDS)}q", os.pread(self.counted, 8 * len(KINDS), 0))))


ERRORS = {"an error": errno.EIO, "no memory": errno.ENOMEM, "no space": errno.ENOSPC, "interrupted": errno.EINTR, "one byte": SHORT}
