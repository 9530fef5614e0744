"""A process of logix_live, told lines and read up to a mark.

The mark is a line that is no journal line: the controller answers it with `line J1 N`, N its number, after all that it answered before,
and nothing changes by it. So a reader never waits for a line that doesn't come, however many lines steps and ticks are answered with.
"""

import fcntl
import os
import select
import subprocess
import threading
import time
import weakref

from .programs import Ended, Late

AT_ONCE = 32_768  # so much goes into an empty pipe without anybody who reads
MARK = b"?\n"
READ = 1 << 20
LIVING, AT_LIVING = weakref.WeakSet(), threading.Lock()  # all talks that there are
MOST_SECONDS = 1e6  # that are waited at a time, since the system's clocks have an end


class Talk:
    """A proved program, which answers line by line. What it says is waited for up to the time `until` (of time.monotonic; None: for ever)."""

    def __init__(self, program, project):
        self.process = subprocess.Popen([*program.words, project], stdin=subprocess.PIPE, stdout=subprocess.PIPE, bufsize=0)
        for stream in (self.process.stdin, self.process.stdout):
            try:
                fcntl.fcntl(stream, fcntl.F_SETPIPE_SZ, READ)
            except OSError:
                pass  # what the system lets have is enough
        self.told = 0  # lines
        self.last = None  # the answer to the mark, once that is told
        self.until = None
        with AT_LIVING:
            LIVING.add(self)
        # Each is held at a call on its stream: whoever closes it waits, since the stream's number may be another's right after.
        self.writing, self.reading, self.closed = threading.Lock(), threading.Lock(), False

    def tell(self, pieces):
        """Tells texts of whole lines, and yields what is answered, as pieces of whole lines."""
        pieces, first, size = iter(pieces), [], 0
        self.last = None
        for piece in pieces:
            first.append(piece)
            size += len(piece)
            if size > AT_ONCE:
                threading.Thread(target=self.write_all, args=(first, pieces), daemon=True).start()
                break
        else:
            self.write(first, MARK)
        yield from self.answers()

    def write_all(self, first, rest):
        if self.write(first) and all(self.write([piece]) for piece in rest):
            self.write([], MARK)

    def write(self, pieces, mark=b""):
        """Answers whether it could be written; where not, the reader says how the process ended."""
        data = "".join(pieces).encode() + mark
        self.told += data.count(b"\n")
        if mark:
            self.last = b"line J1 %d\n" % self.told
        view = memoryview(data)
        while view:
            with self.writing:
                try:
                    if self.closed:
                        return False
                    view = view[self.process.stdin.write(view):]
                except OSError:
                    return False
        return True

    def left(self):
        """The seconds up to `until`."""
        return None if self.until is None else min(max(self.until - time.monotonic(), 0), MOST_SECONDS)

    def read(self):
        """What has come; nothing at the end of the output."""
        with self.reading:
            if self.closed:
                return b""
            left, comes = self.left(), select.poll()
            comes.register(self.process.stdout, select.POLLIN)
            if left == 0 or not comes.poll(None if left is None else left * 1000):
                raise Late("it didn't answer in time")
            return os.read(self.process.stdout.fileno(), READ)

    def status(self):
        """The status of a program whose output is at its end."""
        try:
            return self.process.wait(self.left())
        except subprocess.TimeoutExpired:
            raise Late("it closed its output, and didn't end in time") from None

    def answers(self):
        kept = b""
        while True:
            piece = self.read()
            if not piece:
                raise Ended(self.status(), kept.decode(errors="replace"))
            kept += piece
            end = kept.rfind(b"\n") + 1
            whole, kept = kept[:end], kept[end:]
            last = whole[whole.rfind(b"\n", 0, -1) + 1:]
            is_last = bool(last) and last == self.last
            if is_last:
                whole = whole[:-len(last)]
            if whole:
                yield whole
            if is_last:
                return

    def end(self):
        """Ends the journal; what is answered to that."""
        self.write(["end\n"])
        last = b"".join(iter(self.read, b""))
        self.status()
        return last

    def close(self):
        self.process.kill()
        self.process.wait()
        with self.writing, self.reading:
            self.closed = True
            self.process.stdin.close()
            self.process.stdout.close()


def end_all():
    """Ends every process that is talked to; whoever waits for one is told so."""
    with AT_LIVING:
        talks = list(LIVING)
    for each in talks:
        each.process.kill()


class TalkAnew:
    """A program that isn't proved: it reads all input before it answers, so it is told all lines again each time."""

    def __init__(self, program, project):
        self.words, self.lines, self.heard = [*program.words, project], [], 0

    def tell(self, pieces):
        self.lines += ["".join(pieces)]
        done = subprocess.run(self.words, input="".join(self.lines).encode(), stdout=subprocess.PIPE, check=False)
        if done.returncode:
            raise Ended(done.returncode, done.stdout.decode(errors="replace"))
        end = done.stdout.rfind(b"\n", 0, -1) + 1  # the end line
        fresh, self.heard = done.stdout[self.heard:end], end
        if fresh:
            yield fresh

    def close(self):
        pass


def talk(program, project):
    return (Talk if program.proved else TalkAnew)(program, project)
