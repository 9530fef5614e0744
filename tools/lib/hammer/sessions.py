"""Sessions with marks: a `?` is answered after all that was told before it, before anything more is read, and changes nothing."""

import contextlib
import os
import select
import subprocess
import time

from . import begins, marks
from .bent import Bender
from .cases import file_text, first_difference, journal_text, told
from .laws import Broken, law
from .made import Maker
from .plain.judge import live

MARK, MOST_SECONDS, PIECE = b"?", 20, 1 << 16


class Talk:
    """A process of `logix_live`, told pieces and read up to their marks."""

    def __init__(self, program, project):
        words = [program.beside("logix_live"), program.put("talked", project)]
        self.process = subprocess.Popen(words, stdin=subprocess.PIPE, stdout=subprocess.PIPE, stderr=subprocess.PIPE, bufsize=0, env={})
        self.lines, self.heard = 0, b""
        program.runs += 1

    def tell(self, piece):
        """Tells whole lines, the last a mark; what is answered up to the mark's answer, which is the last."""
        self.lines += piece.count(b"\n")
        with contextlib.suppress(BrokenPipeError):
            self.process.stdin.write(piece)
        wanted, start = b"line J1 %d\n" % self.lines, len(self.heard)
        while not (self.heard.endswith(wanted) and (len(self.heard) - start == len(wanted) or self.heard[-len(wanted) - 1:-len(wanted)] == b"\n")):
            more = self.read()
            if not more:
                break
            self.heard += more
        return self.heard[start:]

    def read(self):
        """Some bytes; none at the end."""
        if not select.select([self.process.stdout], [], [], MOST_SECONDS)[0]:
            raise Broken(f"nothing more is answered after line {self.lines}: {self.heard[-200:]!r}")
        return os.read(self.process.stdout.fileno(), PIECE)

    def rest(self):
        """What is written at the end of the input; the status."""
        self.process.stdin.close()
        until, start = time.monotonic() + MOST_SECONDS, len(self.heard)
        while more := self.read():
            self.heard += more
            if time.monotonic() > until:
                raise Broken("it goes on and on")
        return self.heard[start:], self.process.wait(MOST_SECONDS)

    def close(self):
        self.process.kill()
        self.process.wait()
        for stream in (self.process.stdin, self.process.stdout, self.process.stderr):
            stream.close()


@law
def of_marks(program, contents):
    """Told at once: what the plain interpreter answers. Told up to each mark, and read before more is told: the same, mark by mark."""
    project, lines = contents
    wanted = live(project, lines)
    if wanted is None:
        return None
    status, text = wanted[0], wanted[1].encode("latin-1")
    ran = program.run([program.put("file0", project)], given=lines, path=program.beside("logix_live"))
    wrong = told(ran, status, text)
    if wrong or status:
        return wrong
    of_removed(program, project, lines, text)
    return of_pieces(program, project, lines, text)


def of_removed(program, project, lines, text):
    """Without the marks, and with comments in their place: the same but for the answers to the marks."""
    kept = b"\n".join(b"#" if line == MARK else line for line in lines.split(b"\n"))
    ran = program.run([program.put("file0", project)], given=kept, path=program.beside("logix_live"))
    marked = {b"line J1 %d" % at for at, line in enumerate(lines.split(b"\n"), 1) if line == MARK}
    rest = b"".join(line for line in text.splitlines(keepends=True) if line.rstrip(b"\n") not in marked)
    if ran.status or ran.out != rest:
        raise Broken(f"without marks: status {ran.status}, {first_difference(ran.out, rest)}")


def of_pieces(program, project, lines, text):
    talk = Talk(program, project)
    try:
        pieces = lines.split(b"\n?\n")
        for piece in pieces[:-1]:
            before = len(talk.heard)
            answer = talk.tell(piece + b"\n?\n")
            if answer != text[before:before + len(answer)]:
                raise Broken(f"up to line {talk.lines}: {first_difference(answer, text[before:])}")
            if talk.process.poll() is not None or b"\nend\n" in b"\n" + piece + b"\n":
                break
        else:
            with contextlib.suppress(BrokenPipeError):
                talk.process.stdin.write(pieces[-1])
        _, status = talk.rest()
        if status or talk.heard != text:
            return f"told piece by piece: status {status}, {first_difference(talk.heard, text)}"
        errors = talk.process.stderr.read()
        return f"standard error: {errors[:200]!r}" if errors else None
    finally:
        talk.close()


def sessions(draw, _):
    what = draw.randrange(3)
    if what == 0:
        maker = Maker(draw, draw.choice((0.0, 0.0, 0.003)))
        project, journal = file_text(maker.project()), journal_text(maker.journal())
    else:
        project, journal = (begins if what == 1 else marks).files(draw)
    if draw.random() < 0.2:
        journal = Bender(draw).text(journal)
    lines, made = journal.split(b"\n"), []
    often = draw.choice((0.05, 0.3, 0.3, 1.0))
    for line in lines:
        made += [MARK] * (draw.choice((1, 1, 2)) if draw.random() < often else 0)
        made.append(line if draw.random() < 0.97 else draw.choice((b"", b"# x", b"??", b" ?", b"cpu", b"? ", b"\r")))
    return of_marks, [project, b"\n".join(made)]
