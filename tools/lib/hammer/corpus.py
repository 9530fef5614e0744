"""Cases that met what is rare: kept in the repository (kept.txt), tried as they are and changed, and found by the plain interpreter."""

import functools
import json
import os
import re
import sys
import time
from typing import NamedTuple

from . import begins, cases, marks, shrink, texts
from .bent import Bender
from .coverage import Coverage, Watching
from .draw import Draw
from .laws import of_live, of_stations
from .plain.judge import answer

PATH = os.path.join(os.path.dirname(os.path.abspath(__file__)), "kept.txt")
HEAD, BETWEEN, END = b"== ", b"\n-- next file\n", b"\n-- end of files"
MOST_TOLD = 3
MOST_BYTES, MOST_FILE = 190_000, 6_000
WARM, RARE = 3_000, 3
SECONDS_OF_SHRINKING = 4
NUMBER = re.compile(r"-?[0-9]+")
NUMBERS = ("0", "1", "-1", "2", "3", "5", "31", "32", "127", "128", "2147483647", "-2147483648")
PROJECTS = {"link": 2}


class Kept(NamedTuple):
    """A case: the command, its files, and the rare things that it was kept for."""

    command: str
    files: list
    meets: list


def read(path=PATH):
    if not os.path.exists(path):
        return []
    with open(path, "rb") as file:
        return [kept_of(piece) for piece in file.read().split(b"\n" + HEAD)[1:]]


def kept_of(text):
    """A case from its text: a head that says the command and what it was kept for, and its files."""
    head, _, rest = text.partition(b"\n")
    command, *meets = head.decode("latin-1").split("; ")
    return Kept(command, rest[:-len(END)].split(BETWEEN), meets)


def write(kept, path=PATH):
    with open(path, "wb") as file:
        for one in kept:
            file.write(b"\n" + HEAD + "; ".join([one.command, *one.meets]).encode("latin-1") + b"\n" + BETWEEN.join(one.files) + END)


def is_writable(files):
    """Whether these files can be told apart in one text."""
    return not any(mark in b"\n" + text + b"\n" for text in files for mark in (b"\n" + HEAD, BETWEEN, END))


def compact(text):
    """A project without needless blanks; any other text as it is."""
    try:
        return json.dumps(json.loads(text), separators=(",", ":")).encode() if text.startswith(b"{") else text
    except (ValueError, RecursionError):
        return text


# ---- changes

class Changes:
    """Changes a kept case a little, with lines and rungs of the others."""

    def __init__(self, draw, every):
        self.draw, self.every, self.bender = draw, every, Bender(draw)

    def files(self, one):
        files = list(one.files)
        of_project, of_text = (*[self.rung] * 8, self.value, self.bent), (*[self.line] * 4, *[self.number] * 4, self.bent)
        for _ in range(self.draw.choice((1, 1, 1, 2, 3))):
            at = self.draw.randrange(len(files))
            way = self.draw.choice(of_project if at < PROJECTS.get(one.command, 1) else of_text)
            files[at] = way(files[at])
        return files

    def bent(self, text):
        return self.bender.text(text)

    def value(self, text):
        try:
            return self.bender.value(json.loads(text))
        except (ValueError, RecursionError, LookupError, TypeError):
            return self.bender.text(text)

    def number(self, text):
        found = list(NUMBER.finditer(text.decode("latin-1")))
        if not found:
            return text
        one = self.draw.choice(found)
        return text[:one.start()] + self.draw.choice(NUMBERS).encode() + text[one.end():]

    def line(self, text):
        """A line of another case of the same sort of text, put in; or one doubled, dropped, moved."""
        lines, others = text.split(b"\n"), self.draw.choice(self.every).files[-1].split(b"\n")
        at = self.draw.randrange(len(lines))
        what = self.draw.randrange(4)
        if what == 0:
            lines.insert(at, self.draw.choice(others))
        elif what == 1:
            lines.insert(at, self.draw.choice(lines))
        elif what == 2:
            del lines[at]
        else:
            lines[at] = self.number(lines[at])
        return b"\n".join(lines)

    def rung(self, text):
        """A rung of any case in a routine, or a number of a rung changed."""
        try:
            project = json.loads(text)
            routine = self.draw.choice(self.draw.choice(project["programs"])["routines"])["rungs"]
            if routine and self.draw.random() < 0.5:
                at = self.draw.randrange(len(routine))
                routine[at] = self.number(routine[at].encode("latin-1")).decode("latin-1")
            else:
                routine.insert(self.draw.randrange(len(routine) + 1), self.draw.choice(self.rungs_of(self.draw.choice(self.every))))
            return json.dumps(project).encode()
        except (ValueError, LookupError, TypeError, AttributeError, RecursionError):
            return self.bender.text(text)

    @staticmethod
    def rungs_of(one):
        project = json.loads(one.files[0])
        return [rung for program in project["programs"] for routine in program["routines"] for rung in routine["rungs"]]


@functools.cache
def by_row():
    """The kept cases, and by each row of the table those that were kept for it."""
    known, rows = read(), {}
    for one in known:
        for what in one.meets:
            if what.startswith(("cause ", "instruction ", "fault ", "prescan ", "effect ")):
                rows.setdefault(what, []).append(one)
    return known, [rows[what] for what in sorted(rows)]


def kept(draw, program):
    """A kept case, mostly changed: one of a row of the table, each as often as the others, or any; a run now and then in a session, or with stations."""
    known, rows = by_row()
    one = draw.choice(draw.choice(rows) if draw.random() < 0.6 else known)
    files = one.files if draw.random() < 0.1 else Changes(draw, known).files(one)
    how = draw.choice(("live", "stations")) if one.command == "replay" and draw.random() < 0.1 else one.command
    if how == "stations":
        return of_stations, [*files, b"2"]
    return (of_live, files) if how == "live" and program.beside("logix_live") else (cases.judged(one.command), files)


# ---- finding more, by the plain interpreter alone

class Commands:
    """What the makers of cases ask of a program."""

    commands = {"replay", "trace", "check", "text", "migrate", "xref", "audit", "link"}

    @staticmethod
    def beside(_):
        return None


MAKERS = (
    (cases.whole, 6), (marks.marks, 3), (begins.begins, 4), (cases.projects, 6), (cases.journals, 4), (cases.links, 1), (cases.traces, 2),
    (cases.walks, 2), (texts.texts, 1),
)


def met_by(command, files):
    """What a case meets; nothing of a long one."""
    coverage = Coverage()
    with Watching(coverage):
        wanted = answer([command], files)
    if wanted is None:
        return set()
    coverage.meet(f"status {command} {wanted[0]}")
    if wanted[0]:
        coverage.causes(wanted[1])
    return coverage.case()


class Finder:
    """Looks for cases that meet what few others did, from fresh ones and changes of those that are kept."""

    def __init__(self, seed, known):
        self.draw, self.kept, self.counts, self.tried = Draw(f"find {seed}"), list(known), Coverage().counts, 0
        for one in self.kept:
            self.counts.update(met_by(one.command, one.files))

    def drawn(self):
        if self.kept and self.tried > WARM and self.draw.random() < 0.7:
            one = self.draw.choice(self.kept[-40:] if self.draw.random() < 0.4 else self.kept)
            return one.command, Changes(self.draw, self.kept).files(one)
        make = self.draw.choices([make for make, _ in MAKERS], [often for _, often in MAKERS])[0]
        judge, files = make(self.draw, Commands)
        return judge.command, files

    def find(self, seconds):
        until, early = time.monotonic() + seconds, {}
        while time.monotonic() < until and self.size() < MOST_BYTES:
            command, files = self.drawn()
            self.tried += 1
            met = met_by(command, files)
            self.counts.update(met)
            rare = sorted(what for what in met if self.counts[what] <= RARE)
            if self.tried <= WARM:
                early.update({what: (command, files) for what in rare})
            elif rare:
                self.keep(command, files, rare)
            if self.tried == WARM:
                self.keep_early(early)
        return self.kept

    def keep_early(self, early):
        for what in sorted(early):
            if self.counts[what] <= RARE and not any(what in one.meets for one in self.kept):
                self.keep(*early[what], [what])

    def keep(self, command, files, rare):
        """Keeps the case, made smaller, if it stays small enough."""
        shrink.MOST_SECONDS = SECONDS_OF_SHRINKING
        smaller = shrink.Shrinker(lambda made: set(rare) <= met_by(command, made)).shrink(files)
        smaller = [compact(bytes(text)) for text in smaller]
        if sum(map(len, smaller)) < MOST_FILE and is_writable(smaller) and set(rare) <= met_by(command, smaller):
            self.kept.append(Kept(command, smaller, rare[:MOST_TOLD]))

    def size(self):
        return sum(len(text) + 40 for one in self.kept for text in one.files)


def main(seconds, seed):
    """Finds more cases for some seconds and writes them beside those that are kept."""
    sys.setrecursionlimit(20_000)
    known = read()
    finder = Finder(seed, known)
    found = finder.find(seconds)
    write(found)
    print(f"{finder.tried} cases tried, {len(found) - len(known)} kept more, {len(found)} in all, {os.path.getsize(PATH)} bytes")
    return 0
