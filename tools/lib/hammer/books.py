"""Accepts in a routine of hundreds of rungs, held against a plain book: a list of numbers.

Each rung stores a number of its own at one watched place, so a scan's lines are the rungs that it ran, in order, and the number of its
version. What each command is answered follows from counting alone; nothing here reads rungs or projects.
"""

from .cases import file_text, first_difference, journal_text
from .laws import Broken, got, law

LEAST, MOST, COMMANDS = 150, 600, 40
LANES = (0, 0, 0, 0, 1)
VERBS = ("accept", "accept", "accept", "accept", "accept", "test", "test", "untest", "assemble", "cancel", "scan", "scan", "part")


class Book:
    """Base numbers; by index what is inserted before, and what stands in place; who owns, and whether it is tested."""

    def __init__(self, count):
        self.base, self.number, self.last = list(range(1, count + 1)), 0, 0
        self.drop()

    def drop(self):
        self.inserted, self.instead, self.owner, self.testing, self.version = {}, {}, None, False, 0

    def merged(self):
        made = []
        for at in range(len(self.base) + 1):
            made += self.inserted.get(at, [])
            made += self.instead.get(at, self.base[at:at + 1])
        return made

    def selected(self):
        return (self.merged(), self.version) if self.testing else (self.base, self.number)

    def answer(self, lane, verb, edits=()):
        if self.owner not in (None, lane):
            return f"refused E3 {self.owner}"
        return self.accept(lane, edits) if verb == "accept" else self.change(verb)

    def accept(self, lane, edits):
        for at, (what, index, _) in enumerate(edits):
            if index > len(self.base) - (what != "i"):
                return f"refused E5 {at}"
        taken = set(self.instead)
        for at, (what, index, _) in enumerate(edits):
            if what != "i" and index in taken:
                return f"refused E6 {at}"
            taken |= {index} if what != "i" else set()
        for what, index, number in edits:
            if what == "i":
                self.inserted.setdefault(index, []).append(number)
            else:
                self.instead[index] = [number] if what == "r" else []
        self.owner, self.last, self.version = lane, self.last + 1, self.last + 1
        return f"ok {self.last}"

    def change(self, verb):
        if self.owner is None:
            return "refused E10"
        if verb in ("test", "untest"):
            if self.testing == (verb == "test"):
                return "refused E11" if verb == "test" else "refused E12"
            self.testing = verb == "test"
            return "ok"
        if verb == "assemble":
            self.base, self.number = self.merged(), self.version
        self.drop()
        return "ok"


class Wanted:
    """The report, as the book has it: steps in one scan after the other."""

    def __init__(self, count):
        self.book, self.lines, self.steps, self.shown = Book(count), ["0 0 reply 31 ok"], 0, 0
        self.rest = []

    def step(self):
        self.steps += 1
        if not self.rest:
            numbers, version = self.book.selected()
            self.rest = [*numbers, None]
            self.lines.append(f"0 {self.steps} begin T P {version}")
            return
        number = self.rest.pop(0)
        if number is not None and number != self.shown:
            self.shown = number
            self.lines.append(f"0 {self.steps} set n {number}")

    def act(self, lane, verb, edits=()):
        self.lines.append(f"0 {self.steps} reply {lane} {self.book.answer(lane, verb, edits)}")


def project(count):
    rungs = [f"MOV({at},n);" for at in range(1, count + 1)]
    return file_text({
        "schema": 2, "controller": "C", "tags": [{"name": "n", "type": "DINT"}],
        "programs": [{"name": "P", "main": "M", "routines": [{"name": "M", "rungs": rungs}]}],
        "tasks": [{"name": "T", "kind": "continuous", "programs": ["P"]}], "watch": ["n"],
    })


def edits_of(text):
    """An accept's edits, as the maker wrote them."""
    made = []
    for edit in text.split(" | "):
        words = edit.split(" ")
        made.append((words[0], int(words[1]), int(words[2][4:-4]) if len(words) > 2 else 0))
    return made


def wanted(count, journal):
    told = Wanted(count)
    for line in journal.decode().splitlines()[1:]:
        words = line.split(" ")
        if words[0] == "cpu":
            for _ in range(int(words[1])):
                told.step()
        elif words[0] != "end":
            edits = edits_of(line.split(" M ", 1)[1]) if words[1] == "accept" else ()
            told.act(int(words[0][1:]), words[1], edits)
    return "".join(line + "\n" for line in [*told.lines, f"end 0 {told.steps} run lost 0"]).encode()


@law
def of_book(program, contents):
    count, journal = int(contents[0]), contents[1]
    report, needed = got(program, {0}, "replay", project(count), journal).out, wanted(count, journal)
    if report != needed:
        raise Broken(first_difference(report, needed))
    return None


def places(draw, count):
    """Places of a routine: mostly some that lie together, the first ones, and the last."""
    near = draw.randrange(count)
    return [draw.choice((draw.randrange(count), near + draw.randrange(4), 0, 1, count - 1, count, count - draw.randrange(3))) for _ in range(draw.randrange(1, 17))]


def books(draw, _):
    count = draw.randrange(LEAST, MOST)
    number, lines = count, ["mode run"]
    for _ in range(draw.randrange(5, COMMANDS)):
        lane, verb = draw.choice(LANES), draw.choice(VERBS)
        if verb in ("scan", "part"):
            lines.append(f"cpu {draw.choice((count + 2, count + 9)) if verb == 'scan' else draw.randrange(1, 60)}")
        elif verb == "accept":
            made = []
            for at in places(draw, count):
                number += 1
                what = draw.choice("rdii")
                made.append(f"d {at}" if what == "d" else f"{what} {at} MOV({number},n);")
            lines.append(f"@{lane} accept P M " + " | ".join(made))
        else:
            lines.append(f"@{lane} {verb} P")
    return of_book, [str(count).encode(), journal_text([*lines, f"cpu {2 * count}", "end"])]
