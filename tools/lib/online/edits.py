"""The rungs of all routines, with the edits under way, as the replies to the edit commands tell it (docs/CONTROLLER.md, section 13)."""

from lib.neutral import canonical, elements, routines


class Program:
    def __init__(self):
        self.base = {}  # by routine, its rungs' texts
        self.edits = []  # accepted: (routine, "r", "i" or "d", index, text)
        self.owner, self.testing = None, False

    def rows(self, routine):
        """The routine's rungs as rows (letter, base number or None, text), in the order in which an engineer sees them: what is put in
        before a rung, and in its place, and the rung itself, with the letter R or D if the merged rungs don't have it."""
        base, put, taken, found = self.base[routine], {}, {}, []
        for name, kind, index, text in self.edits:
            if name == routine and kind == "i":
                put.setdefault(index, []).append(text)
            elif name == routine:
                taken[index] = (kind, text)
        for index, old in enumerate(base):
            found += [("I", None, text) for text in put.get(index, ())]
            kind, text = taken.get(index, ("", None))
            if kind == "r":
                found.append(("I", None, text))
            found.append((kind.upper(), index, old))
        return found + [("I", None, text) for text in put.get(len(base), ())]

    def merged(self, routine):
        return [text for letter, _, text in self.rows(routine) if letter not in ("R", "D")]

    def running(self, routine):
        """The texts that a scan takes which begins now."""
        return self.merged(routine) if self.testing else list(self.base[routine])

    def settle(self, merge):
        if merge:
            self.base = {routine: self.merged(routine) for routine in self.base}
        self.edits, self.owner, self.testing = [], None, False


class Book:
    """All programs, from what `./logix text` writes. Names that come from commands are found without case."""

    def __init__(self, listing):
        self.programs = {}
        for program, routine, texts in routines(listing):
            self.programs.setdefault(program, Program()).base[routine] = texts

    @staticmethod
    def find(names, name):
        return next((each for each in names if each.lower() == name.lower()), None)

    def done(self, lane, line):
        """An edit command was answered `ok`; its line is without its lane."""
        words = line.split(None, 3)
        verb, program = words[0], self.programs[self.find(self.programs, words[1])]
        if verb == "accept":
            routine = self.find(program.base, words[2])
            program.edits += [(routine, *edit) for edit in edits_of(words[3])]
            program.owner = lane
        elif verb in ("test", "untest"):
            program.testing = verb == "test"
        else:
            program.settle(verb == "assemble")


def edits_of(text):
    for edit in text.split("|"):
        kind, index, *rest = edit.strip(" \t\r").split(None, 2)
        yield kind, int(index), None if kind == "d" else canonical(elements(rest[0]))
