"""Online edits of one program (CONTROLLER.md, section 13)."""

from .check import CheckFault
from .rungs import TextFault, read_rung

MOST_MERGED = 131_072


class Refused(Exception):
    """A refusal's text."""


class Book:
    """The base, the accepted edits, who owns them, and whether they are tested."""

    def __init__(self, project, program):
        self.project, self.program = project, program
        self.base, self.base_number, self.last = [list(rungs) for rungs in project.texts[program]], 0, 0
        self.base_checked = project.checked[program]
        self.accepted, self.owner, self.testing = [], None, False
        self.base_counts = [project.count([rungs]) for rungs in self.base]
        self.merged = self.merged_checked = self.merged_counts = None

    def selected(self):
        """The rungs that the next scan has, checked, and their number."""
        return (self.merged_checked, self.last) if self.testing else (self.base_checked, self.base_number)

    def owned(self, client):
        if self.owner not in (None, client):
            raise Refused(f"E3 {self.owner}")

    def accept(self, client, name, edits):
        names = self.project.routine_names(self.program)
        if name.lower() not in names:
            raise Refused("E2")
        self.owned(client)
        routine = names.index(name.lower())
        self.judge_places(routine, edits)
        read = [(routine, edit, self.read(at, edit)) for at, edit in enumerate(edits)]
        rungs = self.merge(routine, self.accepted + read)
        try:
            checked = self.project.check(self.program, rungs)
        except CheckFault as fault:
            raise Refused(f"E8 {fault}") from None
        before = (self.merged, self.merged_checked, self.merged_counts) if self.accepted else (self.base, self.base_checked, self.base_counts)
        now = (rungs, checked, self.project.count([rungs]))
        merged, merged_checked, counts = ([*of[:routine], one, *of[routine + 1:]] for of, one in zip(before, now))
        if sum(counts) > MOST_MERGED:
            raise Refused("E9")
        self.merged, self.merged_checked, self.merged_counts = merged, merged_checked, counts
        self.accepted, self.owner, self.last = self.accepted + read, client, self.last + 1
        return self.last

    def judge_places(self, routine, edits):
        length = len(self.base[routine])
        for at, edit in enumerate(edits):
            if edit.index >= length + (edit.what == "i"):
                raise Refused(f"E5 {at}")
        changed = {edit.index for number, edit, _ in self.accepted if number == routine and edit.what != "i"}
        for at, edit in enumerate(edits):
            if edit.what != "i" and edit.index in changed:
                raise Refused(f"E6 {at}")
            if edit.what != "i":
                changed.add(edit.index)

    @staticmethod
    def read(at, edit):
        if edit.what == "d":
            return None
        try:
            return read_rung(edit.text)
        except TextFault as fault:
            raise Refused(f"E7 {at} {fault}") from None

    def merge(self, routine, edits):
        """The rungs of a routine with these edits; base numbers count."""
        inserted, instead, merged = {}, {}, []
        for number, edit, rung in edits:
            if number == routine and edit.what == "i":
                inserted.setdefault(edit.index, []).append(rung)
            elif number == routine:
                instead.setdefault(edit.index, []).extend([rung] if edit.what == "r" else [])
        for index, rung in enumerate(self.base[routine]):
            merged += inserted.get(index, [])
            merged += instead.get(index, [rung])
        return merged + inserted.get(len(self.base[routine]), [])

    def change(self, client, verb):
        """test, untest, assemble, cancel."""
        self.owned(client)
        if not self.accepted:
            raise Refused("E10")
        if verb == "test" and self.testing:
            raise Refused("E11")
        if verb == "untest" and not self.testing:
            raise Refused("E12")
        self.testing = verb == "test"
        if verb == "assemble":
            self.base, self.base_checked, self.base_counts, self.base_number = self.merged, self.merged_checked, self.merged_counts, self.last
        if verb in ("assemble", "cancel"):
            self.accepted, self.owner = [], None
