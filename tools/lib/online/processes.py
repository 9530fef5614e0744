"""The controller's processes of a session, and the files that they are given: a folder of their own, which goes with them."""

import os
import re
import shutil
import tempfile
from dataclasses import dataclass

from lib.programs import Ended, Program, run

from .edits import Book
from .follower import Follower, Waiting
from .plan import Plan
from .seen import Seen
from .watch import Watch

REFUSED_WATCH = re.compile(r"project P\d+ watch\.(\d+)")


@dataclass(frozen=True)
class Programs:
    logix: Program
    live: Program


class Processes:
    def __init__(self, programs, source, explain):
        """`explain` gives the codes of a text, each with what it means."""
        self.programs, self.explain = programs, explain
        self.plan, self.folder = Plan(source), None
        self.watch = Watch(self.plan)
        self.opening = {}  # values before the first event
        self.watched, self.left_out = [], set()
        self.waiting = Waiting()
        try:
            self.listing = run(programs.logix, "text", self.original())
        except BaseException:
            self.rest()
            raise

    # Files

    def write(self, name, text):
        if self.folder is None:
            self.folder = tempfile.mkdtemp(prefix="online-")
        path = os.path.join(self.folder, name)
        with open(path, "w", encoding="utf-8") as file:
            file.write(text)
        return path

    def original(self):
        """The file of the project without a watch."""
        return self.write("project.json", self.plan.copy([]))

    # Processes

    def wanted(self, book):
        return [name for name in self.watch.wanted(book) if name.lower() not in self.left_out]

    def misses(self, book):
        """Whether something is shown that isn't watched, though there is room for it."""
        return self.watch.missed(book, [*self.watched, *self.left_out])

    def learn_opening(self, project, watch):
        """The watched values before the first event, from the proved program."""
        told = run(self.programs.logix, "stations", project, self.write("end.txt", "end\n"), "1")
        self.opening.update(zip(watch, map(int, told.splitlines()[-1].split()[3:])))

    def start(self, watch):
        """A new process with this watch, which has been told nothing. A place that the controller refuses is left out."""
        while True:
            project = self.write("watched.json", self.plan.copy(watch))
            if set(watch) <= self.opening.keys():
                break
            try:
                self.learn_opening(project, watch)
            except Ended as ended:
                refused = REFUSED_WATCH.match(ended.text)
                if not refused:
                    raise
                self.leave_out(watch.pop(int(refused[1])), ended.text)
        self.watched = watch
        return self.follower()

    def follower(self):
        """One more process of the present watch."""
        values = {name: self.opening[name] for name in self.watched}
        return Follower(self.programs.live, os.path.join(self.folder, "watched.json"), Seen(values, Book(self.listing), self.watch.trends))

    def leave_out(self, name, why):
        self.left_out.add(name.lower())
        self.watch.leave_out(name)
        self.note(f"{name} can't be watched: {why.strip()}", why)

    def note(self, text, codes="", **more):
        """Says something to the pages."""

    def another(self, book, to):
        """Another process for the way to this place: the one that waits, if it isn't beyond it, or a new one."""
        watch = self.wanted(book)
        found = self.waiting.take(to) if watch == self.watched else None
        if found:
            self.waiting = Waiting()
            return found
        self.drop_waiting()
        return self.start(watch)

    def drop_waiting(self):
        self.waiting.close()
        self.waiting = Waiting()

    def rest(self):
        """No process and no folder any more."""
        self.drop_waiting()
        if self.folder:
            shutil.rmtree(self.folder, ignore_errors=True)
            self.folder = None
