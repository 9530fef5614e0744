"""A session: the journal, and a controller's process that is at one of its places.

A session is a journal, and a process takes millions of events a second. So to watch other tags, and to be where the controller was
before, is a new process that is told the front part of the journal again. Nothing is ever undone, and nothing is kept but what was told.
"""

import re
import threading
import time
from contextlib import contextmanager

from lib.programs import Ended
from lib.talk import end_all

from .edits import Book
from .journal import MOST_EVENTS, Act, Journal, action
from .processes import Processes
from .seen import Seen

TOLD_AGAIN = 0.3  # s, from which on it is said
TURN = 0.2  # s, that a command has to end by itself


class Session(Processes):
    def __init__(self, programs, source, explain):
        self.lock = threading.RLock()
        self.listener, self.on_snap = lambda kind, data: None, lambda: {}
        self.serial = 0  # of what was told to the pages: a snapshot has the number of the last thing that it shows already
        self.journal, self.cut = Journal(), None  # what the last new event in the past cut off: a journal, and a place
        self.here, self.gone_at, self.lost = None, 0, None  # a process; where the last one was that is gone, and how it ended
        super().__init__(programs, source, explain)
        self.seen = Seen({}, Book(self.listing), [])
        self.renew()

    @property
    def at(self):
        return self.here.at if self.here else self.gone_at

    # The process that is here

    def renew(self, to=0):
        self.close_here()
        try:
            self.here = self.another(self.seen.book, to)
            self.seen, self.lost = self.here.seen, None
        except Ended as ended:
            self.lose(ended)

    def close_here(self):
        if self.here:
            self.gone_at = self.here.at
            self.here.close()
            self.here = None

    def lose(self, ended):
        self.close_here()
        self.lost = ended

    def tell(self, entries, to):
        """Tells entries; answers what was answered and set."""
        try:
            return self.here.tell(entries, self.journal.acts, to)
        except Ended as ended:
            self.lose(ended)
            return b"", {}

    def tell_waiting(self):
        """More to the process that waits further back, if it is time."""
        if self.here and self.programs.live.proved and self.waiting.wants(self.at):
            self.waiting.advance(self.follower, self.journal, self.at)

    # Places in the journal

    def go(self, to, renew=False):
        """Goes to a place of the journal: on, if that is ahead, and else with another process. Answers how long that took."""
        to, began = max(0, min(to, self.journal.length)), time.monotonic()
        if renew or not self.here or to < self.at:
            self.renew(to)
        if not self.here:
            self.gone_at = to
            return self.snap()
        from_here = self.at
        self.emit("busy", {"to": to})
        self.tell(self.journal.part(self.at, to), to)
        if self.here and not renew and self.misses(self.seen.book):
            return self.go(to, renew=True)  # there are edits here whose places it doesn't watch
        took = time.monotonic() - began
        self.snap()
        if took > TOLD_AGAIN:
            self.note(f"{to - from_here:,} events told again in {took:.2f} s")
        self.tell_waiting()

    def rewatch(self):
        """After a change of what is shown: tells all again only if something isn't watched yet."""
        if not set(self.watch.trends) <= self.seen.trends.keys():
            self.drop_waiting()
        elif not self.misses(self.seen.book):
            return self.snap()
        self.go(self.at, renew=True)

    def find(self, mark, before):
        """The place right after the last event before `before` whose answer has this, from a process of its own; None if there is none."""
        follower = self.follower()
        try:
            return follower.last(mark, self.journal.part(0, before - 1), before - 1)
        finally:
            follower.close()

    # New events

    def add(self, entry):
        """Tells one more entry, after which nothing is ahead any more. Answers what was answered and set."""
        if not self.here:
            return b"", {}
        if self.at + entry.events() > MOST_EVENTS:
            self.note(f"a session has at most {MOST_EVENTS:,} events: J4", "J4")
            return b"", {}
        at = self.at
        if at < self.journal.length:
            self.cut = (self.journal, at)
            self.journal = self.journal.front(at)
            if self.waiting.target > at:
                self.drop_waiting()
        self.journal.add(entry)
        answer, fresh = self.tell([entry], self.journal.length)
        if self.here and self.here.refused:
            self.journal = self.journal.front(at)
            self.note(self.here.refused, self.here.refused)
        self.tell_waiting()
        return answer, fresh

    def act(self, lane, words):
        """An action of a lane; answers its reply, all that was answered, and what was set."""
        line = action(lane, words)
        if line is None:
            return "no action", b"", {}
        answer, fresh = self.add(Act(line))
        told = re.search(rb" reply \d+ ([^\n]*)\n", answer)
        refused = self.here.refused if self.here else None
        return (told[1].decode() if told else refused or "no answer"), answer, fresh

    def keep(self, at):
        """Drops the events after a place, as if they had never been told."""
        self.journal = self.journal.front(at)
        if self.waiting.target > at:
            self.drop_waiting()

    def restore(self):
        """Puts back what the last new event in the past cut off; what is there now can be put back in its turn."""
        if self.cut:
            (self.journal, at), self.cut = self.cut, (self.journal, self.at)
            self.drop_waiting()
            self.go(at, renew=True)

    # What the pages are told

    def emit(self, kind, data):
        with self.lock:
            self.serial += 1
            self.listener(kind, {**data, "serial": self.serial})

    def note(self, text, codes="", **more):
        self.emit("note", {"text": text, "said": self.explain(codes) if codes else [], **more})

    def snap(self):
        self.emit("snap", self.on_snap())

    @contextmanager
    def taken(self):
        """The lock, for the end: a process that a command waits for is ended."""
        while not self.lock.acquire(timeout=TURN):
            end_all()
        try:
            yield
        finally:
            self.lock.release()

    def rest(self):
        """Without a process and a folder; the journal and the place are kept, and `go` starts again."""
        with self.lock:
            self.close_here()
            super().rest()
